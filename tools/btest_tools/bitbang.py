"""A simulated board behind OpenOCD's remote_bitbang interface."""

from __future__ import annotations

import os
import select
import signal
import socket
import stat
import sys
from collections.abc import Iterable

from btest_tools.files import BadInput, put, tell
from btest_tools.model import Model

# The states of the TAP controller (IEEE 1149.1): what follows a clock with TMS 0 and with TMS 1.
NEXT = {"reset": ("idle", "reset"), "idle": ("idle", "select-dr")}
for r, leave in (("dr", "select-ir"), ("ir", "reset")):
    NEXT[f"select-{r}"] = (f"capture-{r}", leave)
    NEXT[f"capture-{r}"] = (f"shift-{r}", f"exit1-{r}")
    NEXT[f"shift-{r}"] = (f"shift-{r}", f"exit1-{r}")
    NEXT[f"exit1-{r}"] = (f"pause-{r}", f"update-{r}")
    NEXT[f"pause-{r}"] = (f"pause-{r}", f"exit2-{r}")
    NEXT[f"exit2-{r}"] = (f"shift-{r}", f"update-{r}")
    NEXT[f"update-{r}"] = ("idle", "select-dr")


class Port:
    """The test access port of a board. All TAP controllers are in one state."""

    def __init__(self, model: Model) -> None:
        self.model, self.state, self.clock, self.row = model, "reset", 0, [0]

    def pins(self, clock: int, tms: int, tdi: int) -> None:
        """Takes the levels of the pins. Registers move as TCK rises, latches as it falls."""
        action, register = (self.state + "-").split("-")[:2]
        if clock > self.clock:
            if action == "capture":
                self.capture(register)
            elif action == "shift":
                self.shift(tdi)
            self.state = NEXT[self.state][tms]
        elif clock < self.clock and action == "reset":
            self.model.reset()
        elif clock < self.clock and action == "update":
            self.model.update(register, self.row)
        self.clock = clock

    def capture(self, register: str) -> None:
        """Loads a register, and tells of each net that has two drivers for the first time."""
        told = set(self.model.fights)
        self.row = self.model.capture(register)
        for net in sorted(self.model.fights - told):
            tell(f"two drivers on {net}")

    def shift(self, tdi: int) -> None:
        """Shifts the register by a bit."""
        self.row = self.row[1:] + [tdi]

    def tdo(self) -> int:
        """Returns the bit at TDO."""
        return self.row[0] if self.row else 0

    @property
    def is_pulled(self) -> bool:
        """Whether the cable is pulled, so that the player gets no answer."""
        return False

    def answer(self, request: bytes) -> bytes:
        """Takes the signs of a request, and returns what it asks for."""
        answer = b""
        for sign in request:
            if 48 <= sign < 56:  # 0 to 7: TCK, TMS and TDI
                self.pins(sign >> 2 & 1, sign >> 1 & 1, sign & 1)
            elif sign == ord("R"):
                answer += b"1" if self.tdo() else b"0"
        return answer


def ends_with_reader() -> bool:
    """Returns whether standard output is a pipe, so that its reader's end can be seen."""
    return bool(sys.stdout) and stat.S_ISFIFO(os.fstat(sys.stdout.fileno()).st_mode)


def player(server: socket.socket, seconds: float) -> socket.socket:
    """Waits for a player. If the line on standard output goes to a pipe, the wait ends as soon as
    no one can read it."""
    poll = select.poll()
    poll.register(server, select.POLLIN)
    if ends_with_reader():
        poll.register(sys.stdout, 0)  # which tells of its end
    ready = dict(poll.poll(seconds * 1000))
    if server.fileno() in ready:
        return server.accept()[0]
    if ready:
        raise BadInput("what was to start a player has ended without one")
    raise BadInput(f"no player came in {seconds:g} s")


def serve(number: int, seconds: float, ports: Iterable[Port]) -> None:
    """Answers one player at each of these ports, in turn."""
    try:
        server = socket.create_server(("127.0.0.1", number))
    except OSError:
        why = "is taken, or may not be used; is another simulated chain running?"
        raise BadInput(f"port {number} {why}") from None
    if ends_with_reader():
        signal.signal(signal.SIGINT, signal.SIG_IGN)  # Ctrl-C is for the player behind the pipe
    with server:
        put(f"listening on port {server.getsockname()[1]}\n")
        for port in ports:
            with player(server, seconds) as client:
                answer_player(client, port)


def answer_player(client: socket.socket, port: Port) -> None:
    """Answers a player until it leaves, or its cable is pulled."""
    try:
        while request := client.recv(65536):
            answer = port.answer(request)
            if port.is_pulled:
                return
            client.sendall(answer)
    except ConnectionError:
        raise BadInput("the player broke the connection") from None
