"""The simulated board behind OpenOCD's remote_bitbang interface. The signs are those of OpenOCD's
manual: 0 to 7 for TCK, TMS and TDI as 4, 2 and 1, and R to ask for TDO."""

from __future__ import annotations

import socket
import threading
import time
import unittest
from collections.abc import Iterator
from unittest import mock

from tests.support import Bed

from btest_tools.bitbang import NEXT, Port, serve
from btest_tools.files import BadInput
from btest_tools.model import play
from btest_tools.scans import Scan, scans


def clock(tms: int, tdi: int = 0, read: str = "") -> str:
    """Returns the signs of a clock, with an R in front of its rising edge."""
    return f"{tms << 1 | tdi}{read}{4 | tms << 1 | tdi}"


def signs(svf: str) -> Iterator[str]:
    """Yields the signs of an SVF text, by IEEE 1149.1-1990, section 5: five clocks with TMS 1 reset,
    and each scan begins and ends in Run-Test/Idle."""
    for scan in scans(svf):
        if scan is None:
            yield from [clock(1)] * 5 + [clock(0)]
            continue
        yield from map(clock, (1, 0, 0) if scan.register == "dr" else (1, 1, 0, 0))
        for place in range(scan.size):
            yield clock(int(place == scan.size - 1), scan.tdi >> place & 1, "R")
        yield from map(clock, (1, 0))
    yield "0"


def data_of(svf: str, bits: str) -> list[int]:
    """Returns the rows of a log in the bits that came back."""
    rows = []
    for scan in scans(svf):
        if isinstance(scan, Scan):
            row, bits = bits[: scan.size], bits[scan.size :]
            if scan.register == "dr" and scan.tdo is not None:
                rows.append(int(row[::-1], 2))
    return rows


class Clocks(unittest.TestCase):
    """Clock by clock the board answers as the model does scan by scan."""

    def test_rows(self) -> None:
        for fault in ("good", "and:D0:D1", "open:U1.5:0 stuck:IRQ:1 dom:D2:D3"):
            bed = Bed()
            bed.model.set_faults(fault)
            port = Port(bed.model)
            came = port.answer("".join(signs(bed.svf)).encode("ascii")).decode("ascii")
            rows = data_of(bed.svf, came)
            right = Bed()
            right.model.set_faults(fault)
            self.assertEqual(rows, play(right.model, right.svf))

    def test_other_signs_do_nothing(self) -> None:
        port = Port(Bed().model)
        self.assertEqual(port.answer(b"BbrQ89\n"), b"")
        self.assertEqual((port.state, port.clock), ("reset", 0))

    def test_states(self) -> None:
        # IEEE 1149.1-1990, figure 5-1: five clocks with TMS 1 lead to Test-Logic-Reset.
        self.assertEqual(len(NEXT), 16)
        for state in NEXT:
            for _ in range(5):
                state = NEXT[state][1]
            self.assertEqual(state, "reset")
        self.assertEqual(NEXT["idle"], ("idle", "select-dr"))
        self.assertEqual(NEXT["pause-ir"], ("pause-ir", "exit2-ir"))
        self.assertEqual(NEXT["exit1-dr"], ("pause-dr", "update-dr"))


class Served(unittest.TestCase):
    """Players at a port."""

    def setUp(self) -> None:
        self.threads: list[threading.Thread] = []
        for name, value in (("put", self.connect), ("sys", mock.Mock(stdout=None))):
            patch = mock.patch(f"btest_tools.bitbang.{name}", value)
            patch.start()
            self.addCleanup(patch.stop)
        self.requests: list[bytes] = []
        self.answers: list[bytes] = []

    def connect(self, text: str) -> None:
        """Starts players at the port that is told, one for each request."""
        number = int(text.split()[-1])
        thread = threading.Thread(target=self.play, args=(number,))
        thread.start()
        self.threads.append(thread)

    def play(self, number: int) -> None:
        """Sends each request as a player, and keeps the answer."""
        for request in self.requests:
            with socket.create_connection(("127.0.0.1", number), 10) as player:
                player.sendall(request)
                player.shutdown(socket.SHUT_WR)
                self.answers.append(b"".join(iter(lambda: player.recv(999), b"")))

    def serve(self, seconds: float, *ports: mock.Mock) -> None:
        """Serves these ports."""
        try:
            serve(0, seconds, ports)
        finally:
            for thread in self.threads:
                thread.join()

    def test_players(self) -> None:
        self.requests = [b"ab", b"c"]
        one, two = (mock.Mock(is_pulled=False) for _ in range(2))
        one.answer.side_effect = lambda request: request.upper()
        two.answer.return_value = b"01"
        self.serve(10, one, two)
        self.assertEqual(self.answers, [b"AB", b"01"])

    def test_a_cable_that_is_pulled(self) -> None:
        self.requests = [b"ab"]
        self.serve(10, mock.Mock(is_pulled=True, **{"answer.return_value": b"01"}))
        self.assertEqual(self.answers, [b""])

    def test_no_player(self) -> None:
        begun = time.monotonic()
        with self.assertRaisesRegex(BadInput, "^no player came in 0.3 s$"):
            self.serve(0.3, mock.Mock())
        self.assertGreater(time.monotonic() - begun, 0.25)

    def test_a_port_that_is_taken(self) -> None:
        with socket.create_server(("127.0.0.1", 0)) as server:
            number = server.getsockname()[1]
            with self.assertRaisesRegex(BadInput, f"^port {number} is taken"):
                serve(number, 1, [])


if __name__ == "__main__":
    unittest.main()
