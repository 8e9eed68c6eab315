"""A station that tests: one board after another, each with its attempt in the record."""

from __future__ import annotations

import os
import select
import socket
import sys
import termios
import unicodedata
from collections.abc import Callable, Iterator
from typing import Optional

from btest_tools.btest import Btest
from btest_tools.files import BadInput, put, tell
from btest_tools.station import folder
from btest_tools.station.clock import Moment, moment
from btest_tools.station.explanation import explain
from btest_tools.station.folder import Product
from btest_tools.station.letters import large
from btest_tools.station.lock import Lock
from btest_tools.station.openocd import OpenOcd
from btest_tools.station.record import Beginning, Ending, Record, RecordFailed
from btest_tools.station.stages import STATUS, Bench, BoardTest, Outcome
from btest_tools.station.stop import Stop

LONGEST = 64
LETTERS = {"PASS": "PASS", "FAIL": "FAIL", "CHAIN": "FAIL", "PART": "FAIL"}  # else STOP


class BadSerial(BadInput):
    """Why a text is no serial number."""


def serial_of(text: str) -> str:
    """Returns the serial number that a text is, without the blanks around it."""
    serial = text.strip(" ")
    if not serial:
        raise BadSerial("a serial number has a visible character")
    for sign in serial:
        if not sign.isprintable():
            name = unicodedata.name(sign, f"U+{ord(sign):04X}")
            raise BadSerial(f"a serial number has visible characters alone, and no {name}")
    if len(serial) > LONGEST:
        raise BadSerial(f"a serial number has {LONGEST} characters at most, and not {len(serial)}")
    return serial


class NotTold(BadInput):
    """Why what became of a board can't be told. It is in the record."""


def say(text: str) -> None:
    """Writes to standard output."""
    try:
        put(text)
    except BadInput as wrong:
        raise NotTold(str(wrong)) from None


class Station:
    """A station with its folder, its record and its player. Only one has a folder at a time."""

    def __init__(self, product: Product, btest: Btest, openocd: str, limit: float) -> None:
        self.product, self.btest, self.openocd, self.limit = product, btest, openocd, limit
        self.version = folder.check_btest(product, btest)
        self.bench = Bench(product, btest)
        self.clock: Callable[[], Moment] = moment
        self.lock = Lock(product.folder, self.clock().utc)
        try:
            self.record = Record(product.record)
        except BadInput:
            self.lock.release()
            raise
        self.stop = Stop()

    def close(self) -> None:
        """Gives the folder back."""
        self.stop.close()
        self.record.close()
        self.lock.release()

    def begin(self, serial: str) -> int:
        """Writes that an attempt begins. So the record can be written before a pin moves."""
        now, last = self.clock(), self.record.last()
        if last and last.utc > now.utc:
            tell(f"the clock went back: attempt {last.number} is of {last.local}")
        where = f"{socket.gethostname()} process {os.getpid()}"
        row = Beginning(serial, now.utc, now.local, self.product.test, self.version, where)
        return self.record.begin(row)

    def test(self, serial: str) -> int:
        """Tests a board, writes its attempt, and tells it. Returns the exit status."""
        folder.load(self.product.folder)  # it may have changed since the last board
        number = self.begin(serial)
        player = OpenOcd(self.product.folder, self.stop, self.openocd, self.limit)
        try:
            outcome = BoardTest(self.bench, player, self.show_stage).run()
            self.end(number, player.version, outcome)
        finally:
            player.close()
        self.show(number, serial, outcome)
        if outcome.verdict == "FAIL":
            self.explain(number, outcome)
        return STATUS[outcome.verdict]

    def end(self, number: int, version: str, outcome: Outcome) -> None:
        """Writes how an attempt ended."""
        says = "; ".join(outcome.lines)
        ending = Ending(
            self.clock().utc, version, outcome.stage, outcome.verdict, outcome.runs, says
        )
        self.record.end(number, ending, outcome.logs)

    def show_stage(self, stage: str) -> None:
        """Says what is played, on a terminal."""
        if sys.stderr.isatty():
            tell(f"  {stage} ..")

    def show(self, number: int, serial: str, outcome: Outcome) -> None:
        """Tells how a test ended."""
        word = LETTERS.get(outcome.verdict, "STOP")
        runs = f" ({outcome.runs})" if outcome.runs else ""
        head = f"{outcome.verdict}{runs}  {serial}  {self.clock().local}  attempt {number}"
        say(f"\n{large(word)}\n{head}\n" + "".join(f"{line}\n" for line in outcome.lines))

    def explain(self, number: int, outcome: Outcome) -> None:
        """Tells what explains a failure, and keeps it in the record."""
        finding = explain(self.bench, outcome.logs, f"attempt{number}")
        say("".join(f"{line}\n" for line in finding.lines))
        try:
            self.record.explain(number, finding)
        except RecordFailed as wrong:
            tell(f"{wrong}; the attempt is in it, without what explains it")

    # Asking for serial numbers

    def test_all(self) -> int:
        """Tests a board for each serial number that is typed or scanned, until no more come or the
        station has to end. Returns the exit status of what ended it."""
        for line in self.typed():
            try:
                self.test(serial_of(line))
            except BadSerial as wrong:
                tell(str(wrong))
            if self.stop.has_to_end:
                break
            self.stop.clear()
        return STATUS["STOPPED"] if self.stop.has_to_end else 0

    def typed(self) -> Iterator[str]:
        """Yields the lines of standard input, until it ends or the operator stops."""
        pending: Optional[bytes] = b""
        while pending is not None:
            if b"\n" in pending:
                line, _, pending = pending.partition(b"\n")
                yield line.rstrip(b"\r").decode("utf-8", "surrogateescape")
                continue
            self.prompt()
            ready, _, _ = select.select([0, self.stop.file], [], [])
            if self.stop.file in ready:
                return
            piece = os.read(0, 4096)
            if not piece and pending:
                yield pending.rstrip(b"\r").decode("utf-8", "surrogateescape")
            pending = pending + piece if piece else None

    @staticmethod
    def prompt() -> None:
        """Asks for a serial number. What was typed while a board was tested is thrown away."""
        if os.isatty(0):
            termios.tcflush(0, termios.TCIFLUSH)
        say("\nserial number: ")
