"""The scans of an SVF text in the form that btest writes, and the rows of response logs."""

from __future__ import annotations

import re
from collections.abc import Iterable, Iterator
from dataclasses import dataclass, field
from typing import NamedTuple, Optional

from btest_tools.board import Net
from btest_tools.files import BadInput

SCAN = re.compile(
    r"\bS(?P<register>[ID])R\s+(?P<size>\d+)\s+TDI\s*\((?P<tdi>[^)]*)\)"
    r"(?:\s+TDO\s*\((?P<tdo>[^)]*)\)\s+MASK\s*\((?P<mask>[^)]*)\))?|\bSTATE\s+RESET\b"
)


class Scan(NamedTuple):
    """A scan statement. `register` is `ir` or `dr`. If nothing is compared, `tdo` is None."""

    register: str
    size: int
    tdi: int
    tdo: Optional[int]
    mask: int


def number(digits: Optional[str]) -> Optional[int]:
    """Returns the number that hexadecimal digits with blanks between them are."""
    return int("".join(digits.split()), 16) if digits else None


def scans(svf: str) -> Iterator[Optional[Scan]]:
    """Yields the scans of a text, and None for each STATE RESET."""
    if "!" in svf or "//" in svf:  # comments, which btest doesn't write
        svf = re.sub(r"(!|//).*", "", svf)
    for found in SCAN.finditer(svf):
        if not found["register"]:
            yield None
            continue
        tdi, tdo, mask = (number(found[name]) for name in ("tdi", "tdo", "mask"))
        yield Scan(found["register"].lower() + "r", int(found["size"]), tdi or 0, tdo, mask or 0)


def compared_scans(svf: str) -> list[Scan]:
    """Returns the scans of data that are compared. A log has a row for each."""
    data = (scan for scan in scans(svf) if scan and scan.register == "dr")
    return [scan for scan in data if scan.tdo is not None]


class LogRow(NamedTuple):
    """A row of a log: what is expected, and which of the compared bits differ."""

    expected: int
    wrong: int

    @property
    def got(self) -> int:
        """The bits that came, at the places that are compared."""
        return self.expected ^ self.wrong


@dataclass
class Pass:
    """Rows that are compared at the same bits. `shifted` has for each of them the row that is in
    the latches while its bits are captured."""

    mask: int
    expected: list[int] = field(default_factory=list)
    shifted: list[int] = field(default_factory=list)


class Test:
    """What an SVF text compares: its passes."""

    def __init__(self, svf: str) -> None:
        self.passes: list[Pass] = []
        self.size = 0
        one: Optional[Pass] = None
        before = 0
        for scan in scans(svf):
            if scan is None or scan.register != "dr":
                continue
            if scan.tdo is None:
                one = None
            else:
                if one is None:
                    one = Pass(scan.mask)
                    self.passes.append(one)
                one.expected.append(scan.tdo)
                one.shifted.append(before)
            self.size, before = scan.size, scan.tdi

    def rows(self) -> int:
        """Returns how many rows a log of the test has."""
        return sum(len(one.expected) for one in self.passes)

    def drivers(self, net: Net) -> list[list[str]]:
        """Returns for each pass the pins that drive a net in some row."""
        found = []
        for one in self.passes:
            ever, always = 0, -1
            for row in one.shifted:
                ever, always = ever | row, always & row
            found.append(
                [
                    driver.pin
                    for driver in net.drivers
                    if driver.control < 0
                    or (always if driver.disable else ever) >> driver.control & 1 != driver.disable
                ]
            )
        return found

    def expected(self, net: Net) -> str:
        """Returns the bits that are wanted at the cells of a net, the same in every pass."""
        for one in self.passes:
            for reader in net.readers:
                if one.mask >> reader.place & 1:
                    return "".join(str(row >> reader.place & 1) for row in one.expected)
        return ""

    def compare(self, lines: Iterable[bytes]) -> list[LogRow]:
        """Returns the rows of a log, whose lines btest has accepted."""
        return [
            LogRow(expected, (expected ^ got) & one.mask)
            for (one, expected), got in zip(self.wanted(), log_rows(lines))
        ]

    def wanted(self) -> Iterator[tuple[Pass, int]]:
        """Yields the expected bits of each row, with its pass."""
        for one in self.passes:
            for expected in one.expected:
                yield one, expected


def log_rows(lines: Iterable[bytes]) -> Iterator[int]:
    """Yields the rows of a log."""
    for line in lines:
        words = line.split()
        if words and not words[0].startswith(b"#"):
            try:
                yield int(words[0], 16)
            except ValueError:
                raise BadInput(f"no row of a log: {words[0][:40].decode('latin-1')}") from None


def log_text(rows: Iterable[int], size: int) -> str:
    """Returns the text of a log of rows that have `size` bits."""
    width = (size + 3) // 4
    return "".join(f"{row:0{width}X}\n" for row in rows)
