"""Reads Telesis netlists, as Cadence Allegro reads them ($NETS)."""

from __future__ import annotations

import re
from typing import List, Optional, Tuple

from btest_tools.netlists.net_file import Net, Nets, last_line, numbered_lines, refuse, shown

TOKEN = re.compile(rb"(?:'[^']*'|[^\s;,']+)+|[;']")
SECTION = re.compile(rb"\$\w+")
PIN = re.compile(rb"((?:'[^']*'|[^'.])+)\.(.*)", re.S)
QUOTED = re.compile(rb"'([^']*)'(?=('?))")


def plain(word: bytes) -> bytes:
    """Returns a word without its quotes. Two side by side, within others, are one of the name."""
    return QUOTED.sub(rb"\1\2", word)


def pin_of(word: bytes) -> Tuple[bytes, bytes]:
    """Returns the part and the pin of `U1.7`, `'U1'.'7'` or `'U1.7'`."""
    found = PIN.fullmatch(word)
    if found:
        return plain(found[1]), plain(found[2])
    part, _, pin = plain(word).partition(b".")
    return part, pin


class _Reading:
    def __init__(self) -> None:
        self.nets = Nets()
        self.section = b""
        self._net: Optional[Net] = None  # that the next line goes on with

    def take(self, number: int, line: bytes) -> None:
        """Reads a line. One that ends with a comma goes on in the next."""
        line = line.strip()
        goes_on = line.endswith(b",")
        if self._net is None and SECTION.fullmatch(line):
            self.section = line.upper()
        elif self.section == b"$NETS" and (line or self._net):
            self._pins(number, line)
            if not goes_on:
                self._net = None

    def _pins(self, number: int, line: bytes) -> None:
        words: List[bytes] = TOKEN.findall(line)
        if self._net is None:
            if words[1:2] != [b";"]:
                refuse(number, f"not a net: {shown(line)}")
            self._net = self.nets.begin(plain(words[0]), number)
            del words[:2]
        for word in words:
            if word in (b";", b"'"):
                refuse(number, f"not a net: {shown(line)}")
            self.nets.add(self._net, *pin_of(word), number)


def read(text: bytes) -> Nets:
    """Returns the nets of a netlist."""
    reading = _Reading()
    for number, line in numbered_lines(text):
        reading.take(number, line)
    if reading.section != b"$END":
        refuse(last_line(text), "no $END: is this a Telesis netlist, and whole?")
    return reading.nets
