"""Reads PADS ASCII netlists (*PADS-PCB*, *NET*, *SIGNAL*)."""

from __future__ import annotations

import re
from typing import List, Optional

from btest_tools.netlists.net_file import Net, Nets, last_line, numbered_lines, refuse, shown

NUMBER = re.compile(rb"[-+]?[0-9.]+")


def name_of(words: List[bytes]) -> bytes:
    """Returns the name of a signal. Numbers may follow it: widths and the like."""
    numbers = all(NUMBER.fullmatch(word) for word in words[1:])
    return words[0] if words and numbers else b" ".join(words)


class _Reading:
    def __init__(self) -> None:
        self.nets = Nets()
        self.section = b""
        self._net: Optional[Net] = None

    def take(self, number: int, line: bytes) -> None:
        """Reads a line."""
        first, *words = line.split() or [b""]
        if first.upper() == b"*SIGNAL*" and self.section == b"*NET*":
            self._net = self.nets.begin(name_of(words), number)
        elif first.startswith(b"*") and first.upper() != b"*REMARK*":
            self._net, self.section = None, first.upper()
        elif self.section == b"*NET*" and first and not first.startswith(b"*"):
            self._pins([first, *words], number)

    def _pins(self, words: List[bytes], number: int) -> None:
        if self._net is None:
            refuse(number, f"a pin before the first *SIGNAL*: {shown(words[0])}")
        for word in words:
            if b"," in word:
                refuse(number, f"a comma in a pin: {shown(word)}")
            part, _, pin = word.partition(b".")
            self.nets.add(self._net, part, pin, number)


def read(text: bytes) -> Nets:
    """Returns the nets of a netlist."""
    reading = _Reading()
    for number, line in numbered_lines(text):
        reading.take(number, line)
        if reading.section == b"*END*":
            return reading.nets
    refuse(last_line(text), "no *END*: is this a PADS netlist, and whole?")
