"""Reads Protel netlists, which Altium and others export: parts in [ ], nets in ( ).

The brackets of a part are alone in their lines, so a bracket beside other text belongs to that
text, as in the type `10K [1%`. In a net, and in a part that begins beside other text, a bracket
of the text must have its other in the same line.
"""

from __future__ import annotations

import re
from typing import Dict, List, Optional, Set

from btest_tools.netlists.net_file import Net, Nets, last_line, numbered_lines, refuse, shown

# What a part or a net has on one line, if its bracket is not alone. Names may hold pairs.
WITHIN = {
    b"[": re.compile(rb"(?:[^][]+|\[[^][]*\])*"),
    b"(": re.compile(rb"(?:[^()]+|\([^()]*\))*"),
}
END = {b"[": b"]", b"(": b")"}
BRACKET = re.compile(rb"[][()]")
ALONE = (b"[", b"(", b")")  # lines that no part has between its brackets
SECOND = re.compile(rb"\s*PROTEL\s+NETLIST\s+2", re.I)
NODE = re.compile(rb"(.+)-([^-\s]+)", re.S)
# The kinds of pins in the second form of the netlist.
KINDS = (
    *(b"INPUT", b"OUTPUT", b"I/O", b"IO", b"BIDIRECTIONAL", b"PASSIVE", b"POWER", b"HIZ"),
    *(b"HI-Z", b"TRISTATE", b"OPENCOLLECTOR", b"OPENEMITTER", b"UNSPECIFIED", b"UNKNOWN"),
)


class _Reading:
    def __init__(self) -> None:
        self.nets = Nets()
        self._is_second = False  # the second form, whose lines have more behind the node
        self._parts: Set[bytes] = set()
        self._names: Dict[bytes, int] = {}  # names that look like a pin, with their lines
        self._open = b""  # the bracket that is open, its line, and what came in it
        self._line = 0
        self._has_lines = False  # the bracket of a part is alone in its line
        self._has_name = False
        self._net: Optional[Net] = None

    def take(self, number: int, line: bytes) -> None:
        """Reads a line, which may open and close several brackets."""
        if self._has_lines:
            self._part_line(number, line.strip())
            return
        at = 0
        while True:
            if self._open:
                found = WITHIN[self._open].match(line, at)
                assert found
                self._within(number, found[0].strip())
                at = found.end()
                if at == len(line):
                    return
                if line[at : at + 1] != END[self._open]:
                    refuse(number, f"a bracket has no other in its line: {shown(line.strip())}")
                self._close(number)
            else:
                bracket = BRACKET.search(line, at)
                if not bracket:
                    self._is_second |= bool(SECOND.match(line))
                    return
                if bracket[0] in b"])":
                    refuse(number, f"a bracket has no other in its line: {shown(line.strip())}")
                self._begin(number, line, bracket[0])
                if self._has_lines:
                    return
                at = bracket.end() - 1
            at += 1

    def _begin(self, number: int, line: bytes, bracket: bytes) -> None:
        self._open, self._line = bracket, number
        self._has_lines = line.strip() == b"["
        self._has_name, self._net = False, None

    def _part_line(self, number: int, line: bytes) -> None:
        """Reads a line of a part whose brackets are alone in their lines."""
        if line == b"]":
            self._close(number)
        elif line in ALONE:
            refuse(number, f"the bracket in line {self._line} is not closed before {shown(line)}")
        else:
            self._within(number, line)

    def _within(self, number: int, line: bytes) -> None:
        if self._open == b"[":
            is_title = self._is_second and line == b"DESIGNATOR"
            if line and not is_title and not self._has_name:
                self._parts.add(line)
                self._has_name = True
        elif self._net:
            for node in self._nodes(line):
                part, _, pin = node.rpartition(b"-")  # a part's name may hold a hyphen
                self.nets.add(self._net, part, pin, number)
        elif line:
            self._net = self.nets.begin(line, number)
            nodes = self._nodes(line)
            if all(map(NODE.fullmatch, nodes)):
                self._names[nodes[0]] = number
        elif number > self._line:
            refuse(number, "a net without a name")

    def _nodes(self, line: bytes) -> List[bytes]:
        """Returns the nodes of a line: `U1-7`, several, or the first of `U1-7 0.1 uF-2 I/O`."""
        words = line.split()
        has_kind = len(words) > 1 and words[-1].upper() in KINDS
        return words[:1] if has_kind or self._is_second and len(words) > 2 else words

    def _close(self, number: int) -> None:
        if self._open == b"(" and not self._net:
            refuse(number, "a net without a name")
        self._open, self._has_lines = b"", False

    def end(self, number: int) -> Nets:
        """Returns the nets after the last line."""
        if self._open:
            refuse(number, f"the bracket in line {self._line} is not closed: is the file whole?")
        for name, line in self._names.items():
            part, _, pin = name.rpartition(b"-")
            if part in self._parts and not self.nets.has_pin(part, pin):
                refuse(line, f"a net without a name: its first line is the pin {shown(name)}")
        return self.nets


def read(text: bytes) -> Nets:
    """Returns the nets of a netlist."""
    reading = _Reading()
    for number, line in numbered_lines(text):
        reading.take(number, line)
    return reading.end(last_line(text))
