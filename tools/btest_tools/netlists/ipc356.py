"""Reads IPC-D-356 and IPC-D-356A, the netlist for bare-board testers: nets and places in one.

Columns are counted from 1, as the standard does. A record is a line of 80 columns:

    1-3    317 a hole, 327 a pad, 367 an unplated hole, 307 a buried via; 0 in front continues
    4-17   the net, N/C for none, or an alias of a longer name that a P NNAME line has
    21-26  the part, VIA for a via
    27-31  a hyphen and the pin
    32-38  M for a point amid a net, D and the diameter of a hole, P or U for its plating
    39-41  A and the side: 00 both, 01 the top, another the bottom
    42-57  X and Y with sign and six digits, from a corner at the lower left
    58-71  X and Y of the size, with four digits, and R with the angle

A line P UNITS says what the numbers mean. KiCad and pcb-rnd write CUST 0, in 0.0001 inch and
degrees. pcb-rnd can write CUST 1, in 0.001 mm and degrees, and its reader takes CUST 2 for
0.0001 inch and radians. An angle has three digits, so one in radians is read in hundredths:
R157 is a right angle. SI is read as 0.001 mm and radians. Angles are counterclockwise as seen
from the top. Those of KiCad are clockwise, and its files have a line P arrayDim.
"""

from __future__ import annotations

import math
import re
from typing import Dict, List, NamedTuple, Optional, Tuple

from btest_tools.netlists.net_file import MOST_PINS, Net, Nets, decoded, last_line, numbered_lines
from btest_tools.netlists.net_file import refuse, shown
from btest_tools.places import BOTH, BOTTOM, TOP, Line, Place, Places

INCH = 25.4  # millimeters
MOST = 10_000.0  # millimeters on a board

RECORD = re.compile(rb"[03][0-6]7")
IGNORED = re.compile(rb"[03][0-9][0-9]")
ALIAS = re.compile(rb"P\s+(NNAME\S*)\s+(\S.*?)\s*", re.I)
UNITS = re.compile(rb"P\s+UNITS\s+(\S.*?)\s*", re.I)
IMAGE = re.compile(rb"P\s+IMAGE\b.*", re.I)
KICAD = re.compile(rb"P\s+arrayDim\b.*")
# What follows the column of the pin: columns 32 to 71.
REST = re.compile(
    rb"(?:M|E)?\s*(?:D[ \d]{1,6})?\s*[PU]?\s*(?:A\s*(\d{1,2}))?\s*"
    rb"(?:X\s*([+-]?)\s*(\d{1,9})\s*Y\s*([+-]?)\s*(\d{1,9})\s*"
    rb"(?:X\s*(\d{0,6})\s*(?:Y\s*(\d{0,6})\s*)?)?(?:R\s*(\d{0,3})\s*)?)?"
    rb"(?:S\s*\d?\s*)?"
)
EDGE = re.compile(rb"(?:X([+-]?\d{1,9}))?(?:Y([+-]?\d{1,9}))?\s*")


class Scale(NamedTuple):
    """What the numbers of a file mean: millimeters of the last digit, degrees of an angle's."""

    length: float
    angle: float


SCALES = {
    b"CUST": Scale(INCH / 10_000, 1.0),
    b"CUST 0": Scale(INCH / 10_000, 1.0),
    b"CUST 1": Scale(0.001, 1.0),
    b"CUST 2": Scale(INCH / 10_000, math.degrees(0.01)),
    b"SI": Scale(0.001, math.degrees(0.01)),
}


class Point(NamedTuple):
    """A record: the net as it is written, the part, the pin, and the place, if it has one."""

    net: bytes
    part: bytes
    pin: bytes
    place: Optional[Place]


def number(sign: bytes, digits: bytes, scale: float, line: int) -> float:
    """Returns a length in millimeters."""
    value = int(digits or b"0") * scale
    if value > MOST:
        refuse(line, f"a number out of range: {digits.decode('ascii')}")
    return -value if sign == b"-" else value


def place_of(rest: bytes, scale: Scale, line: int) -> Optional[Place]:
    """Returns the place that the columns from 32 have."""
    found = REST.fullmatch(rest)
    if not found:
        refuse(line, f"not a record of a pin from column 32: {shown(rest)}")
    access, x_sign, x, y_sign, y, width, height, angle = found.groups(b"")
    if not x:
        return None
    side = {0: BOTH, 1: TOP}.get(int(access or b"0"), BOTTOM)
    across = number(b"", width, scale.length, line)
    return Place(
        number(x_sign, x, scale.length, line),
        0.0 - number(y_sign, y, scale.length, line),  # upward in the file
        side,
        across,
        number(b"", height, scale.length, line) or across,  # a circle has one size
        int(angle or b"0") * scale.angle,
    )


def point_of(text: bytes, scale: Scale, line: int) -> Point:
    """Reads a record. Names longer than their columns move what follows to the right."""
    cut = 26
    if text[26:27].strip():
        cut = text.find(b"-", 26)
        if cut < 0:
            refuse(line, f"no hyphen before the pin in column 27: {shown(text)}")
    pin = text[cut + 1 : cut + 5]
    return Point(
        text[3:20].strip(),
        text[20:cut].strip(),
        pin.strip() if text[cut : cut + 1] == b"-" else b"",
        place_of(text[cut + 5 : cut + 45], scale, line),
    )


class Reading:
    """What was read so far."""

    def __init__(self) -> None:
        self.nets = Nets()
        self.places = Places()
        self.is_at_end = False
        self.has_records = False
        self._scale = SCALES[b"CUST 0"]
        self._aliases: Dict[bytes, Tuple[bytes, int]] = {}
        self._nets: Dict[bytes, Net] = {}  # by their aliases, or by their names as written
        self._last = Point(b"", b"", b"", None)
        self._images = 0
        self._edge: Optional[Line] = None  # the outline that a record may continue

    def take(self, line: int, text: bytes) -> None:
        """Reads a line."""
        text = text.rstrip()
        code = text[:3]
        if text[:1] in (b"C", b"c", b"") or self._images > 1 and code != b"999":
            return
        if text[:1] in b"Pp":
            self._parameter(line, text)
        elif code == b"999":
            self.is_at_end = True
        elif RECORD.fullmatch(code):
            self._record(line, text)
        elif code in (b"389", b"089"):
            self._outline(line, text)
        elif not IGNORED.fullmatch(code):
            refuse(line, f"not a record: {shown(text)}")

    def _parameter(self, line: int, text: bytes) -> None:
        alias, units = ALIAS.fullmatch(text), UNITS.fullmatch(text)
        if alias:
            known = self._aliases.setdefault(alias[1].upper(), (alias[2], line))
            if known != (alias[2], line):
                refuse(line, f"{shown(alias[1])} is in line {known[1]}, too")
        elif units:
            scale = SCALES.get(b" ".join(units[1].upper().split()))
            if not scale:
                refuse(line, f"units that are not known: {shown(units[1])}")
            self._scale = scale
        elif IMAGE.fullmatch(text):
            self._images += self.has_records or not self._images
        elif KICAD.fullmatch(text):
            self._scale = self._scale._replace(angle=-abs(self._scale.angle))

    def _record(self, line: int, text: bytes) -> None:
        point = point_of(text, self._scale, line)
        if text[:1] == b"0":
            if not self.has_records:
                refuse(line, "a record continues none")
            point = self._continued(point)
        self._last, self.has_records = point, True
        if not point.part or not point.pin or point.part.upper() == b"VIA":
            return  # a via, a hole or a fiducial mark
        if point.net and point.net.upper() != b"N/C":
            self.nets.add(self._net(point.net, line), point.part, point.pin, line)
        if len(self.places.pins) >= MOST_PINS:
            refuse(line, f"more than {MOST_PINS} pins")
        if point.place:
            self.places.add(decoded(point.part), decoded(point.pin), point.place)

    def _continued(self, point: Point) -> Point:
        last = self._last
        is_same = not point.part and not point.pin
        return Point(
            point.net or last.net,
            last.part if is_same else point.part,
            last.pin if is_same else point.pin,
            point.place,
        )

    def _net(self, written: bytes, line: int) -> Net:
        alias = written.upper()
        key = alias if alias in self._aliases else written
        net = self._nets.get(key)
        if not net:
            name, where = self._aliases.get(alias, (written, line))
            net = self._nets[key] = self.nets.begin(name, where)
        return net

    def _outline(self, line: int, text: bytes) -> None:
        """Reads an edge of the board. A coordinate that is left out is that of the point before."""
        if text[:3] == b"389":
            kind = text[3:17].strip().upper()
            self._edge = [] if kind.startswith(b"BOARD") else None
            if self._edge is not None:
                self.places.outline.append(self._edge)
        if self._edge is None:
            return
        at, rest = 0, text[17:].strip()
        while at < len(rest):
            found = EDGE.match(rest, at)
            if not found or not found[0]:
                refuse(line, f"not an edge of a board: {shown(rest)}")
            at = found.end()
            x, y = self._edge[-1] if self._edge else (0.0, 0.0)
            if found[1]:
                x = _coordinate(found[1], self._scale, line)
            if found[2]:
                y = 0.0 - _coordinate(found[2], self._scale, line)
            self._edge.append((x, y))


def _coordinate(digits: bytes, scale: Scale, line: int) -> float:
    return number(digits[:1], digits.lstrip(b"+-"), scale.length, line)


def read(text: bytes) -> Tuple[Nets, Places]:
    """Returns the nets of a board and the places of its pins."""
    reading = Reading()
    for line, content in numbered_lines(text):
        reading.take(line, content)
        if reading.is_at_end:
            close(reading.places.outline)
            return reading.nets, reading.places
    refuse(last_line(text), "no 999: is this a netlist by IPC-D-356, and whole?")


def close(outline: List[Line]) -> None:
    """Closes each edge of a board."""
    for edge in outline:
        if len(edge) > 2 and edge[0] != edge[-1]:
            edge.append(edge[0])
