"""Reads the boards of KiCad 5 to 8 (.kicad_pcb): nets and places in one."""

from __future__ import annotations

import math
from typing import Dict, List, Optional, Tuple

from btest_tools.netlists.edges import edge
from btest_tools.netlists.lists import Item, Lines, Reader, Wanted
from btest_tools.netlists.net_file import MOST_PINS, Net, Nets, decoded, refuse, shown
from btest_tools.places import BOTH, BOTTOM, TOP, Place, Places, Point

MOST = 10_000.0  # millimeters on a board
MOST_POINTS = 1 << 18  # of the outline

ENDS = (b"center", b"start", b"mid", b"end")  # in the order in which a shape has them
SHAPE: Wanted = {
    **{name: {} for name in (*ENDS, b"angle", b"layer")},
    b"pts": {b"xy": {}},
}
KINDS = (b"line", b"arc", b"circle", b"rect", b"poly", b"curve")
PAD: Wanted = {
    **{name: {} for name in (b"at", b"size", b"layers", b"net")},
    b"drill": {b"offset": {}},
}
FOOTPRINT: Wanted = {
    **{name: {} for name in (b"at", b"layer", b"property", b"fp_text")},
    b"pad": PAD,
    **{b"fp_" + kind: SHAPE for kind in KINDS},
}
WANTED: Wanted = {
    b"kicad_pcb": {
        b"net": {},
        b"footprint": FOOTPRINT,
        b"module": FOOTPRINT,
        **{b"gr_" + kind: SHAPE for kind in KINDS},
    }
}
EDGE = b"Edge.Cuts"


def turned(point: Point, degrees: float) -> Point:
    """Turns a point about the origin, counterclockwise where y grows downward."""
    angle = math.radians(degrees)
    x, y = point
    return x * math.cos(angle) + y * math.sin(angle), y * math.cos(angle) - x * math.sin(angle)


class Reading:
    """What was read so far."""

    def __init__(self, text: bytes) -> None:
        self.nets = Nets()
        self.places = Places()
        self._lines = Lines(text)
        self._nets: Dict[bytes, Tuple[bytes, int]] = {}  # names and lines by their codes
        self._begun: Dict[bytes, Net] = {}  # by their names
        self._outline_points = 0

    def take(self, item: Item) -> None:
        """Reads a net, a footprint or a drawing."""
        if item.name == b"net":
            self._net(item)
        elif item.name in (b"footprint", b"module"):
            self._footprint(item)
        elif item.word(b"layer") == EDGE:
            self._edge(item, (0.0, 0.0), 0.0)

    def numbers(self, item: Item, words: List[bytes], count: int) -> List[float]:
        """Returns the first numbers of some words. They must be lengths of a board or angles."""
        values = []
        for word in words[:count]:
            try:
                value = float(word)
            except ValueError:
                refuse(self._lines.of(item.offset), f"not a number: {shown(word)}")
            if not abs(value) <= MOST:
                refuse(self._lines.of(item.offset), f"a number out of range: {shown(word)}")
            values.append(value)
        return values

    def _numbers_of(self, item: Item, name: bytes, least: int, most: int) -> List[float]:
        """Returns the numbers of a list within an item, 0 for those that it may leave out."""
        values = self.numbers(item, item.first(name), most)
        if len(values) < least:
            refuse(
                self._lines.of(item.offset),
                f"{decoded(item.name)} has no ({decoded(name)} ..) with {least} numbers",
            )
        return values + [0.0] * (most - len(values))

    def _net(self, item: Item) -> None:
        """Keeps the name of a net, which is in the file as `(net CODE NAME)`."""
        line = self._lines.of(item.offset)
        if len(item.words) < 2:
            refuse(line, "a net without a name")
        code, name = item.words[:2]
        if code in self._nets:
            refuse(line, f"the net number {shown(code)} is in line {self._nets[code][1]}, too")
        self._nets[code] = name, line
        if name:
            self._begun[name] = self.nets.begin(name, line)

    def _footprint(self, item: Item) -> None:
        """Places the pads of a footprint. The file has those of the bottom mirrored already."""
        pads = [pad for pad in item.all(b"pad") if is_pin(pad)]
        edges = [
            drawing
            for drawing in item.items
            if drawing.name.startswith(b"fp_") and drawing.word(b"layer") == EDGE
        ]
        if not pads and not edges:
            return
        x, y, angle = self._numbers_of(item, b"at", 2, 3)
        for drawing in edges:
            self._edge(drawing, (x, y), angle)
        part = reference(item)
        for pad in pads:
            self._pad(pad, part, (x, y), angle)

    def _edge(self, item: Item, origin: Point, angle: float) -> None:
        """Adds a drawing on Edge.Cuts to the outline."""
        line = edge(item.name[3:], self._points_of(item), self._turn_of(item))
        self.places.outline.append(
            [(origin[0] + x, origin[1] + y) for x, y in (turned(point, angle) for point in line)]
        )
        self._outline_points += len(line)
        if self._outline_points > MOST_POINTS:
            refuse(self._lines.of(item.offset), f"more than {MOST_POINTS} points in the outline")

    def _points_of(self, item: Item) -> List[Point]:
        words = [item.first(name) for name in ENDS if item.first(name)]
        words += [corner.words for pts in item.all(b"pts") for corner in pts.all(b"xy")]
        points = []
        for pair in words:
            numbers = self.numbers(item, pair, 2)
            if len(numbers) < 2:
                refuse(self._lines.of(item.offset), "a point with less than two numbers")
            points.append((numbers[0], numbers[1]))
        return points

    def _turn_of(self, item: Item) -> Optional[float]:
        turn = self.numbers(item, item.first(b"angle"), 1)
        return turn[0] if turn else None

    def _pad(self, pad: Item, part: bytes, origin: Point, angle: float) -> None:
        line, name = self._lines.of(pad.offset), pad.words[0]
        place = self._place_of(pad, origin, angle)
        net = self._net_of(pad, line)
        if net:
            self.nets.add(net, part, name, line)
        if len(self.places.pins) >= MOST_PINS:
            refuse(line, f"more than {MOST_PINS} pins")
        self.places.add(decoded(part), decoded(name), place)

    def _place_of(self, pad: Item, origin: Point, angle: float) -> Place:
        """Returns where the copper of a pad is. Its hole may be off the center."""
        x, y, pad_angle = self._numbers_of(pad, b"at", 2, 3)
        width, height = self._numbers_of(pad, b"size", 1, 2)
        across, down = turned((x, y), angle)
        shift = turned(self._drill_offset(pad), pad_angle)
        center = origin[0] + across + shift[0], origin[1] + down + shift[1]
        return Place(*center, side_of(pad), width, height or width, pad_angle)

    def _drill_offset(self, pad: Item) -> Point:
        for drill in pad.all(b"drill"):
            if drill.first(b"offset"):
                x, y = self._numbers_of(drill, b"offset", 2, 2)
                return x, y
        return 0.0, 0.0

    def _net_of(self, pad: Item, line: int) -> Optional[Net]:
        """Returns the net of a pad: `(net CODE NAME)`, none if the name is empty."""
        words = pad.first(b"net")
        if not words:
            return None
        name = words[-1]
        if len(words) > 1:
            known = self._nets.get(words[0])
            if not known or known[0] != name:
                refuse(line, f"the board has no net {shown(words[0])} with the name {shown(name)}")
        if not name:
            return None
        if name not in self._begun:
            self._begun[name] = self.nets.begin(name, line)
        return self._begun[name]


def is_pin(pad: Item) -> bool:
    """Returns whether a pad has a number and copper on a side of the board."""
    has_number = bool(pad.words and pad.words[0])
    return has_number and pad.words[1:2] != [b"np_thru_hole"] and bool(side_of(pad))


def side_of(pad: Item) -> str:
    """Returns the side of a pad's copper, or nothing if it has none."""
    layers = pad.first(b"layers")
    if b"*.Cu" in layers or b"F&B.Cu" in layers or {b"F.Cu", b"B.Cu"} <= set(layers):
        return BOTH
    return TOP if b"F.Cu" in layers else BOTTOM if b"B.Cu" in layers else ""


def reference(item: Item) -> bytes:
    """Returns the name of the part: a property in KiCad 8, a text before."""
    for name in (b"fp_text", b"property"):
        for text in item.all(name):
            if text.words[:1] in ([b"reference"], [b"Reference"]) and len(text.words) > 1:
                return text.words[1]
    return b""


def read(text: bytes) -> Tuple[Nets, Places]:
    """Returns the nets of a board and the places of its pins."""
    reading = Reading(text)
    for item in Reader(text, WANTED, 1).items():
        reading.take(item)
    return reading.nets, reading.places
