"""How a board is drawn: frames, outlines, boxes and dots as pieces of SVG, in few bytes."""

from __future__ import annotations

import itertools
import math
from html import escape
from typing import Dict, Iterable, List, NamedTuple, Tuple

from btest_tools.places import BOTH, BOTTOM, TOP, Place, Places

UNIT = 20  # units of a picture in a millimeter
TITLED = 500  # parts that have their names as titles
CORNERS = 4000  # points of an outline that is drawn as it is
DOTS = 6000  # pins that are drawn as faint dots


class Box(NamedTuple):
    """A rectangle, in units of the picture or in millimeters."""

    left: float
    top: float
    right: float
    bottom: float

    def meets(self, other: Box) -> bool:
        """Returns whether two rectangles overlap."""
        across = self.left < other.right and other.left < self.right
        return across and self.top < other.bottom and other.top < self.bottom


class Frame(NamedTuple):
    """What a picture shows: its corner and its size in millimeters, and the size of letters."""

    left: float
    top: float
    width: float
    height: float
    letter: float
    corner: Tuple[float, float]  # the upper left one of the board, in millimeters

    @property
    def radius(self) -> float:
        """The radius of a mark, in millimeters."""
        return self.letter * 0.36

    def stroke(self, letters: float) -> int:
        """Returns a width in units, given in sizes of a letter."""
        return max(1, round(self.letter * UNIT * letters))

    def across(self, x: float, side: str) -> int:
        """Returns x in units. The bottom is mirrored, as one looks at it."""
        return round((self.left + self.width - x if side == BOTTOM else x - self.left) * UNIT)

    def down(self, y: float) -> int:
        """Returns y in units."""
        return round((y - self.top) * UNIT)

    def at(self, place: Place, side: str) -> Tuple[int, int]:
        """Returns a place in units."""
        return self.across(place.x, side), self.down(place.y)


def extent(places: Iterable[Place]) -> Box:
    """Returns the rectangle around the copper of some pins, in millimeters."""
    boxes = []
    for place in places:
        angle = math.radians(place.angle)
        cos, sin = abs(math.cos(angle)) / 2, abs(math.sin(angle)) / 2
        across = place.width * cos + place.height * sin
        down = place.width * sin + place.height * cos
        boxes.append((place.x - across, place.y - down, place.x + across, place.y + down))
    left, top, right, bottom = zip(*boxes)
    return Box(min(left), min(top), max(right), max(bottom))


def frame_of(places: Places) -> Frame:
    """Returns the frame of a board, with a margin and room for the scale."""
    points = [Place(x, y, TOP) for line in places.outline for x, y in line]
    whole = extent(points or itertools.chain(*places.pins.values()))
    box = extent(points + [place for pin in places.pins.values() for place in pin])
    across, down = box.right - box.left, box.bottom - box.top
    letter = max(across / 48, down / 48, math.sqrt(across * down) / 28, 1 / 32)
    margin = letter * 1.3
    return Frame(
        box.left - margin,
        box.top - margin,
        across + 2 * margin,
        down + 2 * margin + 1.6 * letter,
        letter,
        (whole.left, whole.top),
    )


def steps(x: int, y: int, before: Tuple[int, int]) -> str:
    """Returns a move from a point to another, as a path has it."""
    across, down = x - before[0], y - before[1]
    return f"m{across}{down}" if down < 0 else f"m{across} {down}"


def dots_path(points: Iterable[Tuple[int, int]]) -> str:
    """Returns a path with a dot at each point."""
    pieces, before = [], (0, 0)
    for x, y in sorted(set(points)):
        pieces.append(steps(x, y, before) + "h0")
        before = x, y
    return "".join(pieces)


def plain_boxes(boxes: Iterable[Tuple[Box, str]]) -> str:
    """Returns rectangles in few bytes."""
    pieces, before = [], (0, 0)
    for box, _ in sorted(boxes):
        x, y = int(box.left), int(box.top)
        width, height = int(box.right - box.left), int(box.bottom - box.top)
        pieces.append(f"{steps(x, y, before)}h{width}v{height}h-{width}z")
        before = x, y
    return f'<path d="{"".join(pieces)}"/>'


def titled_boxes(boxes: Iterable[Tuple[Box, str]]) -> str:
    """Returns rectangles with the names of the parts as titles."""
    return "".join(
        f'<rect x="{box.left:.0f}" y="{box.top:.0f}" width="{box.right - box.left:.0f}" '
        f'height="{box.bottom - box.top:.0f}"><title>{escape(part)}</title></rect>'
        for box, part in boxes
    )


class Shapes:
    """What both views have: the outline, and the parts and the pins of each side."""

    def __init__(self, places: Places, frame: Frame) -> None:
        self._places = places
        self._frame = frame
        self._boxes: Dict[str, List[Tuple[Box, str]]] = {TOP: [], BOTTOM: [], BOTH: []}
        self._dots: Dict[str, List[Tuple[int, int]]] = {TOP: [], BOTTOM: [], BOTH: []}
        for part, pins in places.parts.items():
            self._sort(part, [place for pin in pins for place in places.of(pin)])

    def _sort(self, part: str, spots: List[Place]) -> None:
        sides = {place.side for place in spots} - {BOTH}
        side = sides.pop() if len(sides) == 1 else BOTH
        self._boxes[side].append((self.units(extent(spots)), part))
        for place in spots if len(self._places.pins) <= DOTS else ():
            self._dots[place.side].append(self._frame.at(place, TOP))

    def units(self, box: Box) -> Box:
        """Returns a rectangle of the board in units, a little larger."""
        edge = self._frame.letter * 0.12
        return Box(
            self._frame.across(box.left - edge, TOP),
            self._frame.down(box.top - edge),
            self._frame.across(box.right + edge, TOP),
            self._frame.down(box.bottom + edge),
        )

    def definitions(self, name: str) -> str:
        """Returns the pieces that the views use, with names that begin with a word of the page."""
        groups = [f'<g id="{name}-edge">{self._edge()}</g>']
        draw = titled_boxes if len(self._places.parts) <= TITLED else plain_boxes
        for side, boxes in self._boxes.items():
            width = self._frame.stroke(0.05)
            groups.append(
                f'<g id="{name}-{side}"><g fill="#f3f3ef" stroke="#8a8a8a" stroke-width="{width}">'
                f'{draw(boxes)}</g><path d="{dots_path(self._dots[side])}" fill="none" '
                f'stroke="#bbb" stroke-linecap="round" stroke-width="{3 * width}"/></g>'
            )
        return f"<defs>{''.join(groups)}</defs>"

    def _edge(self) -> str:
        lines = self._places.outline
        if sum(map(len, lines)) > CORNERS:
            box = extent(Place(x, y, TOP) for line in lines for x, y in line)
            corners = [box.left, box.right, box.right, box.left, box.left]
            heights = [box.top, box.top, box.bottom, box.bottom, box.top]
            lines = [list(zip(corners, heights))]
        ways = []
        for line in lines:
            points = [(self._frame.across(x, TOP), self._frame.down(y)) for x, y in line]
            ways.append("M" + "L".join(f"{x} {y}" for x, y in points) if points else "")
        width = self._frame.stroke(0.09)
        return f'<path d="{"".join(ways)}" fill="none" stroke="#444" stroke-width="{width}"/>'
