"""Close-ups of a board: the pins around those that fail, large enough to tell them apart."""

from __future__ import annotations

import math
from html import escape
from typing import Dict, Iterator, List, NamedTuple, Sequence, Tuple

from btest_tools.drawing import Box, extent
from btest_tools.places import BOTH, BOTTOM, TOP, Place, Places

MOST = 4  # close-ups
PINS = 400  # in a close-up
WHOLE = 64  # pins of a part that is shown as a whole
AROUND = 4.5  # pitches around the marked pins of a larger part
WIDEST = 1.6  # millimeters of a pitch, for a part that has a wider one
EDGE = 3.2  # pitches around a part, unless names need more
WIDTH = 1000  # units of a close-up
SMALLEST = 4.0  # millimeters of a close-up
LETTERS = (24.0, 48.0)  # units of the smallest and of the largest letters
LETTER = 0.64  # width of a letter, in sizes
DENSE = 36.0  # units of letters that need a large picture
LONGEST = 20  # letters that have room
NAMED = 200  # pins that have their names


class Marked(NamedTuple):
    """A pin with a mark: its name, its net, the color and the number of that, and whether it
    fails and whether it may be open."""

    pin: str
    net: str
    color: str
    number: int
    fails: bool
    is_open: bool


class Text(NamedTuple):
    """A name in a picture, with the rectangle that it covers."""

    box: Box
    svg: str


def name(one: Marked) -> str:
    """Returns the name of a pin and the number of its net."""
    return f"{one.pin.partition('.')[2]} ({one.number})"


class CloseUp:
    """The pins of one part that are marked on one side, and what is around them."""

    def __init__(self, places: Places, part: str, side: str, marked: Sequence[Marked]) -> None:
        self._places = places
        self._part = part
        self._side = side
        self._marked = {one.pin: one for one in marked}
        self._pitch = min(places.pitch(part), WIDEST)
        mine = [one for one in marked if one.pin.startswith(part + ".")]
        spots = [spot for one in mine for spot in places.of(one.pin) if spot.is_on(side)]
        whole = [spot for pin in places.parts[part] for spot in places.of(pin)]
        self._extent = extent(whole)
        is_small = len(places.parts[part]) <= WHOLE
        longest = min(LONGEST, max(len(name(one)) for one in mine))
        self._fit(self._extent if is_small else extent(spots), longest + 1)
        self._height = (self._window.bottom - self._window.top) * self._scale
        self._taken: List[Box] = []  # by marks and names

    def _fit(self, shown: Box, longest: int) -> None:
        """Chooses a window around some pins, with room for a name of so many letters."""
        room = EDGE * self._pitch
        for _ in range(20):  # more room makes all smaller but the letters, and they need more room
            self._window = window(shown, self._extent, self._pitch, max(1.0, room))
            self._scale = WIDTH / (self._window.right - self._window.left)
            self.letter = max(LETTERS[0], min(LETTERS[1], self._pitch * self._scale))
            room = longest * LETTER * self.letter / self._scale

    def _visible(self) -> List[Tuple[str, Place]]:
        """Returns the pins in the window, those of the part first."""
        box = self._window
        found = [
            (pin, spot)
            for pin, spots in self._places.pins.items()
            for spot in spots
            if spot.is_on(self._side)
            and box.left <= spot.x <= box.right
            and box.top <= spot.y <= box.bottom
        ]
        found.sort(key=lambda item: not item[0].startswith(self._part + "."))
        return found[:PINS]

    def _at(self, x: float, y: float) -> Tuple[float, float]:
        across = x - self._window.left if self._side != BOTTOM else self._window.right - x
        return across * self._scale, (y - self._window.top) * self._scale

    def _corners(self, spot: Place) -> str:
        """Returns the copper of a pin as a path."""
        angle = math.radians(spot.angle)
        cos, sin = math.cos(angle), math.sin(angle)
        width, height = max(spot.width, 0.1) / 2, max(spot.height, 0.1) / 2
        points = []
        for x, y in ((-width, -height), (width, -height), (width, height), (-width, height)):
            point = self._at(spot.x + x * cos + y * sin, spot.y + y * cos - x * sin)
            points.append(f"{point[0]:.0f} {point[1]:.0f}")
        return "M" + "L".join(points) + "z"

    def svg(self) -> str:
        """Returns the picture."""
        visible = self._visible()
        plain = "".join(self._corners(spot) for pin, spot in visible if pin not in self._marked)
        marks = [
            self._mark(self._marked[pin], spot) for pin, spot in visible if pin in self._marked
        ]
        says = f"The pins of {self._part} from the {self._side}: " + ", ".join(
            pin for pin, _ in visible if pin in self._marked
        )
        return (
            f'<svg viewBox="0 0 {WIDTH} {self._height:.0f}" role="group" '
            f'aria-label="{escape(says)}" '
            f'font-family="sans-serif">{self._box()}<path d="{plain}" fill="#ddd" stroke="#999" '
            f'stroke-width="3"/>{"".join(marks)}<g font-size="{self.letter:.0f}" '
            f'text-anchor="middle" font-weight="bold" stroke="#fff" '
            f'stroke-width="{self.letter / 4:.0f}" '
            f'paint-order="stroke">{"".join(self._names(visible))}</g></svg>'
        )

    def _box(self) -> str:
        """Returns the part, as far as its pins reach."""
        box = self._extent
        x, y = self._at(box.right if self._side == BOTTOM else box.left, box.top)
        width, height = (box.right - box.left) * self._scale, (box.bottom - box.top) * self._scale
        return (
            f'<rect x="{x:.0f}" y="{y:.0f}" width="{width:.0f}" height="{height:.0f}" '
            'fill="#f3f3ef"/>'
        )

    def _mark(self, one: Marked, spot: Place) -> str:
        fill = one.color if one.fails else "#fff"
        ring = "#000" if one.is_open else one.color
        # A black ring is painted first, so that it leaves the color of a narrow pin.
        width = '16" paint-order="stroke' if one.is_open else "8"
        fails = ", fails" if one.fails else ""
        return (
            f'<path d="{self._corners(spot)}" fill="{fill}" stroke="{ring}" '
            f'stroke-width="{width}"><title>{escape(one.pin)}, net {escape(one.net)}{fails}'
            "</title></path>"
        )

    def _names(self, visible: Sequence[Tuple[str, Place]]) -> Iterator[str]:
        """Yields the names of the marked pins of the part, each where it covers least."""
        coppers = [(pin, self._units(extent([spot]))) for pin, spot in visible]
        self._taken = [box for pin, box in coppers if pin in self._marked]
        plain = [box for pin, box in coppers if pin not in self._marked]
        mine = [
            (self._marked[pin], spot)
            for pin, spot in visible
            if pin in self._marked and pin.startswith(self._part + ".")
        ]
        for one, spot in mine[:NAMED]:
            texts = list(self._texts(one, spot))
            free = [text for text in texts if not any(map(text.box.meets, self._taken))]
            best = [text for text in free if not any(map(text.box.meets, plain))]
            for text in (best or free)[:1]:
                self._taken.append(text.box)
                yield text.svg

    def _units(self, box: Box) -> Box:
        """Returns a rectangle of the board in units of the picture."""
        (left, top), (right, bottom) = self._at(box.left, box.top), self._at(box.right, box.bottom)
        return Box(min(left, right), top, max(left, right), bottom)

    def _texts(self, one: Marked, spot: Place) -> Iterator[Text]:
        """Yields the name of a pin beyond the edge of the part that it is near, and on the other
        side of the pin."""
        copper, part = extent([spot]), self._extent
        gaps = (
            (copper.left - part.left, -1, 0),
            (part.right - copper.right, 1, 0),
            (copper.top - part.top, 0, -1),
            (part.bottom - copper.bottom, 0, 1),
        )
        _, right, down = min(gaps, key=lambda gap: round(gap[0], 2))  # the first of equal ones
        right *= -1 if self._side == BOTTOM else 1
        box = self._units(copper)
        half, high = self.letter * LETTER / 2 * len(name(one)), self.letter * 0.4
        across, away = (half, high) if right else (high, half)
        gap = self.letter * LETTER / 2
        for way in (1, -1):
            x = (box.left + box.right) / 2 + way * right * (half + gap + (box.right - box.left) / 2)
            y = (box.top + box.bottom) / 2 + way * down * (half + gap + (box.bottom - box.top) / 2)
            x = min(max(x, across), WIDTH - across)
            y = min(max(y, away), self._height - away)
            turn = f' transform="rotate(-90 {x:.0f} {y:.0f})"' if down else ""
            yield Text(
                Box(x - across, y - away, x + across, y + away),
                f'<text x="{x:.0f}" y="{y:.0f}" dy=".35em" fill="{one.color}"{turn}>'
                f"{escape(name(one))}</text>",
            )


def window(marked: Box, part: Box, pitch: float, edge: float) -> Box:
    """Returns what a close-up shows: some pins and what is around, with room for their names."""
    around = max(AROUND * pitch, edge)
    box = Box(
        max(marked.left - around, part.left - edge),
        max(marked.top - around, part.top - edge),
        min(marked.right + around, part.right + edge),
        min(marked.bottom + around, part.bottom + edge),
    )
    wide, high = box.right - box.left, box.bottom - box.top
    more = max(0.0, SMALLEST - wide, 1.2 * high - wide) / 2
    return Box(box.left - more, box.top, box.right + more, box.bottom)


def closeups(places: Places, marked: Sequence[Marked]) -> Iterator[str]:
    """Yields pictures of the parts with the most pins that fail or may be open."""
    parts: Dict[str, int] = {}
    for one in marked:
        part = one.pin.partition(".")[0]
        if places.of(one.pin) and (one.fails or one.is_open):
            parts[part] = parts.get(part, 0) + 1 + 3 * one.is_open
    for part in sorted(parts, key=lambda part: -parts[part])[:MOST]:
        mine = [one for one in marked if one.pin.startswith(part + ".")]
        sides = {spot.side for one in mine for spot in places.of(one.pin)} - {BOTH}
        side = BOTTOM if sides == {BOTTOM} else TOP
        picture = CloseUp(places, part, side, marked)
        kind = "" if picture.letter > DENSE else " class=dense"
        title = f"{escape(part)}, from the {side}"
        yield f"<figure{kind}><figcaption>{title}</figcaption>{picture.svg()}</figure>"
