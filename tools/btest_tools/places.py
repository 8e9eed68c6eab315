"""Where the pins of a board are, as its layout says: in millimeters, seen from the top.

x grows to the right and y downward, as on a screen.
"""

from __future__ import annotations

import itertools
import math
from typing import Dict, List, NamedTuple, Tuple

TOP, BOTTOM, BOTH = "top", "bottom", "both"  # sides from which a pin can be touched

Point = Tuple[float, float]
Line = List[Point]  # a way from point to point


class Place(NamedTuple):
    """The copper of a pin: its center, its side, its size before it is turned, and the angle.

    The angle is in degrees, counterclockwise as seen from the top.
    """

    x: float
    y: float
    side: str
    width: float = 0.0
    height: float = 0.0
    angle: float = 0.0

    def is_on(self, side: str) -> bool:
        """Returns whether it can be touched from a side."""
        return self.side in (side, BOTH)

    def distance(self, other: Place) -> float:
        """Returns the distance of the centers, in millimeters."""
        return math.hypot(self.x - other.x, self.y - other.y)


class Places:
    """The places of a board's pins, by words of the net file, and its outline, if there is one."""

    def __init__(self) -> None:
        self.pins: Dict[str, List[Place]] = {}
        self.outline: List[Line] = []
        self._parts: Dict[str, List[str]] = {}
        self._pitches: Dict[str, float] = {}

    def add(self, part: str, pin: str, place: Place) -> None:
        """Adds a place of a pin. A pin may have several."""
        word = f"{part}.{pin}"
        places = self.pins.get(word)
        if places is None:
            self.pins[word] = [place]
            self._parts.setdefault(part, []).append(word)
        elif place not in places:
            places.append(place)
        self._pitches.pop(part, None)

    @property
    def parts(self) -> Dict[str, List[str]]:
        """The pins of each part, in the order of the file."""
        return self._parts

    def of(self, pin: str) -> List[Place]:
        """Returns the places of a pin, none if it isn't known."""
        return self.pins.get(pin, [])

    def pitch(self, part: str) -> float:
        """Returns the smallest distance between two pins of a part, infinite for a single pin."""
        if part not in self._pitches:
            places = [(pin, place) for pin in self._parts.get(part, []) for place in self.of(pin)]
            self._pitches[part] = smallest_distance(places)
        return self._pitches[part]


COINCIDE = 0.01  # millimeters; pins as near as that are on one place, and are no pitch


def smallest_distance(places: List[Tuple[str, Place]]) -> float:
    """Returns the smallest distance between places of different pins, but for those on one place.

    A sweep from left to right looks at what is nearer than the smallest distance so far.
    """
    best, first = math.inf, 0
    ordered = sorted(places, key=lambda item: (item[1].x, item[1].y))
    for at, (pin, place) in enumerate(ordered):
        while place.x - ordered[first][1].x > best:
            first += 1
        for other, there in itertools.islice(ordered, max(first, at - MOST_COMPARED), at):
            if other != pin:
                distance = place.distance(there)
                if COINCIDE < distance < best:
                    best = distance
    return best


MOST_COMPARED = 200  # pins to the left that a pin is compared with, as many may be in a column
