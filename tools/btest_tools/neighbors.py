"""Which pins are so near to each other that solder may join them."""

from __future__ import annotations

import math
import re
from typing import Dict, Iterable, Iterator, List, NamedTuple, Optional, Set, Tuple

from btest_tools.places import BOTH, Place, Places

NEAR = 1.0  # millimeters between pins of two parts that are neighbors
PITCHES = 1.5  # pitches of their part between two pins that are neighbors

# The rows of a ball grid, by JEDEC JEP95, which leaves out letters that look like digits.
ROWS = "ABCDEFGHJKLMNPRTUVWY"
NUMBERED = re.compile(r"([A-Z]*)([0-9]{1,9})", re.I)


class Neighbors(NamedTuple):
    """Two pins side by side. The distance is in millimeters, or None if numbers alone say so."""

    one: str
    other: str
    distance: Optional[float]

    def __str__(self) -> str:
        if self.distance is None:
            return f"{self.one} and {self.other} are side by side by their numbers"
        return f"{self.one} and {self.other} are neighbors"


def part_of(pin: str) -> str:
    """Returns the part of a pin."""
    return pin.partition(".")[0]


def row_number(letters: str) -> int:
    """Returns the number of a row of a ball grid: A is 1, Y is 20, AA is 21, what is none is 0."""
    number = 0
    for letter in letters.upper():
        if letter not in ROWS:
            return 0
        number = number * len(ROWS) + ROWS.index(letter) + 1
    return number


def are_side_by_side(one: str, other: str) -> bool:
    """Returns whether the names of two pins follow each other: 4 and 5, A7 and A8, A7 and B7."""
    here, there = NUMBERED.fullmatch(one), NUMBERED.fullmatch(other)
    if not here or not there:
        return False
    steps = abs(int(here[2]) - int(there[2]))
    if here[1].upper() == there[1].upper():
        return steps == 1
    row, other_row = row_number(here[1]), row_number(there[1])
    return steps == 0 and min(row, other_row) > 0 and abs(row - other_row) == 1


def share_side(one: Place, other: Place) -> bool:
    """Returns whether two places can be touched from one side."""
    return one.side == other.side or BOTH in (one.side, other.side)


class Neighborhood:
    """Finds neighbors by the places of pins, or by their names where a place isn't known.

    Two pins of a part are neighbors if they are nearer to each other than 1.5 times its smallest
    pitch, two pins of different parts if they are nearer than 1 mm, on one side of the board.
    """

    def __init__(self, places: Optional[Places] = None) -> None:
        self._places = places or Places()
        self._cells: Dict[Tuple[int, int], List[str]] = {}
        for pin, spots in self._places.pins.items():
            for spot in spots:
                self._cells.setdefault((int(spot.x // NEAR), int(spot.y // NEAR)), []).append(pin)

    def distance(self, one: str, other: str) -> Optional[float]:
        """Returns the distance of two pins that are neighbors by their places, else None."""
        part = part_of(one)
        limit = PITCHES * self._places.pitch(part) if part == part_of(other) else NEAR
        distances = [
            here.distance(there)
            for here in self._places.of(one)
            for there in self._places.of(other)
            if share_side(here, there)
        ]
        nearest = min(distances, default=math.inf)
        return nearest if nearest < limit else None

    def beside(self, pin: str) -> Iterator[str]:
        """Yields the neighbors of a pin by its place."""
        near: Set[str] = set(self._places.parts.get(part_of(pin), []))
        for spot in self._places.of(pin):
            x, y = int(spot.x // NEAR), int(spot.y // NEAR)
            for across in (x - 1, x, x + 1):
                for down in (y - 1, y, y + 1):
                    near.update(self._cells.get((across, down), []))
        for other in sorted(near - {pin}):
            if self.distance(pin, other) is not None:
                yield other

    def knows(self, pin: str) -> bool:
        """Returns whether the place of a pin is known."""
        return bool(self._places.of(pin))

    def between(self, pins: Iterable[str], others: Iterable[str]) -> List[Neighbors]:
        """Returns the neighbors of which one is among some pins, the other among others.

        The nearest come first, then those that are side by side by their names.
        """
        wanted, found = set(others), []
        parts: Dict[str, List[str]] = {}
        for other in wanted:
            parts.setdefault(part_of(other), []).append(other)
        for pin in pins:
            if self.knows(pin):
                for other in self.beside(pin):
                    if other in wanted:
                        found.append(Neighbors(pin, other, self.distance(pin, other)))
            for other in parts.get(part_of(pin), []):
                if not (self.knows(pin) and self.knows(other)) and named_side_by_side(pin, other):
                    found.append(Neighbors(pin, other, None))
        return sorted(found, key=lambda pair: (pair.distance is None, pair.distance or 0.0, pair))


def named_side_by_side(one: str, other: str) -> bool:
    """Returns whether two pins of a part have names that follow each other."""
    return are_side_by_side(one.partition(".")[2], other.partition(".")[2])
