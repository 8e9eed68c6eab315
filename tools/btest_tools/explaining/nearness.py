"""Which nets have pins side by side."""

from __future__ import annotations

import re
from collections.abc import Iterator, Mapping, Sequence
from typing import Optional

from btest_tools.board import Board, part_of

Place = tuple[float, float]
BALL = re.compile(r"([A-Z]{1,2})(\d{1,3})")
ROWS = {
    letters: at
    for at, letters in enumerate(
        [*"ABCDEFGHJKLMNPRTUVWY", *(a + b for a in "AB" for b in "ABCDEFGHJKLMNPRTUVWY")]
    )
}  # the rows of a ball grid leave out I, O, Q, S, X and Z


def grid(pin: str) -> Optional[tuple[int, int]]:
    """Returns where a pin is in the order of its part: its number, or row and column of a ball."""
    if pin.isdecimal():
        return int(pin), 0
    ball = BALL.fullmatch(pin)
    return (ROWS[ball[1]], int(ball[2])) if ball and ball[1] in ROWS else None


class Nearness:
    """Answers which nets lie side by side, by the names of pins, or by their places on the board
    if those are known."""

    def __init__(self, board: Board, places: Optional[Mapping[str, Place]] = None) -> None:
        self.board = board
        self.places = places or {}
        self.at: dict[tuple[str, int, int], str] = {}
        for pin in board.net_of:
            spot = grid(pin.partition(".")[2])
            if spot:
                self.at[part_of(pin), spot[0], spot[1]] = pin
        self.pitch = {part: self.pitch_of(part) for part in {part_of(pin) for pin in self.places}}

    def pitch_of(self, part: str) -> float:
        """Returns the least distance of two pins of a part whose places are known."""
        spots = sorted(spot for pin, spot in self.places.items() if part_of(pin) == part)
        return min((distance(a, b) for a, b in zip(spots, spots[1:])), default=0)

    def beside(self, pin: str) -> Iterator[str]:
        """Yields the pins beside a pin."""
        part, _, name = pin.partition(".")
        if pin in self.places:
            reach = 1.5 * self.pitch[part]
            for other, spot in self.places.items():
                if other != pin and distance(spot, self.places[pin]) <= reach:
                    yield other
            return
        ball = grid(name)
        for down, right in ((-1, 0), (1, 0), (0, -1), (0, 1)) if ball else ():
            near = self.at.get((part, ball[0] + down, ball[1] + right)) if ball else None
            if near:
                yield near

    def between(self, one: str, other: str) -> Optional[tuple[str, str]]:
        """Returns two pins side by side of two nets."""
        nets = self.board.nets
        few, many = sorted((nets[one], nets[other]), key=lambda net: len(net.pins))
        for pin in few.pins:
            for near in self.beside(pin):
                if near in self.board.net_of and self.board.net_of[near].name == many.name:
                    return (pin, near) if few.name == one else (near, pin)
        return None

    def patches(self, nets: Sequence[str]) -> list[list[str]]:
        """Returns nets in patches. In a patch each net is beside another, and all hang together."""
        left, found = list(nets), []
        while left:
            patch = [left.pop(0)]
            for one in patch:  # which grows
                near = [other for other in left if self.between(one, other)]
                patch += near
                left = [other for other in left if other not in near]
            found.append(patch)
        return found

    def are_joined(self, nets: Sequence[str]) -> bool:
        """Returns whether nets are one patch."""
        return len(self.patches(nets)) == 1


def distance(one: Place, other: Place) -> float:
    """Returns how far two places are from each other."""
    return float(((one[0] - other[0]) ** 2 + (one[1] - other[1]) ** 2) ** 0.5)
