"""Which nets have pins side by side, by the places of pins on the board, and which pins to measure
between."""

from __future__ import annotations

from collections import Counter
from collections.abc import Iterator
from typing import Optional

from btest_tools.board import Board, part_of
from btest_tools.explaining.faults import Fault
from btest_tools.explaining.nearness import Nearness
from btest_tools.explaining.sets import Explained
from btest_tools.explaining.words import Teller
from btest_tools.model import SHORTS
from btest_tools.neighbors import Neighborhood, Neighbors
from btest_tools.places import Places

MOST = 20  # pairs that are named


class Placed(Nearness):
    """Like Nearness, but by sides and distances of pins where they are known."""

    def __init__(self, board: Board, places: Optional[Places] = None) -> None:
        super().__init__(board)
        self.neighborhood = Neighborhood(places)
        self._found: dict[tuple[str, str], list[Neighbors]] = {}

    def beside(self, pin: str) -> Iterator[str]:
        """Yields the pins beside a pin."""
        if self.neighborhood.knows(pin):
            yield from self.neighborhood.beside(pin)
        for other in super().beside(pin):
            if not (self.neighborhood.knows(pin) and self.neighborhood.knows(other)):
                yield other

    def neighbors(self, one: str, other: str) -> list[Neighbors]:
        """Returns the pins of two nets that are side by side, the nearest first."""
        if (one, other) not in self._found:
            nets = self.board.nets
            found = self.neighborhood.between(nets[one].pins, nets[other].pins)
            self._found[one, other] = found
        return self._found[one, other]

    def between(self, one: str, other: str) -> Optional[tuple[str, str]]:
        """Returns two pins side by side of two nets, the nearest."""
        found = self.neighbors(one, other)
        return (found[0].one, found[0].other) if found else None


def shorts_of(explained: Explained) -> list[tuple[str, ...]]:
    """Returns the nets of the shorts in all sets of faults that are told."""
    found: dict[tuple[str, ...], None] = {}
    for rank in explained.ranks:
        for explanation in rank:
            for choice in explanation.readings[0].choices:
                found.update({f.names: None for f in choice if f.kind in SHORTS})
    return list(found)


def neighbor_lines(explained: Explained, nearness: Placed) -> Iterator[str]:
    """Yields for each short that is told the pins that are side by side."""
    lines = []
    for nets in shorts_of(explained):
        for one, other in zip(nets, nets[1:]):
            for pair in nearness.neighbors(one, other)[:1]:
                lines.append(f"{pair} ({one} and {other})")
    yield from lines[:MOST]
    if len(lines) > MOST:
        yield f"and {len(lines) - MOST} more"


def first_faults(explained: Explained) -> list[Fault]:
    """Returns the faults of the set that is told first."""
    for rank in explained.ranks[:1]:
        return [fault for choice in rank[0].readings[0].choices for fault in choice]
    return []


def opens_of(explained: Explained) -> list[str]:
    """Returns the pins that are open by the set that is told first."""
    return [fault.names[0] for fault in first_faults(explained) if fault.kind == "open"]


def measures(board: Board, explained: Explained, nearness: Placed) -> list[tuple[str, str]]:
    """Returns the pins to measure between by the set that is told first.

    These are two pins of the nets of a short, and an open pin with another pin of its net, unless
    its part has several: then the part is what to look at.
    """
    pairs = []
    parts = Counter(part_of(pin) for pin in opens_of(explained))
    for fault in first_faults(explained):
        if fault.kind != "open" or parts[part_of(fault.names[0])] == 1:
            pairs += list(pairs_of(board, fault, nearness))
    return list(dict.fromkeys(pairs))[:MOST]


def pairs_of(board: Board, fault: Fault, nearness: Placed) -> Iterator[tuple[str, str]]:
    """Yields the pins to measure between by a fault."""
    if fault.kind in SHORTS:
        teller = Teller(board, nearness)
        for one, other in zip(fault.names, fault.names[1:]):
            yield nearness.between(one, other) or teller.first_pins(one, other)
    elif fault.kind == "open":
        pin = fault.names[0]
        net = board.net_of[pin]
        sources = [driver.pin for driver in net.drivers] + net.pins
        yield from [(pin, source) for source in sources if source != pin][:1]
