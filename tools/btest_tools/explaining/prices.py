"""What a set of components costs, with open pins of one part as one cause."""

from __future__ import annotations

from collections import Counter
from collections.abc import Iterable, Mapping, Sequence
from dataclasses import dataclass

from btest_tools.board import Board, part_of
from btest_tools.explaining.candidates import Component
from btest_tools.explaining.faults import Choice, Fault, parts_of, resistors
from btest_tools.explaining.nearness import Nearness
from btest_tools.explaining.weights import WEIGHTS
from btest_tools.model import SHORTS


STARTS = 6  # parts from which rows of pins are looked for


@dataclass(frozen=True)
class Reading:
    """One choice for each component of a set, with its price and the number of its causes. The
    price may be too low by `spare`."""

    choices: tuple[Choice, ...]
    price: float
    causes: int
    spare: float = 0


class Prices:
    """Prices of faults on a board."""

    def __init__(self, board: Board, nearness: Nearness) -> None:
        self.board, self.nearness = board, nearness
        self.known: dict[Fault, float] = {}
        self.spares: dict[Fault, float] = {}
        self.packs: dict[str, set[str]] = {}  # of each part that may pull the nets that it pulls
        for net in board.nets.values():
            for pin in resistors(board, net.name) if net.pull is not None else ():
                self.packs.setdefault(part_of(pin), set()).add(net.name)

    def parts(self, fault: Fault) -> list[str]:
        """Returns the parts at which a fault may be one of several that are one cause."""
        return parts_of(self.board, fault)

    def alone(self, fault: Fault) -> float:
        """Returns what a fault costs by itself."""
        if fault not in self.known:
            self.known[fault] = WEIGHTS.cause + self.extra(fault)
        return self.known[fault]

    def extra(self, fault: Fault) -> float:
        """Returns what a fault costs beside a cause."""
        if fault.kind == "swap":
            return WEIGHTS.swap
        if fault.kind == "pull":
            return WEIGHTS.pull
        if fault.kind not in SHORTS:
            return 0
        price = WEIGHTS.net * (len(fault.names) - 2)
        price += WEIGHTS.dominating if fault.kind == "dom" else 0
        return price + (0 if self.nearness.are_joined(fault.names) else WEIGHTS.apart)

    def choice(self, choice: Choice, parts: Iterable[str]) -> float:
        """Returns what a choice costs beside causes at some parts."""
        return sum(
            WEIGHTS.pin if any(part in parts for part in self.parts(fault)) else self.alone(fault)
            for fault in choice
        )

    def reading(self, components: Sequence[Component], parts: Sequence[str]) -> Reading:
        """Returns the cheapest choices with causes at these parts."""
        chosen = tuple(
            min(component.choices, key=lambda choice: self.choice(choice, parts))
            for component in components
        )
        spare = sum(self.spare(fault) for choice in chosen for fault in choice)
        return Reading(chosen, *self.total(chosen), spare)

    def spare(self, fault: Fault) -> float:
        """Returns by how much the price of a fault may be too low: 0 for all but shorts.

        A bridge is at one place. So a short has a bridge for each patch of nets side by side, and
        one for each step from a patch to the next. Each bridge after the first may be a cause of
        its own.
        """
        if fault.kind not in SHORTS:
            return 0
        if fault not in self.spares:
            patches = self.nearness.patches(fault.names)
            bridges = sum(len(patch) > 1 for patch in patches) + len(patches) - 1
            self.spares[fault] = (bridges - 1) * (WEIGHTS.cause - WEIGHTS.net)
        return self.spares[fault]

    def total(self, choices: Iterable[Choice]) -> tuple[float, int]:
        """Returns the price and the number of causes of choices. The pins of a part are a row."""
        price, causes = 0.0, 0
        rows: dict[str, list[Fault]] = {}
        for fault in (fault for choice in choices for fault in choice):
            parts = self.parts(fault)
            if parts:
                rows.setdefault(parts[0], []).append(fault)
            else:
                price, causes = price + self.alone(fault), causes + 1
        for part, row in rows.items():
            price, causes = price + self.row(part, row), causes + 1
        return price, causes

    def row(self, part: str, row: Sequence[Fault]) -> float:
        """Returns what faults at one part cost together."""
        values = {fault.value for fault in row if fault.kind == "open"}
        price = WEIGHTS.cause + (WEIGHTS.mixed if len(values) > 1 else 0)
        if row[0].kind != "pull":
            return price + WEIGHTS.pin * (len(row) - 1)
        whole = len(row) > 1 and {fault.names[0] for fault in row} >= self.packs.get(part, set())
        return price + (WEIGHTS.pack if whole else WEIGHTS.pull + WEIGHTS.pin * (len(row) - 1))

    def readings(self, components: Sequence[Component]) -> list[Reading]:
        """Returns the cheapest choices, and others of the same price at other parts."""
        found: dict[tuple[Choice, ...], Reading] = {}
        for first in ("", *self.shared(components)[:STARTS]):
            reading = self.grown(components, [first] if first else [])
            found.setdefault(reading.choices, reading)
        best = min(reading.price for reading in found.values())
        return [reading for reading in found.values() if reading.price == best]

    def grown(self, components: Sequence[Component], parts: list[str]) -> Reading:
        """Returns the cheapest choices with causes at some parts, and at any more that help."""
        reading = self.reading(components, parts)
        while True:
            left = [
                component
                for component, choice in zip(components, reading.choices)
                if not any(part in parts for fault in choice for part in self.parts(fault))
            ]
            more = [self.reading(components, [*parts, part]) for part in self.shared(left)[:4]]
            better = min(more, key=lambda one: one.price, default=reading)
            if better.price >= reading.price:
                return reading
            parts = [*parts, self.shared(left)[more.index(better)]]
            reading = better

    def shared(self, components: Sequence[Component]) -> list[str]:
        """Returns the parts at which several faults of these components may be, most first."""
        counts: Counter[str] = Counter()
        for component in components:
            most: Mapping[str, int] = Counter()
            for choice in component.choices:
                here = Counter(part for fault in choice for part in self.parts(fault))
                most = {part: max(most.get(part, 0), here[part]) for part in {*most, *here}}
            counts.update(most)
        return [part for part, count in counts.most_common() if count > 1]
