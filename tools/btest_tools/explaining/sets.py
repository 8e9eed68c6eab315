"""Sets of components that explain logs, in ranks."""

from __future__ import annotations

import itertools
from collections.abc import Iterator, Sequence
from dataclasses import dataclass, field
from typing import Optional

from btest_tools.board import Board
from btest_tools.explaining.candidates import FEW, Component, Proved, Search, Ties
from btest_tools.explaining.faults import Choice, faults_of
from btest_tools.explaining.nearness import Nearness
from btest_tools.explaining.patience import Patience
from btest_tools.explaining.prices import Prices, Reading
from btest_tools.explaining.rows import Log, Rows, rows_of
from btest_tools.explaining.weights import CAUSES, EACH, RANKS
from btest_tools.model import Faults

TRIED = 200  # sets of components that are priced
TRIED_OF_MANY = 40  # the same if many nets differ


@dataclass
class Explanation:
    """Components that give every compared bit, with the cheapest choices of faults first."""

    components: tuple[Component, ...]
    readings: list[Reading]

    @property
    def price(self) -> float:
        """What the cheapest choices cost."""
        return self.readings[0].price

    @property
    def causes(self) -> int:
        """How many causes the cheapest choices have."""
        return self.readings[0].causes

    def nets(self) -> set[str]:
        """Returns the names of its nets."""
        return {name for component in self.components for name in component.nets}

    def is_like(self, other: Explanation) -> bool:
        """Returns whether it has the nets of another set and costs no more than that set may. Then
        neither the logs nor the prices tell the two apart."""
        most = other.price + other.readings[0].spare
        return price_of(self) <= round(most, 3) and self.nets() == other.nets()

    def right(self, differing: Sequence[str]) -> int:
        """Returns how many of its nets read right."""
        return len(self.nets() - set(differing))

    def faults(self) -> Faults:
        """Returns the cheapest choices as the models take them."""
        return faults_of(fault for choice in self.readings[0].choices for fault in choice)


@dataclass
class Explained:
    """What was found of a board's logs. `left` has the nets that nothing explains. Then the sets
    explain a part of the logs alone."""

    rows: Rows
    differing: list[str]
    ranks: list[list[Explanation]] = field(default_factory=list)
    more: int = 0  # sets beyond the ranks that are told
    left: list[str] = field(default_factory=list)

    @property
    def count(self) -> int:
        """How many sets the ranks have that are told."""
        return sum(map(len, self.ranks))


class Explainer:
    """Explains the logs of a board."""

    def __init__(
        self,
        board: Board,
        logs: Sequence[Log],
        nearness: Optional[Nearness] = None,
        proved: Optional[Proved] = None,
    ) -> None:
        self.rows = rows_of(board, logs)
        self.search = Search(self.rows, proved)
        self.prices = Prices(board, nearness or Nearness(board))
        self.singles: dict[str, Component] = {}
        self.ties: list[Component] = []
        self.patience = Patience()

    def explain(self) -> Explained:
        """Returns the sets of faults that explain the logs."""
        differing = self.rows.differing()
        names = [*(wire.name for wire in differing), *self.rows.beyond]
        explained = Explained(self.rows, names)
        for number, wire in enumerate(differing):
            self.patience.at(number, len(differing), "nets")
            single = self.search.single(wire)
            if single:
                self.singles[wire.name] = single
        if len(differing) <= EACH:
            counts = {name: single.count for name, single in self.singles.items()}
            self.ties = Ties(self.search, differing, counts, self.patience).all()
        tied = {name for tie in self.ties for name in tie.nets}
        explained.left = [name for name in names if name not in self.singles and name not in tied]
        wanted = [name for name in names if name not in explained.left]
        if wanted:
            self.rank(explained, wanted)
        return explained

    def rank(self, explained: Explained, wanted: Sequence[str]) -> None:
        """Puts the sets that explain some nets into ranks."""
        found = []
        most = TRIED if len(wanted) <= FEW else TRIED_OF_MANY
        for number, components in enumerate(itertools.islice(self.sets(wanted), most)):
            self.patience.at(number, most, "sets of faults")
            readings = self.prices.readings(components)
            if readings and self.gives(explained, readings[0].choices):
                found.append(Explanation(components, readings))
        # Of equal sets those come first in which no net is accused that reads right.
        found.sort(key=lambda one: (price_of(one), one.right(explained.differing)))
        usual = [one for one in found if one.causes <= CAUSES]
        levels = list(levels_of(usual or found[:1]))
        explained.ranks = levels[:RANKS]
        explained.more = sum(map(len, levels[RANKS:]))

    def gives(self, explained: Explained, choices: Sequence[Choice]) -> bool:
        """Tries a whole set: returns whether it gives every compared bit, but those of the nets
        that are left."""
        faults = faults_of(fault for choice in choices for fault in choice)
        names = self.rows.touched(faults)
        away = set(explained.differing) - set(names) - set(explained.left)
        return not away and self.rows.first_mismatch(names, faults) is None

    def sets(self, wanted: Sequence[str]) -> Iterator[tuple[Component, ...]]:
        """Yields sets of components that share no net and have all of these nets, first those
        with the least ties. If there are none of few ties, one of many is made."""
        some = False
        for most in range(0, CAUSES + 1):
            for components in self.with_ties(list(wanted), [], self.ties, most):
                some = True
                yield components
        many = [] if some else self.many_ties(wanted)
        if many:
            yield tuple(many)

    def many_ties(self, wanted: Sequence[str]) -> list[Component]:
        """Returns a set of any number of ties, net by net the smallest that fits, or nothing if
        some net is left."""
        chosen: dict[str, Component] = {}
        # A net that doesn't differ is taken only where it must be.
        sound = {tie: len(set(tie.nets) - set(wanted)) for tie in self.ties}
        ties = sorted(self.ties, key=lambda tie: (tie.count, sound[tie], len(tie.nets)))
        bare = [name for name in wanted if name not in self.singles]
        for name in sorted(bare, key=lambda name: sum(name in tie.nets for tie in ties)):
            if name in chosen:
                continue
            fits = (tie for tie in ties if name in tie.nets and not chosen.keys() & set(tie.nets))
            tie = next(fits, None)
            if tie is None:
                return []
            chosen.update(dict.fromkeys(tie.nets, tie))
        alone = [self.singles[name] for name in wanted if name not in chosen]
        return [*dict.fromkeys(chosen.values()), *alone]

    def with_ties(
        self, wanted: list[str], chosen: list[Component], ties: Sequence[Component], most: int
    ) -> Iterator[tuple[Component, ...]]:
        """Yields the sets with `most` more ties."""
        bare = [name for name in wanted if name not in self.singles]
        if most == 0:
            if not bare:
                yield (*chosen, *(self.singles[name] for name in wanted))
            return
        for at, tie in enumerate(ties):
            if bare and bare[0] not in tie.nets:
                continue
            after = ties if bare else ties[at + 1 :]
            free = [one for one in after if not set(one.nets) & set(tie.nets)]
            rest = [name for name in wanted if name not in tie.nets]
            yield from self.with_ties(rest, [*chosen, tie], free, most - 1)


def levels_of(found: Sequence[Explanation]) -> Iterator[list[Explanation]]:
    """Yields ranks of sets. `found` has the cheaper sets first. A rank has the sets of one price
    and then those that are like one of them."""
    left = list(found)
    while left:
        level = [one for one in left if price_of(one) == price_of(left[0])]
        left = left[len(level) :]
        alike = [one for one in left if any(one.is_like(other) for other in level)]
        left = [one for one in left if one not in alike]
        yield level + alike


def price_of(explanation: Explanation) -> float:
    """Returns what an explanation costs."""
    return round(explanation.price, 3)


def explain(
    board: Board,
    logs: Sequence[Log],
    nearness: Optional[Nearness] = None,
    proved: Optional[Proved] = None,
) -> Explained:
    """Returns the sets of faults that explain the logs of a board, in ranks. `proved` has what
    btest says of nets that it was asked about: the single faults of each."""
    return Explainer(board, logs, nearness, proved).explain()
