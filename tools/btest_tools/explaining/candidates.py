"""What may be wrong with one net, or with nets that are tied together.

A component is a list of nets with all smallest sets of faults that give every compared bit of
them. The bits of the logs are given by a set of components that don't share a net, if every net
that differs is in one.
"""

from __future__ import annotations

import itertools
from collections.abc import Iterable, Iterator, Mapping, Sequence
from dataclasses import dataclass, field
from typing import NamedTuple, Optional

from btest_tools.explaining.faults import Choice, Fault, faults_of
from btest_tools.explaining.patience import Patience
from btest_tools.explaining.rows import Mismatch, Rows, Wire

FEW = 12  # nets that differ, up to which every two of them are tried for every tie
LARGE = 16  # nets of a short that is looked for; more are a supply or a contact
ALIKE = 6  # nets that read alike, of which every two and every three are tried
DEEP = 3  # faults of one net that are looked for
WITH_OPENS = 2  # open pins beside a short


@dataclass(frozen=True)
class Component:
    """Nets, and the choices of faults of which each gives all their bits. The smallest choices
    have `count` faults. One with more may be there: every pin that is wrong is open."""

    nets: tuple[str, ...]
    count: int
    choices: tuple[Choice, ...] = field(compare=False)

    def smallest(self) -> list[Choice]:
        """Returns the choices with the least faults."""
        return [choice for choice in self.choices if len(choice) <= self.count]


# Of the names of nets, or of one net, the faults that btest names for them.
Proved = Mapping[str, Sequence[Fault]]


class View(NamedTuple):
    """What cells of a net that agree read, in the rows in which one of them is compared."""

    mask: int
    got: int

    def is_constant(self) -> bool:
        """Returns whether the cells read one bit in all rows."""
        return self.got in (0, self.mask)

    def agrees(self, mask: int, bits: int) -> bool:
        """Returns whether it has these bits in all rows of another mask, and one such row is
        compared."""
        common = self.mask & mask
        return bool(common) and not (self.got ^ bits) & common


def views(wire: Wire) -> list[View]:
    """Returns what the cells of a net read: all that agree together, and each by itself."""
    merged: list[View] = []
    for probe in wire.probes:
        view = View(probe.mask, probe.got)
        for at, one in enumerate(merged):
            if not (one.got ^ view.got) & one.mask & view.mask:
                merged[at] = View(one.mask | view.mask, one.got | view.got)
                break
        else:
            merged.append(view)
    return list(dict.fromkeys([*merged, *(View(probe.mask, probe.got) for probe in wire.probes)]))


class Search:
    """Looks for components."""

    def __init__(self, rows: Rows, proved: Optional[Proved] = None) -> None:
        self.rows = rows
        self.proved = proved  # what btest says of nets and pairs, if it was asked

    # Sets of faults with the same nets

    def mismatch(self, nets: Sequence[str], choice: Choice) -> Optional[Mismatch]:
        """Returns a cell of these nets that a choice doesn't explain."""
        return self.rows.first_mismatch(nets, faults_of(choice))

    def with_opens(self, nets: Sequence[str], choice: Choice, depth: int) -> Iterator[Choice]:
        """Yields the choice with up to `depth` open pins more, if all bits of the nets follow."""
        found = self.mismatch(nets, choice)
        if found is None:
            yield choice
        elif depth:
            for fault in self.remedies(nets, choice, found):
                yield from self.with_opens(nets, (*choice, fault), depth - 1)

    def remedies(self, nets: Sequence[str], choice: Choice, found: Mismatch) -> Iterator[Fault]:
        """Yields the open pins that may give a cell the bit that it has in the first row that
        isn't explained."""
        probe, row = found.probe, found.rows & -found.rows
        is_open = {fault.names[0] for fault in choice if fault.kind == "open"}
        if probe.pin not in is_open and probe.got in (0, probe.mask):
            yield Fault("open", (probe.pin,), int(bool(probe.got)))
        for name in nets:
            for source in self.rows.wires[name].sources:
                if not source.live & row or source.pin in is_open or source.pin == probe.pin:
                    continue
                for value in (0, 1):
                    fault = Fault("open", (source.pin,), value)
                    if self.mends(nets, (*choice, fault), found, row):
                        yield fault

    def mends(self, nets: Sequence[str], choice: Choice, found: Mismatch, row: int) -> bool:
        """Returns whether a choice gives a cell the bit of a row."""
        for one in self.rows.mismatches(nets, faults_of(choice)):
            if one.probe == found.probe and one.net == found.net:
                return not one.rows & row
        return True

    def smallest(
        self, nets: Sequence[str], bases: Sequence[Choice], most: int
    ) -> Optional[Component]:
        """Returns the component of the smallest choices that extend one of the bases."""
        for count in range(1, most + 1):
            seen: dict[frozenset[Fault], Choice] = {}
            for base in bases:
                if len(base) <= count:
                    for choice in self.with_opens(nets, base, count - len(base)):
                        seen.setdefault(frozenset(choice), choice)
            if seen:
                return Component(tuple(nets), count, tuple(seen.values()))
        return None

    # One net

    def single(self, wire: Wire) -> Optional[Component]:
        """Returns the component of a net by itself."""
        stuck: list[Choice] = [(Fault("stuck", (wire.name,), value),) for value in (0, 1)]
        pulls: list[Choice] = []
        if wire.net.pull is not None:
            pulls = [(Fault("pull", (wire.name,), 1 - wire.net.pull),)]
        found: Optional[Component] = None
        if self.proved is not None and wire.name in self.proved:
            named = self.named((wire.name,), self.proved[wire.name])
            both = [*named, *(one for one in pulls if self.mismatch([wire.name], one) is None)]
            found = Component((wire.name,), 1, tuple(both)) if both else None
        found = found or self.smallest([wire.name], [(), *stuck, *pulls], DEEP)
        return self.with_row(wire, found)

    def with_row(self, wire: Wire, found: Optional[Component]) -> Optional[Component]:
        """Returns a component with one choice more: every pin that is wrong is open. It may be
        the cheapest beside other open pins of their parts."""
        row = self.all_open(wire)
        if found is None or row is None or row.count <= found.count:
            return found or row
        return Component(found.nets, found.count, (*found.choices, *row.choices))

    def named(self, nets: tuple[str, ...], faults: Iterable[Fault]) -> list[Choice]:
        """Returns the faults that btest names for just these nets. Each gives the bits of the
        other logs, too, if there are any."""
        mine = (fault for fault in faults if set(fault.nets(self.rows.board)) == set(nets))
        return [(fault,) for fault in mine if self.mismatch(nets, (fault,)) is None]

    def all_open(self, wire: Wire) -> Optional[Component]:
        """Returns the component in which every pin of a net that is wrong is open."""
        choice: Choice = ()
        while True:
            found = self.mismatch([wire.name], choice)
            if found is None:
                return Component((wire.name,), len(choice), (choice,))
            if found.probe.got not in (0, found.probe.mask):
                return None
            pin = Fault("open", (found.probe.pin,), int(bool(found.probe.got)))
            if pin in choice:
                return None
            choice = (*choice, pin)

    # Nets that are tied together

    def tie(self, nets: Sequence[str], opens: int) -> Optional[Component]:
        """Returns the component of a short of these nets."""
        bases = [(Fault(kind, tuple(nets)),) for kind in ("and", "or")]
        for first in nets:
            bases.append((Fault("dom", (first, *(name for name in nets if name != first))),))
        return self.smallest(nets, bases, 1 + opens)

    def swapped(self, one: Wire, other: Wire) -> Optional[Component]:
        """Returns the component of two nets of which two pins are exchanged."""
        names = one.name, other.name
        found = []
        for pin, more in itertools.product(pins_of(one), pins_of(other)):
            if self.mismatch(names, (Fault("swap", (pin, more)),)) is None:
                found.append((Fault("swap", (pin, more)),))
        return Component(names, 1, tuple(found)) if found else None


def pins_of(wire: Wire) -> list[str]:
    """Returns the pins of a net that a cell drives or reads."""
    pins = [source.pin for source in wire.sources] + [probe.pin for probe in wire.probes]
    return list(dict.fromkeys(pins))


class Ties:
    """Finds the shorts and the exchanged pins among nets that differ, with one net that doesn't
    where it must be."""

    def __init__(
        self,
        search: Search,
        differing: Sequence[Wire],
        singles: Mapping[str, int],
        patience: Patience,
    ) -> None:
        self.search, self.rows, self.differing = search, search.rows, list(differing)
        self.singles = singles  # of each net the number of faults that explain it by itself
        self.patience = patience
        self.views = {wire.name: views(wire) for wire in differing}
        self.is_few = len(self.differing) <= FEW
        self.order = {name: at for at, name in enumerate(self.rows.wires)}
        self.cliques: set[frozenset[str]] = set()
        self.found: dict[frozenset[str], Component] = {}
        self.tried: set[frozenset[str]] = set()
        self.alike = {wire.name: self.alike_of(wire) for wire in differing}
        self.silent = {wire.name: self.silent_of(wire) for wire in differing}

    def alike_of(self, wire: Wire) -> set[str]:
        """Returns the other nets that differ and have a cell that reads as one of this net."""
        found = set()
        for other in self.differing:
            if other is not wire and any(
                one.agrees(*two) for one in self.views[wire.name] for two in self.views[other.name]
            ):
                found.add(other.name)
        return found

    def silent_of(self, wire: Wire) -> set[str]:
        """Returns the nets that don't differ, and of which this net reads the bits."""
        mine = [view for view in self.views[wire.name] if not view.is_constant()]
        return {
            other.name
            for other in self.rows.wires.values()
            if other.mask and not other.differs
            for view in mine
            if view.agrees(other.mask, other.expected)
        }

    def keep(self, component: Optional[Component]) -> None:
        """Keeps a component that has no more faults than its nets have by themselves."""
        if component is None:
            return
        alone = sum(self.singles.get(name, 99) for name in component.nets)
        key = frozenset(component.nets)
        before = self.found.get(key)
        if component.count <= alone and (before is None or component.count < before.count):
            self.found[key] = component
        elif before is not None and component.count == before.count:
            choices = tuple(dict.fromkeys((*before.choices, *component.choices)))
            self.found[key] = Component(before.nets, before.count, choices)

    def attempt(self, nets: Iterable[str], opens: int) -> bool:
        """Tries the shorts of some nets. Returns whether one explains them."""
        key = frozenset(nets)
        if 1 < len(key) <= LARGE and key not in self.tried:
            self.tried.add(key)
            names = sorted(key, key=self.order.__getitem__)
            self.keep(self.proved(names) or self.search.tie(names, opens if self.is_few else 0))
        return key in self.found

    def proved(self, names: Sequence[str]) -> Optional[Component]:
        """Returns the component of two nets for which btest named shorts."""
        known = self.search.proved or {}
        faults = dict.fromkeys(fault for name in names for fault in known.get(name, ()))
        named = self.search.named(tuple(names), faults) if len(names) == 2 else []
        return Component(tuple(names), 1, tuple(named)) if named else None

    def all(self) -> list[Component]:
        """Returns all components of two nets and more."""
        for number, wire in enumerate(self.differing):
            self.patience.at(number, len(self.differing), "nets with others")
            for other in sorted(self.silent[wire.name]):
                self.attempt((wire.name, other), WITH_OPENS)
            for cluster in self.clusters(wire.name):
                self.attempt_cluster(cluster)
        pairs = itertools.combinations(self.differing, 2)
        for one, two in pairs if self.is_few else ():
            if self.may_predict(one, two):
                self.attempt((one.name, two.name), WITH_OPENS)
            self.keep(self.search.swapped(one, two))
        return list(self.found.values())

    def clusters(self, name: str) -> Iterator[list[str]]:
        """Yields lists of nets that read alike, with one net."""
        near = sorted(self.alike[name], key=self.order.__getitem__)
        reach = frozenset((name, *near))
        if reach not in self.cliques:
            self.cliques.add(reach)
            clique, others = [name], self.alike[name]
            for other in near:
                if other in others:
                    clique.append(other)
                    others = others & self.alike[other] | {*clique}
            yield clique
        if len(near) < ALIKE:
            yield from ([name, other] for other in near)
            yield from ([name, *pair] for pair in itertools.combinations(near, 2))

    def attempt_cluster(self, cluster: Sequence[str]) -> None:
        """Tries nets that read alike: by themselves, with a net that they read the bits of, and
        with one that differs and of which all cells read a constant."""
        done = self.attempt(cluster, WITH_OPENS)
        if len(cluster) < 2:
            return
        for silent in sorted(set.intersection(*(self.silent[name] for name in cluster)))[:3]:
            self.attempt((*cluster, silent), WITH_OPENS)
        if done:
            return
        for wire in self.differing if self.is_few else ():
            constant = all(view.is_constant() for view in self.views[wire.name])
            if constant and wire.name not in cluster:
                self.attempt((*cluster, wire.name), WITH_OPENS)

    def may_predict(self, one: Wire, other: Wire) -> bool:
        """Returns whether a short of two nets gives a cell of either what it reads."""
        names = (one.name, other.name)
        for kind, order in itertools.product(("and", "or", "dom"), (names, names[::-1])):
            levels = self.rows.levels(names, faults_of([Fault(kind, order)]))
            for name in names:
                wire = self.rows.wires[name]
                for probe in wire.probes:
                    wrong = (probe.got ^ wire.expected) & probe.mask
                    if wrong and not (levels[name].bits ^ probe.got) & probe.mask:
                        return True
        return False
