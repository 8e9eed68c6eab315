"""A quick model of a board under a test: all rows of a net at once.

Bit t of a number belongs to row t of the log, or of several logs of one board, one after the
other. What a net has in every row is then some ANDs and ORs of whole numbers, so that thousands
of sets of faults are tried in a second. btest_tools.model knows the same rules bit by bit and
scan by scan, and shares no code with this module.
"""

from __future__ import annotations

import operator
from collections.abc import Iterable, Sequence
from dataclasses import dataclass, field
from typing import NamedTuple, Optional

from btest_tools.board import Board, Net
from btest_tools.logs import differing
from btest_tools.model import Faults, Short
from btest_tools.scans import LogRow, Test


class Source(NamedTuple):
    """A pin that can drive: the rows in which it does, and its bits."""

    pin: str
    live: int
    bits: int


class Probe(NamedTuple):
    """A cell that reads: the rows in which it is compared, and what came in them."""

    pin: str
    mask: int
    got: int


@dataclass
class Wire:
    """A net under the test. `expected` has the bits of the good board in the rows of `mask`, in
    which some cell is compared. `differs` has the rows in which one is wrong."""

    net: Net
    sources: list[Source]
    probes: list[Probe]
    mask: int
    expected: int
    differs: int

    @property
    def name(self) -> str:
        """The name of the net."""
        return self.net.name


class Level(NamedTuple):
    """What a net has: its bits, and the rows in which nothing decides them."""

    bits: int
    free: int


@dataclass
class Feed:
    """What drives a net by itself: the rows with one sound driver, the bits in them, the rows in
    which its pull holds it, and the bits and rows of an open driver that nothing holds."""

    fed: int = 0
    bits: int = 0
    held: int = 0
    pull: int = 0
    broken: int = 0
    broken_bits: int = 0


class Mismatch(NamedTuple):
    """A cell that a set of faults doesn't explain, with the rows in which it is so."""

    net: str
    probe: Probe
    rows: int


CELLS = 12_000_000  # bits of cells in all rows that are held at once, some 100 MB
Log = tuple[Test, Sequence[LogRow]]


@dataclass
class Rows:
    """All nets of a board in all rows of its logs."""

    board: Board
    size: int  # rows
    wires: dict[str, Wire] = field(default_factory=dict)
    beyond: list[str] = field(default_factory=list)  # nets that differ for which there was no room

    @property
    def all(self) -> int:
        """All rows."""
        return (1 << self.size) - 1

    def differing(self) -> list[Wire]:
        """Returns the nets of which a compared bit isn't the expected one."""
        return [wire for wire in self.wires.values() if wire.differs]

    # What a net has

    def feed(self, wire: Wire, faults: Faults, sources: Sequence[Source]) -> Feed:
        """Returns what drives a net."""
        ever = twice = 0
        feed = Feed()
        for source in sources:
            twice |= ever & source.live
            ever |= source.live
            value = faults.opens.get(source.pin)
            if value is None:
                feed.fed |= source.live
                feed.bits |= source.live & source.bits
            else:
                feed.broken |= source.live
                feed.broken_bits |= source.live if value else 0
        feed.fed &= ~twice
        feed.broken &= ~twice
        pull = faults.pulls.get(wire.name, wire.net.pull)
        if pull is not None:
            feed.held = (self.all & ~ever) | feed.broken
            feed.pull = feed.held if pull else 0
        return feed

    def level(self, feed: Feed) -> Level:
        """Returns what a net has that is neither stuck nor shorted."""
        only = feed.broken & ~feed.held
        bits = feed.bits & feed.fed | feed.pull | feed.broken_bits & only
        return Level(bits, self.all & ~(feed.fed | feed.held | only))

    def shorted(self, short: Short, feeds: Sequence[Feed]) -> Level:
        """Returns what the nets of a short have."""
        fed = combined(short.kind, [(feed.fed, feed.bits) for feed in feeds])
        held = combined(short.kind, [(feed.held, feed.pull) for feed in feeds])
        by_pull = held[0] & ~fed[0]
        return Level(fed[1] | held[1] & by_pull, self.all & ~(fed[0] | by_pull))

    def levels(self, names: Iterable[str], faults: Faults) -> dict[str, Level]:
        """Returns what some nets have. With a net all that are tied to it must be among them."""
        sources = {name: self.wires[name].sources for name in names}
        for one, other in faults.swaps:
            if one in self.board.net_of:
                exchange(
                    sources, self.board.net_of[one].name, self.board.net_of[other].name, one, other
                )
        feeds = {name: self.feed(self.wires[name], faults, mine) for name, mine in sources.items()}
        levels = {name: self.level(feed) for name, feed in feeds.items()}
        for short in faults.shorts:
            level = self.shorted(short, [feeds[name] for name in short.nets])
            levels.update(dict.fromkeys(short.nets, level))
        for name, value in faults.stuck.items():
            levels[name] = Level(self.all if value else 0, 0)
        return levels

    # What is explained

    def touched(self, faults: Faults) -> list[str]:
        """Returns the nets that faults touch."""
        pins = [*faults.opens, *(pin for pair in faults.swaps for pin in pair)]
        shorted = (name for short in faults.shorts for name in short.nets)
        of_pins = (self.board.net_of[pin].name for pin in pins)
        return list(dict.fromkeys([*faults.stuck, *faults.pulls, *shorted, *of_pins]))

    def first_mismatch(self, names: Sequence[str], faults: Faults) -> Optional[Mismatch]:
        """Returns a cell of these nets that the faults don't explain."""
        for found in self.mismatches(names, faults):
            return found
        return None

    def mismatches(self, names: Sequence[str], faults: Faults) -> Iterable[Mismatch]:
        """Yields the cells of these nets that the faults don't explain. A bit that nothing
        decides is not explained."""
        levels = self.levels(names, faults)
        swapped = dict(faults.swaps)
        swapped.update({other: one for one, other in faults.swaps})
        for name in names:
            own = levels[name]
            for probe in self.wires[name].probes:
                value = faults.opens.get(probe.pin)
                if value is not None:
                    rows = (probe.mask if value else 0) ^ probe.got
                elif probe.pin in swapped:
                    bits, free = levels[self.board.net_of[swapped[probe.pin]].name]
                    rows = (bits ^ probe.got | free) & probe.mask
                else:
                    rows = (own.bits ^ probe.got | own.free) & probe.mask
                if rows:
                    yield Mismatch(name, probe, rows)

    def explains(self, faults: Faults) -> bool:
        """Returns whether faults give every compared bit of the logs."""
        names = self.touched(faults)
        left = {wire.name for wire in self.differing()} - set(names)
        return not left and self.first_mismatch(names, faults) is None


def combined(kind: str, parts: Sequence[tuple[int, int]]) -> tuple[int, int]:
    """Combines what several nets have in some rows, by the kind of a short. Returns the rows in
    which at least one has something, and the bits."""
    rows = ones = zeros = 0
    for mask, bits in parts:
        rows |= mask
        ones |= mask & bits
        zeros |= mask & ~bits
    bits = ones if kind == "or" else rows & ~zeros
    if kind == "dom":
        mask, first = parts[0]
        bits = first & mask | bits & ~mask
    return rows, bits


def exchange(
    sources: dict[str, list[Source]], one_net: str, other_net: str, one: str, other: str
) -> None:
    """Exchanges the drivers at two pins."""
    first = [source for source in sources[one_net] if source.pin == one]
    second = [source for source in sources[other_net] if source.pin == other]
    sources[one_net] = [source for source in sources[one_net] if source.pin != one] + second
    sources[other_net] = [source for source in sources[other_net] if source.pin != other] + first


# From the texts


class Columns:
    """Columns of rows: the bits of one place in all of them."""

    def __init__(self, rows: Sequence[int], places: Sequence[int], size: int) -> None:
        self.index = {place: at for at, place in enumerate(places)}
        if not places:
            self.columns: list[int] = []
            return
        # Rows as texts, since to shift a row for each bit is slow. One place more, so that there
        # are two at least.
        pick = operator.itemgetter(*(size - 1 - place for place in places), 0)
        picked = (pick(f"{row:0{size}b}") for row in reversed(rows))
        self.columns = [int("".join(column), 2) for column in zip(*picked)]

    def __getitem__(self, place: int) -> int:
        return self.columns[self.index[place]]


def rows_of(board: Board, logs: Sequence[Log], only: Sequence[str] = ()) -> Rows:
    """Returns the model of a board in the rows of these logs, or that of some nets only."""
    wants, masks, latches, gots = [], [], [], []
    for test, rows in logs:
        for one in test.passes:
            wants += one.expected
            latches += one.shifted
            masks += [one.mask] * len(one.expected)
        gots += [row.got for row in rows]
    result = Rows(board, len(wants))
    nets = [board.nets[name] for name in only]
    nets = nets or taken(result, [row for _, rows in logs for row in rows])
    places = list({place for net in nets for place in places_of(net)})
    tables = [Columns(table, places, board.size) for table in (latches, masks, wants, gots)]
    for net in nets:
        result.wires[net.name] = wire_of(result, net, *tables)
    return result


def places_of(net: Net) -> list[int]:
    """Returns the places of the cells of a net."""
    places = [reader.place for reader in net.readers]
    for driver in net.drivers:
        places += [driver.place, max(driver.control, 0)]
    return places


def taken(rows: Rows, log: Sequence[LogRow]) -> list[Net]:
    """Returns the nets that there is room for: all, or those that differ, or the first of them."""
    room = CELLS // max(1, rows.size)
    nets = list(rows.board.nets.values())
    if sum(len(places_of(net)) for net in nets) <= room:
        return nets
    nets = differing(rows.board, log)
    some: list[Net] = []
    while nets and len(places_of(nets[0])) <= room:
        some.append(nets.pop(0))
        room -= len(places_of(some[-1]))
    rows.beyond = [net.name for net in nets]
    return some


def wire_of(
    rows: Rows, net: Net, latches: Columns, masks: Columns, wants: Columns, gots: Columns
) -> Wire:
    """Returns a net in all rows."""
    sources, probes = [], []
    mask = expected = differs = 0
    for driver in net.drivers:
        live = rows.all
        if driver.control >= 0:
            live = latches[driver.control] ^ (rows.all if driver.disable else 0)
        sources.append(Source(driver.pin, live, latches[driver.place]))
    for reader in net.readers:
        probe = Probe(reader.pin, masks[reader.place], gots[reader.place] & masks[reader.place])
        if probe.mask:
            probes.append(probe)
            mask |= probe.mask
            expected |= wants[reader.place] & probe.mask
            differs |= (wants[reader.place] ^ probe.got) & probe.mask
    return Wire(net, sources, probes, mask, expected, differs)
