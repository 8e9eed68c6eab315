"""Which nets of a board differ in a log, at which pins and in which bits."""

from __future__ import annotations

import functools
import itertools
import operator
import sys
from collections.abc import Iterable, Iterator, Sequence
from dataclasses import dataclass, field
from typing import Optional

from btest_tools.board import Board, Net
from btest_tools.scans import LogRow, Test

# Of each pass the bits that came at a cell, or None if the cell isn't compared in it.
Reads = Sequence[Optional[str]]


@dataclass
class Column:
    """Passes in which every pin reads the same wherever it is compared."""

    passes: list[int]
    bits: list[Optional[str]]  # by the cells


@dataclass
class Failing:
    """A net that differs. `expected` has the bits that are wanted in the rows of a pass."""

    net: Net
    expected: str
    readers: list[tuple[str, Reads]]  # of each cell that reads the net its pin and its bits
    drivers: list[list[str]]  # of each pass the pins that drive the net
    alone: list[str] = field(default_factory=list)  # what btest says of this net by itself
    pairs: list[str] = field(default_factory=list)  # and together with one other net

    @property
    def name(self) -> str:
        """The name of the net."""
        return self.net.name

    @functools.cached_property
    def reads(self) -> list[Optional[str]]:
        """Of each pass the bits that all cells read; an empty text if they aren't at one, None if
        none is compared."""
        found: list[Optional[str]] = []
        for column in zip(*(reads for _, reads in self.readers)):
            seen = {bits for bits in column if bits}
            found.append(min(seen) if len(seen) == 1 else "" if seen else None)
        return found

    @functools.cached_property
    def pins(self) -> list[str]:
        """The pins that are compared."""
        return list(dict.fromkeys(pin for pin, reads in self.readers if any(reads)))

    @functools.cached_property
    def wrong(self) -> list[str]:
        """The pins that differ."""
        right = {None, self.expected}
        return list(dict.fromkeys(pin for pin, reads in self.readers if {*reads} - right))

    def is_like(self, other: Failing) -> bool:
        """Returns whether two nets read the same bits wherever both are read."""
        both = {(a, b) for a, b in zip(self.reads, other.reads) if a is not None and b is not None}
        return bool(both) and all(a and a == b for a, b in both)

    def may_join(self, other: Failing) -> bool:
        """Returns whether two nets are alike, and read what is expected of both in the rows in
        which that is the same. No other two nets are one short."""
        if not self.is_like(other):
            return False
        wanted = list(zip(self.expected, other.expected))
        both = {bits for bits, more in zip(self.reads, other.reads) if bits and more}
        return all(bit in pair for bits in both for bit, pair in zip(bits, wanted))

    def columns(self, most: int = 12) -> list[Column]:
        """Returns the passes, those together that look the same. Beyond `most` columns they are
        left out."""
        columns: list[Column] = []
        for at, bits in enumerate(zip(*(reads for _, reads in self.readers)), 1):
            same = (
                column
                for column in columns
                if all(a == b or not a or not b for a, b in zip(bits, column.bits))
            )
            column = next(same, None)
            if column:
                column.passes.append(at)
                column.bits = [a or b for a, b in zip(column.bits, bits)]
            elif any(bits) and len(columns) < most:
                columns.append(Column([at], list(bits)))
        return columns


def differing(board: Board, rows: Iterable[LogRow]) -> list[Net]:
    """Returns the nets with a cell that differs in a row."""
    places = functools.reduce(operator.or_, (row.wrong for row in rows), 0)
    return [
        net
        for net in board.nets.values()
        if any(places >> reader.place & 1 for reader in net.readers)
    ]


def failing(board: Board, test: Test, rows: Sequence[LogRow]) -> list[Failing]:
    """Returns the nets that differ, each with its bits of all rows."""
    nets = differing(board, rows)
    places = [test.size - 1 - reader.place for net in nets for reader in net.readers]
    # Bits are picked from rows as texts, since to shift a row for each bit is slow. One place
    # more is picked, so that there are two at least.
    pick = operator.itemgetter(*places, 0)
    reads, left = [], iter(rows)
    for one in test.passes if nets else ():
        taken = [row.got for row in itertools.islice(left, len(one.expected))]
        mask, *came = (pick(f"{row:0{test.size}b}") for row in (one.mask, *taken))
        bits = ("".join(column) for column in zip(*came))
        reads.append(
            [sys.intern(b) if compared == "1" else None for compared, b in zip(mask, bits)]
        )
    cells = zip(*reads)
    found = []
    for net in nets:
        readers: list[tuple[str, Reads]] = [(reader.pin, next(cells)) for reader in net.readers]
        found.append(Failing(net, test.expected(net), readers, test.drivers(net)))
    return found


# Words that the program and the pages share


def spans(numbers: Iterable[int]) -> str:
    """Returns rising numbers as 1-3, 5."""
    runs: list[list[int]] = []
    for number in numbers:
        if runs and number == runs[-1][-1] + 1:
            runs[-1].append(number)
        else:
            runs.append([number])
    return ", ".join(f"{run[0]}-{run[-1]}" if len(run) > 1 else str(run[0]) for run in runs)


def some(items: Sequence[str], most: int = 8) -> str:
    """Returns a list as text, cut off after `most` items."""
    more = f" and {len(items) - most} more" if len(items) > most else ""
    return ", ".join(items[:most]) + more


def facts(one: Failing, found: Sequence[Failing], asked: bool) -> Iterator[str]:
    """Yields what is plainly so of a net. `asked` says whether btest was asked about each net."""
    for bit in "01":
        if {*one.reads} - {None} == {bit * len(one.expected)}:
            yield f"reads {bit} at all receivers in every row"
    if len(one.wrong) == 1 < len(one.pins):
        yield f"{one.wrong[0]} alone differs, the other receivers are right"
    alike = (other.name for other in found if asked and other is not one and one.is_like(other))
    others = some(list(alike))
    if others:
        yield f"reads the same bits as {others} wherever both are read"
    driven = some([f"{pin} in pass {spans(passes)}" for pin, passes in driven_in(one)])
    yield f"driven by {driven}"
    if asked:
        yield "explained by itself: " + (", ".join(one.alone) or "by no single fault")
        yield from (f"explained with another net: {fault}" for fault in one.pairs)


def driven_in(one: Failing) -> Iterator[tuple[str, list[int]]]:
    """Yields the pins that drive a net while it is read, with the numbers of the passes."""
    for pin in dict.fromkeys(itertools.chain(*one.drivers)):
        passes = [
            at
            for at, pins in enumerate(one.drivers, 1)
            if pin in pins and one.reads[at - 1] is not None
        ]
        if passes:
            yield pin, passes


Cells = list[str]


def table(one: Failing, room: int = 100) -> Iterator[str]:
    """Yields the bits of each pin: passes side by side, and in one line the pins that read alike
    if there are many."""
    columns = one.columns()
    grouped: dict[str, tuple[Cells, list[str]]] = {}
    for at, (pin, _) in enumerate(one.readers):
        cells = [bits_of(one.expected, column.bits[at]) for column in columns]
        key = str(cells) if len(one.readers) > 16 else str(at)
        grouped.setdefault(key, (cells, []))[1].append(pin)
    heads = [
        f"pass {spans(column.passes)}" + ": expected / got" * (at == 0)
        for at, column in enumerate(columns)
    ]
    rows = [(heads, ["pin"]), *grouped.values()]
    first = 3 + max(len(some(pins, 1)) for _, pins in rows)
    wide = 3 + max(len(cell) for cells, _ in rows for cell in cells)
    side = max(1, (room - first) // wide)  # so many passes are side by side
    for begin in range(0, len(columns), side):
        for cells, pins in rows:
            shown = "".join(f"{cell:{wide}}" for cell in cells[begin : begin + side])
            yield f"  {some(pins, 1):{first}}{shown}".rstrip()


def bits_of(expected: str, got: Optional[str]) -> str:
    """Returns the bits of a cell beside those that are wanted, with an x at each that differs."""
    if not got:
        return "-"
    marks = "".join(".x"[a != b] for a, b in zip(expected, got))
    return f"{expected} / {got}  {marks}"
