"""What the log of a walking test says: the groups of `btest groups`, and its rows."""

from __future__ import annotations

from collections.abc import Iterator, Sequence
from dataclasses import dataclass
from typing import Optional

from btest_tools.asking import MOST
from btest_tools.btest import LOG
from btest_tools.failing import Bench
from btest_tools.files import Text
from btest_tools.logs import Failing, differing, failing, some, spans
from btest_tools.scans import LogRow

Ones = dict[int, Optional[set[int]]]  # of each net the rows in which it reads 1, None if unclear


@dataclass
class Walkers:
    """The nets that walk, by the rows in which they carry 1."""

    names: dict[int, str]
    found: dict[str, Failing]  # those that differ, by their names
    ones: Ones

    def named(self, rows: Sequence[int]) -> str:
        """Returns the names of nets."""
        return ", ".join(self.names[row] for row in rows)


def look_at_walk(bench: Bench, log: Text) -> Iterator[str]:
    """Yields what is printed of the log of a walking test."""
    answer = bench.btest.run("groups", LOG, *bench.files, begin="GROUPS ", log=log)
    rows = bench.test("walk").compare(log.lines())
    yield from answer.splitlines()
    names = dict(enumerate((walking_net(bench, row) for row in rows), 1))
    if len(differing(bench.board, rows)) > MOST:
        for number, row in enumerate(rows, 1):
            if row.wrong:
                bits = bin(row.wrong).count("1")
                yield f"row {number} ({names[number]}): {bits} bits differ"
        return
    found = {one.name: one for one in failing(bench.board, bench.test("walk"), rows)}
    walkers = Walkers(names, found, {})
    yield from ["", "row   reads 1 in the rows   net"]
    for number, name in names.items():
        yield from walker_lines(walkers, number, name)
    own = len(names) - len(found)
    yield f"{own} of {len(names)} nets that walk read 1 in their own row alone."
    yield from conclusions(walkers)


def walking_net(bench: Bench, row: LogRow) -> str:
    """Returns the net that carries 1 in a row: the one of which a cell is expected to read 1."""
    nets = differing(bench.board, [LogRow(0, row.expected)])
    return nets[0].name if nets else ""


def walker_lines(walkers: Walkers, number: int, name: str) -> Iterator[str]:
    """Yields the rows in which a net reads 1, and keeps them."""
    failed = walkers.found.get(name)
    seen: dict[tuple[int, ...], list[str]] = {} if failed else {(number,): []}
    for pin, reads in failed.readers if failed else ():
        if reads[0]:
            ones = tuple(row for row, bit in enumerate(reads[0], 1) if bit == "1")
            seen.setdefault(ones, []).append(pin)
    walkers.ones[number] = set(*seen) if len(seen) == 1 else None
    for rows, pins in seen.items() if failed or len(walkers.names) <= MOST else ():
        at_pins = f" at {some(pins)}" * (len(seen) > 1)
        yield f"{number:<5} {spans(rows) or 'none':21} {name}{at_pins}"


def misfits(ones: Ones, full: Sequence[int]) -> list[int]:
    """Returns the rows that no groups give in which a 1 wins. `full` are the nets that read 1 in
    all rows."""
    odd = {at for at, reads in ones.items() if reads is None}.union(full)
    seen: dict[int, set[int]] = {at: set() for at in ones}
    for net, reads in ones.items():
        for at in reads or () if net not in odd else ():
            seen[at].add(net)
    for at, nets in seen.items():
        if at not in nets or any(ones[net] != nets for net in nets):
            odd.add(at)
    return sorted(odd)


def conclusions(walkers: Walkers) -> Iterator[str]:
    """Yields what the rows may mean."""
    ones = walkers.ones
    zeros = [at for at, reads in ones.items() if reads is not None and not reads]
    full = [at for at, reads in ones.items() if reads is not None and len(reads) == len(ones)]
    odd = misfits(ones, full if len(full) < len(ones) else [])
    if odd:
        rows = some([f"{at} ({walkers.names[at]})" for at in odd], MOST)
        yield f"\nRows that fit no set of groups in which a 1 wins: {rows}"
    if full and odd:
        why = "1 in every row, as nets that are stuck at 1 or shorted with one that is."
        yield f"{walkers.named(full)}: {why}"
    if len(zeros) == 1:
        short = "a short with a net that does not walk fits, if a 0 wins in it"
    else:
        short = "a short of them in which a 0 wins fits"
        short += ", and with it all rows" if odd == zeros else ""
    if zeros:
        others = "so do open drivers and nets that are stuck at 0."
        yield f"{walkers.named(zeros)}: 0 in every row; {short}; {others}"
