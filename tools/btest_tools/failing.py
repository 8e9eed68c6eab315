"""What is said of a board that failed: btest's answer, its nets, and the sets of faults."""

from __future__ import annotations

import itertools
from collections.abc import Iterator, Sequence
from dataclasses import dataclass, field
from typing import Optional

from btest_tools.asking import MOST, ask
from btest_tools.board import Board, part_of
from btest_tools.btest import LOG, Btest
from btest_tools.explaining import words
from btest_tools.explaining.faults import Fault, fault_of
from btest_tools.explaining.nearness import Nearness
from btest_tools.explaining.rows import Log, rows_of
from btest_tools.explaining.sets import Explained, explain
from btest_tools.files import Text
from btest_tools.logs import Failing, facts, failing, some, table
from btest_tools.scans import LogRow, Test

WALKING = 2000  # nets of a board whose walking test is looked at
WALK = "The walking test tells the first set from another; --with-walk takes its log into account."


@dataclass
class Bench:
    """A board with the files and the program that answer for it. `test` is that of `btest svf`,
    made when it is needed."""

    btest: Btest
    files: Sequence[str]
    board: Board
    nearness: Nearness
    tests: dict[str, Test] = field(default_factory=dict)

    def test(self, command: str = "svf") -> Test:
        """Returns the test that a command prints."""
        if command not in self.tests:
            self.tests[command] = Test(self.btest.run(command, *self.files))
        return self.tests[command]


@dataclass
class Look:
    """What is known of a board that failed."""

    head: str  # PASS or FAIL k
    faults: list[str]  # the single faults that explain the whole log
    found: list[Failing]
    explained: Explained
    walk: str = ""  # what the walking test can do

    @property
    def is_asked(self) -> bool:
        """Whether btest was asked about each net."""
        return len(self.found) <= MOST


def look(bench: Bench, log: Text, walk: Optional[Text] = None) -> Look:
    """Looks at the log of a board, and at the log of its walking test if there is one."""
    answer = bench.btest.run("diagnose", "4", LOG, *bench.files, begin=("PASS\n", "FAIL "), log=log)
    head, *faults = answer.splitlines()
    rows = bench.test().compare(log.lines())
    found = failing(bench.board, bench.test(), rows)
    if found and len(found) <= MOST:
        ask(bench.btest, bench.files, bench.test(), rows, found)
    logs: list[Log] = [(bench.test(), rows)]
    if walk:
        bench.btest.run("groups", LOG, *bench.files, begin="GROUPS ", log=walk)
        logs.append((bench.test("walk"), bench.test("walk").compare(walk.lines())))
    explained = explain(bench.board, logs, bench.nearness, proved_of(found))
    hint = "" if walk or explained.count < 2 else walk_hint(bench, explained)
    return Look(head, faults, found, explained, hint)


def proved_of(found: Sequence[Failing]) -> Optional[dict[str, list[Fault]]]:
    """Returns what btest named for each net, if it was asked."""
    if len(found) > MOST:
        return None
    return {one.name: [fault_of(line) for line in (*one.alone, *one.pairs)] for one in found}


def walk_hint(bench: Bench, explained: Explained) -> str:
    """Returns whether the walking test can tell the sets apart."""
    if len(bench.board.nets) > WALKING:
        return ""
    test = bench.test("walk")
    good = [LogRow(expected, 0) for _, expected in test.wanted()]
    told = [one for rank in explained.ranks for one in rank]
    nets = {name for one in told for name in explained.rows.touched(one.faults())}
    walk = rows_of(bench.board, [(test, good)], sorted(nets))
    return WALK if good and words.walk_tells(explained, walk) else ""


def show(bench: Bench, seen: Look) -> Iterator[str]:
    """Yields what is printed of a board that failed."""
    yield from [seen.head, *(f"  {fault}" for fault in seen.faults)]
    if not seen.found and not seen.explained.differing:
        return
    many = len(seen.found) > MOST
    if many:
        yield f"\n{len(seen.found)} nets differ."
        yield from by_parts(seen.found)
    else:
        yield (
            "\nBits are in the order of the rows of a pass, with x where they differ; - is a pin "
            "that is not compared."
        )
        yield from itertools.chain.from_iterable(section(one, seen) for one in seen.found)
    yield ""
    yield from words.text(bench.board, seen.explained, bench.nearness, seen.walk)


def section(one: Failing, seen: Look) -> Iterator[str]:
    """Yields what is printed of a net that differs."""
    links = f"; LINK {some(one.net.links)}" if one.net.links else ""
    links += f" joins {some(one.net.joined)}" if len(one.net.joined) > 1 else ""
    count = f"{len(one.wrong)} of {len(one.pins)} receivers differ"
    yield f"\n{f'NET {one.name}':29} {count}{links}"
    yield from table(one)
    yield from (f"  {fact}" for fact in facts(one, seen.found, seen.is_asked))


def by_parts(found: Sequence[Failing]) -> Iterator[str]:
    """Yields a line for each part that has pins that differ, most first."""
    nets: dict[str, dict[str, int]] = {}
    for one in found:
        for pin in one.wrong:
            here = nets.setdefault(part_of(pin), {})
            here[one.name] = here.get(one.name, 0) + 1
    for part, counts in sorted(nets.items(), key=lambda item: -sum(item[1].values())):
        yield f"  {part}: {sum(counts.values())} pins differ: {some(list(counts))}"
