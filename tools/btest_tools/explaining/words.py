"""What is found, in words: the ranks, and what to do next."""

from __future__ import annotations

from collections import Counter
from collections.abc import Iterator, Sequence
from dataclasses import dataclass, field

from btest_tools.board import Board, part_of
from btest_tools.explaining.candidates import Component
from btest_tools.explaining.faults import Choice, Fault, parts_of, resistors
from btest_tools.explaining.nearness import Nearness
from btest_tools.explaining.prices import Reading
from btest_tools.explaining.rows import Rows
from btest_tools.explaining.sets import Explained, Explanation
from btest_tools.explaining.weights import CAUSES, EQUALS
from btest_tools.logs import some
from btest_tools.model import SHORTS

CHOICES = 4  # choices of one component that are told; the others are counted
MANY = 16  # pins in one line, and lines of one set
SUPPLY = "So many nets at several parts: look at the supplies and at the contacts first."
NUMBERS = ("no", "one", "two", "three", "four")


def with_faults(choice: Choice) -> str:
    """Returns a choice as text."""
    return " with ".join(fault.line() for fault in choice)


def counted(number: int, what: str) -> str:
    """Returns a number of things as text."""
    return f"{NUMBERS[number] if number < len(NUMBERS) else number} {what}" + "s" * (number != 1)


@dataclass
class Rank:
    """A set of faults as it is told. `lines` has its causes, `equals` other sets of this rank."""

    number: int
    head: str
    lines: list[str]
    next: str = ""
    equals: list[list[str]] = field(default_factory=list)


class Teller:
    """Tells of the sets that explain logs of a board."""

    def __init__(self, board: Board, nearness: Nearness) -> None:
        self.board, self.nearness = board, nearness

    # Causes

    def part_rows(self, reading: Reading) -> dict[str, list[Fault]]:
        """Returns the open pins, and the missing pulls, of each part that has more than one."""
        rows: dict[str, list[Fault]] = {}
        for fault in (fault for choice in reading.choices for fault in choice):
            for part in parts_of(self.board, fault)[:1]:
                rows.setdefault(part, []).append(fault)
        return {part: row for part, row in rows.items() if len(row) > 1}

    def causes(self, explanation: Explanation, reading: Reading) -> Iterator[str]:
        """Yields a line for each cause."""
        rows = self.part_rows(reading)
        for part, row in rows.items():
            kind = "open pins" if row[0].kind == "open" else "pulls that are missing"
            yield f"{part}, {len(row)} {kind}: {some([self.at_part(fault) for fault in row], MANY)}"
        in_rows = {fault for row in rows.values() for fault in row}
        for component, choice in zip(explanation.components, reading.choices):
            if not set(choice) <= in_rows:
                yield self.component(component, choice)

    def lines(self, explanation: Explanation, reading: Reading) -> list[str]:
        """Returns the lines of the causes, the first of them if there are many."""
        lines = list(self.causes(explanation, reading))
        more = len(lines) - MANY
        return [*lines[:MANY], *([f"and {more} more"] if more > 0 else [])]

    def at_part(self, fault: Fault) -> str:
        """Returns a fault of a row of pins at one part."""
        net = fault.nets(self.board)[0]
        return f"{fault.names[0]} {fault.value} ({net})" if fault.kind == "open" else fault.line()

    def component(self, component: Component, choice: Choice) -> str:
        """Returns a component with the smallest choices for it, a given one first."""
        choices = [choice, *(one for one in component.smallest() if one != choice)]
        told = " or ".join(self.choice(one) for one in choices[:CHOICES])
        more = f" or {len(choices) - CHOICES} more" if len(choices) > CHOICES else ""
        return f"{some(component.nets)}: {told}{more}"

    def choice(self, choice: Choice) -> str:
        """Returns a choice, with the resistors of a missing pull."""
        pulls = [fault for fault in choice if fault.kind == "pull"]
        pins = [pin for fault in pulls for pin in resistors(self.board, fault.names[0])]
        return with_faults(choice) + (f" (at {some(pins)})" if pins else "")

    # What to do next

    def next_step(self, explanation: Explanation) -> str:
        """Returns what to do about an explanation."""
        reading = explanation.readings[0]
        rows = self.part_rows(reading)
        steps = [f"look at the {self.pins(row)} of {part}" for part, row in rows.items()]
        in_rows = {fault for row in rows.values() for fault in row}
        for component, choice in zip(explanation.components, reading.choices):
            if not set(choice) <= in_rows:
                steps.append(self.step(component, choice))
        return "; ".join(steps[:4])

    def pins(self, row: Sequence[Fault]) -> str:
        """Returns the names of the pins of a row, without the part's."""
        names = [fault.names[0] for fault in row]
        if row[0].kind == "pull":
            names = [resistors(self.board, name)[0] for name in names]
        return "pins " + some([name.partition(".")[2] for name in names], 6)

    def step(self, component: Component, choice: Choice) -> str:
        """Returns what to do about one component."""
        short = next((fault for fault in choice if fault.kind in SHORTS), None)
        small = [fault for one in component.smallest() for fault in one]
        opens = [fault.names[0] for fault in small if fault.kind == "open"]
        pulls = [fault.names[0] for fault in small if fault.kind == "pull"]
        opens += [pin for name in dict.fromkeys(pulls) for pin in resistors(self.board, name)]
        if short:
            mine = [fault.names[0] for fault in choice if fault.kind == "open"]
            look = f", then look at {some(mine)}" if mine else ""
            return f"measure between {self.probes(short.names)}{look}"
        if choice[0].kind == "swap":
            return f"see whether {' and '.join(choice[0].names)} are exchanged"
        stuck = any(fault.kind == "stuck" for fault in small)
        name, pin = component.nets[0], self.board.nets[component.nets[0]].pins[0]
        supply = f"measure {name}, as at {pin}, against the supplies"
        look = f"look at {some(list(dict.fromkeys(opens)), 4)}"
        return "; ".join([look] * bool(opens) + [supply] * stuck)

    def probes(self, nets: Sequence[str]) -> str:
        """Returns the pins between which a short is measured, side by side where there are such."""
        pairs = zip(nets, nets[1:])
        found = [self.nearness.between(*pair) or self.first_pins(*pair) for pair in pairs]
        named = [f"{a} ({self.net(a)}) and {b} ({self.net(b)})" for a, b in found]
        return some(named, 4)

    def first_pins(self, one: str, other: str) -> tuple[str, str]:
        """Returns pins of two nets, at one part if there is one."""
        mine, others = (self.board.nets[name].pins for name in (one, other))
        parts = {part_of(pin): pin for pin in reversed(others)}
        for pin in mine:
            if part_of(pin) in parts:
                return pin, parts[part_of(pin)]
        return mine[0], others[0]

    def net(self, pin: str) -> str:
        """Returns the name of a pin's net."""
        return self.board.net_of[pin].name

    # Ranks

    def ranks(self, explained: Explained) -> Iterator[Rank]:
        """Yields the ranks."""
        for number, explanations in enumerate(explained.ranks, 1):
            first = explanations[0]
            head = counted(first.causes, "cause")
            rank = Rank(number, head, self.lines(first, first.readings[0]))
            if number == 1:
                rank.next = self.next_step(first)
            others = [(first, one) for one in first.readings[1:]]
            others += [(one, one.readings[0]) for one in explanations[1:]]
            others = others if first.causes <= CAUSES else []  # too long for what it says
            rank.equals = [self.lines(*other) for other in others[:EQUALS]]
            if len(others) > EQUALS:
                rank.equals.append([f"{len(others) - EQUALS} more sets"])
            yield rank


def walk_tells(explained: Explained, walk: Rows) -> bool:
    """Returns whether the walking test of a board, here without its log, tells the first set from
    any other that is told."""
    told = [one for rank in explained.ranks for one in rank]
    seen = [signature(walk, one) for one in told]
    return any(one != seen[0] for one in seen[1:])


def signature(walk: Rows, explanation: Explanation) -> frozenset[tuple[str, str, int]]:
    """Returns what a test would show of an explanation: the rows in which each cell differs."""
    faults = explanation.faults()
    found = walk.mismatches(walk.touched(faults), faults)
    return frozenset((one.net, one.probe.pin, one.rows) for one in found)


def at_parts(explained: Explained) -> str:
    """Returns at which parts the cells are that differ, with how many each has."""
    count: Counter[str] = Counter()
    for wire in explained.rows.differing():
        for probe in wire.probes:
            if (probe.got ^ wire.expected) & probe.mask:
                count[part_of(probe.pin)] += 1
    most = [f"{part} ({number})" for part, number in count.most_common()]
    if len(most) == 1:
        return f"All pins that differ are at {next(iter(count))}."
    return f"Pins that differ are at {some(most)}."


def where(explained: Explained) -> Iterator[str]:
    """Yields at which parts the pins are, if that says something, and whether to look at the
    supplies before all else."""
    if len(explained.differing) > 2:
        yield at_parts(explained)
    if len(explained.differing) > MANY and causes_of(explained) > CAUSES:
        yield SUPPLY


def causes_of(explained: Explained) -> int:
    """Returns the number of causes of the first set, or of the nets if there is no set."""
    first = explained.ranks[0][0].causes if explained.ranks else 0
    return first or len(explained.differing)


def text(board: Board, explained: Explained, nearness: Nearness, walk: str) -> Iterator[str]:
    """Yields what is told of the sets. `walk` says what the walking test can do."""
    yield from where(explained)
    if not explained.ranks:
        yield "No set of faults that is looked for gives the bits of the log."
        yield from left(explained)
        return
    whole = "every compared bit" if not explained.left else "a part of the log"
    yield f"Sets of faults that give {whole}, the likeliest first:"
    for rank in Teller(board, nearness).ranks(explained):
        yield f"  {rank.number}. {rank.head}"
        yield from (f"       {line}" for line in rank.lines)
        for other in rank.equals:
            yield f"     or {other[0]}"
            yield from (f"       {line}" for line in other[1:])
        if rank.next:
            yield f"     Next: {rank.next}."
    if explained.more:
        yield f"  and {counted(explained.more, 'set')} with more or rarer causes"
    yield from left(explained)
    if walk:
        yield walk


def left(explained: Explained) -> Iterator[str]:
    """Yields what the sets leave."""
    if explained.left:
        yield (
            f"They leave {some(explained.left)}: no faults that are looked for give the bits; a "
            "fault that comes and goes, or a bad contact."
        )
