"""What a day's attempts say: the yield by serial number, and the faults by part and by net."""

from __future__ import annotations

import collections
from collections.abc import Container, Iterable, Mapping, Sequence
from dataclasses import dataclass, field

from btest_tools.board import part_of
from btest_tools.station.record import Attempt, Finding
from btest_tools.station.stages import TWICE

JUDGED = ("PASS", "FAIL", "CHAIN", "PART")  # the verdicts about a board; others are about a bench


@dataclass
class Tested:
    """A board with all its attempts up to the end of a day, in their order. `always_passed` says
    whether each of them is a pass, so that there is nothing to explain."""

    __slots__ = ("serial", "attempts", "always_passed")

    serial: str
    attempts: list[Attempt]
    always_passed: bool

    @property
    def number(self) -> int:
        """The number of its first attempt, which names it among all boards."""
        return self.attempts[0].number

    def last_of(self, day: str) -> Attempt:
        """Returns its last attempt of a day, on which it has one."""
        last = self.attempts[-1]
        if last.day == day:  # but for a clock that went back
            return last
        return next(one for one in reversed(self.attempts) if one.day == day)

    @property
    def judged(self) -> list[Attempt]:
        """The attempts that judge the board."""
        return [one for one in self.attempts if one.verdict in JUDGED]


@dataclass
class Yield:
    """How many boards were tested and judged, and how many of those passed."""

    boards: int
    judged: int
    first: int
    after_repair: int

    @property
    def failed(self) -> int:
        """How many boards did not pass in the end."""
        return self.judged - self.first - self.after_repair


def boards_of(attempts: Sequence[Attempt]) -> list[Tested]:
    """Returns the boards of a day. `attempts` has all attempts of these boards, in their order."""
    boards: dict[str, list[Attempt]] = {}
    for one in attempts:
        boards.setdefault(one.serial, []).append(one)
    others = {one.serial for one in attempts if one.verdict != "PASS"}
    return [Tested(serial, found, serial not in others) for serial, found in boards.items()]


def yield_of(boards: Sequence[Tested]) -> Yield:
    """Returns the yield of a day's boards. A board that passed at first and failed later isn't
    among those that passed."""
    others = [board.judged for board in boards if not board.always_passed]
    always = len(boards) - len(others)
    judged = [attempts for attempts in others if attempts]
    passed = [attempts for attempts in judged if attempts[-1].verdict == "PASS"]
    first = sum(attempts[0].verdict == "PASS" for attempts in passed)
    return Yield(len(boards), always + len(judged), always + first, len(passed) - first)


@dataclass
class Fault:
    """What boards had in common: a fault, or several that give the same bits."""

    names: tuple[str, ...]
    runs: str  # in how many of two runs it was there, if not in both
    boards: list[Tested] = field(default_factory=list)


def faults_of(
    boards: Iterable[Tested],
    day: str,
    findings: Mapping[int, Finding],
    marks: Mapping[int, str],
    unread: Container[int] = (),
) -> list[Fault]:
    """Returns the faults of a day, the most frequent first. A board counts once for each. `marks`
    are the fingerprints of the logs of the attempts. Attempts in `unread` say nothing."""
    faults: dict[tuple[tuple[str, ...], str], Fault] = {}
    for board in (one for one in boards if not one.always_passed):
        keys = dict.fromkeys(
            (key_of(one, findings, marks), runs_of(one))
            for one in board.judged
            if one.day == day and one.verdict != "PASS" and one.number not in unread
        )
        for key in keys:
            faults.setdefault(key, Fault(*key)).boards.append(board)
    return sorted(faults.values(), key=lambda fault: -len(fault.boards))


def key_of(
    attempt: Attempt, findings: Mapping[int, Finding], marks: Mapping[int, str]
) -> tuple[str, ...]:
    """Returns what attempts with the same fault have in common."""
    if attempt.verdict != "FAIL":
        return (f"{attempt.verdict.lower()}: {attempt.says}",)
    finding = findings.get(attempt.number)
    if finding and finding.faults:
        return finding.faults
    return (f"no single fault; log {marks.get(attempt.number, '')[:8]}",)


def runs_of(attempt: Attempt) -> str:
    """Returns in how many of two runs a fault was there, or nothing if in both with equal bits."""
    if attempt.runs in ("", TWICE):
        return ""
    return f"{TWICE}, bits differ" if attempt.runs.startswith(TWICE) else attempt.runs


def places_of(fault: Fault, net_of: Mapping[str, str]) -> tuple[set[str], set[str]]:
    """Returns the parts and the nets that a fault may be at."""
    parts: set[str] = set()
    nets: set[str] = set()
    for name in (one for names in fault.names for one in names.split(" with ")):
        kind, *words = name.split()
        if kind in ("stuck", "pull"):
            nets.add(words[0])
        elif kind == "short":
            nets.update(words[1:])
        elif kind in ("open", "swap"):
            pins = [word for word in words if word in net_of]
            parts.update(part_of(pin) for pin in pins)
            nets.update(net_of[pin] for pin in pins)
        elif kind == "part:" and "wrong part " in name:
            parts.update(piece.split(":")[0] for piece in name.split("wrong part ")[1:])
    return parts, nets


def counts(faults: list[Fault], net_of: Mapping[str, str]) -> list[list[tuple[str, int]]]:
    """Returns how many boards have a fault at each part and at each net, the most first."""
    by_part: dict[str, set[str]] = collections.defaultdict(set)
    by_net: dict[str, set[str]] = collections.defaultdict(set)
    for fault in faults:
        for found, names in zip((by_part, by_net), places_of(fault, net_of)):
            for name in names:
                found[name].update(board.serial for board in fault.boards)
    counted = ([(name, len(boards)) for name, boards in one.items()] for one in (by_part, by_net))
    return [sorted(rows, key=lambda row: (-row[1], row[0])) for rows in counted]
