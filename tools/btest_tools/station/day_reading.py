"""What is known of a day: its boards, what explains their failures, and which logs can be read."""

from __future__ import annotations

import re
from collections.abc import Callable, Iterable, Iterator
from dataclasses import dataclass, field
from functools import lru_cache
from typing import Optional

from btest_tools.board import read_board
from btest_tools.btest import Btest
from btest_tools.files import BadInput
from btest_tools.station import attempts, folder
from btest_tools.station.explanation import explain
from btest_tools.station.folder import Product
from btest_tools.station.record import Attempt, Finding, Log, LogMark, Record
from btest_tools.station.stages import Bench
from btest_tools.station.yields import Tested, boards_of

KEPT = 64  # logs that are kept in memory, since boards with one fault give the same log


@dataclass
class Day:
    """What the pages of a day are made of. `text` returns the log with a fingerprint."""

    name: str
    product: Product
    bench: Bench
    boards: list[Tested]
    findings: dict[int, Finding]
    marks: dict[int, list[LogMark]]  # the logs of the attempts that did not pass
    text: Callable[[str], Optional[str]]
    unread: dict[int, str] = field(default_factory=dict)  # why an attempt isn't explained

    @property
    def title(self) -> str:
        """The product and the day."""
        return f"{self.product.folder.resolve().name}, {self.name}"

    @property
    def net_of(self) -> dict[str, str]:
        """The net of each pin."""
        chain, nets, *bsdls = self.product.files
        return {pin: net.name for pin, net in read_board(chain, nets, bsdls).net_of.items()}

    @property
    def board_marks(self) -> dict[int, str]:
        """The fingerprint of the log of the board's test, for each attempt that has one."""
        return {
            number: mark.fingerprint
            for number, marks in self.marks.items()
            for mark in marks
            if mark.stage == "board"
        }

    def logs(self, attempt: Attempt) -> list[Log]:
        """Returns the logs of an attempt that can be read."""
        texts = ((mark, self.text(mark.fingerprint)) for mark in self.marks.get(attempt.number, ()))
        return [Log(mark.stage, text) for mark, text in texts if text is not None]

    def explain(self, attempt: Attempt) -> None:
        """Sees to it that a failure has a finding, or a reason why there is none."""
        logs, marks = self.logs(attempt), self.marks.get(attempt.number, ())
        try:
            attempts.check_test(self.product, attempt)
            if not marks or len(logs) < len(marks):
                raise BadInput(f"the log of attempt {attempt.number} can't be read")
            if attempt.number not in self.findings:
                name = f"attempt{attempt.number}"
                self.findings[attempt.number] = explain(self.bench, logs, name)
        except BadInput as wrong:
            self.unread[attempt.number] = str(wrong)
            self.findings.pop(attempt.number, None)


def failures_of(boards: Iterable[Tested]) -> Iterator[Attempt]:
    """Yields the attempts that did not pass."""
    for board in boards:
        if not board.always_passed:
            yield from (one for one in board.attempts if one.verdict != "PASS")


def read_day(product: Product, record: Record, btest: Btest, name: Optional[str]) -> Day:
    """Reads the attempts of a day, and asks btest about failures that were never explained."""
    last = record.last()
    if name is not None and not re.fullmatch(r"\d{4}-\d\d-\d\d", name):
        raise BadInput(f"{name} is no day as 2026-05-31")
    if name is None and not last:
        raise BadInput(f"no board was tested with {product.folder}")
    name = name or (last.day if last else "")
    boards = boards_of(record.of_boards_of(name))
    if not boards:
        raise BadInput(f"no board was tested on {name}")
    folder.check_btest(product, btest)
    failures = list(failures_of(boards))
    numbers = [one.number for one in failures]
    findings, marks = record.findings(numbers), record.log_marks(numbers)
    text = lru_cache(KEPT)(record.log_text)
    day = Day(name, product, Bench(product, btest), boards, findings, marks, text)
    for attempt in failures:
        if attempt.verdict == "FAIL":
            day.explain(attempt)
    return day
