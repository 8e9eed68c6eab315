"""What a page says of a day's boards."""

from __future__ import annotations

from collections import Counter
from collections.abc import Iterable, Iterator, Sequence
from dataclasses import dataclass
from html import escape

from btest_tools.btest import LOG
from btest_tools.failing import Bench
from btest_tools.files import Text
from btest_tools.logs import differing
from btest_tools.pages.pieces import bars, counted, listing, table

MOST = 20  # nets and faults that come again
NETS, FAULTS = 12, 6  # of a board


@dataclass
class Tested:
    """A board of a batch: its name, btest's answer, and its nets that differ."""

    name: str
    passed: bool
    faults: list[str]
    nets: list[str]

    def answer(self) -> str:
        """Returns the answer for a reader who doesn't know btest."""
        if self.passed:
            return "PASS"
        if not self.faults:
            return "<b>FAIL</b>, no single fault explains it"
        return "<b>FAIL</b>" + (
            f", {len(self.faults)} equal faults" if len(self.faults) > 1 else ""
        )

    def cause(self) -> str:
        """Returns the faults that explain the log as one cause: no log tells them apart."""
        return " or ".join(self.faults[:FAULTS]) + " .." * (len(self.faults) > FAULTS)


def blocks_of(logs: Text) -> Iterator[tuple[str, list[bytes]]]:
    """Yields the boards of a batch that btest has accepted, each as its id and its lines."""
    name = ""
    lines: list[bytes] = []
    for line in logs.lines():
        words = line.split()
        if words[:1] == [b"BOARD"]:
            if name:
                yield name, lines
            name, lines = words[1].decode("latin-1"), []
        elif words:
            lines.append(line)
    if name:
        yield name, lines


def answers_of(lines: Iterable[str]) -> Iterator[list[str]]:
    """Yields the answers of `btest batch`, each as its first line and its faults."""
    answer: list[str] = []
    for line in lines:
        if line.startswith("BOARD "):
            if answer:
                yield answer
            answer = []
        else:
            answer.append(line)
    if answer:
        yield answer


def tested_of(bench: Bench, logs: Text) -> list[Tested]:
    """Returns the boards of a batch."""
    text = bench.btest.run("batch", "4", LOG, *bench.files, log=logs)
    found = []
    for (name, lines), (head, *faults) in zip(blocks_of(logs), answers_of(text.splitlines())):
        passed = head == "PASS"
        rows = [] if passed else bench.test().compare(lines)
        nets = [net.name for net in differing(bench.board, rows)]
        found.append(Tested(name, passed, faults, nets))
    return found


def day_section(bench: Bench, logs: Text) -> Iterator[str]:
    """Yields what is said of a day."""
    boards = tested_of(bench, logs)
    passed = sum(board.passed for board in boards)
    part = f": {100 * passed / len(boards):.1f} %" if boards else ""
    yield f"<h2>The day</h2>\n<p>{counted(len(boards), 'board')}, {passed:,} passed{part}</p>"
    yield bars([("passed", passed), ("failed", len(boards) - passed)], len(boards))
    nets = Counter(net for board in boards for net in board.nets)
    causes = Counter(board.cause() for board in boards if board.faults)
    yield from again("Nets that differ", nets, len(boards))
    yield from again("Faults that explain a whole log", causes, len(boards))
    yield from each(boards)


def again(what: str, counter: Counter[str], boards: int) -> Iterator[str]:
    """Yields what comes again, by the number of boards. A full bar is all boards."""
    if counter:
        more = len(counter) - MOST
        yield f"<h3>{what}, by the number of boards</h3>\n{bars(counter.most_common(MOST), boards)}"
        if more > 0:
            yield f"<p class=quiet>and {more:,} more</p>"


def each(boards: Sequence[Tested]) -> Iterator[str]:
    """Yields a line for each board."""
    heads = ["board", "answer", "nets", "nets that differ", "faults that explain the log"]
    rows = []
    for board in boards:
        nets = listing(board.nets[:NETS]) + " .." * (len(board.nets) > NETS)
        cause = escape(board.cause())
        rows.append((escape(board.name), board.answer(), str(len(board.nets)), nets, cause))
    yield "<h3>Each board</h3>\n" + table(heads, rows, numbers=(2,))
