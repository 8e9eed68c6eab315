"""Asking btest about nets one by one: which single faults give the bits of one net, or of two."""

from __future__ import annotations

import concurrent.futures
import itertools
import os
import re
import tempfile
from collections.abc import Iterator, Sequence
from typing import IO

from btest_tools.btest import Btest
from btest_tools.files import tell
from btest_tools.logs import Failing
from btest_tools.scans import LogRow, Test

LIMIT = 64 << 20  # bytes of a text of logs
MOST = 100  # nets that btest is asked about one by one

Group = tuple[Failing, ...]


class Masked:
    """Logs in which some nets have the bits that came, and all others those that are wanted."""

    def __init__(self, test: Test, rows: Sequence[LogRow]) -> None:
        self.width = (test.size + 3) // 4
        self.rows = [(self.line(row.expected), row) for row in rows]
        self.size = len(rows) * (self.width + 1)

    def line(self, row: int) -> bytes:
        """Returns a row as a line of a log."""
        return b"%0*X\n" % (self.width, row)

    def write(self, file: IO[bytes], group: Group) -> None:
        """Writes the log of some nets."""
        places = {reader.place for one in group for reader in one.net.readers}
        mask = sum(1 << place for place in places)
        for line, row in self.rows:
            bits = row.wrong & mask
            few = len(places) < 9  # then it is less work to turn digits than to print the row
            file.write(changed(line, bits) if few else self.line(row.expected ^ bits))


def changed(line: bytes, bits: int) -> bytes:
    """Returns a line of a log with some bits turned."""
    while bits:
        place = bits.bit_length() - 1
        at, bits = len(line) - 2 - place // 4, bits ^ 1 << place
        digit = int(line[at : at + 1], 16) ^ 1 << place % 4
        line = line[:at] + b"%X" % digit + line[at + 1 :]
    return line


def ask(
    btest: Btest, files: Sequence[str], test: Test, rows: Sequence[LogRow], found: Sequence[Failing]
) -> None:
    """Gives each net the faults that btest names for it alone, and for it with each other net
    that may be one short with it."""
    masked = Masked(test, rows)
    pairs = (pair for pair in itertools.combinations(found, 2) if pair[0].may_join(pair[1]))
    most = max(MOST, 16 * LIMIT // max(1, masked.size))
    groups: list[Group] = [(one,) for one in found] + list(itertools.islice(pairs, most))
    many = max(1, LIMIT // (masked.size + 8))  # logs in one text
    begins = range(0, len(groups), many)

    def answers(begin: int) -> list[str]:
        return ask_batch(btest, files, masked, groups[begin : begin + many], many)

    with concurrent.futures.ThreadPoolExecutor(min(4, os.cpu_count() or 1)) as pool:
        for begin, texts in zip(begins, pool.map(answers, begins)):
            for group, text in zip(groups[begin:], texts):
                keep(group, text.splitlines())
            if len(begins) > 1:
                done = min(len(groups), begin + many)
                tell(f"explained: {done} of {len(groups)} nets and pairs of nets")


def keep(group: Group, faults: Sequence[str]) -> None:
    """Gives nets what btest answered of them."""
    for one in group:
        (one.alone if len(group) == 1 else one.pairs).extend(faults)


def ask_batch(
    btest: Btest, files: Sequence[str], masked: Masked, groups: Sequence[Group], many: int
) -> list[str]:
    """Returns what btest says of each log of a batch. A log at the limit has no room for a
    title, so it is asked about by itself."""
    command, title = ("batch", b"BOARD 0\n") if many > 1 else ("diagnose", b"")
    with tempfile.NamedTemporaryFile(buffering=1 << 20) as file:
        for group in groups:
            file.write(title)
            masked.write(file, group)
        file.truncate(file.tell() - 1)
        file.flush()
        text = btest.run(command, "2", file.name, *files)
    return re.split(r"(?m)^(?:BOARD 0\n)?(?:PASS|FAIL \d+)\n", text)[1:]


def lines_of(found: Sequence[Failing]) -> Iterator[str]:
    """Yields all faults that btest named, each once."""
    yield from dict.fromkeys(fault for one in found for fault in (*one.alone, *one.pairs))
