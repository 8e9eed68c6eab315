"""What explains the failure of a board: the faults that give its logs, and lines to read."""

from __future__ import annotations

from collections.abc import Sequence
from typing import Optional

from btest_tools.explaining.placed import neighbor_lines
from btest_tools.explaining.sets import Explained
from btest_tools.explaining.words import Teller
from btest_tools.failing import Look, look, show
from btest_tools.files import BadInput, Text
from btest_tools.pages.places import places_section
from btest_tools.station.record import Finding, Log
from btest_tools.station.stages import Bench


def log_of(logs: Sequence[Log], stage: str) -> Optional[Text]:
    """Returns the log of a stage."""
    found = (Text(f"the log of {stage}", log.rows) for log in logs if log.stage == stage)
    return next(found, None)


def explain(bench: Bench, logs: Sequence[Log], name: str = "board") -> Finding:
    """Returns what explains the logs of an attempt that failed. `name` must differ among the
    attempts of a page, since pictures refer to their pieces by it."""
    log = log_of(logs, "board")
    if not log:
        return Finding.of((), (), "")
    try:
        seen = look(bench.failing, log, log_of(logs, "walk"))
        lines = [*show(bench.failing, seen), *neighbor_lines(seen.explained, bench.nearness)]
        shown = picture(bench, seen, name)
    except BadInput as wrong:
        return Finding.of((), (f"the log can't be explained: {wrong}",), "")
    details = "".join(f"{line}\n" for line in lines)
    return Finding.of(faults_of(seen), first_lines(bench, seen), details, shown)


def picture(bench: Bench, seen: Look, name: str) -> str:
    """Returns the pictures of the board, if the folder says where its pins are."""
    if not bench.places:
        return ""
    return places_section(bench.failing.board, seen, bench.places, name)


def faults_of(seen: Look) -> tuple[str, ...]:
    """Returns the faults any of which gives the bits: the single ones, else the likeliest set."""
    if seen.faults or not seen.explained.ranks:
        return tuple(seen.faults)
    return (" with ".join(lines_of(seen.explained)),)


def lines_of(explained: Explained) -> list[str]:
    """Returns the faults of the likeliest set."""
    reading = explained.ranks[0][0].readings[0]
    return [fault.line() for choice in reading.choices for fault in choice]


def first_lines(bench: Bench, seen: Look) -> list[str]:
    """Returns the likeliest explanation, and what to do next."""
    found = bench.failing
    rank = next(Teller(found.board, found.nearness).ranks(seen.explained), None)
    if not rank:
        return ["no set of faults that is looked for gives the bits: try the contacts"]
    others = [f"or {'; '.join(lines)}" for lines in rank.equals]
    step = [f"next: {rank.next}"] if rank.next else []
    return [f"likely {rank.head}", *(f"  {line}" for line in rank.lines), *others, *step]
