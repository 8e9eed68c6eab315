"""The pages of a day: its yield, its faults and its boards.

A board that did not pass at once has a page of its own. Boards that always passed share pages, in
which each has a row.
"""

from __future__ import annotations

import pathlib
from collections.abc import Iterable, Iterator, Sequence
from functools import lru_cache
from html import escape
from typing import Optional

from btest_tools.btest import Btest
from btest_tools.station.day_reading import KEPT, Day, read_day
from btest_tools.station.folder import Product
from btest_tools.station.page_folder import PageFolder
from btest_tools.station.record import Attempt, Finding, Log, Record
from btest_tools.station.yields import Tested, Yield, counts, faults_of, runs_of, yield_of

STYLE = """body{font:15px/1.45 sans-serif;color:#222;max-width:60em;margin:2em auto;padding:0 1em}
h1{font-size:1.5em}h2{font-size:1.15em;margin-top:1.6em}
table{border-collapse:collapse}th,td{text-align:left;padding:.2em .8em .2em 0;vertical-align:top;
border-bottom:1px solid #ddd}td.n{text-align:right}.bad{font-weight:bold;color:#a00}.quiet{color:#666}
:target{background:#ff9}.made{overflow-wrap:anywhere}
pre{overflow:auto;background:#f6f6f6;padding:.6em}@media print{body{margin:0}a{color:inherit}}"""
SHOWN = 40  # rows of a table of counts, and links of a fault
ON_A_PAGE = 1000  # boards that passed
LONGEST = 100_000  # characters of a log that are shown


def table(heads: Sequence[str], rows: Iterable[str]) -> str:
    """Returns a table of rows."""
    head = "".join(f"<th>{one}</th>" for one in heads)
    return f"<table>\n<tr>{head}</tr>\n" + "".join(rows) + "</table>\n"


def row(*cells: str) -> str:
    """Returns a row of cells, which are HTML."""
    return "<tr>" + "".join(f"<td>{cell}</td>" for cell in cells) + "</tr>\n"


def page(title: str, body: str) -> str:
    """Returns a page."""
    return (
        '<!DOCTYPE html>\n<html lang="en">\n<head>\n<meta charset="utf-8">\n'
        '<meta name="viewport" content="width=device-width">\n'
        f"<title>{escape(title)}</title>\n<style>{STYLE}</style>\n</head>\n<body>\n"
        f"<h1>{escape(title)}</h1>\n{body}</body>\n</html>\n"
    )


def back(day: Day) -> str:
    """Returns the link of a board's page to that of the day."""
    return f'<p><a href="../{day.name}.html">{day.name}</a></p>\n'


# The page of the day


def percent(part: int, whole: int) -> str:
    """Returns a share, or nothing if there is no whole."""
    return f" ({100 * part / whole:.1f} %)" if whole else ""


def yield_table(found: Yield) -> str:
    """Returns the yield as a table."""
    lines = [
        ("boards tested", found.boards, ""),
        ("passed at the first attempt", found.first, percent(found.first, found.judged)),
        ("passed after repair", found.after_repair, percent(found.after_repair, found.judged)),
        ("not passed", found.failed, percent(found.failed, found.judged)),
    ]
    if found.boards > found.judged:
        lines.append(("without a verdict, and not in the shares", found.boards - found.judged, ""))
    return table((), (row(name, f"{number:,}{share}") for name, number, share in lines))


def link(day: Day, board: Tested) -> str:
    """Returns a serial number with a link to the page of a board that did not pass at once."""
    return f'<a href="{day.name}/{board.number}.html">{escape(board.serial)}</a>'


def fault_tables(day: Day) -> str:
    """Returns the tables of the faults, of parts and of nets."""
    faults = faults_of(day.boards, day.name, day.findings, day.board_marks, day.unread)
    if not faults:
        return ""
    lines = []
    for fault in faults[:SHOWN]:
        names = " or ".join(fault.names[:6]) + (" .." if len(fault.names) > 6 else "")
        links = ", ".join(link(day, board) for board in fault.boards[:SHOWN])
        more = " .." if len(fault.boards) > SHOWN else ""
        names += f" ({fault.runs})" if fault.runs else ""
        lines.append(row(str(len(fault.boards)), escape(names), links + more))
    text = "<h2>Faults</h2>\n<p>Faults that give the same bits are one row.</p>\n"
    text += table(("boards", "fault", "serial numbers"), lines) + more_rows(len(faults))
    for name, found in zip(("parts", "nets"), counts(faults, day.net_of)):
        if found:
            lines = [row(escape(one), str(count)) for one, count in found[:SHOWN]]
            text += f"<h2>Boards by {name} that may be at fault</h2>\n"
            text += table((name[:-1], "boards"), lines) + more_rows(len(found))
    return text


def more_rows(count: int) -> str:
    """Says how many rows aren't shown."""
    return f"<p class=quiet>and {count - SHOWN:,} more</p>\n" if count > SHOWN else ""


def names_of(boards: Iterable[Tested]) -> list[str]:
    """Returns the serial numbers in HTML. None of them has the end of a line."""
    return escape("\n".join(board.serial for board in boards)).split("\n")


def board_rows(day: Day) -> Iterator[str]:
    """Yields the rows of the boards."""
    passed = 0
    for board, name in zip(day.boards, names_of(day.boards)):
        if board.always_passed:
            place = f"{day.name}/passed-{passed // ON_A_PAGE + 1}.html#a{board.number}"
            passed += 1
            time = board.last_of(day.name).local[11:19]
            before = "PASS " * min(4, len(board.attempts) - 1)
            yield f"<tr><td><a href={place}>{name}</a><td>{time}<td>PASS<td>{before}<td></tr>\n"
        else:
            yield failed_row(day, board)


def failed_row(day: Day, board: Tested) -> str:
    """Returns the row of a board that did not pass at once."""
    last = board.last_of(day.name)
    finding = day.findings.get(last.number)
    said = [escape(last.says), summary(finding) if finding else ""]
    numbers = (one.number for one in board.attempts)
    said += (escape(f"not judged: {day.unread[one]}") for one in numbers if one in day.unread)
    says = "; ".join(filter(None, said))
    runs = runs_of(last)
    verdict = f"{last.verdict} ({runs})" if runs else last.verdict
    verdict = verdict if last.verdict == "PASS" else f"<span class=bad>{verdict}</span>"
    before = " ".join(one.verdict for one in board.attempts[:-1][-4:])
    quiet = f"<span class=quiet>{before}</span>" if before else ""
    return row(link(day, board), last.local[11:19], verdict, quiet, says)


@lru_cache(KEPT)
def summary(finding: Finding) -> str:
    """Returns what explains a failure, in a line."""
    return escape("; ".join(line.strip() for line in finding.lines))


def day_page(day: Day) -> str:
    """Returns the page of a day."""
    heads = ("serial number", "time", "verdict", "before", "what was said")
    return page(
        day.title,
        "<h2>Yield</h2>\n"
        + yield_table(yield_of(day.boards))
        + fault_tables(day)
        + "<h2>Boards</h2>\n"
        + table(heads, board_rows(day)),
    )


# The page of a board that did not pass at once


def board_page(day: Day, board: Tested) -> str:
    """Returns the page of a board."""
    sections = (attempt_section(day, one) for one in board.attempts)
    return page(f"Board {board.serial}", back(day) + "".join(sections))


def attempt_section(day: Day, attempt: Attempt) -> str:
    """Returns what the page of a board says of an attempt."""
    runs = f" ({escape(attempt.runs)})" if attempt.runs else ""
    text = f"<h2>{attempt.verdict}{runs}: attempt {attempt.number}, {attempt.local}</h2>\n"
    finding = day.findings.get(attempt.number)
    lines = [f"stage: {attempt.stage}" if attempt.stage else "", attempt.says]
    lines += finding.lines if finding else ()
    if attempt.number in day.unread:
        lines.append(f"not judged: {day.unread[attempt.number]}")
    text += "<p>" + "<br>\n".join(escape(line) for line in lines if line) + "</p>\n"
    text += explanation(finding) if finding else ""
    text += "".join(log_part(one) for one in day.logs(attempt))
    ended = f"<br>\nended {attempt.ended_utc}" if attempt.ended_utc else ""
    return f"{text}<p class=quiet>{made_with(*attempt.made_with)}{ended}</p>\n"


@lru_cache(KEPT)
def explanation(finding: Finding) -> str:
    """Returns what is known of a failure beyond the first lines."""
    details, picture = finding.more()
    return (f"<pre>{escape(details)}</pre>\n" if details else "") + picture


@lru_cache(KEPT)
def log_part(log: Log) -> str:
    """Returns a log, folded."""
    rows = log.rows if len(log.rows) <= LONGEST else f"{log.rows[:LONGEST]}..\n"
    return f"<details><summary>log of {escape(log.stage)}</summary><pre>{rows}</pre></details>\n"


@lru_cache(KEPT)
def made_with(test: str, btest: str, player: str, station: str) -> str:
    """Returns by what a board was tested."""
    player = player or "none"
    parts = (f"test {test}", f"btest {btest}", f"player {player}", f"station {station}")
    return "<br>\n".join(map(escape, parts))


# The pages of the boards that always passed


def passed_pages(day: Day) -> Iterator[str]:
    """Yields the pages of the boards that always passed."""
    boards = [board for board in day.boards if board.always_passed]
    for at in range(0, len(boards), ON_A_PAGE):
        yield passed_page(day, boards[at : at + ON_A_PAGE])


def passed_page(day: Day, boards: Sequence[Tested]) -> str:
    """Returns a page of boards that always passed."""
    ways: dict[tuple[str, ...], int] = {}  # of testing, with their numbers
    rows = []
    for board, name in zip(boards, names_of(boards)):
        anchor = f" id=a{board.number}"
        for one in board.attempts:
            way = ways.setdefault(one.made_with, len(ways) + 1)
            rows.append(
                f"<tr{anchor}><td>{name}<td>{one.number}<td>{one.local}<td>{one.ended_utc}<td>{way}"
                "</tr>\n"
            )
            anchor = ""
    heads = ("serial number", "attempt", "begun", "ended (UTC)", "tested with")
    tested = (row(str(number), made_with(*way)) for way, number in ways.items())
    body = table(heads, rows) + "<h2>Tested with</h2>\n<div class=made>" + table((), tested)
    return page(f"Boards that passed, {day.name}", f"{back(day)}{body}</div>\n")


# Writing them


def write_boards(day: Day, out: pathlib.Path) -> None:
    """Writes the pages of the boards of a day, and deletes pages of boards that passed if there are
    fewer than before."""
    with PageFolder(out) as pages:
        for board in day.boards:
            if not board.always_passed:
                pages.put(f"{board.number}.html", board_page(day, board))
        count = 0
        for count, text in enumerate(passed_pages(day), 1):
            pages.put(f"passed-{count}.html", text)
        while pages.drop(f"passed-{count + 1}.html"):
            count += 1


def write(
    product: Product, record: Record, btest: Btest, name: Optional[str], out: Optional[pathlib.Path]
) -> pathlib.Path:
    """Writes the pages of a day, and returns the name of the first."""
    day = read_day(product, record, btest, name)
    out = out or product.folder / "days"
    write_boards(day, out / day.name)
    with PageFolder(out) as pages:
        pages.put(f"{day.name}.html", day_page(day))
    return out / f"{day.name}.html"
