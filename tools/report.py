#!/usr/bin/env python3
"""Prints a page about a board and its test, in HTML: report.py CHAIN NETS BSDL.. >board.html

With --log it is about a board that failed, with --walk about its walking test too, and with
--batch about a day's boards. The page is one file that needs no script and nothing else. All of
it comes from these files and from what btest prints.
"""

import argparse
import os
import sys
from collections.abc import Iterator
from typing import List, Optional

sys.dont_write_bytecode = True  # no folder of compiled modules beside the tools
# pylint: disable=wrong-import-position
from btest_tools.board import read_board  # noqa: E402
from btest_tools.btest import WHICH, Btest, default_program  # noqa: E402
from btest_tools.explaining.placed import Placed  # noqa: E402
from btest_tools.failing import Bench, look  # noqa: E402
from btest_tools.files import Text, frame, put, read  # noqa: E402
from btest_tools.netlists.layout import read_places  # noqa: E402
from btest_tools.pages.board import board_section, cover_of  # noqa: E402
from btest_tools.pages.day import day_section  # noqa: E402
from btest_tools.pages.failed import log_section, walk_section  # noqa: E402
from btest_tools.pages.frame import page  # noqa: E402
from btest_tools.pages.places import places_section  # noqa: E402
from btest_tools.places import Places  # noqa: E402
from btest_tools.station.attempts import add_words, chosen_inputs  # noqa: E402
from btest_tools.walks import look_at_walk  # noqa: E402

PLACES = "where the pins are, for pictures: a .kicad_pcb, or a netlist by IPC-D-356"
ABOUT = __doc__.split("\n\n", maxsplit=1)[0]


def options() -> argparse.ArgumentParser:
    """Returns the reader of the command line."""
    words = argparse.ArgumentParser(description=ABOUT)
    words.add_argument("--btest", metavar="PROGRAM", default=default_program(), help=WHICH)
    words.add_argument("--title", help="of the page, else the names of the log and the chain file")
    words.add_argument("--log", help="the log of a board, as of btest diagnose")
    words.add_argument(
        "--walk", metavar="LOG", help="the log of its walking test, as of btest groups"
    )
    words.add_argument(
        "--batch", metavar="LOGS", help="the logs of a day's boards, as of btest batch"
    )
    words.add_argument("--places", metavar="FILE", help=PLACES)
    add_words(words)
    for name in ("chain", "nets"):
        words.add_argument(name, metavar=name.upper(), nargs="?")
    words.add_argument("bsdl", metavar="BSDL", nargs="*")
    return words


def sections(
    bench: Bench,
    places: Optional[Places],
    log: Optional[Text],
    walk: Optional[Text],
    batch: Optional[Text],
) -> Iterator[str]:
    """Yields the sections of the page."""
    cover = cover_of(bench)
    if log:
        seen = look(bench, log, walk)
        pictures = places_section(bench.board, seen, places) if places else ""
        yield from log_section(bench, seen, pictures)
    if walk:
        yield from walk_section(list(look_at_walk(bench, walk)))
    if batch:
        yield from day_section(bench, batch)
    yield from board_section(bench.board, cover)


def title_of(chosen: argparse.Namespace) -> str:
    """Returns the title of the page."""
    subject = chosen.log or chosen.walk or chosen.batch
    names = [os.path.basename(name) for name in (subject, chosen.chain) if name]
    return str(chosen.title or " on ".join(names))


def main() -> None:
    """Prints the page."""
    words = options()
    chosen = words.parse_args()
    attempt = chosen_inputs(words, chosen)
    logs: List[Optional[Text]]
    layout: Optional[str] = chosen.places
    if attempt:
        files, logs, title = attempt.files, [attempt.log, attempt.walk, None], attempt.title
        layout = layout or attempt.places
    else:
        files, title = [chosen.chain, chosen.nets, *chosen.bsdl], title_of(chosen)
        logs = [read(name) if name else None for name in (chosen.log, chosen.walk, chosen.batch)]
    board = read_board(files[0], files[1], files[2:])
    places = read_places(layout) if layout else None
    bench = Bench(Btest(chosen.btest), files, board, Placed(board, places))
    names = [log.name for log in logs if log] + files
    put(page(chosen.title or title, names, sections(bench, places, *logs)))


if __name__ == "__main__":
    frame(main)
