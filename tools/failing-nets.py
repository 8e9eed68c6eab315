#!/usr/bin/env python3
"""Shows which nets of a failing board differ, at which pins and in which bits, and which sets of
faults explain it, the likeliest first.

The files are those of `btest diagnose`, or with --walk those of `btest groups`. All of it comes
from them and from what btest prints.
"""

import argparse
import sys
from typing import Optional

sys.dont_write_bytecode = True  # no folder of compiled modules beside the tools
# pylint: disable=wrong-import-position
from btest_tools.board import read_board  # noqa: E402
from btest_tools.btest import WHICH, Btest, default_program  # noqa: E402
from btest_tools.explaining.placed import Placed, neighbor_lines  # noqa: E402
from btest_tools.failing import Bench, look, show  # noqa: E402
from btest_tools.files import Text, frame, put, read  # noqa: E402
from btest_tools.netlists.layout import read_places  # noqa: E402
from btest_tools.station.attempts import add_words, chosen_inputs  # noqa: E402
from btest_tools.walks import look_at_walk  # noqa: E402


def options() -> argparse.ArgumentParser:
    """Returns the reader of the command line."""
    words = argparse.ArgumentParser(description=__doc__)
    words.add_argument("--btest", metavar="PROGRAM", default=default_program(), help=WHICH)
    words.add_argument("--walk", action="store_true", help="LOG is of the walking test")
    both = "the log of the board's walking test; a set of faults must explain both"
    words.add_argument("--with-walk", metavar="WALKLOG", help=both)
    places = "where the pins are: a .kicad_pcb, or a netlist by IPC-D-356"
    words.add_argument("--places", metavar="FILE", help=places)
    add_words(words)
    for name in ("log", "chain", "nets"):
        words.add_argument(name, metavar=name.upper(), nargs="?")
    words.add_argument("bsdl", metavar="BSDL", nargs="*")
    return words


def main() -> None:
    """Prints what is known of a board."""
    words = options()
    chosen = words.parse_args()
    attempt = chosen_inputs(words, chosen)
    walk: Optional[Text]
    places: Optional[str] = chosen.places
    if attempt:
        log, walk, files = attempt.log, attempt.walk, attempt.files
        places = places or attempt.places
    else:
        log, files = read(chosen.log), [chosen.chain, chosen.nets, *chosen.bsdl]
        walk = read(chosen.with_walk) if chosen.with_walk else None
    board = read_board(files[0], files[1], files[2:])
    nearness = Placed(board, read_places(places) if places else None)
    bench = Bench(Btest(chosen.btest), files, board, nearness)
    if chosen.walk:
        lines = list(look_at_walk(bench, attempt.walk_log() if attempt else log))
    else:
        seen = look(bench, log, walk)
        lines = [*show(bench, seen), *neighbor_lines(seen.explained, nearness)]
    put("".join(f"{line}\n" for line in lines))


if __name__ == "__main__":
    frame(main)
