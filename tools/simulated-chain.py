#!/usr/bin/env python3
"""A simulated board behind OpenOCD's remote_bitbang interface, to try a player and its log without
hardware."""

import argparse
import sys
from collections.abc import Sequence

sys.dont_write_bytecode = True  # no folder of compiled modules beside the tools
# pylint: disable=wrong-import-position
from btest_tools.bitbang import serve  # noqa: E402
from btest_tools.board import Board, read_board  # noqa: E402
from btest_tools.chain_faults import CHAIN_KINDS, ChainPort  # noqa: E402
from btest_tools.files import frame  # noqa: E402
from btest_tools.model import KINDS  # noqa: E402

EPILOG = """It prints a line when it listens. One connection is served, and one more for each
--next. Two drivers on one net are told of on standard error."""
FAULT = f"""one of {KINDS}, or of the chain {CHAIN_KINDS}, or several in one word with
blanks between them: 'and:D0:D1 open:U1.5:0'. The first net of dom is the one that wins.
12-20@FAULT is there from scan 12 to scan 20 of the player alone, 12@FAULT from scan 12 on"""
NEXT = """the fault of the board that the next player finds, or `same` for the board that was there
before, as it was left; several times for several players"""


def port_number(word: str) -> int:
    """Returns the number of a port."""
    if not word.isdecimal() or int(word) > 65535:
        raise argparse.ArgumentTypeError(f"{word} is no number from 0 to 65535")
    return int(word)


def boards(board: Board, faults: Sequence[str]) -> list[ChainPort]:
    """Returns the ports that the players find."""
    ports = [ChainPort(board, faults[0])]
    for fault in faults[1:]:
        ports.append(ports[-1] if fault == "same" else ChainPort(board, fault))
    return ports


def main() -> None:
    """Serves its players."""
    words = argparse.ArgumentParser(description=__doc__, epilog=EPILOG)
    wait = "how long it waits for a player (60)"
    words.add_argument("--wait", metavar="SECONDS", type=float, default=60, help=wait)
    words.add_argument("--next", metavar="FAULT", action="append", default=[], help=NEXT)
    words.add_argument("port", metavar="PORT", type=port_number, help="0 takes a free one")
    words.add_argument("fault", metavar="FAULT", help=FAULT)
    words.add_argument("chain", metavar="CHAIN", help="the chain file")
    words.add_argument("nets", metavar="NETS", help="the net file")
    words.add_argument("bsdls", metavar="BSDL", nargs="+", help="the BSDL texts of the parts")
    chosen = words.parse_args()
    board = read_board(chosen.chain, chosen.nets, chosen.bsdls)
    serve(chosen.port, chosen.wait, boards(board, [chosen.fault, *chosen.next]))


if __name__ == "__main__":
    frame(main)
