"""Whole texts and pages, as the files of `whole` have them. Their numbers were checked by hand,
against the demo board and the small board of test_drawn.py."""

from __future__ import annotations

import pathlib
import unittest

from tests.support import DEMO, PROGRAM, Bed, need, read_files
from tests.test_drawn import NET, small_board

from btest_tools import pictures
from btest_tools.board import Board
from btest_tools.btest import Btest
from btest_tools.explaining.nearness import Nearness
from btest_tools.failing import Bench, look, show
from btest_tools.files import Text
from btest_tools.pages.board import Cover, board_section
from btest_tools.pages.failed import log_section
from btest_tools.pages.pieces import SHOWN
from btest_tools.places import Places

WHOLE = pathlib.Path(__file__).parent / "whole"
FAULTS = (
    "stuck:D0:0 open:U3.5:1",
    "and:D1:A1 stuck:D3:0",
    "or:D1:A1",
    "open:U4.1:0 open:U4.2:0 open:U4.3:0 open:U4.4:0",
    "pull:IRQ:0",
    "swap:U1.1:U1.2",
    "and:D0:D1 open:U3.1:1",
)


def pictures_of(places: Places) -> str:
    """Returns the pictures of a board, an element a line."""
    text = pictures.board(places, [NET], [("U1.1", "R1.1")], ["U1.2"])
    return text.replace("><", ">\n<") + "\n"


def cover_page() -> str:
    """Returns what a page says of a board with something of each kind that isn't tested."""
    reasons = {"MODE": "NODRIVER", "VCC": "SUPPLY", "CS": "DARK"}
    cover = Cover(reasons, ["U2.9"], ["U1.1", "U4.2"], [["D0", "D<1"]], SHOWN + 2)
    return "\n".join(board_section(read_files(), cover)) + "\n"


def bench() -> Bench:
    """Returns the demo board under btest."""
    board: Board = read_files()
    return Bench(Btest(need()), DEMO, board, Nearness(board))


def printed() -> str:
    """Returns what failing-nets.py prints of the demo board with faults, each under a title."""
    lines: list[str] = []
    for fault in FAULTS:
        lines += [f"# {fault}", *show(bench(), look(bench(), Text("log", Bed().log(fault))))]
    return "\n".join(lines) + "\n"


def failed_page() -> str:
    """Returns what a page says of the demo board with faults, without its pictures."""
    lines: list[str] = []
    for fault in (FAULTS[0], FAULTS[2]):
        lines += log_section(bench(), look(bench(), Text("log", Bed().log(fault))))
    return "\n".join(lines).replace("><", ">\n<") + "\n"


class Whole(unittest.TestCase):
    """Whole texts."""

    maxDiff = None

    def is_whole(self, name: str, text: str) -> None:
        """Checks that a text is that of a file."""
        self.assertEqual(text, (WHOLE / name).read_text(encoding="utf-8"))

    def test_pictures(self) -> None:
        self.is_whole("pictures.html", pictures_of(small_board()))

    def test_a_board_elsewhere(self) -> None:
        """Its pictures are the same wherever the board lies in the coordinates of its file."""
        for right, down in ((100, 50), (-300, 0), (0, -1000)):
            moved = Places()
            for word, spots in small_board().pins.items():
                for spot in spots:
                    spot = spot._replace(x=spot.x + right, y=spot.y + down)
                    part, _, number = word.partition(".")
                    moved.add(part, number, spot)
            outline = small_board().outline
            moved.outline = [[(x + right, y + down) for x, y in line] for line in outline]
            self.is_whole("pictures.html", pictures_of(moved))

    def test_cover(self) -> None:
        self.is_whole("cover.html", cover_page())

    @unittest.skipUnless(PROGRAM, "no btest is given")
    def test_failing_nets(self) -> None:
        self.is_whole("failing-nets.txt", printed())

    @unittest.skipUnless(PROGRAM, "no btest is given")
    def test_failed(self) -> None:
        self.is_whole("failed.html", failed_page())


if __name__ == "__main__":
    unittest.main()
