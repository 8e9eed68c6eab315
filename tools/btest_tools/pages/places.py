"""What a page says of where on the board the failing pins are."""

from __future__ import annotations

from btest_tools import pictures
from btest_tools.board import Board
from btest_tools.explaining.placed import Placed, measures, opens_of
from btest_tools.failing import Look
from btest_tools.places import Places


def places_section(board: Board, seen: Look, places: Places, name: str = "board") -> str:
    """Returns the pictures of a board that failed, or nothing if no net differs.

    `name` must differ among the boards of a page.
    """
    if not seen.found:
        return ""
    nets = [
        pictures.ShownNet(number, one.name, one.net.pins, one.wrong)
        for number, one in enumerate(seen.found, 1)
    ]
    pairs = measures(board, seen.explained, Placed(board, places))
    opens = opens_of(seen.explained)
    return (
        f"<style>{pictures.STYLE}</style>\n<h2>Where on the board</h2>\n"
        f"{pictures.board(places, nets, pairs, opens, name)}"
    )
