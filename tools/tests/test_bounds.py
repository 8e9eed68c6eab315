"""Cases at the edge of what a function takes: an empty list, a missing number, a file that is there."""

from __future__ import annotations

import os
import pathlib
import unittest
from types import SimpleNamespace
from typing import cast

from tests.support import DEMO, Folder

from btest_tools import bitbang
from btest_tools.board import read_board
from btest_tools.chain_faults import ChainFault, chain_fault
from btest_tools.failing import Bench, Look
from btest_tools.neighbors import are_side_by_side
from btest_tools.netlists.program import write
from btest_tools.pages.failed import PASSED, log_section
from btest_tools.pages.pieces import table


class Pages(unittest.TestCase):
    """Pieces of pages."""

    def test_a_log_that_passes(self) -> None:
        seen = cast(Look, SimpleNamespace(head="PASS"))
        said = list(log_section(cast(Bench, None), seen, "a picture"))
        self.assertEqual(said, ['<h2>The log</h2>\n<p class="verdict pass">PASS</p>', PASSED])

    def test_a_column_without_a_heading(self) -> None:
        self.assertIn("<th>", table(("", "pins"), [("U1", "1")]))
        self.assertNotIn("<th>", table(("", ""), [("U1", "1")]))


class Names(unittest.TestCase):
    """Names of pins."""

    def test_pins_without_a_number(self) -> None:
        for one, other in (("4", "GND"), ("GND", "4"), ("GND", "GND")):
            self.assertFalse(are_side_by_side(one, other), (one, other))
        self.assertTrue(are_side_by_side("4", "5"))


class Bits(unittest.TestCase):
    """The bit at TDO."""

    def test_a_register_without_a_bit(self) -> None:
        for row, bit in (([], 0), ([1, 0], 1), ([0, 1], 0)):
            port = cast(bitbang.Port, SimpleNamespace(row=row))
            self.assertEqual(bitbang.Port.tdo(port), bit)


class ChainFaults(unittest.TestCase):
    """Words for the faults of a chain."""

    def test_a_cable_is_at_no_part(self) -> None:
        board = read_board(DEMO[0], DEMO[1], DEMO[2:])
        self.assertEqual(chain_fault(board, "cable"), ChainFault("cable", 0))
        self.assertIsNone(chain_fault(board, "stuck:D0:0"))


class Files(Folder):
    """Files that are written whole."""

    def test_a_file_that_is_there_is_replaced(self) -> None:
        path = pathlib.Path(self.write("out.nets", "old and long"))
        with open(path, encoding="utf-8") as file:
            write(str(path), "new")
            # Who has it open still reads the old text: no half of the new one can be seen.
            self.assertEqual(file.read(), "old and long")
        self.assertEqual(path.read_text(encoding="utf-8"), "new")
        self.assertEqual(os.listdir(path.parent), ["out.nets"])


if __name__ == "__main__":
    unittest.main()
