"""SVF texts and rows of logs."""

from __future__ import annotations

import unittest

from tests.support import Bed

from btest_tools.files import BadInput
from btest_tools.scans import LogRow, Scan, Test, compared_scans, log_rows, log_text, scans

SVF = """TRST OFF; ! a comment; SDR 8 TDI (FF);
STATE RESET;
SIR 4 TDI (f) TDO (1) MASK (3);
SDR 6 TDI (0 1);
SDR 6 TDI (02) TDO (05) MASK (07);
SDR 6 TDI (03)
  TDO (06) MASK (07); // another
SDR 6 TDI (04);
SDR 6 TDI (08) TDO (21) MASK (3F);
"""


class Scans(unittest.TestCase):
    """A text worked by hand."""

    def test_scans(self) -> None:
        found = list(scans(SVF))
        self.assertEqual(found[:3], [None, Scan("ir", 4, 15, 1, 3), Scan("dr", 6, 1, None, 0)])
        self.assertEqual(len(found), 7)
        self.assertEqual([scan.tdo for scan in compared_scans(SVF)], [5, 6, 0x21])

    def test_comments(self) -> None:
        # Either sign begins one, up to the end of the line, also if the other isn't there.
        good = Scan("dr", 8, 1, None, 0)
        for text in ("// SDR 9 TDI (2);\nSDR 8 TDI (1);", "SDR 8 TDI (1);! SDR 9 TDI (2);"):
            self.assertEqual(list(scans(text)), [good])
        self.assertEqual(list(scans("! a // SDR 9 TDI (2);\nSDR 8 TDI (1);")), [good])

    def test_passes(self) -> None:
        test = Test(SVF)
        self.assertEqual(test.size, 6)
        self.assertEqual(test.rows(), 3)
        self.assertEqual([one.expected for one in test.passes], [[5, 6], [0x21]])
        self.assertEqual([one.mask for one in test.passes], [7, 0x3F])
        self.assertEqual([one.shifted for one in test.passes], [[1, 2], [4]])

    def test_a_log_is_compared(self) -> None:
        rows = Test(SVF).compare([b"# no row", b"3D", b"", b" 06 # so", b"01"])
        self.assertEqual(rows, [LogRow(5, 0), LogRow(6, 0), LogRow(0x21, 0x20)])
        self.assertEqual([row.got for row in rows], [5, 6, 1])

    def test_what_is_no_row(self) -> None:
        with self.assertRaisesRegex(BadInput, "no row of a log: xyz"):
            list(log_rows([b"xyz"]))

    def test_text_of_a_log(self) -> None:
        self.assertEqual(log_text([5, 0x1A], 6), "05\n1A\n")
        self.assertEqual(log_text([5, 0x1A], 9), "005\n01A\n")


class Demo(unittest.TestCase):
    """The test of the demo board, as docs/GUIDE.md shows it and says who drives."""

    def test_drivers(self) -> None:
        bed = Bed()
        drivers = bed.test.drivers(bed.board.nets["D0"])
        self.assertEqual(drivers, [["U1.1"], ["U3.1"], ["U4.1"], ["U2.2"]])
        self.assertEqual(bed.test.drivers(bed.board.nets["A1"]), [["U1.5"]] * 4)
        self.assertEqual(bed.test.drivers(bed.board.nets["CS"]), [["U1.6"]] * 4)

    def test_expected(self) -> None:
        bed = Bed()
        self.assertEqual(bed.test.expected(bed.board.nets["D0"]), "100")
        self.assertEqual(bed.test.expected(bed.board.nets["IRQ"]), "011")
        self.assertEqual(bed.test.expected(bed.board.nets["CS"]), "")


if __name__ == "__main__":
    unittest.main()
