"""A chain with faults. The expected bits were worked out by hand from docs/GUIDE.md."""

from __future__ import annotations

import unittest

from tests.support import DEMO

from btest_tools.board import read_board
from btest_tools.chain_faults import ChainPort, read_timed
from btest_tools.files import BadInput

# Instruction registers of the demo board, U4 at TDO: U4 3, U3 3, U2 8, U1 4 bits, each loads 01.
SIZES = (3, 3, 8, 4)
LOADED = 0b0001_00000001_001_001


class ChainFaultsTest(unittest.TestCase):
    """The demo board behind its port."""

    def setUp(self) -> None:
        """Reads the board."""
        self.board = read_board(DEMO[0], DEMO[1], DEMO[2:])

    def shifted(self, fault: str, size: int, scan_ir: bool, times: int = 1) -> int:
        """Returns the bits that come out of the last of some scans, with ones shifted in."""
        port, bits = ChainPort(self.board, fault), 0
        for tms in (1, 1, 1, 1, 1, 0):
            self.clock(port, tms)
        for _ in range(times):
            for tms in (1, 1, 0, 0) if scan_ir else (1, 0, 0):
                self.clock(port, tms)
            bits = sum(self.clock(port, int(at == size - 1)) << at for at in range(size))
            for tms in (1, 0):
                self.clock(port, tms)
        return bits

    @staticmethod
    def clock(port: ChainPort, tms: int) -> int:
        """Gives one clock with TDI 1, and returns the bit at TDO before it."""
        bit = port.tdo()
        port.pins(0, tms, 1)
        port.pins(1, tms, 1)
        port.pins(0, tms, 1)
        return bit

    def test_good(self) -> None:
        """A sound chain loads 01 in each part, and passes on what is shifted."""
        self.assertEqual(self.shifted("good", 18, True), LOADED)
        self.assertEqual(self.shifted("good", 20, True), 0b11 << 18 | LOADED)

    def test_open(self) -> None:
        """What is behind an open place reads its value."""
        self.assertEqual(self.shifted("chain:U4:1", 18, True), (1 << 18) - 1)
        self.assertEqual(self.shifted("chain:U3:0", 18, True), 0b001)
        self.assertEqual(self.shifted("chain:U2:1", 18, True), 0xFFF << 6 | 0b001_001)
        self.assertEqual(self.shifted("missing:U2", 18, True), 0xFFF << 6 | 0b001_001)

    def test_code(self) -> None:
        """U1 has 32 bits behind the bypass bits of the others, and as many as its code has."""
        self.assertEqual(self.shifted("good", 35, False) >> 3, 0x10123017)
        self.assertEqual(self.shifted("code:U1:2012301F", 35, False) >> 3, 0x2012301F)
        self.assertEqual(self.shifted("code:U1:-", 35, False), ((1 << 31) - 1) << 4)

    def test_times(self) -> None:
        """A fault is there from one scan to another."""
        there, sound = 0b001, LOADED
        for fault, wanted in (("2-3@chain:U3:0", (sound, there, there, sound)),
                              ("3@chain:U3:0", (sound, sound, there, there))):  # fmt: skip
            for times, bits in enumerate(wanted, 1):
                self.assertEqual(self.shifted(fault, 18, True, times), bits, f"{fault} {times}")

    def test_refused(self) -> None:
        """A fault that the board can't have."""
        for fault in ("chain:U9:1", "chain:U1:2", "chain:U1", "missing:U1:1", "code:U1:1012301E",
                      "code:U1:12", "5@stuck:D9:0", "5@", "x@good", "stuck:D0:0 and:D0:D1", ""):  # fmt: skip
            self.assertRaises(BadInput, read_timed, self.board, fault)


if __name__ == "__main__":
    unittest.main()
