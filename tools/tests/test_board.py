"""A board from its files: what is refused, and how its nets are wired."""

from __future__ import annotations

import tempfile
import unittest

from tests.support import STORED, Folder, read_files, small_board

from btest_tools.board import Driver, Reader, part_of, statements
from btest_tools.files import BadInput, Text

DRIVER = (STORED / "driver.bsd").read_text(encoding="ascii")
NO = "; `btest device` says what is wrong with a BSDL text"
LENGTH = "BOUNDARY_LENGTH of DRV : entity is "
REFUSED = [
    ("chain", "DEVICES U1 DRV -\n", "chain line 1: no statement"),
    ("chain", "\nDEVICE U1 DRV\n", "chain line 2: no statement"),
    ("chain", "DEVICE U1 DRW -\n", "chain line 1: entity not given"),
    ("chain", "BYPASS U1 1\n", "chain line 1: number not allowed"),
    ("chain", "BYPASS U1 256\n", "chain line 1: number not allowed"),
    ("chain", "PULL N1 2\n", "chain line 1: number not allowed"),
    ("chain", "PULL N9 1\n", "chain line 1: pulled net not there"),
    ("chain", "SUPPLY N9\n", "chain line 1: supply net not there"),
    ("chain", "LINK R1 1 3\n", "chain line 1: link pin R1.3 not in a net"),
    ("nets", "NET\n", "nets line 1: no statement"),
    ("nets", "NET N1 U1.1 U1\n", "nets line 1: word not allowed"),
    ("nets", "NET N1 .1\n", "nets line 1: word not allowed"),
    ("bsdl", "no BSDL text", f"bsdl: no entity that the model can use{NO}"),
    (
        "bsdl",
        DRIVER.replace("BOUNDARY_LENGTH", "LENGTH"),
        f"bsdl: no BOUNDARY_LENGTH that the model can use{NO}",
    ),
    (
        "bsdl",
        DRIVER.replace(f"{LENGTH}2", f"{LENGTH}1"),
        f"bsdl: no boundary register that the model can use{NO}",
    ),
    (
        "bsdl",
        DRIVER.replace(f"{LENGTH}2", f"{LENGTH}65536"),
        f"bsdl: no length of a register that the model can use{NO}",
    ),
    (
        "bsdl",
        DRIVER.replace("constant P", "constant Q"),
        f"bsdl: no package P that the model can use{NO}",
    ),
]


class Refused(Folder):
    """Files of which nothing can be made."""

    def test_each_refusal(self) -> None:
        for name, text, line in REFUSED:
            with self.subTest(line), tempfile.TemporaryDirectory() as folder:
                with self.assertRaises(BadInput) as caught:
                    read_files(small_board(folder, **{name: text}))
                self.assertEqual(str(caught.exception).replace(f"{folder}/", ""), line)

    def test_a_package_that_is_not_there(self) -> None:
        with self.assertRaisesRegex(BadInput, r"driver.bsd: no package \( that the model can use"):
            read_files(small_board(self.folder, chain="DEVICE U1 DRV (\n"))


class Wired(Folder):
    """The nets of the small board. U1 drives from cells 0 and 1, U2 reads with cells 0 and 1, and
    U9 has one bit between them: U2 is nearest TDO, so U1 begins at bit 3."""

    def test_nets(self) -> None:
        board = read_files(small_board(self.folder))
        self.assertEqual(list(board.nets), ["N1", "N2"])
        net = board.nets["N1"]
        self.assertEqual(net.joined, ["N1", "LATE"])
        self.assertEqual(net.links, ["R1"])
        self.assertEqual(net.pins, ["U1.1", "R1.2", "R1.1", "U2.1"])
        self.assertEqual((net.pull, net.is_supply), (1, False))
        self.assertEqual(board.names, {"N1": "N1", "N2": "N2", "LATE": "N1"})
        self.assertEqual(board.size, 5)
        self.assertEqual(board.entities(), {"U1": "DRV", "U9": "", "U2": "RCV"})
        self.assertIs(board.net_of["R1.1"], net)

    def test_cells(self) -> None:
        board = read_files(small_board(self.folder))
        self.assertEqual(board.nets["N1"].drivers, [Driver("U1.1", 3, -1, 0)])
        self.assertEqual(board.nets["N2"].drivers, [Driver("U1.2", 4, -1, 0)])
        self.assertEqual(board.nets["N1"].readers, [Reader("U2.1", 0)])
        self.assertEqual(board.nets["N2"].readers, [Reader("U2.2", 1)])

    def test_supplies_and_inert_parts(self) -> None:
        chain = "DEVICE U1 DRV -\nDEVICE U2 RCV -\nSUPPLY N2\nINERT R1 # a comment\n"
        board = read_files(small_board(self.folder, chain=chain))
        self.assertTrue(board.nets["N2"].is_supply)
        self.assertIsNone(board.nets["N1"].pull)
        self.assertEqual(board.inert, {"R1"})
        self.assertEqual(list(board.nets), ["N1", "N2", "LATE"])


class Demo(unittest.TestCase):
    """The demo board, by examples/*.bsd: U4 is nearest TDO."""

    def test_control_cells(self) -> None:
        board = read_files()
        irq = board.nets["IRQ"]
        self.assertEqual({driver.control == driver.place for driver in irq.drivers}, {True})
        self.assertEqual(irq.pull, 1)
        self.assertEqual(len(board.nets), 14)

    def test_words(self) -> None:
        text = "A b # c\n\n# d\n\tE#\r\n"
        self.assertEqual(list(statements(Text("", text))), [(1, ["A", "b"]), (4, ["E#"])])
        self.assertEqual(part_of("U1.5.2"), "U1")


if __name__ == "__main__":
    unittest.main()
