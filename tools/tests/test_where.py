"""Where the pins of the demo board are, which of them are neighbors, and hostile netlists."""

from __future__ import annotations

import random
import unittest
from typing import Callable, Dict

from tests.support import DEMO, EXAMPLES, PROGRAM

from btest_tools import pictures
from btest_tools.board import read_board
from btest_tools.btest import Btest
from btest_tools.explaining.placed import Placed, neighbor_lines
from btest_tools.failing import Bench, look
from btest_tools.files import BadInput, read
from btest_tools.netlists import ipc356, kicad, kicad_pcb, pads, protel, telesis
from btest_tools.netlists.layout import read_places
from btest_tools.netlists.net_file import Refused
from btest_tools.pages.places import places_section

READERS: Dict[str, Callable[[bytes], object]] = {
    "controller-kicad.net": kicad.read,
    "controller-protel.net": protel.read,
    "controller-pads.asc": pads.read,
    "controller-telesis.net": telesis.read,
    "controller.ipc": ipc356.read,
    "controller.kicad_pcb": kicad_pcb.read,
}
WORDS = (b"(", b")", b'"', b"[", b"]", b"'", b"\\", b"\n", b"1e308", b"nan", b"-", b"999", b"*END*")


class Demo(unittest.TestCase):
    """The demo board."""

    def test_both_forms_have_the_same_places(self) -> None:
        """The board of KiCad has its corner at (100, 50), the other at the lower left one."""
        pcb = read_places(str(EXAMPLES / "controller.kicad_pcb"))
        ipc = read_places(str(EXAMPLES / "controller.ipc"))
        self.assertEqual(set(pcb.pins), set(ipc.pins))
        for pin in pcb.pins:
            (here,), (there,) = pcb.of(pin), ipc.of(pin)
            self.assertAlmostEqual(here.x - 100, there.x, 2)
            self.assertAlmostEqual(here.y - 50, there.y + 60, 2)
            self.assertEqual(here.side, there.side)
            self.assertAlmostEqual(here.width, there.width, 2)
            self.assertEqual(here.angle, there.angle)

    def test_neighbors(self) -> None:
        """Pins 1 and 2 of U1 are 0.8 mm apart, those of U3 and U4 1.27 mm."""
        board = read_board(DEMO[0], DEMO[1], DEMO[2:])
        placed = Placed(board, read_places(str(EXAMPLES / "controller.ipc")))
        self.assertEqual(placed.between("D0", "D1"), ("U1.1", "U1.2"))
        pairs = [(pair.one, pair.other) for pair in placed.neighbors("D0", "D1")]
        wanted = [("U1.1", "U1.2"), ("U2.2", "U2.3"), ("U3.1", "U3.2"), ("U4.1", "U4.2")]
        self.assertEqual(pairs, wanted)
        self.assertIsNone(placed.between("D0", "A1"))
        self.assertEqual(Placed(board).between("D0", "D1"), ("U1.1", "U1.2"))

    def test_a_file_without_places(self) -> None:
        """A netlist without places is refused."""
        with self.assertRaises(BadInput):
            read_places(str(EXAMPLES / "controller-kicad.net"))

    @unittest.skipUnless(PROGRAM, "BTEST names no program")
    def test_the_page_of_a_board_that_failed(self) -> None:
        """The short is measured at the neighbors, and the open pins of U4 are marked."""
        board = read_board(DEMO[0], DEMO[1], DEMO[2:])
        places = read_places(str(EXAMPLES / "controller.kicad_pcb"))
        nearness = Placed(board, places)
        bench = Bench(Btest(PROGRAM), DEMO, board, nearness)
        seen = look(bench, read(str(EXAMPLES / "short-and-lifted.log")))
        lines = list(neighbor_lines(seen.explained, nearness))
        self.assertEqual(lines, ["U1.1 and U1.2 are neighbors (D0 and D1)"])
        html = places_section(board, seen, places)
        self.assertIn("<title>measure between U1.1 and U1.2</title>", html)
        for pin in ("U4.3", "U4.4", "U4.5", "U4.7"):
            self.assertIn(f"<title>{pin} may be open</title>", html)


SMALL: Dict[str, bytes] = {
    "controller-kicad.net": b'(export (nets (net (name "A\\"") (node (ref U1) (pin "1")))))',
    "controller-protel.net": b"[\nU1\nF(1)\n]\n(\nA\nU1-1 P-D0 I/O\n)\n(\nB\nU1-2\n)\n",
    "controller-pads.asc": b"*PADS-PCB*\n*NET*\n*SIGNAL* A 1 2\nU1.1\n U2.1\n*END*\n",
    "controller-telesis.net": b"$PACKAGES\nF ! V ; U1\n$NETS\n'A' ; U1.1,\n'U2'.'1'\n$END\n",
}


class Hostile(unittest.TestCase):
    """Netlists that are broken: each is refused in one line, or read."""

    def test_cut_at_every_byte(self) -> None:
        """Of a netlist that is cut off, all forms but Protel's show it."""
        for name, text in SMALL.items():
            READERS[name](text)
            for end in range(len(text)):
                self.is_told(name, READERS[name], text[:end])
                if end < len(text.strip()) and end and "protel" not in name:
                    with self.assertRaises(Refused, msg=text[:end]):
                        READERS[name](text[:end])

    def test_protel_cut_at_every_byte(self) -> None:
        """A Protel netlist that is cut off is refused, or has the nets before the cut, whole."""
        text = b"[\nR1\nF (0603\n10K [1%\n]\n(\nA\nR1-1\n)\n[\nR2\nF\n]1K]\n]\n(\nB(0)\nR2-1\n)\n"
        whole = protel.read(text).text()
        self.assertEqual(whole, "NET A R1.1\nNET B(0) R2.1\n")
        found = set()
        for end in range(len(text)):
            try:
                found.add(protel.read(text[:end]).text())
            except Refused as why:
                self.assertLessEqual(why.line, text[:end].count(b"\n") + 1)
        self.assertEqual(found, {"", "NET A R1.1\n", whole})

    def test_changed(self) -> None:
        """Bytes are changed, left out, put in and copied."""
        source = random.Random(56)
        for name, reader in READERS.items():
            whole = (EXAMPLES / name).read_bytes()
            for _ in range(40):
                text = bytearray(whole)
                for _ in range(source.randint(1, 4)):
                    at, length = source.randrange(len(text)), source.randint(1, 30)
                    if source.randrange(2):
                        del text[at : at + length]
                    else:
                        text[at:at] = source.choice((*WORDS, text[:length], b"\xff\x00"))
                self.is_told(name, reader, bytes(text))

    def is_told(self, name: str, reader: Callable[[bytes], object], text: bytes) -> None:
        """Fails but where a netlist is read, or refused in one line."""
        try:
            found = reader(text)
        except Refused as why:
            self.assertNotIn("\n", str(why), name)
            self.assertLess(len(str(why)), 2000, name)
        else:
            if isinstance(found, tuple) and found[1].pins:
                pictures.board(found[1], [])

    def test_pins_on_one_place(self) -> None:
        """A board of which all pins are on one place is drawn."""
        pad = '(pad {} smd rect (at 0 0) (size 0 0) (layers F.Cu) (net 1 "A"))'
        text = f'(kicad_pcb (net 1 "A") (footprint (at 1 1) (fp_text reference U1) {pad * 2}))'
        _, places = kicad_pcb.read(text.format(1, 2).encode("ascii"))
        net = pictures.ShownNet(1, "A", ["U1.1", "U1.2"], ["U1.1"])
        self.assertIn("U1.1, net A, fails", pictures.board(places, [net], [("U1.1", "U1.2")]))


if __name__ == "__main__":
    unittest.main()
