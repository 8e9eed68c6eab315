"""Netlists and layouts with places, read from texts. What comes was worked out by hand."""

from __future__ import annotations

import contextlib
import io
import math
import pathlib
import sys
import unittest
from typing import Callable
from unittest import mock

from tests.support import Folder

from btest_tools.files import BadInput
from btest_tools.netlists import ipc356, kicad_pcb, pads as pads_form, program
from btest_tools.netlists.edges import curve, edge, swept
from btest_tools.netlists.layout import read_places
from btest_tools.netlists.net_file import Refused
from btest_tools.places import BOTH, BOTTOM, TOP, Place, Places, Point


def record(code: str, net: str, part: str, pin: str, rest: str = "") -> str:
    """Returns a record by IPC-D-356, with its words in their columns."""
    return f"{code:3}{net:17}{part:6}-{pin:4}{rest}\n"


HERE = "A01X+010000Y+020000X0300Y0600R090"


class Case(unittest.TestCase):
    """What the tests of both forms share."""

    def near(self, one: Place, other: Place) -> None:
        """Checks that two places are the same, but for rounding."""
        self.assertEqual(one.side, other.side)
        for name in ("x", "y", "width", "height", "angle"):
            self.assertAlmostEqual(getattr(one, name), getattr(other, name), 6, name)

    def on_lines(self, line: list[Point], *points: Point) -> None:
        """Checks that an edge goes through just these points."""
        self.assertEqual(len(line), len(points))
        for one, other in zip(line, points):
            self.assertAlmostEqual(one[0], other[0])
            self.assertAlmostEqual(one[1], other[1])

    def refused(self, line: str, call: Callable[[], object]) -> None:
        """Checks that a call refuses with a line that begins so."""
        with self.assertRaises(Refused, msg=line) as why:
            call()
        self.assertEqual(str(why.exception)[: len(line)], line)


class Ipc(Case):
    """Netlists by IPC-D-356. A length is in 0.0001 inch, 0.00254 mm, unless a line says else."""

    def read(self, *lines: str) -> tuple[str, Places]:
        """Returns the net file and the places of lines."""
        nets, places = ipc356.read("".join([*lines, "999\n"]).encode("latin-1"))
        return nets.text(), places

    def bad(self, line: str, *lines: str) -> None:
        """Checks that lines are refused with a line."""
        self.refused(line, lambda: self.read(*lines))

    def test_places(self) -> None:
        small = "X+001000Y+002000X0500Y1000R157"
        radians = math.degrees(1.57)
        for head, rest, place in (
            ("", HERE, Place(25.4, -50.8, TOP, 0.762, 1.524, 90)),
            ("", "D0320PA00X-010000Y-020000X0600", Place(-25.4, 50.8, BOTH, 1.524, 1.524)),
            ("", "MD0320UA02X 010000Y 020000X    Y    R", Place(25.4, -50.8, BOTTOM)),
            ("", "X+010000Y+020000X0300R045S0", Place(25.4, -50.8, BOTH, 0.762, 0.762, 45)),
            ("P  UNITS CUST\n", HERE, Place(25.4, -50.8, TOP, 0.762, 1.524, 90)),
            ("P  UNITS CUST 1\n", small, Place(1, -2, BOTH, 0.5, 1, 157)),
            ("p  units cust  2\n", small, Place(2.54, -5.08, BOTH, 1.27, 2.54, radians)),
            ("P  UNITS SI\n", small, Place(1, -2, BOTH, 0.5, 1, radians)),
            ("P  arrayDim   N\n", HERE, Place(25.4, -50.8, TOP, 0.762, 1.524, -90)),
        ):
            with self.subTest(head + rest):
                _, places = self.read(head, record("327", "A", "U1", "1", rest))
                self.near(places.of("U1.1")[0], place)
        self.assertEqual(self.read(record("327", "A", "U1", "1"))[1].pins, {})

    def test_nets(self) -> None:
        text, places = self.read(
            "C  a comment\n",
            "c  another\n",
            "\n",
            "P  JOB    board\n",
            "P  NNAME1 A_NET_WITH_A_LONG_NAME\n",
            record("317", "NNAME1", "U1", "1", HERE),
            record("327", "B", "U1", "2", HERE),
            record("367", "N/C", "U1", "3", HERE),
            "P  NNAME2 ANOTHER\n",
            record("317", "nname2", "U2", "1", HERE),
            record("317", "B", "VIA", "", HERE),
            record("307", "B", "via", "1", HERE),
            record("317", "", "U1", "4", HERE),
            record("327", "B", "LONGPART", "2", HERE),
            "378 what is passed over\n",
        )
        wanted = "NET A_NET_WITH_A_LONG_NAME U1.1\nNET B U1.2 LONGPART.2\nNET ANOTHER U2.1\n"
        self.assertEqual(text, wanted)
        pins = ["U1.1", "U1.2", "U1.3", "U2.1", "U1.4", "LONGPART.2"]
        self.assertEqual(list(places.pins), pins)

    def test_continued_records(self) -> None:
        text, places = self.read(
            record("317", "A", "U1", "1", "A01X+010000Y+000000"),
            f"017{'':28}A02X+020000Y+000000\n",
            record("027", "", "U2", "1", "A01X+030000Y+000000"),
            record("027", "B", "U3", "1", "A01X+040000Y+000000"),
        )
        self.assertEqual(text, "NET A U1.1 U2.1\nNET B U3.1\n")
        self.assertEqual([round(one.x, 3) for one in places.of("U1.1")], [25.4, 50.8])
        self.assertEqual([one.side for one in places.of("U1.1")], [TOP, BOTTOM])
        self.assertAlmostEqual(places.of("U2.1")[0].x, 76.2)

    def test_images(self) -> None:
        # The records of a second image are those of the first once more.
        one, two = (record("327", net, "U1", pin, HERE) for net, pin in (("A", "1"), ("B", "2")))
        image = "P  IMAGE PRIMARY\n"
        for lines, nets in (
            ((image, one, image, two), "NET A U1.1\n"),
            ((image, image, one), "NET A U1.1\n"),
            ((one, image, two), "NET A U1.1\nNET B U1.2\n"),
            ((one, image, two, image, one), "NET A U1.1\nNET B U1.2\n"),
            ((image, one, image, "no record\n"), "NET A U1.1\n"),
        ):
            with self.subTest(lines):
                self.assertEqual(self.read(*lines)[0], nets)

    def test_outlines(self) -> None:
        blank = " " * 6
        _, places = self.read(
            f"389BOARD{' ' * 9}X+000000Y+000000 X+010000 Y+020000\n",
            f"089{' ' * 14}X+000000\n",
            f"389SCORE{' ' * 9}X+000000Y+000000 X+010000\n",
            f"089{' ' * 14}X+000000\n",
            f"389board_edge{blank[:4]}X+000000Y+000000X+010000\n",
            f"389BOARD{' ' * 9}X-010000Y-000000X+000000Y+010000X+010000X-010000Y+000000\n",
        )
        corner, right, lower = (0.0, 0.0), (25.4, 0.0), (25.4, -50.8)
        one, two, three = places.outline
        self.on_lines(one, corner, right, lower, (0.0, -50.8), corner)
        self.on_lines(two, corner, right)
        left = (-25.4, 0.0)
        self.on_lines(three, left, (0.0, -25.4), (25.4, -25.4), (-25.4, 0.0))

    def test_refusals(self) -> None:
        good = record("327", "A", "U1", "1", HERE)
        self.bad("line 2: not a record: '1X'", good, "1X\n")
        self.bad("line 1: a record continues none", "017" + good[3:])
        self.bad("line 1: not a record of a pin from column 32: 'X'", good[:31] + "X\n")
        self.bad("line 1: no hyphen before the pin in column 27: '327", f"327{'A':17}LONGPART\n")
        self.bad("line 1: units that are not known: 'CUST 3'", "P  UNITS CUST 3\n")
        twice = "P  NNAME1 A\nP  NNAME1 B\n"
        self.bad("line 2: 'NNAME1' is in line 1, too", twice)
        self.bad("line 1: not an edge of a board: 'Z'", f"389BOARD{' ' * 9}Z\n")
        self.bad("line 2: pin U1.1 is in net 'B'", good, record("327", "B", "U1", "1", HERE))
        self.refused("line 2: no 999: is this", lambda: ipc356.read(good.encode() + b"C  last\n"))

    def test_limits(self) -> None:
        units, least = "P  UNITS SI\n", "A01X+10000000Y+000000"
        _, places = self.read(units, record("327", "A", "U1", "1", least))
        self.assertEqual(places.of("U1.1")[0].x, 10_000)
        far = least.replace("00000Y", "00001Y")
        out = "line 2: a number out of range: 10000001"
        self.bad(out, units, record("327", "A", "U1", "1", far))
        lines = [record("327", "A", "U1", str(at), HERE) for at in range(3)]
        with mock.patch.object(ipc356, "MOST_PINS", 2):
            self.read(*lines[:2])
            self.bad("line 3: more than 2 pins", *lines)


PAD = "(pad {} smd rect (at {}) (size 1 2) (layers {}) (net 1 A){})"


def pads(*texts: str, place: str = "10 20", kind: str = "footprint") -> bytes:
    """Returns a board of one part U1 with these pads."""
    text = f"({kind} X (at {place}) (fp_text reference U1) {' '.join(texts)})"
    return f"(kicad_pcb (net 0 '') (net 1 A)\n{text})".replace("''", '""').encode("ascii")


class Kicad(Case):
    """Boards of KiCad."""

    def test_places(self) -> None:
        # A part that is turned by 90 degrees has what is right of it above. The place of a hole
        # off the center is turned by the angle of the pad, which is that on the board.
        drill = " (drill 0.5 (offset 0.5 0.25))"
        for place, pad, more, wanted in (
            ("10 20", "1 2", "", Place(11, 22, TOP, 1, 2)),
            ("10 20 90", "1 2", "", Place(12, 19, TOP, 1, 2)),
            ("10 20 180", "1 2 180", "", Place(9, 18, TOP, 1, 2, 180)),
            ("10 20", "1 2", drill, Place(11.5, 22.25, TOP, 1, 2)),
            ("10 20", "1 2 90", drill, Place(11.25, 21.5, TOP, 1, 2, 90)),
            ("10 20 90", "1 2 180", drill, Place(11.5, 18.75, TOP, 1, 2, 180)),
        ):
            with self.subTest(f"{place}, {pad}"):
                text = pads(PAD.format(1, pad, "F.Cu F.Mask", more), place=place)
                nets, places = kicad_pcb.read(text)
                self.near(places.of("U1.1")[0], wanted)
                self.assertEqual(nets.text(), "NET A U1.1\n")
        circle = pads(PAD.format(1, "0 0", "F.Cu", "").replace("size 1 2", "size 3"))
        self.near(kicad_pcb.read(circle)[1].of("U1.1")[0], Place(10, 20, TOP, 3, 3))

    def test_sides(self) -> None:
        for layers, side in (
            ("F.Cu", TOP),
            ("B.Cu B.Mask", BOTTOM),
            ("*.Cu *.Mask", BOTH),
            ("F&B.Cu", BOTH),
            ("B.Cu F.Cu", BOTH),
        ):
            for kind in ("footprint", "module"):
                text = pads(PAD.format(1, "0 0", layers, ""), kind=kind)
                self.assertEqual(kicad_pcb.read(text)[1].of("U1.1")[0].side, side, layers)
        for pad in (
            PAD.format(1, "0 0", "F.Paste", ""),
            PAD.format(1, "0 0", "*.Cu", "").replace("smd", "np_thru_hole"),
            PAD.format('""', "0 0", "*.Cu", ""),
        ):
            self.assertEqual(kicad_pcb.read(pads(pad))[1].pins, {}, pad)

    def test_names(self) -> None:
        pad = PAD.format(1, "0 0", "F.Cu", "")
        for old, new, pin in (
            ("fp_text reference U1", 'property "Reference" "U7"', "U7.1"),
            ("fp_text reference U1", "fp_text value X) (fp_text reference U8", "U8.1"),
            ("(net 1 A))", "(net A))", "U1.1"),
        ):
            text = pads(pad).replace(old.encode(), new.encode())
            self.assertEqual(kicad_pcb.read(text)[0].text(), f"NET A {pin}\n")
        none = pads(pad.replace("net 1 A", 'net 0 ""'))
        self.assertEqual(list(kicad_pcb.read(none)[1].pins), ["U1.1"])
        self.assertEqual(kicad_pcb.read(none)[0].text(), "NET A\n")

    def test_refusals(self) -> None:
        pad = PAD.format(1, "0 0", "F.Cu", "")
        for old, new, line in (
            ("net 1 A)\n", "net 0 A)\n", "line 1: the net number '0' is in line 1, too"),
            ("net 1 A))", "net 1 B))", "line 2: the board has no net '1' with the name 'B'"),
            ("net 1 A))", "net 2 A))", "line 2: the board has no net '2' with the name 'A'"),
            ("size 1 2", "size", "line 2: pad has no (size ..) with 1 numbers"),
            ("at 0 0", "at 0", "line 2: pad has no (at ..) with 2 numbers"),
            ("at 0 0", "at 0 x", "line 2: not a number: 'x'"),
            ("at 0 0", "at 0 nan", "line 2: a number out of range: 'nan'"),
            ("at 0 0", "at 0 -10001", "line 2: a number out of range: '-10001'"),
        ):
            text = pads(pad).replace(old.encode(), new.encode())
            with self.subTest(new):
                self.refused(line, lambda text=text: kicad_pcb.read(text))  # type: ignore[misc]

    def test_limits(self) -> None:
        texts = [PAD.format(at, "0 0", "F.Cu", "") for at in range(3)]
        with mock.patch.object(kicad_pcb, "MOST_PINS", 2):
            kicad_pcb.read(pads(*texts[:2]))
            self.refused("line 2: more than 2 pins", lambda: kicad_pcb.read(pads(*texts)))
        line = "(gr_line (start 0 0) (end {} 0) (layer Edge.Cuts))"
        two = f"(kicad_pcb {line.format(1)}\n{line.format(2)})".encode()
        with mock.patch.object(kicad_pcb, "MOST_POINTS", 4):
            self.assertEqual(len(kicad_pcb.read(two)[1].outline), 2)
        with mock.patch.object(kicad_pcb, "MOST_POINTS", 3):
            self.refused("line 2: more than 3 points", lambda: kicad_pcb.read(two))
        short = two.replace(b"start 0 0", b"start 0")
        self.refused("line 1: a point with less than two", lambda: kicad_pcb.read(short))

    def test_outlines(self) -> None:
        shapes = (
            "(gr_line (start 0 1) (end 2 3) (layer Edge.Cuts))"
            "(gr_line (start 0 1) (end 2 3) (layer F.SilkS))"
            "(gr_rect (start 1 2) (end 3 5) (layer Edge.Cuts))"
            "(gr_poly (pts (xy 0 0) (xy 4 0) (xy 4 1)) (layer Edge.Cuts))"
            "(gr_arc (start 0 0) (end 1 0) (angle 12) (layer Edge.Cuts))"
        )
        line, rect, poly, arc = kicad_pcb.read(f"(kicad_pcb {shapes})".encode())[1].outline
        self.on_lines(line, (0, 1), (2, 3))
        self.on_lines(rect, (1, 2), (3, 2), (3, 5), (1, 5), (1, 2))
        self.on_lines(poly, (0, 0), (4, 0), (4, 1), (0, 0))
        turns = [math.radians(at) for at in (0, 6, 12)]
        self.on_lines(arc, *((math.cos(turn), math.sin(turn)) for turn in turns))


class Edges(Case):
    """Pieces of an outline."""

    def test_circle(self) -> None:
        line = edge(b"circle", [(1.0, 1.0), (3.0, 1.0)], None)
        self.assertEqual(len(line), 61)  # pieces of 6 degrees
        quarters = [line[at] for at in (0, 15, 30, 45, 60)]
        self.on_lines(quarters, (3, 1), (1, 3), (-1, 1), (1, -1), (3, 1))

    def test_arcs(self) -> None:
        right, lower, left, upper = (2.0, 1.0), (1.0, 2.0), (0.0, 1.0), (1.0, 0.0)
        for points, middle, pieces in (
            ([right, lower, left], lower, 30),
            ([right, upper, left], upper, 30),
            ([left, lower, right], lower, 30),
            ([right, left, upper], (1 - math.sqrt(0.5), 1 + math.sqrt(0.5)), 45),
        ):
            line = edge(b"arc", list(points), None)
            self.assertIn(len(line), (pieces + 1, pieces + 2))
            ends = [line[0], line[-1]]
            self.on_lines(ends, points[0], points[2])
            nearest = min(math.dist(middle, point) for point in line)
            self.assertLess(nearest, 0.06)

    def test_angles_have_a_bound(self) -> None:
        for turn, pieces in ((0.0, 1), (6.0, 1), (6.1, 2), (-90.0, 15), (400.0, 60), (-400.0, 60)):
            line = edge(b"arc", [(0.0, 0.0), (1.0, 0.0)], turn)
            self.assertEqual(len(line), pieces + 1, turn)
        self.on_lines([swept((0, 0), (1, 0), -math.pi / 2)[-1]], (0, -1))

    def test_curve(self) -> None:
        line = curve([(8.0, 16.0), (8.0, 19.0), (11.0, 19.0), (11.0, 16.0)])
        self.assertEqual(len(line), 25)
        self.on_lines([line[0], line[12], line[24]], (8, 16), (9.5, 18.25), (11, 16))
        self.assertEqual(edge(b"curve", line[:3], None), line[:3])
        # A quarter of the way: 27/64, 27/64, 9/64 and 1/64 of the four points.
        self.on_lines([line[6]], (8 + (27 + 3) / 64, 16 + (81 + 27) / 64))


class Programs(Folder):
    """The frame of the programs that print a net file."""

    def run_words(self, *words: str) -> tuple[str, str]:
        """Runs the program for PADS, and returns what it prints and what it says."""
        out, err = io.StringIO(), io.StringIO()
        with mock.patch.object(sys, "argv", ["pads-to-nets.py", *words]):
            with contextlib.redirect_stdout(out), contextlib.redirect_stderr(err):
                try:
                    program.main("a PADS netlist", pads_form.read)
                except SystemExit as end:
                    self.assertIn(end.code, (0, 1))
        return out.getvalue(), err.getvalue()

    def test_net_files(self) -> None:
        text = "*NET*\n*SIGNAL* #A\nU1.1\n*SIGNAL* B\nU1.2\n*END*\n"
        nets = "NET _A U1.1\nNET B U1.2\n"
        output = f"{self.folder}/out.nets"
        for mark in ("", "\xef\xbb\xbf"):
            name = self.write("netlist", mark + text)
            printed, said = self.run_words(name)
            self.assertEqual(printed, nets)
            self.assertIn("net '#A' is written _A\n", said)
            self.assertEqual(self.run_words("-o", output, name)[0], "")
            self.assertEqual(pathlib.Path(output).read_text(encoding="ascii"), nets)
            pathlib.Path(output).unlink()

    def test_refusals(self) -> None:
        bad = self.write("bad", "*NET*\nU1.1\n*END*\n")
        none = self.write("none", "*NET*\n*END*\n")
        for name, said in (
            (bad, f"{bad} line 2: a pin before the first *SIGNAL*: 'U1.1'"),
            (none, f"{none} line 2: no nets: is this a PADS netlist?"),
            (f"{self.folder}/nothing", f"cannot read {self.folder}/nothing"),
        ):
            printed, why = self.run_words(name)
            self.assertEqual((printed, why.count("\n")), ("", 1))
            self.assertIn(said, why)

    def test_files_that_are_too_long(self) -> None:
        name = self.write("netlist", "0123456789")
        with mock.patch.object(program, "LIMIT", 10):
            self.assertEqual(program.read_bytes(name), b"0123456789")
        with mock.patch.object(program, "LIMIT", 9):
            with self.assertRaisesRegex(BadInput, "netlist: longer than 9 bytes$"):
                program.read_bytes(name)

    def test_what_is_no_plain_file(self) -> None:
        program.write("/dev/null", "text")
        with self.assertRaisesRegex(BadInput, "^cannot write "):
            program.write(self.folder, "text")
        with mock.patch.object(program, "put", side_effect=SystemExit(0)):
            with self.assertRaises(BadInput):
                program.print_whole("text")

    def test_boards_without_places(self) -> None:
        for name, text in (("a.ipc", "C  none\n999\n"), ("a.kicad_pcb", " (kicad_pcb)")):
            path = self.write(name, text)
            with self.assertRaisesRegex(BadInput, f"{name}: no places"):
                read_places(path)
        path = self.write("b.kicad_pcb", "(kicad_pcb\n(net 1))")
        with self.assertRaisesRegex(BadInput, "b.kicad_pcb line 2: a net without a name"):
            read_places(path)


if __name__ == "__main__":
    unittest.main()
