"""Columns, limits and odd words of netlists. What comes was worked out by hand from the forms."""

from __future__ import annotations

import math
import unittest
from typing import Callable
from unittest import mock

from btest_tools.netlists import ipc356, kicad_pcb, lists, net_file, pads, protel, telesis
from btest_tools.netlists.edges import arc_through, edge, swept
from btest_tools.netlists.lists import Lines, Reader
from btest_tools.netlists.net_file import Nets, Refused, shown
from btest_tools.places import BOTH, TOP, Place, Places, Point, smallest_distance


class Case(unittest.TestCase):
    """What the tests of the forms share."""

    def on_line(self, line: list[Point], *points: Point) -> None:
        """Checks that an edge has just these points."""
        self.assertEqual(len(line), len(points), line)
        for one, other in zip(line, points):
            self.assertAlmostEqual(math.dist(one, other), 0, 6)

    def refused(self, line: str, call: Callable[[], object]) -> None:
        """Checks that a call refuses with a line that begins so."""
        with self.assertRaises(Refused) as why:
            call()
        self.assertEqual(str(why.exception)[: len(line)], line)


def record(code: str, net: str, part: str, pin: str, rest: str = "") -> str:
    """Returns a record by IPC-D-356, with its words in their columns."""
    return f"{code:3}{net:17}{part:6}-{pin:4}{rest}\n"


def ipc(*lines: str) -> tuple[str, Places]:
    """Returns the net file and the places of a netlist by IPC-D-356."""
    nets, places = ipc356.read("".join([*lines, "999\n"]).encode("latin-1"))
    return nets.text(), places


class Ipc(Case):
    """IPC-D-356."""

    def test_the_last_column(self) -> None:
        # The angle ends in column 71, and what is behind that is no part of the place.
        rest = "MD0320PA01X+010000Y+020000X0300Y0600R090"
        self.assertEqual(31 + len(rest), 71)
        for behind in ("", "S3", "?!"):
            _, places = ipc(record("317", "A", "U1", "1", rest + behind))
            (place,) = places.of("U1.1")
            self.assertEqual((place.side, place.angle), (TOP, 90), behind)
            self.assertAlmostEqual(place.height, 1.524)

    def test_columns_of_names(self) -> None:
        # The net has the columns 4 to 17, the part 21 to 26 and the pin 28 to 31.
        text, _ = ipc("317NET_OF_14_CHARS  PART_6-PIN4\n", "317B                U1    -1\n")
        self.assertEqual(text, "NET NET_OF_14_CHARS PART_6.PIN4\nNET B U1.1\n")

    def test_a_record_without_a_hyphen(self) -> None:
        # A blank in column 27 leaves no pin, so the record is left out.
        text, places = ipc("317A                U1     1\n", record("317", "A", "U2", "1"))
        self.assertEqual((text, places.pins), ("NET A U2.1\n", {}))

    def test_an_edge_whose_first_point_lacks_a_coordinate(self) -> None:
        outline = f"389BOARD{' ' * 9}"
        _, places = ipc(f"{outline}X+010000 Y+020000\n", f"{outline}Y+020000\n")
        one, two = places.outline
        self.on_line(one, (25.4, 0.0), (25.4, -50.8))
        self.on_line(two, (0.0, -50.8))

    def test_an_edge_goes_on_from_its_last_point(self) -> None:
        edges = f"389BOARD{' ' * 9}X+010000Y+010000X+020000Y+030000\n", f"089{' ' * 14}X+030000\n"
        (line,) = ipc(*edges)[1].outline
        ends = (25.4, -25.4), (50.8, -76.2), (76.2, -76.2), (25.4, -25.4)
        self.on_line(line, *ends)

    def test_aliases(self) -> None:
        # Letters of either case are the same in an alias, but not in a name.
        text, _ = ipc(
            "P  NNAME1 LONG\n",
            record("317", "nname1", "U1", "1"),
            record("317", "NNAME1", "U1", "2"),
            record("317", "Nname1", "U1", "3"),
            record("317", "A", "U2", "1"),
            record("317", "a", "U2", "2"),
        )
        self.assertEqual(text, "NET LONG U1.1 U1.2 U1.3\nNET A U2.1\nNET a U2.2\n")
        for one, other in (("NNAME1", "NNAME1"), ("NNAME1", "nname1")):
            lines = f"P  {one} A\n", f"P  {other} B\n"
            self.refused(f"line 2: '{other}' is in line 1, too", lambda lines=lines: ipc(*lines))  # type: ignore[misc]


class Kicad(Case):
    """Boards of KiCad, and lists in brackets."""

    def test_a_text_without_a_name(self) -> None:
        pad = "(pad 1 smd rect (at 0 0) (size 1 2) (layers F.Cu) (net 1 A))"
        for texts, pin in (
            ('(fp_text reference) (property "Reference" "U7")', "U7.1"),
            ('(fp_text value "X") (property "Value" "Y") (fp_text reference "U8")', "U8.1"),
        ):
            text = f"(kicad_pcb (net 1 A) (footprint F (at 0 0) {texts} {pad}))"
            nets, _ = kicad_pcb.read(text.encode("ascii"))
            self.assertEqual(nets.text(), f"NET A {pin}\n")

    def test_a_drill_without_an_offset(self) -> None:
        drills = "(drill 1) (drill oval 1 2 (offset 0.5 0.25))"
        pad = f"(pad 1 thru_hole rect (at 1 2) (size 1 2) {drills} (layers *.Cu))"
        text = f"(kicad_pcb (footprint F (at 10 20) (fp_text reference U1) {pad}))"
        (place,) = kicad_pcb.read(text.encode("ascii"))[1].of("U1.1")
        self.assertEqual(place, Place(11.5, 22.25, BOTH, 1, 2))

    def test_lines_of_offsets(self) -> None:
        lines = Lines(b"a\n\nb\n")
        offsets = 0, 4, 4, 1, 1, 2, 5, 0
        self.assertEqual([lines.of(at) for at in offsets], [1, 3, 3, 1, 1, 2, 4, 1])

    def test_items_are_counted_anew_for_each_list(self) -> None:
        wanted: lists.Wanted = {b"a": {b"b": {}}}
        with mock.patch.object(lists, "MOST_ITEMS", 4):
            found = list(Reader(b"(a (b 1 2) (b 3 4 5))", wanted, 1).items())
            self.assertEqual([item.words for item in found], [[b"1", b"2"], [b"3", b"4", b"5"]])
            for text in (b"(a (b 1 2 3))", b"(a (b 1 2) (b 3 4 5 6))"):
                line = "line 1: more than 4 words and brackets"
                self.refused(line, lambda text=text: list(Reader(text, wanted, 1).items()))  # type: ignore[misc]


class Edges(Case):
    """Shapes whose center is no point of symmetry: (1, 2), with a radius of 5 mm."""

    right, lower, below = (6.0, 2.0), (4.0, 6.0), (1.0, 7.0)

    def test_arcs_begin_and_end_at_their_points(self) -> None:
        self.on_line(swept((1, 2), self.lower, 0.0), self.lower, self.lower)
        quarter = swept((1, 2), self.right, math.pi / 2)
        self.assertEqual(len(quarter), 16)
        self.on_line([quarter[0], quarter[-1]], self.right, self.below)
        for turn in (400.0, -400.0):
            line = edge(b"arc", [(1.0, 2.0), self.lower], turn)
            self.on_line([line[0], line[-1]], self.lower, self.lower)

    def test_arcs_through_points(self) -> None:
        for begin, middle, end in (
            (self.right, self.lower, self.below),
            (self.below, self.lower, self.right),
            (self.lower, self.right, self.below),
        ):
            line = arc_through(begin, middle, end)
            self.on_line([line[0], line[-1]], begin, end)
            self.assertEqual({round(math.dist((1, 2), point), 6) for point in line}, {5})
            self.assertLess(min(math.dist(middle, point) for point in line), 0.3)

    def test_small_arcs(self) -> None:
        # A tenth of a millimeter is no line.
        line = arc_through((0.1, 0.0), (0.0, 0.1), (-0.1, 0.0))
        self.assertIn(len(line), (31, 32))

    def test_shapes_with_other_points(self) -> None:
        points: list[Point] = [(0.0, 0.0), (1.0, 2.0), (3.0, 5.0)]
        for kind, count in ((b"arc", 2), (b"circle", 3), (b"rect", 1), (b"rect", 3), (b"curve", 3)):
            self.assertEqual(edge(kind, points[:count], None), points[:count], kind)
        self.assertEqual(len(edge(b"arc", points, 90.0)), len(arc_through(*points)))


class Words(Case):
    """Names, pins and texts at their bounds."""

    def test_names_that_are_cut(self) -> None:
        # Characters are cut, and not their bytes, of which each here has four.
        name = "\U0001f600" * 4
        self.assertEqual(shown(name.encode("utf-8"), 3), repr(name[:3] + ".."))
        self.assertEqual(shown(b"a" * 301), repr("a" * 300 + ".."))
        self.assertEqual(shown(b"a" * 300), repr("a" * 300))

    def test_longest_pins(self) -> None:
        nets = Nets()
        net = nets.begin(b"A", 1)
        nets.add(net, b"U", b"1" * 253, 1)
        self.assertEqual(len(net.pins[0]), 255)
        self.refused("line 2: net 'A': not a pin", lambda: nets.add(net, b"U", b"1" * 254, 2))

    def test_limits(self) -> None:
        # 256 MiB of a text, 1 MiB of a line, four times the pins that btest takes.
        self.assertEqual(net_file.LIMIT, 268_435_456)
        self.assertEqual(net_file.LONGEST_LINE, 1_048_576)
        self.assertEqual(net_file.MOST_PINS, 262_144)
        self.assertEqual((kicad_pcb.MOST_POINTS, lists.MOST_ITEMS), (262_144, 1_048_576))
        deep = b"(a " + b"(" * 999 + b")" * 999 + b")"
        self.assertEqual(lists.skip(deep, 1), len(deep))
        deeper = b"(a " + b"(" * 1000 + b")" * 1000 + b")"
        self.refused("line 1: brackets are nested more than 1000", lambda: lists.skip(deeper, 1))

    def test_protel(self) -> None:
        # A net's name may look like a pin of a part in its first word alone.
        part = b"[\nU1\n]\n"
        text = protel.read(part + b"(\nU1-1 x\nU1-2\n)\n").text()
        self.assertEqual(text, "NET U1-1_x U1.2\n")
        line = "line 5: a net without a name: its first line is the pin 'U1-1 U1-2'"
        text = protel.read(part + b"(\nA-1\nU1-2\n)\n").text()
        self.assertEqual(text, "NET A-1 U1.2\n")
        line = "line 5: a net without a name: its first line is the pin 'U1-1'"
        self.refused(line, lambda: protel.read(part + b"(\nU1-1 U1-2\nU1-3\n)\n"))

    def test_protel_brackets(self) -> None:
        two = protel.read(b"[U1\nF](A\nU1-1)[R1]\n(B\nR1-1)").text()
        self.assertEqual(two, "NET A U1.1\nNET B R1.1\n")
        self.refused("line 2: a bracket has no other", lambda: protel.read(b"(A\nU1-1(\n)\n"))
        self.refused("line 1: a net without a name", lambda: protel.read(b"()\n"))
        self.refused("line 3: the bracket in line 2", lambda: protel.read(b"\n[\n)\n]\n"))

    def test_protel_kinds(self) -> None:
        # Of three words, the last names the kind only in the second form, or if it is one.
        second = b"PROTEL NETLIST 2.0\n"
        self.assertEqual(protel.read(second + b"(\nA\nU1-1 U2-1 x\n)").text(), "NET A U1.1\n")
        for kind in ("I/O", "hiz", "Hi-Z", "OpenCollector", "UNKNOWN"):
            text = f"(\nA\nU1-1 {kind}\n)".encode("ascii")
            self.assertEqual(protel.read(text).text(), "NET A U1.1\n", kind)

    def test_pads(self) -> None:
        text = b"*NET*\n*SIGNAL* A 12 x\nU1.1\n*MISC*\n*NET*\n*SIGNAL* B 7\nU1.2\n*END*\n"
        self.assertEqual(pads.read(text).text(), "NET A_12_x U1.1\nNET B U1.2\n")

    def test_telesis(self) -> None:
        # An empty line ends a net that was to go on.
        good = b"$NETS\nA ; U1.1,\n\nB ; 'U2.1'\n$END"
        self.assertEqual(telesis.read(good).text(), "NET A U1.1\nNET B U2.1\n")


class Columns(unittest.TestCase):
    """The smallest distance of pins."""

    def test_many_pins_in_a_column(self) -> None:
        # A pin is compared with the two hundred before it, which here are 10 mm apart.
        for count, smallest in ((199, 0.5), (200, 10)):
            pins = [("A", Place(0, 0, TOP)), ("B", Place(0.5, 0, TOP))]
            pins += [(f"C{at}", Place(0.2, 10 * at, TOP)) for at in range(1, count + 1)]
            self.assertAlmostEqual(smallest_distance(pins), smallest)


if __name__ == "__main__":
    unittest.main()
