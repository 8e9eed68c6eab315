"""The readers of boards with places. Expected values are worked by hand from the formats."""

from __future__ import annotations

import math
import unittest
from typing import Callable, Tuple

from btest_tools.netlists import ipc356, kicad_pcb
from btest_tools.netlists.net_file import Nets, Refused
from btest_tools.places import Places

# A pad at (2, 1) of a part at (10, 20), whose offset the part's angle turns counterclockwise.
PCB = """(kicad_pcb (version 20211014)
  (net 0 "") (net 1 "A") (net 2 "/b c")
  (footprint "X" (layer "F.Cu") (at 10 20 90)
    (fp_text reference "U1" (at 0 0) (layer "F.SilkS"))
    (pad "1" smd rect (at 2 1 90) (size 3 0.5) (layers "F.Cu" "F.Mask") (net 1 "A"))
    (pad "2" thru_hole oval (at -2 1) (size 1 2) (drill oval 0.5 1 (offset 0.5 0)) (layers "*.Cu")
      (net 2 "/b c"))
    (pad "" np_thru_hole circle (at 0 0) (size 1 1) (layers "*.Cu"))
    (pad "3" smd rect (at 0 5) (size 1 1) (layers "F.Cu")))
  (footprint "X" (layer "B.Cu") (at 30 20)
    (property "Reference" "R1" (at 0 0))
    (pad "1" smd rect (at 1 -2) (size 1 1) (layers "B.Cu" "B.Mask") (net 1 "A")))
  (gr_line (start 0 0) (end 50 0) (layer "Edge.Cuts"))
  (gr_line (start 0 0) (end 50 1) (layer "F.SilkS"))
  (zone (net 1) (polygon (pts (xy 0 0) (xy 1 1)))))
"""

# KiCad 5 has no quotation marks where it needs none, and arcs by their center.
PCB_5 = """(kicad_pcb (version 20171130) (host pcbnew 5.1.9)
  (net 0 "")
  (net 1 /SDA)
  (module Lib:R (layer F.Cu) (tedit 0) (tstamp 0)
    (at 5 6)
    (fp_text reference R7 (at 0 -1) (layer F.SilkS))
    (pad 1 thru_hole circle (at 0 -1) (size 1.6 1.6) (drill 0.8) (layers *.Cu *.Mask)
      (net 1 /SDA)))
  (gr_arc (start 10 10) (end 12 10) (angle 90) (layer Edge.Cuts) (width 0.1)))
"""


def record(net: str, part: str, pin: str, rest: str, code: str = "327") -> str:
    """Returns a record with its columns: 4 the net, 21 the part, 27 the pin, 32 the rest."""
    return f"{code}{net:<14}   {part:<6}{'-' if pin else ' '}{pin:<4}{rest}\n"


def pcb(text: str) -> Tuple[Nets, Places]:
    """Reads a board."""
    return kicad_pcb.read(text.encode("utf-8"))


def ipc(*lines: str) -> Tuple[Nets, Places]:
    """Reads a netlist by IPC-D-356."""
    return ipc356.read("".join(lines).encode("utf-8") + b"999\n")


class Boards(unittest.TestCase):
    """What both readers share with their tests."""

    def is_at(self, places: Places, pin: str, x: float, y: float, side: str) -> None:
        """Fails but where a pin has this one place."""
        (place,) = places.of(pin)
        self.assertAlmostEqual(place.x, x, 6)
        self.assertAlmostEqual(place.y, y, 6)
        self.assertEqual(place.side, side)

    def refuses(self, line: int, why: str, read: Callable[[], object]) -> None:
        """Fails but where the text is refused at a line."""
        with self.assertRaises(Refused) as refused:
            read()
        self.assertEqual(refused.exception.line, line)
        self.assertIn(why, refused.exception.why)


class KicadPcb(Boards):
    """Boards of KiCad."""

    def test_nets(self) -> None:
        nets, _ = pcb(PCB)
        self.assertEqual(nets.text(), "NET A U1.1 R1.1\nNET /b_c U1.2\n")
        self.assertEqual(nets.renamed(), ["net '/b c' is written /b_c"])

    def test_a_turned_part(self) -> None:
        _, places = pcb(PCB)
        # By 90 degrees counterclockwise, where y grows downward, (2, 1) becomes (1, -2).
        self.is_at(places, "U1.1", 11, 18, "top")
        self.assertEqual(places.of("U1.1")[0][3:], (3, 0.5, 90))
        # (-2, 1) becomes (1, 2). The copper is 0.5 to the right of the hole, as the pad is at 0.
        self.is_at(places, "U1.2", 11.5, 22, "both")
        self.is_at(places, "U1.3", 15, 20, "top")

    def test_a_part_on_the_bottom(self) -> None:
        _, places = pcb(PCB)
        self.is_at(places, "R1.1", 31, 18, "bottom")  # the file has it mirrored already

    def test_outline(self) -> None:
        _, places = pcb(PCB)
        self.assertEqual(places.outline, [[(0, 0), (50, 0)]])

    def test_kicad_5(self) -> None:
        nets, places = pcb(PCB_5)
        self.assertEqual(nets.text(), "NET /SDA R7.1\n")
        self.is_at(places, "R7.1", 5, 5, "both")
        (arc,) = places.outline
        # A quarter clockwise on the screen, from the right of the center to below it.
        self.assertAlmostEqual(arc[0][0], 12)
        self.assertAlmostEqual(arc[-1][0], 10)
        self.assertAlmostEqual(arc[-1][1], 12)

    def test_arc_through_three_points(self) -> None:
        text = "(kicad_pcb (gr_arc (start 1 0) (mid 0 -1) (end -1 0) (layer Edge.Cuts)))"
        (arc,) = pcb(text)[1].outline
        for x, y in arc:
            self.assertAlmostEqual(math.hypot(x, y), 1)
        self.assertAlmostEqual(min(y for _, y in arc), -1)
        self.assertAlmostEqual(max(y for _, y in arc), 0)

    def test_refusals(self) -> None:
        pad = '(pad 1 smd rect (at {at}) (size 1 1) (layers F.Cu) (net 1 "A"))'
        board = f'(kicad_pcb\n(net 1 "A")\n(footprint X (at 0 0) (fp_text reference U1)\n{pad}))'
        for text, line, why in (
            (board.format(at="1e308 0"), 4, "out of range: '1e308'"),
            (board.format(at="nan 0"), 4, "out of range: 'nan'"),
            (board.format(at="x 0"), 4, "not a number: 'x'"),
            (board.format(at="1"), 4, "pad has no (at ..) with 2 numbers"),
            (board.format(at="0 0")[:-1], 4, "a bracket is not closed"),
            (board.format(at="0 0") + "\n)", 5, "a bracket is closed that was not open"),
            (PCB.replace('(net 2 "/b c")', '(net 2 "A")'), 2, "net 'A' is in line 2, too"),
            (PCB.replace('(net 2 "/b c")', '(net 1 "B")', 1), 2, "net number '1' is in line 2"),
            (
                PCB.replace('"R1"', '"U1"')
                .replace('-2) (size 1 1) (layers "B', '0) (size 1 1) (layers "B')
                .replace('(pad "1" smd rect (at 1', '(pad "2" smd rect (at 1'),
                12,
                "pin U1.2 is in net 'A' and, by line 6, in net '/b c'",
            ),
            ("\n" + "(" * 1_000_000, 2, "nested more than 1000 deep"),
            ('(kicad_pcb (net 1 "A', 1, "a string is not closed"),
            ('(kicad_pcb (net 1 "A\\', 1, "a string is not closed"),
        ):
            with self.subTest(why):
                self.refuses(line, why, lambda text=text: pcb(text))  # type: ignore[misc]

    def test_cut_at_every_byte(self) -> None:
        whole = len(PCB.rstrip())
        for end in range(1, whole):
            with self.assertRaises(Refused):
                pcb(PCB[:end])


class Ipc356(Boards):
    """Netlists by IPC-D-356."""

    def test_units(self) -> None:
        rest = "      A01X+012700Y-025400X0500Y0100R{angle}S1"
        for units, angle, x, y, width in (
            ("", "090", 32.258, 64.516, 1.27),  # of 0.0001 inch where nothing is said
            ("P  UNITS CUST\n", "090", 32.258, 64.516, 1.27),
            ("P  UNITS CUST 0\n", "090", 32.258, 64.516, 1.27),
            ("P  UNITS CUST 1\n", "090", 12.7, 25.4, 0.5),
            ("P  UNITS CUST 2\n", "157", 32.258, 64.516, 1.27),
            ("P  UNITS SI\n", "157", 12.7, 25.4, 0.5),
        ):
            with self.subTest(units):
                _, places = ipc(units, record("A", "U1", "1", rest.format(angle=angle)))
                (place,) = places.of("U1.1")
                self.assertAlmostEqual(place.x, x, 6)
                self.assertAlmostEqual(place.y, y, 6)  # upward in the file, downward here
                self.assertAlmostEqual(place.width, width, 6)
                self.assertAlmostEqual(place.angle, 90, 0)  # 157 hundredths are 89.95 degrees
                self.assertEqual(place.side, "top")

    def test_angles_of_kicad(self) -> None:
        """KiCad counts them clockwise."""
        rest = "      A01X+012700Y-025400X0500Y0100R045S1"
        head = "P  CODE 00\n", "P  UNITS CUST 0\n", "P  arrayDim   N\n"
        for lines, angle in ((head, -45), (head[:2], 45)):
            _, places = ipc(*lines, record("A", "U1", "1", rest))
            self.assertEqual(places.of("U1.1")[0].angle, angle)

    def test_sides(self) -> None:
        _, places = ipc(
            record("A", "U1", "1", "D0800PA00X+000100Y+000100X0600Y0000R000S0", "317"),
            record("A", "U1", "2", "      A01X+000200Y+000100X0600Y0000R000S1"),
            record("A", "U1", "3", "      A02X+000300Y+000100X0600Y0000R000S2"),
            record("A", "U1", "4", "      A08X+000400Y+000100X0600Y0000R000S2"),
        )
        sides = [places.of(f"U1.{pin}")[0].side for pin in range(1, 5)]
        self.assertEqual(sides, ["both", "top", "bottom", "bottom"])

    def test_what_is_no_pin(self) -> None:
        place = "      A01X+000100Y+000100X0600Y0000R000S1"
        nets, places = ipc(
            "C  a comment\n",
            "P  JOB   a job\n",
            "\n",
            record("A", "U1", "1", place),
            record("N/C", "U1", "2", place),
            record("A", "VIA", "", "MD0400PA00X+000100Y+000100X0600Y0000R000S3", "317"),
            record("A", "TP1", "", place),
            record("N/C", "", "", "D3200UA00X+000100Y+000100X3200Y0000R000S0", "367"),
            "378A                 L01 X0100 X+000100Y+000100 X+000200\n",
            "099                  X+000100\n",
            "390 ZZZ\n",
        )
        self.assertEqual(nets.text(), "NET A U1.1\n")
        self.assertEqual(sorted(places.pins), ["U1.1", "U1.2"])

    def test_continued(self) -> None:
        nets, places = ipc(
            record("A", "U1", "1", "      A01X+000100Y+000100X0600Y0000R000S1"),
            record("", "", "", "      A02X+000100Y+000100X0800Y0000R000S1", "027"),
            record("", "U1", "2", "      A01X+000200Y+000100X0800Y0000R000S1", "027"),
        )
        self.assertEqual(nets.text(), "NET A U1.1 U1.2\n")
        self.assertEqual([place.side for place in places.of("U1.1")], ["top", "bottom"])

    def test_long_names(self) -> None:
        name = "/a/name/of/more/than/14/columns"
        nets, _ = ipc(
            f"P  NNAME00001  {name}\n",
            record("NNAME00001", "U1", "1", ""),
            record("NNAME00001", "U1", "2", ""),
        )
        self.assertEqual(nets.text(), f"NET {name} U1.1 U1.2\n")

    def test_a_part_longer_than_its_columns(self) -> None:
        text = "327A                CONN_12-A1         A01X+000100Y+000200X0600Y0000R000S1\n"
        nets, places = ipc(text)
        self.assertEqual(nets.text(), "NET A CONN_12.A1\n")
        self.is_at(places, "CONN_12.A1", 0.254, -0.508, "top")

    def test_blanks_in_numbers(self) -> None:
        _, places = ipc("317A                U1    -1    D  24PA00X  3850Y  8500X 396Y 396\n")
        self.is_at(places, "U1.1", 9.779, -21.59, "both")

    def test_outline(self) -> None:
        _, places = ipc(
            "P  UNITS CUST 1\n",
            record("A", "U1", "1", ""),
            "389BOARD_EDGE       X+000000Y+000000 X+002000 Y+001000\n",
            "089                 X+000000\n",
            "389SCORE_LINE       X+000000Y+000000 X+002000\n",
        )
        self.assertEqual(places.outline, [[(0, 0), (2, 0), (2, -1), (0, -1), (0, 0)]])

    def test_a_panel(self) -> None:
        place = "      A01X+000100Y+000100X0600Y0000R000S1"
        nets, places = ipc(
            "P  IMAGE  1\n",
            record("A", "U1", "1", place),
            "P  IMAGE  2\n",
            record("A", "U1", "1", place.replace("X+000100", "X+100000")),
        )
        self.assertEqual(nets.text(), "NET A U1.1\n")
        self.assertEqual(len(places.of("U1.1")), 1)

    def test_refusals(self) -> None:
        good = record("A", "U1", "1", "      A01X+000100Y+000100X0600Y0000R000S1")
        for text, line, why in (
            (good + record("B", "U1", "1", ""), 2, "pin U1.1 is in net 'B' and, by line 1"),
            ("P  NNAME1 X\nP  NNAME1 Y\n" + good, 2, "'NNAME1' is in line 1, too"),
            ("P  UNITS CUST 7\n" + good, 1, "units that are not known: 'CUST 7'"),
            ("P  NNAME1 A\n" + good + record("NNAME1", "U1", "2", ""), 1, "net 'A' is in line 2"),
            (good + "hello\n", 2, "not a record: 'hello'"),
            (record("A", "U1", "1", "      A01Xsome"), 1, "from column 32"),
            ("P  UNITS CUST 1\n" + record("A", "U1", "1", "A01X99999999Y0"), 2, "out of range"),
            (record("A", "U1", "1", "", "017"), 1, "a record continues none"),
        ):
            with self.subTest(why):
                self.refuses(line, why, lambda text=text: ipc(text))  # type: ignore[misc]
        self.refuses(1, "no 999", lambda: ipc356.read(good.encode("ascii")))

    def test_cut_at_every_byte(self) -> None:
        text = record("A", "U1", "1", "      A01X+000100Y+000100X0600Y0000R000S1") * 3 + "999"
        for end in range(len(text)):
            with self.assertRaises(Refused):
                ipc356.read(text[:end].encode("ascii"))


if __name__ == "__main__":
    unittest.main()
