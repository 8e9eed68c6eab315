"""What the pictures draw, and where, worked out by hand.

The board is 40 mm wide and 19.6 mm high, which is the area of a square of 28 mm. So letters are
1 mm high, the margin is 1.3 mm, and a mark has a radius of 0.36 mm. A millimeter is 20 units. U1
has two pins on the top, R1 one on the bottom.
"""

from __future__ import annotations

import math
import re
import unittest
from collections.abc import Sequence
from typing import Optional
from unittest import mock

from btest_tools import closeups, drawing, pictures
from btest_tools.closeups import CloseUp, Marked, window
from btest_tools.drawing import Box, Frame, Shapes, dots_path, extent, frame_of, plain_boxes
from btest_tools.neighbors import Neighborhood, are_side_by_side, row_number
from btest_tools.pictures import ShownNet, View, marked, measure, table, where
from btest_tools.places import BOTH, BOTTOM, TOP, Place, Places, smallest_distance

NET = ShownNet(1, "A", ["U1.1", "U1.2", "R1.1"], ["U1.1", "R1.1"])


def small_board() -> Places:
    """Returns the board."""
    places = Places()
    places.add("U1", "1", Place(8, 4, TOP, 0.5, 0.5))
    places.add("U1", "2", Place(10, 4, TOP, 0.5, 0.5))
    places.add("R1", "1", Place(24, 12, BOTTOM, 0.5, 0.5))
    places.outline = [[(0, 0), (40, 0), (40, 19.6), (0, 19.6), (0, 0)]]
    return places


def view(side: str = TOP, net: ShownNet = NET) -> str:
    """Returns the picture from a side, without the pieces that both share."""
    places = small_board()
    one = View(places, [net], frame_of(places), side)
    return one.svg("n", "", [("U1.1", "R1.1")], ["U1.2"])


class Views(unittest.TestCase):
    """The board from its sides."""

    def holds(self, text: str, *pieces: str) -> None:
        """Checks that a text has each of these pieces."""
        for piece in pieces:
            self.assertIn(piece, text)

    def test_from_the_top(self) -> None:
        # U1.1 is at 9.3 and 5.3 mm from the corner of the picture, R1.1 at 25.3 and 13.3 mm.
        self.holds(
            view(),
            'viewBox="0 0 852 476"',
            "Failing pins on this side: U1.1",
            '<circle cx="186" cy="106" r="7"><title>U1.1, net A, fails</title>',
            '<circle cx="226" cy="106" r="4"><title>U1.2, net A</title>',
            '<circle cx="226" cy="106" r="9"><title>U1.2 may be open</title>',
            '<line x1="186" y1="106" x2="506" y2="266" stroke-dasharray="9 6"/>',
            '<circle cx="506" cy="266" r="7" stroke-dasharray="3"/>',
            "<title>measure between U1.1 and R1.1</title>",
            'fill="#fff" stroke="#b03a00" stroke-width="2"',
            '<g font-size="20" font-weight="bold" text-anchor="middle" stroke="#fff" '
            'stroke-width="4"',
        )

    def test_from_the_bottom(self) -> None:
        # It is mirrored: R1.1 is 42.6 - 25.3 mm from the left.
        self.holds(
            view(BOTTOM),
            '<circle cx="346" cy="266" r="7"><title>R1.1, net A, fails</title>',
            'transform="matrix(-1 0 0 1 852 0)"',
            '<line x1="666" y1="106" x2="346" y2="266"',
            '<circle cx="666" cy="106" r="7" stroke-dasharray="3"/>',
        )
        self.assertNotIn("may be open", view(BOTTOM))
        self.assertNotIn("matrix", view())

    def test_letters(self) -> None:
        # The number is right of the disk. The name of the part would be on it, and so would it be
        # if it were above. Below it is free.
        text = view()
        self.holds(text, '<text x="201" y="113" fill="#b03a00">1</text>')
        self.holds(text, '<text x="206" y="129">U1</text>')
        self.assertEqual(text.count("<text"), 3)  # with that of the scale

    def test_the_scale(self) -> None:
        # A fifth of 42.6 mm is 8.5 mm: 5 mm is the longest that is no longer.
        self.holds(view(), 'd="M20 461V466H120V461"', '<text x="125" y="466" font-size="16">5 mm')

    def test_lines_that_are_not_drawn(self) -> None:
        places = small_board()
        places.add("R1", "2", Place(26, 12, BOTTOM, 0.5, 0.5))
        one = View(places, [NET], frame_of(places), TOP)
        for pair in (("R1.1", "R1.2"), ("U1.1", "X.1"), ("X.1", "U1.1")):
            self.assertNotIn("<line", one.svg("n", "", [pair], []), pair)
        self.assertIn("<line", one.svg("n", "", [("U1.1", "U1.2")], []))

    def test_nothing_fails(self) -> None:
        text = view(TOP, ShownNet(9, "B", ["U1.2"], []))
        self.holds(text, "Failing pins on this side: none", 'stroke="#b03a00"')
        self.assertNotIn(", fails", text)

    def test_many_pins(self) -> None:
        places = small_board()
        names = [f"U1.{number}" for number in range(1, 6)]
        for at, name in enumerate(names):
            places.pins[name] = [Place(8 + at, 4, TOP)]
        net = ShownNet(2, "B", names, names[:3])
        with mock.patch.object(pictures, "MARKS", 2):
            text = View(places, [net], frame_of(places), TOP).svg("n", "", [], [])
            self.assertEqual(text.count(", fails"), 2)
            self.assertEqual(text.count(">2</text>"), 2)
            self.assertEqual(text.count("<title>U1.4, net B</title>"), 1)
            net = net._replace(failing=names[:2])
            text = View(places, [net], frame_of(places), TOP).svg("n", "", [], [])
        # Three others are dots, at 11.3, 12.3 and 13.3 mm.
        self.holds(text, '<path d="m226 106h0m20 0h0m20 0h0"', "<title>B</title>")
        with mock.patch.object(pictures, "LISTED", 1):
            one = View(places, [net], frame_of(places), TOP)
            self.holds(one.svg("n", "", [], []), "on this side: U1.1 and more")


class Listed(unittest.TestCase):
    """Pins that are listed up to a number, and the others counted."""

    def test_twelve_pins(self) -> None:
        for count, more in ((12, ""), (13, " and more")):
            places = small_board()
            names = [f"X.{at}" for at in range(count)]
            for at, name in enumerate(names):
                places.add("X", str(at), Place(at, 8, TOP))
            one = View(places, [ShownNet(1, "A", names, names)], frame_of(places), TOP)
            said = ", ".join(names[:12]) + more
            self.assertIn(f'on this side: {said}"', one.svg("n", "", [], []))


class Letters(unittest.TestCase):
    """Where numbers and names are, if disks are in their way. P.1 is at 426 and 226 units."""

    def texts(self, taken: Sequence[tuple[float, float]], high: float = 0.0) -> dict[str, str]:
        """Returns the numbers and the names with their places, if other pins that fail are so many
        units away from P.1, whose copper has a height in millimeters."""
        places = Places()
        places.outline = small_board().outline
        places.add("P", "1", Place(20, 10, TOP, 0, high))
        for at, (across, down) in enumerate(taken):
            places.add(f"X{at}", "1", Place(20 + across / 20, 10 + down / 20, TOP))
        nets = [ShownNet(7, "A", ["P.1"], ["P.1"])]
        nets.append(ShownNet(8, "B", [], [f"X{at}.1" for at in range(len(taken))]))
        text = View(places, nets, frame_of(places), TOP).svg("n", "", [], [])
        found = re.findall(r'<text x="(\d+)" y="(\d+)"(?: fill="[^"]*")?>(\w+)</text>', text)
        return {name: f"{x} {y}" for x, y, name in found if name in "7P"}

    def test_numbers(self) -> None:
        # A disk has a radius of 7 units, and a digit is 12.8 units wide: beside a disk it is
        # 15.4 units away, above it 17 units, and its line is 7 units below its middle.
        ways = [(15.4, 0), (-15.4, 0), (0, -17), (0, 17), (15.4, -17), (-15.4, 17)]
        for count in range(7):
            places = [f"{426 + x:.0f} {226 + y + 7:.0f}" for x, y in ways[count : count + 1]]
            found = self.texts(ways[:count])
            self.assertEqual([found["7"]] if "7" in found else [], places)

    def test_names(self) -> None:
        # The letters of a name have 16 units. It is in the middle of its part if no disk is there,
        # else 12.8 units above or below it, and its line is 5.6 units lower.
        cases: list[tuple[list[tuple[float, float]], float, Optional[str]]] = [
            ([], 0, None),
            ([], 3, f"426 {226 - 30 - 12.8 + 5.6:.0f}"),
            ([(0, -42.8)], 3, f"426 {226 + 30 + 12.8 + 5.6:.0f}"),
            ([(0, -42.8), (0, 42.8)], 3, None),
        ]
        for taken, high, place in cases:
            self.assertEqual(self.texts(taken, high).get("P"), place)

    def test_names_at_the_edges(self) -> None:
        # Ten letters of 16 units are 102.4 units wide. They stay within the 852 units.
        for x, middle in ((0, 51), (20, 426), (40, 801)):
            places = Places()
            places.outline = small_board().outline
            places.add("P123456789", "1", Place(x, 10, TOP, 0, 3))
            net = ShownNet(1, "A", ["P123456789.1"], ["P123456789.1"])
            text = View(places, [net], frame_of(places), TOP).svg("n", "", [], [])
            self.assertIn(f'<text x="{middle}" y="189">P123456789</text>', text)

    def test_scales(self) -> None:
        # The longest of 1, 2 and 5 times a power of ten that is no longer than a fifth of the width.
        for width, length in (
            (4.9, "0.5"),
            (5, "1"),
            (9.9, "1"),
            (10, "2"),
            (24, "2"),
            (25, "5"),
            (49, "5"),
            (50, "10"),
            (510, "100"),
            (0.6, "0.1"),
        ):
            frame = Frame(0, 0, width, width, width / 50, (0, 0))
            text = View(Places(), [], frame, TOP).svg("n", "", [], [])
            self.assertIn(f">{length} mm</text>", text)
            long = float(length) * 20
            begin = width * 0.4
            self.assertIn(f"M{begin:.0f} ", text)
            self.assertIn(f"H{begin + long:.0f}V", text)


class Words(unittest.TestCase):
    """The same in words."""

    def test_where(self) -> None:
        places = small_board()
        frame = frame_of(places)
        places.add("J1", "1", Place(1, 2.25, BOTH))
        self.assertEqual(where(places, frame, "U1.2"), "U1.2 (top, 10.0, 4.0)")
        self.assertEqual(where(places, frame, "J1.1"), "J1.1 (both sides, 1.0, 2.2)")
        self.assertEqual(where(places, frame, "X.1"), "X.1 (no place)")
        both = "U1.1 (top, 8.0, 4.0) and R1.1 (bottom, 24.0, 12.0), 17.9 mm apart"
        self.assertEqual(measure(places, frame, ("U1.1", "R1.1")), both)
        self.assertTrue(measure(places, frame, ("U1.1", "X.1")).endswith("X.1 (no place)"))

    def test_table(self) -> None:
        places = small_board()
        frame = frame_of(places)
        text = table(places, frame, [NET], [("U1.1", "U1.2")])
        row = '<tr><td class=number><b style="color:#b03a00">1</b></td><td>A</td>'
        wrong = "<td>U1.1 (top, 8.0, 4.0), R1.1 (bottom, 24.0, 12.0)</td><td>U1.2</td></tr>"
        self.assertIn(row + wrong, text)
        self.assertNotIn("more", text)
        self.assertEqual(text.count("<li>"), 1)
        self.assertNotIn("Measure", table(places, frame, [NET], []))
        with mock.patch.object(pictures, "ROWS", 2):
            text = table(places, frame, [NET] * 4, [("U1.1", "U1.2")] * 4)
        self.assertEqual((text.count("<b style"), text.count("<li>")), (2, 2))
        self.assertIn("<tr><td></td><td>and 2 more nets</td></tr>", text)
        self.assertEqual(pictures.some(["a"] * 12), ", ".join("a" * 12))
        self.assertTrue(pictures.some(["a"] * 14).endswith("a and 2 more"))

    def test_marks(self) -> None:
        found = list(marked([NET, NET._replace(number=9)], {"U1.2"}))
        color = "#b03a00"
        self.assertEqual(found[0], Marked("U1.1", "A", color, 1, True, False))
        self.assertEqual(found[1], Marked("U1.2", "A", color, 1, False, True))
        self.assertEqual(found[3].color, color)  # there are eight colors
        self.assertEqual(NET._replace(number=2).color, "#005f9e")


class Shaped(unittest.TestCase):
    """Outlines, boxes and dots."""

    def test_boxes(self) -> None:
        box = Box(0, 0, 2, 2)
        for other, meets in (
            (Box(1, 1, 3, 3), True),
            (Box(2, 0, 3, 2), False),
            (Box(-1, 0, 0, 2), False),
            (Box(0, 2, 2, 3), False),
            (Box(0, -1, 2, 0), False),
            (Box(0.5, 0.5, 1, 1), True),
        ):
            self.assertEqual((box.meets(other), other.meets(box)), (meets, meets), other)

    def test_extent(self) -> None:
        self.assertEqual(extent([Place(1, 2, TOP, 2, 1)]), Box(0, 1.5, 2, 2.5))
        turned = extent([Place(1, 2, TOP, 2, 1, 90)])
        for value, wanted in zip(turned, (0.5, 1, 1.5, 3)):
            self.assertAlmostEqual(value, wanted)
        self.assertEqual(extent([Place(0, 0, TOP), Place(3, 5, TOP)]), Box(0, 0, 3, 5))

    def test_frame(self) -> None:
        frame = frame_of(small_board())
        wanted = (-1.3, -1.3, 42.6, 23.8, 1.0, 0.0)
        for value, right in zip((*frame[:5], frame.corner[0]), wanted):
            self.assertAlmostEqual(value, right)
        self.assertEqual([frame.stroke(letters) for letters in (0.01, 0.1, 1)], [1, 2, 20])
        places = small_board()
        places.outline = []  # then from U1.1 to R1.1: 16.5 mm by 8.5 mm
        frame = frame_of(places)
        self.assertAlmostEqual(frame.letter, math.sqrt(16.5 * 8.5) / 28)
        self.assertEqual(frame.corner, (7.75, 3.75))
        for wide, high in ((96, 6), (6, 96)):  # letters are no smaller than a 48th of a side
            places.outline = [[(0, 0), (wide, 0), (wide, high), (0, high), (0, 0)]]
            places.pins.clear()
            self.assertEqual(frame_of(places).letter, 2)
        one = Places()
        one.add("U1", "1", Place(0, 0, TOP))
        self.assertAlmostEqual(frame_of(one).letter, 1 / 32)  # a board has 1 mm at least

    def test_paths(self) -> None:
        self.assertEqual(dots_path([(3, 1), (1, 2), (3, 1)]), "m1 2h0m2-1h0")
        boxes = [(Box(5, 5, 7, 8), "b"), (Box(1, 2, 4, 4), "a")]
        self.assertEqual(plain_boxes(boxes), '<path d="m1 2h3v2h-3zm4 3h2v3h-2z"/>')

    def test_definitions(self) -> None:
        places = small_board()
        places.add("J1", "1", Place(1, 15, BOTH, 1, 1))
        shapes = Shapes(places, frame_of(places))
        text = shapes.definitions("n")
        # U1 reaches from 7.75 to 10.25 mm, and the box is 0.12 mm larger on each side.
        self.assertIn('<rect x="179" y="99" width="54" height="14"><title>U1</title></rect>', text)
        self.assertIn('<g id="n-top"><g fill="#f3f3ef" stroke="#8a8a8a" stroke-width="1">', text)
        self.assertIn('<path d="m186 106h0m40 0h0" fill="none"', text)
        self.assertIn('<path d="M26 26L826 26L826 418L26 418L26 26"', text)
        self.assertIn('stroke="#444" stroke-width="2"/>', text)
        self.assertIn('stroke-linecap="round" stroke-width="3"', text)
        top, bottom, both = (text.index(f'id="n-{side}"') for side in (TOP, BOTTOM, BOTH))
        self.assertTrue(top < text.index("U1") < bottom < text.index("R1") < both)
        self.assertLess(both, text.index("J1"))

    def test_large_boards_have_less(self) -> None:
        places = small_board()
        frame = frame_of(places)
        with mock.patch.object(drawing, "TITLED", 1):
            self.assertNotIn("<title>", Shapes(places, frame).definitions("n"))
        with mock.patch.object(drawing, "TITLED", 2):
            self.assertIn("<title>", Shapes(places, frame).definitions("n"))
        with mock.patch.object(drawing, "DOTS", 2):
            self.assertNotIn("h0", Shapes(places, frame).definitions("n"))
        with mock.patch.object(drawing, "DOTS", 3):
            self.assertIn("h0", Shapes(places, frame).definitions("n"))
        places.outline = [[(0, 0), (32, 8), (0, 16)], []]
        with mock.patch.object(drawing, "CORNERS", 2):
            text = Shapes(places, frame).definitions("n")
        self.assertIn('<path d="M26 26L666 26L666 346L26 346L26 26"', text)
        with mock.patch.object(drawing, "CORNERS", 3):
            text = Shapes(places, frame).definitions("n")
        self.assertIn('<path d="M26 26L666 186L26 346"', text)


class Close(unittest.TestCase):
    """Close-ups."""

    def marks(self) -> list[Marked]:
        return list(marked([NET], {"U1.2"}))

    def test_windows(self) -> None:
        # 4.5 pitches around the pins, or the room for names, but that room around the part.
        pins, part, row = Box(10, 10, 14, 11), Box(0, 0, 30, 30), Box(0, 0, 9, 2)
        self.assertEqual(window(pins, part, 1, 3.2), Box(5.5, 5.5, 18.5, 15.5))
        self.assertEqual(window(pins, part, 1, 6), Box(4, 4, 20, 17))
        self.assertEqual(window(row, row, 1, 3.2), Box(-3.2, -3.2, 12.2, 5.2))
        self.assertEqual(window(row, row, 0.25, 1), Box(-1, -1, 10, 3))
        # At least 4 mm wide, and 1.2 times as wide as high.
        one = Box(0, 0, 1, 1)
        self.assertEqual(window(one, one, 0.25, 1), Box(-1.5, -1, 2.5, 2))
        tall = window(Box(0, 0, 1, 8), Box(0, 0, 1, 8), 0.25, 1)
        self.assertEqual((tall.left, tall.right), (-5.5, 6.5))

    def test_a_part(self) -> None:
        # A name has five letters, and six of 48 units have room: 184 units. U1 is 2.5 mm wide and
        # 0.5 mm high. With 1 mm around it, which is the least, a millimeter is 1000 / 4.5 units.
        one = CloseUp(small_board(), "U1", TOP, self.marks())
        text = one.svg()
        self.assertIn('viewBox="0 0 1000 556"', text)
        # U1.1 reaches from 1 mm to 1.5 mm.
        self.assertIn('<path d="M222 222L333 222L333 333L222 333z" fill="#b03a00"', text)
        self.assertIn('stroke="#b03a00" stroke-width="8"><title>U1.1, net A, fails</title>', text)
        self.assertIn(
            'fill="#fff" stroke="#000" stroke-width="16" paint-order="stroke">'
            "<title>U1.2, net A</title>",
            text,
        )
        self.assertIn('<rect x="222" y="222" width="556" height="111" fill="#f3f3ef"/>', text)
        self.assertIn('aria-label="The pins of U1 from the top: U1.1, U1.2"', text)
        # Letters are 48 units high and 30.72 units wide. "1 (1)" is left of its pin, "2 (1)" right
        # of it, half a letter away: 222.2 - 15.36 - 76.8 = 130.
        self.assertIn('<g font-size="48"', text)
        self.assertIn('stroke="#fff" stroke-width="12" paint-order="stroke">', text)
        self.assertIn('<text x="130" y="278" dy=".35em" fill="#b03a00">1 (1)</text>', text)
        self.assertIn('<text x="870" y="278" dy=".35em" fill="#b03a00">2 (1)</text>', text)

    def test_from_the_bottom(self) -> None:
        places = small_board()
        places.add("R1", "2", Place(26, 12, BOTTOM, 0.5, 0.5))
        text = CloseUp(places, "R1", BOTTOM, self.marks()).svg()
        # It is mirrored: pin 1 is right of pin 2, which isn't marked.
        self.assertIn('<path d="M778 222L667 222L667 333L778 333z" fill="#b03a00"', text)
        self.assertIn('<text x="870" y="278" dy=".35em" fill="#b03a00">1 (1)</text>', text)
        self.assertIn('<path d="M333 222L222 222L222 333L333 333z" fill="#ddd"', text)
        self.assertIn('<rect x="222" y="222" width="556" height="111" fill="#f3f3ef"/>', text)

    def test_names_above_and_below(self) -> None:
        places = Places()
        for name, x, y in (("1", 0, 0), ("2", 4, 0), ("3", 8, 0), ("4", 4, 6)):
            places.add("U1", name, Place(x, y, TOP, 1, 1))
        pins = [Marked(f"U1.{name}", "A", "#000", 1, True, False) for name in ("2", "4")]
        text = CloseUp(places, "U1", TOP, pins).svg()
        # Six letters of 48 units have room around a part of 9 mm by 7 mm: 184.32 units, and so the
        # height is 833.33 units. A name of five letters is half a letter away from its pin, and its
        # middle 92.16 units.
        upper, lower = 184.32 - 92.16, 833.33 - 184.32 + 92.16
        for number, row in (("2", upper), ("4", lower)):
            turn = f'transform="rotate(-90 500 {row:.0f})">{number} (1)</text>'
            self.assertIn(f'<text x="500" y="{row:.0f}" dy=".35em" fill="#000" {turn}', text)

    def test_large_parts(self) -> None:
        places = Places()
        for at in range(100):
            places.add("U1", str(at), Place(at * 1.0, 0, TOP, 0.2, 0.2))
        one = Marked("U1.50", "A", "#000", 1, True, False)
        text = CloseUp(places, "U1", TOP, [one]).svg()
        # 4.5 mm on each side of a pin of 0.2 mm: 9.2 mm, in which there are nine pins.
        self.assertEqual(text.count("M"), 9)
        with mock.patch.object(closeups, "PINS", 5):
            self.assertEqual(CloseUp(places, "U1", TOP, [one]).svg().count("M"), 5)
        with mock.patch.object(closeups, "WHOLE", 100):
            self.assertEqual(CloseUp(places, "U1", TOP, [one]).svg().count("M"), 100)

    def test_pins_at_the_edge_are_in_it(self) -> None:
        places = small_board()
        box = CloseUp(places, "U1", TOP, self.marks())._window  # pylint: disable=protected-access
        for at, (x, y) in enumerate(
            ((9, box.top), (9, box.bottom), (box.left, 4), (box.right, 4), (9, box.top - 0.1))
        ):
            places.add("J1", str(at), Place(x, y, TOP, 0.2, 0.2))
        text = CloseUp(places, "U1", TOP, self.marks()).svg()
        self.assertEqual(text.count("M"), 6)

    def test_which_parts(self) -> None:
        places = small_board()
        figures = list(closeups.closeups(places, self.marks()))
        self.assertEqual(len(figures), 2)
        # U1 has a pin that fails, and an open one, which counts more; R1 one that fails.
        self.assertIn("<figcaption>U1, from the top</figcaption>", figures[0])
        self.assertIn("<figcaption>R1, from the bottom</figcaption>", figures[1])
        with mock.patch.object(closeups, "MOST", 1):
            self.assertEqual(list(closeups.closeups(places, self.marks())), figures[:1])
        places.add("J1", "1", Place(0, 0, BOTH))
        places.add("X1", "1", Place(1, 0, TOP))
        more = [
            Marked("J1.1", "B", "#000", 2, True, False),
            Marked("X1.1", "B", "#000", 2, False, False),
        ]
        figures = list(
            closeups.closeups(places, [*more, Marked("Y1.1", "B", "#000", 2, True, False)])
        )
        self.assertEqual(len(figures), 1)
        self.assertIn("J1, from the top", figures[0])


class Near(unittest.TestCase):
    """Distances and names of rows."""

    def test_distances(self) -> None:
        spots = [("1", Place(0, 0, TOP)), ("1", Place(0.1, 0, TOP)), ("2", Place(3, 4, TOP))]
        self.assertAlmostEqual(smallest_distance(spots), math.hypot(2.9, 4))
        self.assertEqual(smallest_distance(spots[:1]), math.inf)
        near = [("1", Place(0, 0, TOP)), ("2", Place(0.01, 0, TOP)), ("3", Place(1, 0, TOP))]
        self.assertAlmostEqual(smallest_distance(near), 0.99)
        line = [(str(at), Place(at * at, 0, TOP)) for at in range(9)]
        self.assertEqual(smallest_distance(line[::-1]), 1)
        self.assertEqual(smallest_distance(line[3:]), 7)

    def test_neighbors_on_all_sides(self) -> None:
        places = Places()
        for at, (x, y) in enumerate(((0, 0), (-0.6, 0), (0.6, 0), (0, -0.6), (0, 0.6), (0, 1.1))):
            places.add(f"R{at}", "1", Place(2.5 + x, 2.5 + y, TOP))
        near = list(Neighborhood(places).beside("R0.1"))
        self.assertEqual(near, ["R1.1", "R2.1", "R3.1", "R4.1"])

    def test_rows(self) -> None:
        names = ("A", "Y", "AA", "BA", "I", "")
        self.assertEqual([row_number(name) for name in names], [1, 20, 21, 41, 0, 0])
        self.assertTrue(are_side_by_side("a7", "A8"))
        self.assertFalse(are_side_by_side("A7", "A9"))
        self.assertFalse(are_side_by_side("I7", "A7"))

    def test_frames_of_marks(self) -> None:
        self.assertAlmostEqual(Frame(0, 0, 1, 1, 2, (0, 0)).radius, 0.72)


if __name__ == "__main__":
    unittest.main()
