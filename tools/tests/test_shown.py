"""How much pictures and pages show, at the numbers from which they show less. The positions were
worked out by hand, as in test_drawn.py."""

from __future__ import annotations

import cmath
import math
import re
import unittest
from collections import Counter
from types import SimpleNamespace
from typing import Optional, cast
from unittest import mock

from tests.support import EXAMPLES, Bed, read_files
from tests.test_drawn import NET, small_board

from btest_tools import closeups, pictures
from btest_tools.board import Net
from btest_tools.closeups import CloseUp, Marked
from btest_tools.drawing import Box, Frame, Shapes, frame_of
from btest_tools.explaining.nearness import Nearness
from btest_tools.explaining.sets import explain
from btest_tools.failing import Bench, Look
from btest_tools.logs import Failing, Reads, failing
from btest_tools.neighbors import Neighborhood, share_side
from btest_tools.netlists.layout import read_places
from btest_tools.pages import day
from btest_tools.pages.failed import bits_table, log_section, named_faults, pins_of
from btest_tools.pages.pieces import listing
from btest_tools.pages.places import places_section
from btest_tools.pictures import ShownNet, View, legend, table
from btest_tools.places import BOTH, BOTTOM, TOP, Place, Places


def many_parts(count: int) -> Places:
    """Returns a board with parts of one pin each, side by side."""
    places = Places()
    for at in range(count):
        places.add(f"R{at}", "1", Place(at % 100, at // 100, TOP, 0.2, 0.2))
    return places


class Views(unittest.TestCase):
    """How much is drawn of a board from one side."""

    def svg(self, places: Places, *nets: ShownNet, pairs: int = 0) -> str:
        """Returns the picture from the top."""
        one = View(places, nets, frame_of(places), TOP)
        return one.svg("n", "", [("U1.1", "U1.2")] * pairs, [])

    def test_forty_lines(self) -> None:
        for pairs, lines in ((40, 40), (41, 40)):
            self.assertEqual(self.svg(small_board(), NET, pairs=pairs).count("<line"), lines)

    def test_two_hundred_marks(self) -> None:
        places = many_parts(201)
        for count, dots in ((200, 0), (201, 1)):
            pins = [f"R{at}.1" for at in range(count)]
            text = self.svg(places, ShownNet(1, "A", pins, pins))
            self.assertEqual(text.count(", fails</title>"), 200)
            self.assertEqual(text.count("<title>failing pins</title>"), dots)
            text = self.svg(places, ShownNet(1, "A", pins, []))
            self.assertEqual(text.count(", net A</title>"), 0 if dots else 200)

    def test_disks_that_cover_each_other(self) -> None:
        # A disk has a radius of 7 units. U1.1 and U1.3 are one unit apart, U1.4 is 80 units below.
        places = small_board()
        places.add("U1", "3", Place(8.05, 4.05, TOP))
        places.add("U1", "4", Place(8, 8, TOP))
        pins = ["U1.1", "U1.3", "U1.4"]
        with mock.patch.object(pictures, "MARKS", 0):
            text = self.svg(places, ShownNet(1, "A", pins, pins), ShownNet(9, "B", [], ["U1.1"]))
        path = '<path d="m186 106h0m0 80h0" fill="none" stroke="#b03a00" stroke-linecap="round" '
        self.assertIn(path + 'stroke-width="14">', text)
        self.assertEqual(text.count("<title>failing pins"), 1)  # B has the color of A
        self.assertNotIn("<circle", text)

    def test_the_smallest_mark(self) -> None:
        places = Places()
        places.add("U1", "1", Place(0, 0, TOP))
        text = self.svg(places, ShownNet(1, "A", ["U1.1"], ["U1.1"]))
        self.assertRegex(text, r'<circle cx="\d+" cy="\d+" r="1">')

    def test_pins_with_two_places(self) -> None:
        places = small_board()
        places.add("U1", "1", Place(8, 8, TOP))
        text = self.svg(places, NET)
        self.assertEqual(text.count("<title>U1.1, net A, fails</title>"), 2)


class Boards(unittest.TestCase):
    """The pictures of a board with its table."""

    def test_up_to_ten_nets_are_on_one_page(self) -> None:
        for count, kind in ((10, "board whole"), (11, "board")):
            text = pictures.board(small_board(), [NET] * count)
            self.assertTrue(text.startswith(f'<div class="{kind}">'), text[:40])

    def test_wide_boards(self) -> None:
        for width, kind in ((18.0, "views"), (18.1, "views stacked")):
            frame = Frame(0, 0, width, 10, 0.5, (0, 0))
            with mock.patch.object(pictures, "frame_of", return_value=frame):
                self.assertIn(f'<div class="{kind}">', pictures.board(small_board(), [NET]))

    def test_pieces_are_in_it_once(self) -> None:
        text = pictures.board(small_board(), [NET], name="x")
        self.assertEqual((text.count("<defs>"), text.count('href="#x-both"')), (1, 2))
        self.assertLess(text.index("The board from the top"), text.index("from the bottom, as one"))
        plain = pictures.board(small_board(), [NET])
        self.assertIn('id="board-top"', plain)
        self.assertNotIn("<line", plain)
        self.assertNotIn("may be open", re.sub("<p class=legend>.*?</p>", "", plain))

    def test_sixty_rows(self) -> None:
        places = small_board()
        frame = frame_of(places)
        for count, more in ((60, 0), (61, 1)):
            text = table(places, frame, [NET] * count, [("U1.1", "U1.2")] * count)
            self.assertEqual((text.count("<b style"), text.count("<li>")), (60, 60))
            self.assertEqual(text.count(f"and {more} more nets"), more)

    def test_the_legend_counts(self) -> None:
        places = many_parts(201)
        pins = [f"R{at}.1" for at in range(201)]
        self.assertNotIn("numbers.", legend(places, [ShownNet(1, "A", [], pins[:200])]))
        more = "Of 201 failing pins, at most 200 of a side have numbers."
        self.assertIn(more, legend(places, [ShownNet(1, "A", [], pins)]))
        self.assertIn(
            more, legend(places, [ShownNet(1, "A", [], pins[:1]), ShownNet(2, "B", [], pins[1:])])
        )


class Drawn(unittest.TestCase):
    """What both views share."""

    def test_five_hundred_names(self) -> None:
        for count, names in ((500, 500), (501, 0)):
            places = many_parts(count)
            text = Shapes(places, frame_of(places)).definitions("n")
            self.assertEqual(text.count("<title>"), names)

    def test_four_thousand_corners(self) -> None:
        for count, corners in ((4000, 4000), (4001, 5)):
            places = small_board()
            places.outline = [[(at % 40, at // 100) for at in range(count)]]
            text = Shapes(places, frame_of(places)).definitions("n")
            path = re.search('<path d="(M[^"]*)" fill="none" stroke="#444"', text)
            assert path
            self.assertEqual(path[1].count("L") + 1, corners)

    def test_six_thousand_dots(self) -> None:
        for count, has_dots in ((6000, True), (6001, False)):
            places = many_parts(count)
            text = Shapes(places, frame_of(places)).definitions("n")
            self.assertEqual("h0" in text, has_dots)

    def test_a_part_with_pins_on_several_sides(self) -> None:
        # Pins through the board leave the side to the others. Without others, or with both, a part
        # is on both sides.
        for sides, side in (
            ((TOP, TOP), "top"),
            ((BOTTOM, BOTH), "bottom"),
            ((BOTH, BOTH), "both"),
            ((TOP, BOTTOM), "both"),
        ):
            places = Places()
            for at, one in enumerate(sides):
                places.add("U1", str(at), Place(at, 0, one, 0.5, 0.5))
            text = Shapes(places, frame_of(places)).definitions("n")
            group = re.search(f'id="n-{side}"(.*?)</path>|id="n-{side}"(.*?)<path', text)
            assert group
            self.assertIn("<title>U1</title>", group[0])

    def test_a_turned_pin(self) -> None:
        places = Places()
        places.add("U1", "1", Place(10, 10, TOP, 4, 2, 30))
        box = frame_of(places)
        # 4 and 2 mm, turned by 30 degrees, are 4.4641 mm wide and 3.7321 mm high.
        self.assertAlmostEqual(box.corner[0], 10 - 4.4641 / 2, 4)
        self.assertAlmostEqual(box.corner[1], 10 - 3.7321 / 2, 4)


class Close(unittest.TestCase):
    """Close-ups of large parts."""

    def row(self, count: int, *marks: int) -> CloseUp:
        """Returns the close-up of a row of pins of which some fail."""
        places = Places()
        for at in range(count):
            places.add("U1", str(at), Place(at, 0, TOP, 0.2, 0.2))
        marked = [Marked(f"U1.{at}", "A", "#000", 1, True, False) for at in marks]
        return CloseUp(places, "U1", TOP, marked)

    def test_parts_that_are_shown_as_a_whole(self) -> None:
        # Of a larger part 4.5 pitches around the mark are shown.
        self.assertEqual(self.row(64, 30).svg().count("M"), 64)
        self.assertEqual(self.row(65, 30).svg().count("M"), 9)

    def test_four_hundred_pins(self) -> None:
        for count, shown in ((400, 400), (401, 400)):
            with mock.patch.object(closeups, "WHOLE", 1000):
                self.assertEqual(self.row(count, 0).svg().count("M"), shown)

    def test_two_hundred_names(self) -> None:
        with mock.patch.object(Box, "meets", lambda one, other: False):
            for count, names in ((200, 200), (201, 200)):
                self.assertEqual(self.row(count, *range(count)).svg().count("<text"), names)

    def test_another_part_with_the_same_beginning(self) -> None:
        places = small_board()
        places.add("U10", "1", Place(9, 4, TOP, 0.2, 0.2))
        marked = [Marked(f"{pin}.1", "A", "#000", 1, True, False) for pin in ("U1", "U10")]
        text = CloseUp(places, "U1", TOP, marked).svg()
        self.assertEqual(text.count("<text"), 1)
        self.assertIn("<title>U10.1, net A, fails</title>", text)

    def test_a_turned_pin(self) -> None:
        # 2 mm by 1 mm, turned counterclockwise by 30 degrees: its first edge goes right and up.
        places = Places()
        places.add("U1", "1", Place(3, 5, TOP, 2, 1, 30))
        places.add("U1", "2", Place(3, 9, TOP, 2, 1, 30))
        for mark, top in (("1", 5), ("2", 9)):
            one = Marked(f"U1.{mark}", "A", "#000", 1, True, False)
            text = CloseUp(places, "U1", TOP, [one]).svg()
            found = re.search('<path d="M([^z]*)z" fill="#000"', text)
            assert found
            corners = [complex(*map(float, point.split())) for point in found[1].split("L")]
            first, second = corners[1] - corners[0], corners[2] - corners[1]
            self.assertAlmostEqual(abs(first) / abs(second), 2, delta=0.03)
            self.assertAlmostEqual(math.degrees(cmath.phase(first)), -30, delta=1)
            self.assertAlmostEqual(math.degrees(cmath.phase(second)), 60, delta=1)
            other = re.search('<path d="M([^z]*)z" fill="#ddd"', text)
            assert other
            there = [complex(*map(float, point.split())) for point in other[1].split("L")]
            down = (sum(there) - sum(corners)) / 4 / abs(second)  # in millimeters
            self.assertAlmostEqual(down.real, 0, delta=0.05)
            self.assertAlmostEqual(down.imag, 14 - 2 * top, delta=0.1)

    def test_a_pin_at_a_corner(self) -> None:
        # Its name is at the nearer edge, and rather at the left one if both are as near, by a
        # hundredth of a millimeter.
        for left, is_above in ((0.004, False), (0.04, True)):
            places = Places()
            for name, x, y in (("1", 0.0, 0.0), ("2", -left, 3.0), ("3", 4.0, 3.0)):
                places.add("U1", name, Place(x, y, TOP, 1, 1))
            one = Marked("U1.1", "A", "#000", 1, True, False)
            text = CloseUp(places, "U1", TOP, [one]).svg()
            self.assertEqual("rotate(-90" in text, is_above)

    def test_copper_without_a_size(self) -> None:
        # It is drawn as a tenth of a millimeter.
        places = Places()
        places.add("U1", "1", Place(0, 0, TOP))
        places.add("U1", "2", Place(1, 0, TOP))
        one = Marked("U1.1", "A", "#000", 1, True, False)
        text = CloseUp(places, "U1", TOP, [one]).svg()
        path = re.search(r'd="M(\d+) (\d+)L(\d+) \d+L\d+ (\d+)L[^"]*" fill="#000"', text)
        assert path
        left, top, right, bottom = map(int, path.groups())
        self.assertAlmostEqual(right - left, bottom - top, delta=2)  # rounded ends
        both = re.search(r'd="M(\d+) \d+L(\d+)[^"]*" fill="#ddd"', text)
        assert both
        self.assertAlmostEqual((int(both[1]) - left) / (right - left), 10, delta=1)


class Near(unittest.TestCase):
    """Neighbors by places."""

    def test_the_nearest_places_of_two_pins_count(self) -> None:
        places = Places()
        for x in (0.0, 5.0):
            places.add("R1", "1", Place(x, 0, TOP))
        for x in (5.4, 9.0):
            places.add("R2", "1", Place(x, 0, TOP))
        near = Neighborhood(places)
        self.assertAlmostEqual(near.distance("R1.1", "R2.1") or 0, 0.4)
        self.assertIsNone(near.distance("R1.1", "R3.1"))
        (pair,) = near.between(["R1.1"], ["R2.1"])
        self.assertAlmostEqual(pair.distance or 0, 0.4)

    def test_sides(self) -> None:
        one, two, both = (Place(0, 0, side) for side in (TOP, BOTTOM, BOTH))
        wanted = (one, one, True), (one, two, False), (one, both, True), (both, two, True)
        for here, there, shared in wanted:
            self.assertEqual(share_side(here, there), shared)
            self.assertEqual(share_side(there, here), shared)

    def test_neighbors_at_one_distance(self) -> None:
        # They come in the order of their names, and neighbors by their numbers come last.
        places = Places()
        for at, x in enumerate((0.0, 0.5, 1.0)):
            places.add(f"R{at}", "1", Place(x, 0, TOP))
        near = Neighborhood(places)
        pairs = near.between(["R9.1", "R2.1", "R0.1"], ["R1.1", "R9.2"])
        found = [(pair.one, pair.other) for pair in pairs]
        self.assertEqual(found, [("R0.1", "R1.1"), ("R2.1", "R1.1"), ("R9.1", "R9.2")])

    def test_the_pitch_of_a_part_that_grows(self) -> None:
        places = Places()
        for pin, x, pitch in (("1", 0.0, math.inf), ("2", 3.0, 3), ("3", 2.0, 1), ("4", 9.0, 1)):
            places.add("U1", pin, Place(x, 0, TOP))
            self.assertEqual(places.pitch("U1"), pitch)
        self.assertEqual(places.pitch("U2"), math.inf)
        places.add("U1", "4", Place(9, 0, TOP))
        places.add("U1", "4", Place(9, 0, BOTTOM))
        self.assertEqual([place.side for place in places.of("U1.4")], [TOP, BOTTOM])
        self.assertEqual(places.parts, {"U1": ["U1.1", "U1.2", "U1.3", "U1.4"]})

    def test_a_distance_that_is_just_too_large(self) -> None:
        places = Places()
        for name, x in (("R1", 0.0), ("R2", 1.0), ("R3", -0.99)):
            places.add(name, "1", Place(x, 0, TOP))
        near = Neighborhood(places)
        self.assertEqual(list(near.beside("R1.1")), ["R3.1"])


def look_at(fault: str, faults: Optional[list[str]] = None) -> tuple[Bench, Look]:
    """Looks at the demo board with a fault, without asking btest."""
    bed = Bed()
    rows = bed.rows(fault)
    found = failing(bed.board, bed.test, rows)
    explained = explain(bed.board, [(bed.test, rows)])
    bench = SimpleNamespace(board=bed.board, nearness=Nearness(bed.board))
    return cast(Bench, bench), Look("FAIL 0", faults or [], found, explained)


class Failed(unittest.TestCase):
    """The page of a board that failed."""

    def test_many_nets(self) -> None:
        # The parts are listed, and no bits.
        bench, seen = look_at("stuck:D0:0 open:U3.5:1")
        few = "\n".join(log_section(bench, seen, "<svg>"))
        self.assertIn("<h3>D0: 3 of 3 receivers differ</h3>", few)
        self.assertIn("<svg>", few)
        seen.found = seen.found * 51
        many = "\n".join(log_section(bench, seen))
        self.assertIn("<p>102 nets not as expected.</p>", many)
        self.assertIn("<ul><li>U3: 102 pins differ: D0, A1</li>", many)
        self.assertNotIn("receivers differ", many)

    def test_faults_that_btest_named(self) -> None:
        board = read_files()
        one = cast(Failing, SimpleNamespace(alone=["stuck D0 0"], pairs=["short AND D0 D1"]))
        for faults, kind, lines in (
            (["open U1.1 0"], "explain the whole log", ["open U1.1 0"]),
            ([], "explain one net, or two", ["stuck D0 0", "short AND D0 D1"]),
        ):
            seen = cast(Look, SimpleNamespace(faults=faults, found=[one, one]))
            head, text = named_faults(board, seen)
            self.assertEqual(head, f"<h3>Single faults that {kind}, and where they may be</h3>")
            self.assertEqual(re.findall("<tr><td>([^<]*)</td>", text), lines)
        none = cast(Look, SimpleNamespace(faults=[], found=[]))
        self.assertEqual(list(named_faults(board, none)), [])
        many = cast(Look, SimpleNamespace(faults=["open U1.1 0"] * 301, found=[]))
        self.assertEqual("".join(named_faults(board, many)).count("<tr><td>"), 300)

    def test_pictures(self) -> None:
        # Nets are numbered from 1 in the order of the board.
        bench, seen = look_at("stuck:D0:0 open:U3.5:1")
        places = read_places(str(EXAMPLES / "controller.ipc"))
        text = places_section(bench.board, seen, places, "x")
        for number, name in ((1, "D0"), (2, "A1")):
            self.assertIn(f">{number}</b></td><td>{name}</td>", text)
        self.assertIn('id="x-top"', text)
        self.assertIn("<title>U3.5 may be open</title>", text)
        seen.found = []
        self.assertEqual(places_section(bench.board, seen, places), "")

    def test_pins_of_faults(self) -> None:
        board = read_files()
        (pin,) = pins_of(board, "open U3.5 1")
        self.assertEqual(pin, "U3.5 (PORT4, reads)")
        one, two = pins_of(board, "short AND D1 A1")
        self.assertTrue(one.startswith("<b>D1</b>: U1.2 (PROC, drives and reads), "), one)
        self.assertIn("R1.1 (in series)", two)

    def test_many_receivers(self) -> None:
        for count, more in ((300, 0), (301, 1), (303, 1)):
            readers: list[tuple[str, Reads]] = [(f"U1.{at}", ["000"]) for at in range(count)]
            one = Failing(cast(Net, SimpleNamespace(name="A")), "100", readers, [[]])
            text = bits_table(one)
            self.assertEqual(text.count("<td>U1."), 300)
            self.assertEqual(text.count(f"<tr><td>and {count - 300} more</td></tr>"), more)


class Days(unittest.TestCase):
    """The page of a day's boards."""

    def test_twelve_nets_and_six_faults(self) -> None:
        for nets, faults, dots in ((12, 6, 0), (13, 6, 1), (12, 7, 1)):
            one = day.Tested(
                "a", False, [f"f{at}" for at in range(faults)], [f"N{at}" for at in range(nets)]
            )
            (text,) = day.each([one])
            self.assertEqual(text.count(" .."), dots)
            self.assertIn(f"<td class=number>{nets}</td>", text)
            self.assertIn("N10, N11", text)

    def test_twenty_that_come_again(self) -> None:
        for count, more in ((20, []), (21, ["<p class=quiet>and 1 more</p>"])):
            found = Counter({f"N{at}": 2 for at in range(count)})
            head, *rest = day.again("Nets", found, 4)
            self.assertEqual((head.count("aria-label"), rest), (20, more))

    def test_three_hundred_items(self) -> None:
        self.assertIn("299", listing([str(at) for at in range(300)]))
        self.assertNotIn("more", listing([str(at) for at in range(300)]))
        self.assertIn("and 1 more", listing([str(at) for at in range(301)]))


if __name__ == "__main__":
    unittest.main()
