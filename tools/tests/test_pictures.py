"""Neighbors, and pictures of boards."""

from __future__ import annotations

import re
import time
import unittest
import xml.etree.ElementTree
from typing import List

from btest_tools import pictures
from btest_tools.drawing import Box
from btest_tools.neighbors import Neighborhood, are_side_by_side
from btest_tools.places import BOTH, BOTTOM, TOP, Place, Places
from btest_tools.pictures import ShownNet


def row(places: Places, part: str, count: int, pitch: float, y: float, side: str = TOP) -> None:
    """Adds a part with a row of pins from 1."""
    for at in range(count):
        places.add(part, str(at + 1), Place(at * pitch, y, side, 0.3, 1.2))


def names(found: object) -> List[str]:
    """Returns neighbors as texts."""
    return [str(pair) for pair in found]  # type: ignore[attr-defined]


class NeighborsTest(unittest.TestCase):
    """Which pins are neighbors: nearer than 1.5 pitches within a part, than 1 mm between parts."""

    def test_by_names(self) -> None:
        for one, other, right in (
            ("4", "5", True),
            ("4", "6", False),
            ("A7", "A8", True),
            ("A7", "B7", True),
            ("A7", "B8", False),
            ("H1", "J1", True),  # a grid has no row I
            ("Y3", "AA3", True),
            ("A7", "7", False),
            ("4", "4", False),
            ("K", "A", False),
        ):
            with self.subTest(f"{one} {other}"):
                self.assertEqual(are_side_by_side(one, other), right)
                self.assertEqual(are_side_by_side(other, one), right)

    def test_without_places(self) -> None:
        found = Neighborhood().between(["U3.4", "U1.1"], ["U3.5", "U2.2"])
        self.assertEqual(names(found), ["U3.4 and U3.5 are side by side by their numbers"])

    def test_within_a_part(self) -> None:
        places = Places()
        row(places, "U1", 8, 0.5, 0)
        near = Neighborhood(places)
        self.assertEqual(names(near.between(["U1.1"], ["U1.2"])), ["U1.1 and U1.2 are neighbors"])
        self.assertEqual(near.between(["U1.1"], ["U1.3"]), [])  # 1 mm, and two pitches

    def test_a_ball_grid(self) -> None:
        places = Places()
        for name, x, y in (("A1", 0, 0), ("A2", 0.8, 0), ("B2", 0.8, 0.8), ("C2", 0.8, 1.6)):
            places.add("U1", name, Place(x, y, TOP))
        near = Neighborhood(places)
        self.assertEqual(len(near.between(["U1.A1"], ["U1.B2"])), 1)  # 1.13 mm, less than 1.2
        self.assertEqual(near.between(["U1.A1"], ["U1.C2"]), [])

    def test_between_parts(self) -> None:
        places = Places()
        places.add("R1", "1", Place(0, 0, TOP))
        places.add("R2", "1", Place(0.9, 0, TOP))
        places.add("R3", "1", Place(-1.1, 0, TOP))
        places.add("R4", "1", Place(0, 0.1, BOTTOM))
        places.add("J1", "1", Place(0, 0.5, BOTH))
        near = Neighborhood(places)
        found = near.between(["R1.1"], ["R2.1", "R3.1", "R4.1", "J1.1"])
        self.assertEqual([pair.other for pair in found], ["J1.1", "R2.1"])  # the nearest first

    def test_pins_on_one_place(self) -> None:
        places = Places()
        for pin in ("1", "2", "3"):
            places.add("U1", pin, Place(1 if pin == "3" else 0, 0, TOP))
        self.assertEqual(places.pitch("U1"), 1)

    def test_names_where_a_place_is_unknown(self) -> None:
        places = Places()
        row(places, "U1", 2, 0.5, 0)
        found = Neighborhood(places).between(["U1.2"], ["U1.3", "U1.1"])
        self.assertEqual([pair.other for pair in found], ["U1.1", "U1.3"])


class PicturesTest(unittest.TestCase):
    """What the pictures hold."""

    def drawn(self, places: Places, nets: List[ShownNet]) -> xml.etree.ElementTree.Element:
        """Returns pictures as they are parsed."""
        html = pictures.board(places, nets, [("U1.1", "R1.1")], ["U1.2"])
        return xml.etree.ElementTree.fromstring(re.sub("class=(\\w+)", 'class="\\1"', html))

    def test_both_sides(self) -> None:
        places = Places()
        row(places, "U1", 4, 10, 0)
        places.add("R1", "1", Place(30, 20, BOTTOM, 1, 1))
        places.outline = [[(0, 0), (30, 0), (30, 20), (0, 20), (0, 0)]]
        net = ShownNet(1, "<D&0>", ["U1.1", "R1.1", "J9.1"], ["U1.1", "J9.1"])
        root = self.drawn(places, [net])
        top, bottom = root.findall(".//svg")[:2]
        titles = [title.text for title in top.iter("title")]
        self.assertIn("U1.1, net <D&0>, fails", titles)
        self.assertNotIn("R1.1, net <D&0>", titles)
        self.assertIn("R1.1, net <D&0>", [title.text for title in bottom.iter("title")])
        # The frame is 30 mm wide with a margin, in units of 1/20 mm. The bottom is mirrored.
        width = int(top.attrib["viewBox"].split()[2])
        first = next(c for c in top.iter("circle") if c[0].text == "U1.1, net <D&0>, fails")
        other = next(c for c in bottom.iter("circle") if c.findtext("title") == "R1.1, net <D&0>")
        self.assertLess(int(first.attrib["cx"]), width / 4)
        self.assertLess(int(other.attrib["cx"]), width / 4)
        words = " ".join("".join(root.itertext()).split())
        self.assertIn("U1.1 (top, 0.0, 0.0)", words)
        self.assertIn("J9.1 (no place)", words)

    def test_more_pins_than_are_drawn_one_by_one(self) -> None:
        """All of them are drawn, and the legend says how many have numbers."""
        places = Places()
        row(places, "J1", 110, 10, 0)
        row(places, "J2", 110, 10, 99)
        nets = [
            ShownNet(number, f"N{number}", pins, pins)
            for number, pins in enumerate(places.parts.values(), 1)
        ]
        root = self.drawn(places, nets)
        top = root.findall(".//svg")[0]
        circles = [c for c in top.iter("circle") if str(c.findtext("title")).endswith(", fails")]
        dots = [path for path in top.iter("path") if path.findtext("title") == "failing pins"]
        self.assertEqual(len(circles), 200)
        self.assertEqual([path.attrib["d"].count("h0") for path in dots], [20])
        words = " ".join("".join(root.itertext()).split())
        self.assertIn("Of 220 failing pins, at most 200 of a side have numbers.", words)

    def test_names_of_a_close_up(self) -> None:
        """They are within the picture, and none is on another or on a marked pin."""
        cases = ((8, 1.27, 1, 16), (40, 0.5, 1, 60), (40, 0.5, 9, 28), (2, 0.4, 12, 3))
        for count, pitch, length, least in cases:
            with self.subTest(f"{count} pins with a pitch of {pitch}, {length} letters"):
                places = Places()
                for at in range(count):
                    for side, x in (("L", 0.0), ("R", 9.0)):
                        spot = Place(x, at * pitch, TOP, 1, pitch / 2)
                        places.add("U1", f"{side:X<{length}}{at}", spot)
                pins = list(places.pins)
                nets = [ShownNet(n, f"N{n}", [pin], [pin]) for n, pin in enumerate(pins, 100)]
                closeup = self.drawn(places, nets).findall(".//svg")[2]
                wide, high = map(float, closeup.attrib["viewBox"].split()[2:])
                (group,) = [one for one in closeup.findall("g") if "font-size" in one.attrib]
                size = float(group.attrib["font-size"])
                taken: List[Box] = []
                for text in group.findall("text"):
                    x, y = float(text.attrib["x"]), float(text.attrib["y"])
                    half = 0.28 * size * len(text.text or "")
                    box = Box(x - half, y - 0.3 * size, x + half, y + 0.3 * size)
                    self.assertGreaterEqual(min(box.left, box.top), 0)
                    self.assertLessEqual(max(box.right / wide, box.bottom / high), 1)
                    self.assertFalse([other for other in taken if box.meets(other)])
                    taken.append(box)
                self.assertGreaterEqual(len(taken), least)

    def test_a_large_board(self) -> None:
        places = Places()
        for part in range(5000):
            x, y = part % 100 * 4.0, part // 100 * 6.0
            for at in range(4):
                side = (TOP, BOTTOM, BOTH)[part % 3]
                spot = Place(x + at % 2 * 1.3, y + at // 2 * 1.7, side, 0.6, 0.8)
                places.add(f"U{part}", str(at + 1), spot)
        pins = list(places.pins)
        cases = {
            "few": [ShownNet(1, "A", pins[:9], pins[:2])],
            "all": [ShownNet(1, "GND", pins, pins[:2000])],
            "every": [
                ShownNet(n + 1, f"N{n}", pins[20 * n : 20 * n + 20], pins[20 * n : 20 * n + 20])
                for n in range(1000)
            ],
            "many": [
                ShownNet(
                    n + 1, f"N{n}", pins[200 * n : 200 * n + 200], pins[200 * n : 200 * n + 20]
                )
                for n in range(100)
            ],
        }
        for name, nets in cases.items():
            with self.subTest(name):
                begun = time.process_time()
                html = pictures.board(
                    places, nets, list(zip(pins[:300:2], pins[1:300:2])), pins[:300]
                )
                self.assertLess(time.process_time() - begun, 2)
                self.assertLess(len(html.encode("utf-8")), 500_000)


if __name__ == "__main__":
    unittest.main()
