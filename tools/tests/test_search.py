"""The search for sets of faults at its bounds: how much is tried, what is told, in which order. The
sets were made up, and what has to come was worked out by hand."""

from __future__ import annotations

import itertools
import unittest
from types import SimpleNamespace
from typing import Optional, cast
from unittest import mock

from tests.support import Bed, guide_svf, read_files

from btest_tools.board import Board
from btest_tools.explaining import sets, words
from btest_tools.explaining.candidates import Component, Search
from btest_tools.explaining.faults import Choice, Fault, fault_of
from btest_tools.explaining.nearness import Nearness, distance
from btest_tools.explaining.prices import Prices, Reading
from btest_tools.explaining.rows import Rows, Wire, rows_of
from btest_tools.explaining.sets import Explained, Explainer, Explanation, explain
from btest_tools.explaining.words import Teller, counted, signature, walk_tells, where
from btest_tools.scans import Test
from btest_tools.station.explanation import faults_of, first_lines, lines_of


def explainer() -> Explainer:
    """Returns the search for the demo board without a fault."""
    bed = Bed()
    return Explainer(bed.board, [(bed.test, bed.rows("good"))])


def one_set(price: float, *lines: str, causes: int = 1) -> Explanation:
    """Returns a set of faults, with a component for each."""
    board = read_files()
    choices: list[Choice] = [(fault_of(line),) for line in lines]
    parts = tuple(Component(tuple(one[0].nets(board)), 1, (one,)) for one in choices)
    return Explanation(parts, [Reading(tuple(choices), price, causes)])


class Opens(unittest.TestCase):
    """Open pins of one net, D0, which U1, U3, U4 and U2 drive in a pass each."""

    def lines(self, fault: str) -> list[str]:
        """Returns the smallest choices for D0 under a fault."""
        bed = Bed()
        rows = rows_of(bed.board, [(bed.test, bed.rows(fault))])
        found = Search(rows).single(rows.wires["D0"])
        assert found
        return sorted(" with ".join(sorted(f.line() for f in one)) for one in found.smallest())

    def test_two_open_drivers(self) -> None:
        # U1.1 reads wrong bits in the passes of both, and each of them mends its own pass alone.
        for one, other in (("U3.1", "U4.1"), ("U3.1", "U2.2"), ("U2.2", "U4.1")):
            lines = self.lines(f"open:{one}:0 open:{other}:0")
            self.assertEqual(
                lines, [" with ".join(f"open {pin} 0" for pin in sorted((one, other)))]
            )

    def test_a_driver_and_a_receiver(self) -> None:
        self.assertEqual(self.lines("open:U3.1:1 open:U4.1:0"), ["open U3.1 1 with open U4.1 0"])

    def test_three_open_drivers(self) -> None:
        # U1.1 reads the constant of another in each of the passes 2 to 4.
        found = self.lines("open:U3.1:0 open:U4.1:1 open:U2.2:0")
        self.assertEqual(found, ["open U2.2 0 with open U3.1 0 with open U4.1 1"])

    def test_bits_of_the_constant(self) -> None:
        for value in "01":
            self.assertIn(f"open U3.1 {value}", self.lines(f"open:U3.1:{value}"))


class Tried(unittest.TestCase):
    """How many sets are priced, and how many are told."""

    def tried(self, wanted: int) -> int:
        """Returns how many sets are priced if so many nets differ."""
        made = explainer()
        endless = itertools.repeat((Component(("D0",), 1, ()),))
        with mock.patch.object(made, "sets", return_value=endless):
            with mock.patch.object(made.prices, "readings", return_value=[]) as readings:
                made.rank(Explained(made.rows, []), [f"N{at}" for at in range(wanted)])
        return readings.call_count

    def test_how_many_are_priced(self) -> None:
        self.assertEqual([self.tried(count) for count in (1, 12, 13, 99)], [200, 200, 40, 40])

    def test_up_to_how_many_nets_ties_are_looked_for(self) -> None:
        for count, is_looked_for in ((300, True), (301, False)):
            made = explainer()
            wires = [cast(Wire, SimpleNamespace(name=f"N{at}")) for at in range(count)]
            with mock.patch.object(Rows, "differing", return_value=wires):
                with mock.patch.object(made.search, "single", return_value=None):
                    with mock.patch.object(sets, "Ties") as ties:
                        ties.return_value.all.return_value = []
                        found = made.explain()
            self.assertEqual((ties.called, len(found.left)), (is_looked_for, count))

    def ranked(self, *found: Explanation) -> Explained:
        """Returns the ranks of these sets, each of which gives the log."""
        made, explained = explainer(), Explained(explainer().rows, ["D0", "D1"])
        parts = [one.components for one in found]
        with mock.patch.object(made, "sets", return_value=iter(parts)):
            with mock.patch.object(made, "gives", return_value=True):
                with mock.patch.object(
                    made.prices, "readings", side_effect=[f.readings for f in found]
                ):
                    made.rank(explained, ["D0", "D1"])
        return explained

    def test_three_ranks(self) -> None:
        names = ("D0", "D1", "D2", "D3", "A1")
        found = [one_set(20 - at, f"stuck {name} 0") for at, name in enumerate(names)]
        explained = self.ranked(*found, one_set(20, "stuck IRQ 0"))
        told = [[one.price for one in rank] for rank in explained.ranks]
        self.assertEqual((told, explained.more), ([[16], [17], [18]], 3))
        self.assertEqual(explained.count, 3)

    def test_of_equal_sets_the_one_without_sound_nets_is_first(self) -> None:
        sound, wrong = one_set(10, "short AND D0 D2"), one_set(10, "short AND D0 D1")
        nets = [one.components[0].nets for one in self.ranked(sound, wrong).ranks[0]]
        self.assertEqual(nets, [("D0", "D1"), ("D0", "D2")])

    def test_sets_of_many_causes(self) -> None:
        # They are told only if there is no other set, and then the cheapest alone.
        usual, many = one_set(50, "stuck D0 0", causes=4), one_set(40, "stuck D1 0", causes=5)
        self.assertEqual([one[0].price for one in self.ranked(many, usual).ranks], [50])
        dear = one_set(60, "stuck D0 0", causes=6)
        self.assertEqual([one[0].price for one in self.ranked(dear, many).ranks], [40])

    def test_a_set_must_give_the_log(self) -> None:
        bed = Bed()
        made = Explainer(bed.board, [(bed.test, bed.rows("stuck:D0:0 stuck:D1:0"))])
        explained = Explained(made.rows, ["D0", "D1"])
        one, other = (fault_of("stuck D0 0"),), (fault_of("stuck D1 0"),)
        self.assertTrue(made.gives(explained, [one, other]))
        self.assertFalse(made.gives(explained, [one]))
        self.assertFalse(made.gives(explained, [one, (fault_of("stuck D1 1"),)]))
        explained.left.append("D1")
        self.assertTrue(made.gives(explained, [one]))


class Priced(unittest.TestCase):
    """Rows of open pins: what is chosen with causes at which parts."""

    def setUp(self) -> None:
        self.board: Board = read_files()
        self.prices = Prices(self.board, Nearness(self.board))

    def component(self, net: str, *lines: str) -> Component:
        """Returns a component with these single faults."""
        return Component((net,), 1, tuple((fault_of(line),) for line in lines))

    def test_a_part_is_found_from_stuck_nets(self) -> None:
        parts = [
            self.component("D0", "stuck D0 0", "open U4.1 0"),
            self.component("D1", "stuck D1 0", "open U4.2 0"),
        ]
        reading = self.prices.grown(parts, [])
        self.assertEqual((reading.price, reading.causes), (12.5, 1))
        self.assertEqual(self.prices.reading(parts, []).price, 20)

    def test_a_second_part_is_found(self) -> None:
        # U3 has the pins of two nets and U4 those of two others.
        names = ("D0", "U3.1"), ("D1", "U3.2"), ("D2", "U4.3"), ("D3", "U4.4")
        parts = [self.component(net, f"stuck {net} 0", f"open {pin} 0") for net, pin in names]
        reading = self.prices.grown(parts, [])
        self.assertEqual((reading.price, reading.causes), (25, 2))

    def test_which_parts_are_shared(self) -> None:
        one = self.component("D0", "open U1.1 0", "open U3.1 0", "stuck D0 0")
        two = self.component("D1", "open U3.2 0", "open U4.2 0")
        three = self.component("D2", "open U4.3 0", "open U3.3 0")
        self.assertEqual(self.prices.shared([one, two]), ["U3"])
        self.assertEqual(self.prices.shared([one, two, three]), ["U3", "U4"])
        self.assertEqual(self.prices.shared([one]), [])
        pair = Component(("D0",), 2, ((fault_of("open U4.1 0"), fault_of("open U4.2 0")),))
        self.assertEqual(self.prices.shared([pair]), ["U4"])

    def test_readings_of_one_price(self) -> None:
        # Both pins of U3 or both of U4: nothing tells the two apart.
        parts = [
            self.component("D0", "open U3.1 0", "open U4.1 0"),
            self.component("D1", "open U4.2 0", "open U3.2 0"),
        ]
        found = [
            [one[0].names[0] for one in reading.choices] for reading in self.prices.readings(parts)
        ]
        self.assertEqual(sorted(found), [["U3.1", "U3.2"], ["U4.1", "U4.2"]])
        self.assertEqual({one.price for one in self.prices.readings(parts)}, {12.5})

    def test_pins_with_a_choice_of_values(self) -> None:
        row = [Fault("open", (f"U4.{at}",), at % 2) for at in range(1, 3)]
        self.assertEqual(self.prices.row("U4", row), 13.5)
        self.assertEqual(self.prices.row("U4", row[:1]), 10)


class Near(unittest.TestCase):
    """Pins by their places."""

    def test_distances(self) -> None:
        self.assertAlmostEqual(distance((1.0, 2.0), (4.0, 6.0)), 5)
        self.assertAlmostEqual(distance((4.0, 6.0), (1.0, 2.0)), 5)

    def test_one_and_a_half_pitches(self) -> None:
        board = read_files()
        spots = {"U1.1": (0.0, 0.0), "U1.2": (1.0, 0.0), "U1.3": (2.5, 0.0), "U1.4": (4.1, 0.0)}
        near = Nearness(board, spots)
        self.assertEqual(near.pitch, {"U1": 1})
        self.assertEqual(list(near.beside("U1.2")), ["U1.1", "U1.3"])
        self.assertEqual(list(near.beside("U1.3")), ["U1.2"])
        self.assertEqual(Nearness(board, {"U1.1": (3.0, 4.0)}).pitch, {"U1": 0})

    def test_pins_without_a_place_in_the_order(self) -> None:
        board = cast(Board, SimpleNamespace(net_of=dict.fromkeys(("U1.1", "U1.2", "U1.A1"))))
        near = Nearness(board)
        self.assertEqual(list(near.beside("U1.1")), ["U1.2"])
        self.assertEqual(list(near.beside("U1.VCC")), [])
        self.assertEqual(list(near.beside("U1.A1")), [])


class Said(unittest.TestCase):
    """Words about sets."""

    def test_numbers(self) -> None:
        said = [counted(number, "set") for number in range(6)]
        self.assertEqual(
            said, ["no sets", "one set", "two sets", "three sets", "four sets", "5 sets"]
        )

    def test_the_walking_test_tells_the_first_from_another(self) -> None:
        explained = Explained(Rows(read_files(), 0), [])
        for seen, tells in (
            ("A", False),
            ("AA", False),
            ("AAB", True),
            ("ABA", True),
            ("BAA", True),
        ):
            explained.ranks = [[one_set(1, "stuck D0 0")] for _ in seen]
            with mock.patch.object(words, "signature", side_effect=[*seen]):
                self.assertEqual(walk_tells(explained, explained.rows), tells, seen)

    def test_what_the_walking_test_would_show(self) -> None:
        # D0 walks in the first of five rows: stuck at 0 it differs there, at 1 in the others.
        walk = Bed()
        walk.svf = guide_svf("walk")
        walk.test = Test(walk.svf)
        rows = rows_of(walk.board, [(walk.test, walk.rows("good"))])
        for line, bits in (("stuck D0 0", 0b00001), ("stuck D0 1", 0b11110)):
            seen = signature(rows, one_set(1, line))
            self.assertEqual({(net, mask) for net, _, mask in seen}, {("D0", bits)})

    def test_at_which_parts(self) -> None:
        bed = Bed()
        for fault, lines in (
            ("stuck:D0:0 stuck:D1:0", 0),
            ("stuck:D0:0 stuck:D1:0 stuck:D3:0", 1),
        ):
            found = explain(bed.board, [(bed.test, bed.rows(fault))])
            self.assertEqual(len(list(where(found))), lines)

    def test_the_likeliest_set(self) -> None:
        # The first reading of the first set of the first rank.
        first = one_set(10, "stuck D0 0", "stuck D1 0")
        first.readings.append(Reading(((fault_of("open U1.1 0"),),), 10, 1))
        explained = Explained(Rows(read_files(), 0), [], [[first, one_set(10, "stuck D2 0")]])
        explained.ranks.append([one_set(20, "stuck D3 0")])
        self.assertEqual(lines_of(explained), ["stuck D0 0", "stuck D1 0"])
        for faults, is_ranked, wanted in (
            (["x", "y"], True, ("x", "y")),
            ([], True, ("stuck D0 0 with stuck D1 0",)),
            ([], False, ()),
        ):
            explained.ranks = explained.ranks if is_ranked else []
            seen = mock.Mock(faults=faults, explained=explained)
            self.assertEqual(faults_of(seen), wanted)

    def test_first_lines(self) -> None:
        board = read_files()
        first = one_set(10, "stuck D0 0")
        explained = Explained(Rows(board, 0), [], [[first, one_set(10, "stuck D1 0")]])
        bench = mock.Mock(failing=mock.Mock(board=board, nearness=Nearness(board)))
        step = "next: measure D0, as at U1.1, against the supplies"
        lines = ["likely one cause", "  D0: stuck D0 0", "or D1: stuck D1 0", step]
        self.assertEqual(first_lines(bench, mock.Mock(explained=explained)), lines)
        explained.ranks = []
        (line,) = first_lines(bench, mock.Mock(explained=explained))
        self.assertTrue(line.startswith("no set of faults"), line)

    def test_a_row_beside_a_short(self) -> None:
        board = read_files()
        teller = Teller(board, Nearness(board))
        found = one_set(25, "open U4.1 0", "open U4.2 0", "short AND D3 A1")
        step = "look at the pins 1, 2 of U4; measure between U1.4 (D3) and U1.5 (A1)"
        self.assertEqual(teller.next_step(found), step)

    def test_a_choice_that_is_the_only_one(self) -> None:
        board = read_files()
        teller = Teller(board, Nearness(board))
        cases: list[tuple[str, Optional[str], str]] = [
            ("stuck D0 0", None, "measure D0, as at U1.1, against the supplies"),
            ("open U3.1 0", None, "look at U3.1"),
            (
                "open U3.1 0",
                "stuck D0 0",
                "look at U3.1; measure D0, as at U1.1, against the supplies",
            ),
        ]
        for line, other, step in cases:
            choices = tuple((fault_of(one),) for one in filter(None, (line, other)))
            self.assertEqual(teller.step(Component(("D0",), 1, choices), choices[0]), step)


if __name__ == "__main__":
    unittest.main()
