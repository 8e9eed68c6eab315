"""Sets of faults that explain a log. Which there are is worked by hand from the codes of the demo
board in docs/GUIDE.md: D0 100, D1 010, D2 110, D3 001, A1 101, IRQ 011 in each pass."""

from __future__ import annotations

import contextlib
import io
import unittest
from collections.abc import Sequence
from types import SimpleNamespace
from unittest import mock

from tests.support import PROGRAM, Bed, Folder, guide_svf, read_files, small_board

from btest_tools.explaining.candidates import Component, Search, Ties, View, views
from btest_tools.explaining.faults import Fault, fault_of, faults_of, parts_of, resistors
from btest_tools.explaining.nearness import Nearness, grid
from btest_tools.explaining.patience import Patience
from btest_tools.explaining.prices import Prices, Reading
from btest_tools.explaining.rows import rows_of
from btest_tools.explaining.sets import Explained, Explainer, Explanation, explain, levels_of
from btest_tools.explaining.weights import WEIGHTS
from btest_tools.explaining.words import SUPPLY, Teller, at_parts, counted, text, walk_tells, where
from btest_tools.model import play
from btest_tools.scans import LogRow, Test

# Faults, and for each rank the sets as the lines of their faults, in the order of the nets.
RANKS = [
    ("stuck:D0:0 open:U3.5:1", [["stuck D0 0, open U3.5 1"]]),
    ("and:D0:D1", [["short AND D0 D1"], ["stuck D0 0, stuck D1 0"]]),
    ("or:D1:A1", [["short OR D1 A1"], ["stuck D1 1, open U1.5 1"]]),
    ("or:D0:D1", [["short OR D0 D1"]]),
    # D3 reads 000, which needs all three: D2 and A1 have a 1 together in the first row.
    ("dom:D3:D1", [["short DOM D3 D1"]]),
    ("swap:U1.1:U1.2", [["swap U1.1 U1.2"]]),
    ("stuck:D0:0 open:U3.1:1", [["stuck D0 0 with open U3.1 1"]]),
    ("open:U1.1:0 open:U3.1:0", [["open U1.1 0 with open U3.1 0"]]),
    ("open:U4.1:0 open:U4.2:1 open:U4.3:0", [["open U4.1 0, open U4.2 1, open U4.3 0"]]),
    # D1 has no pin beside one of D3 and A1, so the short of all three needs two bridges. Then a
    # short of two with a stuck net is as likely. A short of D1 and D3 isn't among them: U2 drives
    # them in passes of their own, where they would read what it drives.
    ("and:D1:A1 stuck:D3:0", [["short AND D1 D3 A1", "short AND D1 A1, stuck D3 0"]]),
    # D0, D1 and D2 lie side by side, and so one bridge joins them.
    ("and:D0:D1 stuck:D2:0", [["short AND D0 D1 D2"], ["short AND D0 D1, stuck D2 0"]]),
]


def look(fault: str) -> tuple[Bed, Explained]:
    """Explains the demo board with faults."""
    bed = Bed()
    return bed, explain(bed.board, [(bed.test, bed.rows(fault))])


def told(explained: Explained) -> list[list[str]]:
    """Returns the cheapest choices of each set, rank by rank."""
    return [
        [
            ", ".join(" with ".join(f.line() for f in choice) for choice in one.readings[0].choices)
            for one in rank
        ]
        for rank in explained.ranks
    ]


class Ranked(unittest.TestCase):
    """What is found of several faults at once."""

    def test_ranks(self) -> None:
        for fault, ranks in RANKS:
            with self.subTest(fault):
                _, explained = look(fault)
                self.assertEqual(told(explained)[: len(ranks)], ranks)
                self.assertEqual(explained.left, [])

    def test_a_good_board(self) -> None:
        _, explained = look("good")
        self.assertEqual((explained.differing, explained.ranks), ([], []))

    def test_each_set_gives_the_log(self) -> None:
        for fault, _ in RANKS:
            bed, explained = look(fault)
            rows = bed.rows(fault)
            for explanation in (one for rank in explained.ranks for one in rank):
                for reading in explanation.readings:
                    faults = faults_of(f for choice in reading.choices for f in choice)
                    bed.model.put_faults(faults)
                    self.assertEqual(rows, self.rows(bed), fault)

    def rows(self, bed: Bed) -> list[object]:
        """Returns the log of the model with the faults that it has."""
        wanted = bed.test.wanted()
        came = play(bed.model, bed.svf)
        return [LogRow(want, (want ^ got) & one.mask) for (one, want), got in zip(wanted, came)]

    def test_choices_of_one_net(self) -> None:
        _, explained = look("pull:IRQ:0")
        (component,) = explained.ranks[0][0].components
        lines = {" with ".join(fault.line() for fault in one) for one in component.choices}
        self.assertEqual(lines, {"stuck IRQ 0", "open U1.8 0", "pull IRQ 0"})

    def test_a_short_of_three_nets(self) -> None:
        _, explained = look("or:D0:D1:D3")
        first = explained.ranks[0][0]
        self.assertEqual(first.components[0].nets, ("D0", "D1", "D3"))
        self.assertEqual(first.components[0].choices, ((Fault("or", ("D0", "D1", "D3")),),))
        # D3 has no pin beside one of the others.
        price = WEIGHTS.cause + WEIGHTS.net + WEIGHTS.apart
        self.assertEqual((first.price, first.causes), (price, 1))

    def test_a_net_that_does_not_differ(self) -> None:
        # D0 reads 100 in any case: D2 AND A1 is 100, too.
        _, explained = look("and:D2:A1:D0")
        self.assertEqual(explained.differing, ["D2", "A1"])
        nets = [sorted(one.components[0].nets) for rank in explained.ranks for one in rank]
        self.assertIn(["A1", "D0", "D2"], nets)
        self.assertEqual(nets[0], ["A1", "D2"])

    def test_what_nothing_explains(self) -> None:
        bed = Bed()
        rows = bed.rows("stuck:D0:0")
        place = bed.board.nets["A1"].readers[0].place
        rows[1] = rows[1]._replace(wrong=rows[1].wrong | 1 << place)  # it came and went
        explained = explain(bed.board, [(bed.test, rows)])
        self.assertEqual(explained.left, ["A1"])
        self.assertEqual(told(explained), [["stuck D0 0"]])
        lines = list(text(bed.board, explained, Nearness(bed.board), ""))
        self.assertIn("a part of the log", lines[0])
        self.assertTrue(lines[-1].startswith("They leave A1: "))

    def test_what_btest_names_comes_first(self) -> None:
        bed = Bed()
        named = {"D0": [fault_of("stuck D0 0")]}
        logs = [(bed.test, bed.rows("stuck:D0:0"))]
        explained = explain(bed.board, logs, None, named)
        self.assertEqual(told(explained), [["stuck D0 0"]])

    def test_both_logs(self) -> None:
        # A short in which a 1 wins and two nets stuck at 1 give the same log of the test, but not
        # of the walking test: there the shorted nets read 1 in two rows alone.
        bed, walk = Bed(), Bed()
        walk.svf = guide_svf("walk")
        walk.test = Test(walk.svf)
        logs = [(bed.test, bed.rows("or:D1:A1")), (walk.test, walk.rows("or:D1:A1"))]
        self.assertEqual(len(explain(bed.board, logs[:1]).ranks), 2)
        self.assertEqual(told(explain(bed.board, logs)), [["short OR D1 A1"]])


class Pieces(unittest.TestCase):
    """Views, nearness and prices."""

    def test_views(self) -> None:
        bed = Bed()
        rows = rows_of(bed.board, [(bed.test, bed.rows("open:U3.5:1"))])
        wire = rows.wires["A1"]
        self.assertEqual(len(views(wire)), 2)
        self.assertTrue(views(wire)[0].is_constant() != views(wire)[1].is_constant())
        self.assertTrue(View(6, 2).agrees(3, 2))
        self.assertFalse(View(6, 2).agrees(3, 0))
        self.assertFalse(View(6, 2).agrees(1, 0))

    def test_grid(self) -> None:
        self.assertEqual(grid("12"), (12, 0))
        self.assertEqual(grid("A7"), (0, 7))
        self.assertEqual(grid("J1"), (8, 1))  # there is no row I
        self.assertEqual(grid("AA3"), (20, 3))
        self.assertIsNone(grid("VCC"))
        self.assertIsNone(grid("I7"))

    def test_nearness(self) -> None:
        near = Nearness(Bed().board)
        self.assertEqual(near.between("D0", "D1"), ("U1.1", "U1.2"))
        self.assertEqual(near.between("D1", "D0"), ("U1.2", "U1.1"))
        self.assertIsNone(near.between("D0", "A1"))
        self.assertTrue(near.are_joined(["D0", "D2", "D1"]))
        self.assertFalse(near.are_joined(["D0", "D1", "A1"]))
        self.assertEqual(near.patches(["D0", "A1", "D2", "D1"]), [["D0", "D1", "D2"], ["A1"]])
        self.assertEqual(near.patches(["A1", "D3", "D0", "D1"]), [["A1", "D3"], ["D0", "D1"]])

    def test_places(self) -> None:
        spots = {"U1.1": (0.0, 0.0), "U1.2": (9.0, 0.0), "U1.5": (1.0, 0.0), "U1.6": (2.0, 0.0)}
        near = Nearness(Bed().board, spots)
        self.assertEqual(list(near.beside("U1.5")), ["U1.1", "U1.6"])
        self.assertEqual(near.between("D0", "A1"), ("U1.1", "U1.5"))

    def test_prices_of_faults(self) -> None:
        board = Bed().board
        prices = Prices(board, Nearness(board))
        for line, price in (
            ("stuck D0 0", 10),
            ("open U3.5 1", 10),
            ("short AND D0 D1", 10),
            ("short OR D0 A1", 11),
            ("short DOM D1 D0", 11),
            ("short AND D0 D1 D2", 14),
            ("pull IRQ 0", 10.5),
            ("swap U1.1 U1.2", 14),
        ):
            fault = fault_of(line) if "swap" not in line else Fault("swap", ("U1.1", "U1.2"))
            self.assertEqual(prices.alone(fault), price, line)

    def test_the_cheapest_rows(self) -> None:
        board = Bed().board
        prices = Prices(board, Nearness(board))
        pins = (("U3.1", "U4.1"), ("U3.2", "U4.2"), ("U4.3",))
        parts = [
            Component((f"D{at}",), 1, tuple((fault_of(f"open {pin} 0"),) for pin in mine))
            for at, mine in enumerate(pins)
        ]
        # All three at U4 are one cause. U3 has two of them, which leaves one at U4.
        whole = [(fault_of(f"open U4.{number} 0"),) for number in (1, 2, 3)]
        self.assertEqual(
            [(one.price, list(one.choices)) for one in prices.readings(parts)], [(15, whole)]
        )
        self.assertEqual(prices.grown(parts, []).price, 15)
        self.assertEqual(prices.grown(parts, ["U3"]).price, 22.5)

    def test_balls_side_by_side(self) -> None:
        pins = ("U1.B7", "U1.A7", "U1.C7", "U1.B6", "U1.B8", "U1.A8", "U2.B8")
        board = SimpleNamespace(net_of=dict.fromkeys(pins))
        near = Nearness(board)  # type: ignore[arg-type]
        self.assertEqual(set(near.beside("U1.B7")), {"U1.A7", "U1.C7", "U1.B6", "U1.B8"})

    def test_what_btest_names_of_two_nets(self) -> None:
        bed = Bed()
        short = fault_of("short AND D0 D1")
        rows = rows_of(bed.board, [(bed.test, bed.rows("and:D0:D1"))])
        search = Search(rows, {"D0": [short], "D1": [short, fault_of("stuck D1 0")]})
        ties = Ties(search, rows.differing(), {"D0": 1, "D1": 1}, Patience())
        self.assertEqual(ties.proved(["D0", "D1"]), Component(("D0", "D1"), 1, ((short,),)))
        self.assertIsNone(ties.proved(["D0", "D2"]))
        self.assertIsNone(ties.proved(["D0", "D1", "D2"]))

    def test_large_shorts(self) -> None:
        bed = Bed()
        rows = rows_of(bed.board, [(bed.test, bed.rows("and:D0:D1"))])
        patience = mock.Mock()
        ties = Ties(Search(rows), rows.differing(), {"D0": 1, "D1": 1}, patience)
        ties.all()
        self.assertEqual(
            [call[0] for call in patience.at.call_args_list[:2]],
            [(0, 2, "nets with others"), (1, 2, "nets with others")],
        )
        ties.order = {f"N{at}": at for at in range(18)}
        for count, tried in ((16, True), (17, False), (1, False)):
            names = [f"N{at}" for at in range(count)]
            with mock.patch.object(ties.search, "tie", return_value=None) as tie:
                self.assertFalse(ties.attempt(names, 0))
            self.assertEqual(tie.called, tried, count)

    def test_more_causes_than_are_looked_for(self) -> None:
        with mock.patch("btest_tools.explaining.sets.CAUSES", 0):
            _, explained = look("stuck:D0:0")
        self.assertEqual(told(explained), [["stuck D0 0"]])

    def test_what_a_short_may_cost_more(self) -> None:
        board = Bed().board
        prices = Prices(board, Nearness(board))
        bridge = WEIGHTS.cause - WEIGHTS.net
        for names, bridges in (
            ("D0 A1", 1),
            ("D0 D1 D2", 1),
            ("D0 D1 A1", 2),
            ("D0 D2 A1", 2),
            ("D0 D1 D3 A1", 3),
            ("D0 D1 D2 A1", 2),
            ("D0 D2 D3 IRQ", 3),
        ):
            fault = Fault("and", tuple(names.split()))
            self.assertEqual(prices.spare(fault), (bridges - 1) * bridge, names)
        self.assertEqual(prices.spare(fault_of("stuck D0 0")), 0)
        self.assertEqual(prices.spare(Fault("swap", ("U1.1", "U1.5"))), 0)
        parts = [Component(("D0", "D1", "A1"), 1, ((fault_of("short AND D0 D1 A1"),),))]
        (reading,) = prices.readings([*parts, Component(("D2",), 1, ((fault_of("stuck D2 0"),),))])
        self.assertEqual((reading.price, reading.spare), (25, 6))

    def test_sets_of_one_rank(self) -> None:
        def one(price: float, spare: float, *nets: str) -> Explanation:
            return Explanation((Component(nets, 1, ()),), [Reading((), price, 1, spare)])

        first, more = one(15, 6, "A", "B", "C"), one(15, 0, "A", "B", "D")
        alike, dearer = one(21, 0, "C", "A", "B"), one(21.5, 0, "A", "B", "C")
        others, last = one(21, 9, "A", "B"), one(22, 0, "A", "B", "C")
        found = [first, more, alike, others, dearer, last]
        self.assertEqual(list(levels_of(found)), [[first, more, alike], [others], [dearer], [last]])
        self.assertTrue(alike.is_like(first))
        self.assertFalse(others.is_like(first))
        self.assertEqual(list(levels_of([])), [])

    def test_nets_that_read_right(self) -> None:
        parts = (Component(("D0", "D1"), 1, ()), Component(("A1",), 1, ()))
        self.assertEqual(Explanation(parts, []).right(["D0"]), 2)
        self.assertEqual(Explanation(parts, []).right(["D0", "D1", "A1", "D2"]), 0)

    def test_prices_of_rows(self) -> None:
        board = Bed().board
        prices = Prices(board, Nearness(board))
        pins = [Fault("open", (f"U4.{number}",), 0) for number in (1, 2, 3)]
        self.assertEqual(prices.total([(pin,) for pin in pins]), (15, 1))
        mixed = [*pins, Fault("open", ("U4.4",), 1)]
        self.assertEqual(prices.total([tuple(mixed)]), (18.5, 1))
        two = [*pins, Fault("open", ("U3.5",), 0), Fault("stuck", ("IRQ",), 0)]
        self.assertEqual(prices.total([tuple(two)]), (35, 3))

    def test_rows_are_chosen_over_single_causes(self) -> None:
        board = Bed().board
        prices = Prices(board, Nearness(board))
        one = Component(("D0",), 1, ((fault_of("stuck D0 0"),), (fault_of("open U4.1 0"),)))
        two = Component(("D1",), 1, ((fault_of("open U4.2 0"),), (fault_of("stuck D1 0"),)))
        (reading,) = prices.readings([one, two])
        self.assertEqual(reading.choices, (one.choices[1], two.choices[0]))
        self.assertEqual((reading.price, reading.causes), (12.5, 1))

    def test_the_smallest_sets(self) -> None:
        bed = Bed()
        rows = rows_of(bed.board, [(bed.test, bed.rows("and:D0:D1 open:U3.1:1"))])
        component = Search(rows).tie(["D0", "D1"], 2)
        assert component
        self.assertEqual(component.count, 2)
        self.assertEqual({len(choice) for choice in component.choices}, {2})
        self.assertIn((fault_of("short AND D0 D1"), fault_of("open U3.1 1")), component.choices)
        self.assertIsNone(Search(rows).tie(["D0", "D2"], 2))


class Told(unittest.TestCase):
    """Words."""

    def lines(self, fault: str) -> list[str]:
        bed, explained = look(fault)
        return list(text(bed.board, explained, Nearness(bed.board), ""))

    def test_a_short(self) -> None:
        lines = self.lines("and:D0:D1")
        self.assertEqual(
            lines,
            [
                "Sets of faults that give every compared bit, the likeliest first:",
                "  1. one cause",
                "       D0, D1: short AND D0 D1",
                "     Next: measure between U1.1 (D0) and U1.2 (D1).",
                "  2. two causes",
                "       D0: stuck D0 0",
                "       D1: stuck D1 0",
            ],
        )

    def test_a_stuck_net(self) -> None:
        step = "measure D0, as at U1.1, against the supplies"
        self.assertEqual(self.lines("stuck:D0:0")[3], f"     Next: {step}.")

    def test_a_row_of_pins(self) -> None:
        lines = self.lines("open:U4.1:0 open:U4.2:0 open:U4.3:0 open:U4.4:0")
        self.assertEqual(lines[0], "Pins that differ are at U1 (4), U3 (4), U4 (4).")
        row = "U4, 4 open pins: U4.1 0 (D0), U4.2 0 (D1), U4.3 0 (D2), U4.4 0 (D3)"
        self.assertEqual(lines[2:4], ["  1. one cause", f"       {row}"])
        self.assertEqual(lines[4], "     Next: look at the pins 1, 2, 3, 4 of U4.")

    def test_a_missing_pull(self) -> None:
        line = self.lines("pull:IRQ:0")[2]
        self.assertIn("pull IRQ 0 (at RN1.1)", line)

    def test_parts_and_numbers(self) -> None:
        _, explained = look("stuck:D0:0 open:U3.5:1")
        parts = "Pins that differ are at U3 (2), U1 (1), U4 (1)."
        self.assertEqual(at_parts(explained), parts)
        self.assertEqual(at_parts(look("open:U3.5:1")[1]), "All pins that differ are at U3.")
        self.assertEqual(counted(1, "cause"), "one cause")
        self.assertEqual(counted(0, "cause"), "no causes")
        self.assertEqual(counted(5, "cause"), "5 causes")

    def test_many_nets(self) -> None:
        bed = Bed()
        explained = explain(bed.board, [(bed.test, bed.rows("stuck:D0:0"))])
        explained.differing = explained.differing * 17
        self.assertNotIn(SUPPLY, list(where(explained)))
        (first,) = explained.ranks[0]
        first.readings = [Reading(first.readings[0].choices, 50, 5)]
        self.assertIn(SUPPLY, list(where(explained)))
        explained.ranks = []
        self.assertIn(SUPPLY, list(where(explained)))
        explained.differing = explained.differing[:16]
        self.assertNotIn(SUPPLY, list(where(explained)))

    def test_lines_are_cut_off(self) -> None:
        board = Bed().board
        parts = (Component(("D0",), 1, ((fault_of("stuck D0 0"),),)),) * 18
        reading = Reading(tuple(one.choices[0] for one in parts), 180, 18)
        lines = Teller(board, Nearness(board)).lines(Explanation(parts, [reading]), reading)
        self.assertEqual(lines[15:], ["D0: stuck D0 0", "and 2 more"])

    def test_where_to_measure(self) -> None:
        board = Bed().board
        teller = Teller(board, Nearness(board))
        self.assertEqual(teller.probes(["D0", "D1"]), "U1.1 (D0) and U1.2 (D1)")
        self.assertEqual(teller.probes(["D0", "A1"]), "U1.1 (D0) and U1.5 (A1)")
        swap = "see whether U1.1 and U1.2 are exchanged"
        self.assertEqual(self.lines("swap:U1.1:U1.2")[3], f"     Next: {swap}.")


class Pack(Folder):
    """The small board with a resistor pack at both nets."""

    def setUp(self) -> None:
        super().setUp()
        chain = "DEVICE U1 DRV -\nDEVICE U2 RCV -\nINERT RN1\nPULL N1 1\nPULL N2 1\n"
        nets = "NET N1 U1.1 U2.1 RN1.1\nNET N2 U1.2 U2.2 RN1.2\n"
        self.board = read_files(small_board(self.folder, chain=chain, nets=nets))
        self.faults = [Fault("pull", (name,), 0) for name in ("N1", "N2")]

    def test_parts(self) -> None:
        self.assertEqual(resistors(self.board, "N1"), ["RN1.1"])
        self.assertEqual(parts_of(self.board, self.faults[0]), ["RN1"])
        self.assertEqual(parts_of(self.board, fault_of("stuck N1 0")), [])
        self.assertEqual(parts_of(self.board, fault_of("open U2.1 0")), ["U2"])

    def test_prices(self) -> None:
        prices = Prices(self.board, Nearness(self.board))
        self.assertEqual(prices.total([(self.faults[0],)]), (10.5, 1))
        self.assertEqual(prices.total([tuple(self.faults)]), (9.5, 1))  # the whole pack
        prices.packs["RN1"].add("N3")
        self.assertEqual(prices.total([tuple(self.faults)]), (13, 1))

    def test_words(self) -> None:
        parts = tuple(
            Component((fault.names[0],), 1, ((fault,), (Fault("stuck", fault.names, 0),)))
            for fault in self.faults
        )
        readings = Prices(self.board, Nearness(self.board)).readings(parts)
        explanation = Explanation(parts, readings)
        teller = Teller(self.board, Nearness(self.board))
        lines = list(teller.causes(explanation, readings[0]))
        self.assertEqual(lines, ["RN1, 2 pulls that are missing: pull N1 0, pull N2 0"])
        self.assertEqual(teller.next_step(explanation), "look at the pins 1, 2 of RN1")
        self.assertEqual((explanation.price, explanation.causes), (9.5, 1))
        first = Explanation(parts[:1], [Reading((parts[0].choices[1],), 10, 1)])
        step = "look at RN1.1; measure N1, as at U1.1, against the supplies"
        self.assertEqual(teller.next_step(first), step)
        lines = list(teller.causes(first, first.readings[0]))
        self.assertEqual(lines, ["N1: stuck N1 0 or pull N1 0 (at RN1.1)"])


@unittest.skipUnless(PROGRAM, "no btest is given")
class Wide(Folder):
    """A net with five receivers."""

    def test_three_faults(self) -> None:
        parts = [f"U{number}" for number in range(2, 7)]
        chain = "DEVICE U1 DRV -\n" + "".join(f"DEVICE {part} RCV -\n" for part in parts)
        pins = [f"{part}.1" for part in parts]
        files = small_board(self.folder, chain=chain, nets=f"NET N1 U1.1 {' '.join(pins)}\n")
        bed = Bed(files)
        rows = rows_of(bed.board, [(bed.test, bed.rows("stuck:N1:0 open:U3.1:1 open:U6.1:1"))])
        component = Search(rows).single(rows.wires["N1"])
        assert component
        opens = {"open U3.1 1", "open U6.1 1"}
        found = [{fault.line() for fault in choice} for choice in component.smallest()]
        self.assertEqual(found, [{"open U1.1 0", *opens}, {"stuck N1 0", *opens}])
        self.assertEqual([len(one) for one in component.choices], [3, 3, 5])  # or all are open


class Sets(unittest.TestCase):
    """Sets of components that share no net."""

    def explainer(self, singles: Sequence[str], ties: Sequence[str]) -> Explainer:
        """Returns one that has components with these nets; a + stands between names."""
        bed = Bed()
        made = Explainer(bed.board, [(bed.test, bed.rows("good"))])
        made.singles = {name: Component((name,), 1, ()) for name in singles}
        made.ties = [Component(tuple(names.split("+")), 1, ()) for names in ties]
        return made

    def sets(self, wanted: str, singles: str, *ties: str) -> list[list[str]]:
        found = self.explainer(singles.split(), ties).sets(wanted.split())
        return [["+".join(component.nets) for component in one] for one in found]

    def test_few(self) -> None:
        self.assertEqual(self.sets("A B", "A B"), [["A", "B"]])
        self.assertEqual(self.sets("A B", "A B", "A+B"), [["A", "B"], ["A+B"]])
        self.assertEqual(self.sets("A B C", "C", "A+B"), [["A+B", "C"]])
        self.assertEqual(self.sets("A B C", "A C", "A+B", "B+C"), [["A+B", "C"], ["B+C", "A"]])
        self.assertEqual(
            self.sets("A B C D", "A B C D", "A+B", "C+D"),
            [["A", "B", "C", "D"], ["A+B", "C", "D"], ["C+D", "A", "B"], ["A+B", "C+D"]],
        )
        self.assertEqual(self.sets("A B", "A"), [])
        self.assertEqual(self.sets("A B C", "", "A+B", "B+C"), [])

    def test_many(self) -> None:
        ties = ["A+B", "C+D", "E+F", "G+H", "I+J", "B+X"]
        wanted = "A B C D E F G H I J K"
        self.assertEqual(self.sets(wanted, "K", *ties[:5]), [[*ties[:5], "K"]])
        (one,) = self.sets(wanted, "K", *ties)
        self.assertEqual(sorted(one), sorted([*ties[:5], "K"]))
        self.assertEqual(self.sets(wanted, "", *ties), [])


class Patient(unittest.TestCase):
    """Lines of progress."""

    def test_not_before_two_seconds(self) -> None:
        err = io.StringIO()
        patience = Patience()
        with contextlib.redirect_stderr(err):
            patience.at(0, 4, "nets")
            patience.told -= 1.5
            patience.at(1, 4, "nets")
            self.assertEqual(err.getvalue(), "")
            patience.told -= 0.6
            patience.at(1, 4, "nets")
            patience.at(2, 4, "nets")
        self.assertEqual(err.getvalue(), "explaining: 1 of 4 nets\n")


class Equal(unittest.TestCase):
    """Sets of one rank."""

    def test_some_are_told(self) -> None:
        bed, explained = look("and:D0:D1")
        first = explained.ranks[0][0]
        explained.ranks = [[first] * 8, explained.ranks[1]]
        one, two = list(Teller(bed.board, Nearness(bed.board)).ranks(explained))
        line = "D0, D1: short AND D0 D1"
        self.assertEqual((one.number, one.head, one.lines), (1, "one cause", [line]))
        self.assertEqual(one.equals, [[line]] * 6 + [["1 more sets"]])
        self.assertEqual((two.number, two.next, two.equals), (2, "", []))
        self.assertTrue(one.next)

    def test_they_are_printed(self) -> None:
        bed, explained = look("and:D0:D1")
        explained.ranks = [explained.ranks[0] * 2]
        explained.more = 3
        lines = list(text(bed.board, explained, Nearness(bed.board), "hint"))
        self.assertEqual(lines[3], "     or D0, D1: short AND D0 D1")
        self.assertEqual(lines[-2:], ["  and three sets with more or rarer causes", "hint"])

    def test_many_choices(self) -> None:
        board = Bed().board
        choices = tuple((fault_of(f"open U1.{at} 0"),) for at in range(1, 7))
        line = Teller(board, Nearness(board)).component(Component(("D0",), 1, choices), choices[2])
        told = "open U1.3 0 or open U1.1 0 or open U1.2 0 or open U1.4 0 or 2 more"
        self.assertEqual(line, f"D0: {told}")


class Walk(unittest.TestCase):
    """Whether the walking test tells sets apart."""

    def test_walk(self) -> None:
        walk = Bed()
        walk.svf = guide_svf("walk")
        walk.test = Test(walk.svf)
        rows = rows_of(walk.board, [(walk.test, walk.rows("good"))])
        self.assertTrue(walk_tells(look("or:D1:A1")[1], rows))
        self.assertFalse(walk_tells(look("and:D0:D1")[1], rows))
        self.assertFalse(walk_tells(look("stuck:D0:0")[1], rows))  # there is one set alone


if __name__ == "__main__":
    unittest.main()
