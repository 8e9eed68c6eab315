"""The bounds of the search for what is wrong with nets: what is tried, in which order, and what is
kept. The nets and what they read were made up, and what has to come was worked out by hand."""

from __future__ import annotations

import unittest
from typing import Optional, cast
from unittest import mock

from tests.support import Bed, read_files

from btest_tools.board import Net
from btest_tools.explaining.candidates import Component, Search, Ties, View, views
from btest_tools.explaining.faults import Fault, fault_of
from btest_tools.explaining.patience import Patience
from btest_tools.explaining.rows import Probe, Rows, Source, Wire, rows_of


def wire(name: str, *probes: tuple[int, int], expected: Optional[int] = None) -> Wire:
    """Returns a net whose cells are compared in the rows of a mask and read some bits. Without
    `expected` it differs."""
    net = cast(Net, mock.Mock(pull=None))
    net.name = name
    cells = [Probe(f"{name}.{at}", mask, got) for at, (mask, got) in enumerate(probes)]
    mask = 0
    for probe in cells:
        mask |= probe.mask
    return Wire(net, [], cells, mask, expected or 0, 0 if expected is not None else 1)


def ties_of(*wires: Wire, singles: Optional[dict[str, int]] = None) -> Ties:
    """Returns the search for shorts among the nets that differ, of three rows."""
    rows = Rows(read_files(), 3, {one.name: one for one in wires})
    return Ties(Search(rows), rows.differing(), singles or {}, Patience())


def component(names: str, count: int, *lines: str) -> Component:
    """Returns a component whose choices have one fault each."""
    return Component(tuple(names.split()), count, tuple((fault_of(line),) for line in lines))


class Reads(unittest.TestCase):
    """What nets read, and which read alike."""

    def test_views(self) -> None:
        # The first two cells agree in the row that they share, the third agrees with neither.
        found = views(wire("A", (0b011, 0b001), (0b110, 0b100), (0b011, 0b010)))
        wanted = [View(0b111, 0b101), View(0b011, 0b010), View(0b011, 0b001), View(0b110, 0b100)]
        self.assertEqual(found, wanted)
        self.assertEqual(views(wire("A", (0b011, 0b001), (0b011, 0b001))), [View(0b011, 0b001)])

    def test_constant(self) -> None:
        found = [View(0b110, got).is_constant() for got in (0, 0b110, 0b010, 0b100)]
        self.assertEqual(found, [True, True, False, False])

    def test_alike(self) -> None:
        one, two, three = (wire(name, (7, got)) for name, got in (("A", 5), ("B", 5), ("C", 2)))
        four = wire("D", (7, 2), (7, 5))
        ties = ties_of(one, two, three, four)
        wanted = {"A": {"B", "D"}, "B": {"A", "D"}, "C": {"D"}, "D": {"A", "B", "C"}}
        self.assertEqual(ties.alike, wanted)

    def test_silent(self) -> None:
        # B is compared in two rows, in which A reads what is expected of it. C is expected to read
        # something else, D isn't compared, and E differs. F reads a constant, as G does.
        wires = (
            wire("A", (7, 5)),
            wire("B", (3, 1), expected=1),
            wire("C", (7, 4), expected=4),
            wire("D", expected=0),
            wire("E", (7, 5)),
            wire("F", (7, 7)),
            wire("G", (7, 7), expected=7),
        )
        self.assertEqual(ties_of(*wires).silent, {"A": {"B"}, "E": {"B"}, "F": set()})

    def test_order(self) -> None:
        ties = ties_of(*(wire(name, (7, 5)) for name in ("C", "A", "B")))
        self.assertEqual(ties.order, {"C": 0, "A": 1, "B": 2})


class Kept(unittest.TestCase):
    """Which components are kept."""

    def kept(self, *components: Optional[Component]) -> list[Component]:
        """Returns what is kept of components. A has one fault by itself, B two, and X any."""
        ties = ties_of(singles={"A": 1, "B": 2})
        for one in components:
            ties.keep(one)
        return list(ties.found.values())

    def test_as_many_faults_as_alone(self) -> None:
        good, bad = component("A B", 3, "stuck A 0"), component("A B", 4, "stuck A 0")
        self.assertEqual(self.kept(None, good), [good])
        self.assertEqual(self.kept(bad), [])

    def test_nets_that_nothing_explains_alone(self) -> None:
        good, bad = component("A X", 100, "stuck A 0"), component("A X", 101, "stuck A 0")
        self.assertEqual(self.kept(good), [good])
        self.assertEqual(self.kept(bad), [])

    def test_fewer_faults_win(self) -> None:
        more, fewer = component("A B", 2, "stuck A 0"), component("B A", 1, "stuck B 0")
        for order in ((more, fewer), (fewer, more)):
            (kept,) = self.kept(*order)
            self.assertEqual((kept.count, kept.choices), (1, fewer.choices))

    def test_choices_of_equal_components_are_joined(self) -> None:
        one = component("A B", 1, "stuck A 0", "stuck B 0")
        (kept,) = self.kept(one, component("A B", 1, "stuck B 0", "stuck A 1"))
        lines = [fault.line() for choice in kept.choices for fault in choice]
        self.assertEqual(lines, ["stuck A 0", "stuck B 0", "stuck A 1"])
        self.assertEqual((kept.nets, kept.count), (("A", "B"), 1))

    def test_the_smallest_choices(self) -> None:
        one = Component(("A",), 1, ((fault_of("stuck A 0"),), (fault_of("open A.1 0"),) * 2))
        self.assertEqual(one.smallest(), [one.choices[0]])

    def test_a_row_of_open_pins(self) -> None:
        # It is one choice more if it has more faults than the others.
        search = Search(Rows(read_files(), 3))
        two, one = component("A", 2, "open A.1 0"), component("A", 1, "stuck A 0")
        alike = component("A", 2, "stuck A 0")
        for row, found, wanted in (
            (two, None, two),
            (None, one, one),
            (None, None, None),
            (two, alike, alike),
            (two, one, component("A", 1, "stuck A 0", "open A.1 0")),
        ):
            with mock.patch.object(search, "all_open", return_value=row):
                found = search.with_row(wire("A"), found)
            self.assertEqual(found, wanted)
            self.assertEqual(found and found.choices, wanted and wanted.choices)


class Tried(unittest.TestCase):
    """Which nets are tried together."""

    def test_clusters(self) -> None:
        # B and C read as A does, but not alike. The other order begins with C.
        ties = ties_of()
        ties.alike = {"A": {"B", "C"}, "B": {"A"}, "C": {"A"}, "D": {"A", "B"}}
        ties.order = {"A": 0, "B": 1, "C": 2}
        pairs = [["A", "B"], ["A", "C"], ["A", "B", "C"]]
        self.assertEqual(list(ties.clusters("A")), [["A", "B"], *pairs])
        self.assertEqual(list(ties.clusters("A")), pairs)
        ties.order = {"A": 2, "B": 1, "C": 0}
        self.assertEqual(list(ties.clusters("A")), [["A", "C"], ["A", "B"], ["A", "C", "B"]])

    def test_all_that_read_alike_are_one_cluster(self) -> None:
        ties = ties_of(*(wire(name, (7, 5)) for name in "ABCD"))
        first = next(ties.clusters("B"))
        self.assertEqual(first, ["B", "A", "C", "D"])

    def test_many_that_read_alike(self) -> None:
        # With five others, all together, five pairs and ten of three. With six, all together.
        for count, lists in ((5, 1 + 5 + 10), (6, 1)):
            ties = ties_of(*(wire(f"N{at}", (7, 5)) for at in range(count + 1)))
            self.assertEqual(len(list(ties.clusters("N0"))), lists, count)

    def attempts(self, ties: Ties, cluster: list[str], is_done: bool) -> list[str]:
        """Returns the nets that are tried for a cluster, each with two open pins at most."""
        with mock.patch.object(ties, "attempt", return_value=is_done) as attempt:
            ties.attempt_cluster(cluster)
        self.assertEqual({call[0][1] for call in attempt.call_args_list}, {2})
        return [" ".join(call[0][0]) for call in attempt.call_args_list]

    def test_a_cluster_with_others(self) -> None:
        ties = ties_of(*(wire(name, (7, got)) for name, got in zip("ABCDE", (5, 5, 0, 7, 2))))
        ties.silent = {"A": {*"ZYXWV"}, "B": {*"YXWZ"}}
        first = ["A B", "A B W", "A B X", "A B Y"]
        self.assertEqual(self.attempts(ties, ["A", "B"], True), first)
        self.assertEqual(self.attempts(ties, ["A", "B"], False), [*first, "A B C", "A B D"])
        self.assertEqual(self.attempts(ties, ["A"], False), ["A"])
        ties.is_few = False
        self.assertEqual(self.attempts(ties, ["A", "B"], False), first)

    def test_a_constant_net_of_the_cluster(self) -> None:
        ties = ties_of(wire("A", (7, 0)), wire("B", (7, 0)))
        self.assertEqual(self.attempts(ties, ["A", "B"], False), ["A B"])

    def test_few_nets(self) -> None:
        # Up to twelve nets, every two are tried, and open pins beside a short.
        for count in (12, 13):
            ties = ties_of(*(wire(f"N{at}", (7, at % 2 * 5)) for at in range(count)))
            ties.alike = {name: set() for name in ties.alike}
            pairs = 66 if count == 12 else 0
            with mock.patch.object(ties, "may_predict", return_value=True) as may:
                with mock.patch.object(ties.search, "swapped", return_value=None) as swapped:
                    with mock.patch.object(ties.search, "tie", return_value=None) as tie:
                        self.assertEqual(ties.all(), [])
                        ties.attempt(["N0", "N1", "N2"], 2)
            self.assertEqual((may.call_count, swapped.call_count), (pairs, pairs))
            opens = 2 if count == 12 else 0
            self.assertEqual({call[0][1] for call in tie.call_args_list}, {opens})
            self.assertEqual(tie.call_count, pairs + 1)

    def test_a_pair_that_no_short_predicts(self) -> None:
        ties = ties_of(wire("A", (7, 5)), wire("B", (7, 2)))
        with mock.patch.object(ties, "may_predict", return_value=False):
            with mock.patch.object(ties.search, "swapped", return_value=component("A B", 1)):
                with mock.patch.object(ties.search, "tie") as tie:
                    self.assertEqual(ties.all(), [component("A B", 1)])
        tie.assert_not_called()

    def test_nets_are_tried_once_and_in_order(self) -> None:
        ties = ties_of(wire("B", (7, 5)), wire("A", (7, 2)))
        with mock.patch.object(ties.search, "tie", return_value=component("A B", 1)) as tie:
            self.assertTrue(ties.attempt(["A", "B"], 1))
            self.assertTrue(ties.attempt(["B", "A"], 2))
        tie.assert_called_once_with(["B", "A"], 1)

    def test_what_a_short_predicts(self) -> None:
        # A reads what a short with B gives, in which A wins or a 1 wins. C reads what none gives.
        a, b, c = (wire(name, (7, got)) for name, got in (("A", 7), ("B", 3), ("C", 3)))
        a.sources.append(Source("A.1", 7, 5))
        b.sources.append(Source("B.1", 7, 2))
        c.sources.append(Source("C.1", 7, 4))
        ties = ties_of(a, b, c)
        self.assertTrue(ties.may_predict(a, b))
        self.assertTrue(ties.may_predict(b, a))
        self.assertFalse(ties.may_predict(b, c))


class Depth(unittest.TestCase):
    """How many faults are tried together, and which come first."""

    def test_single(self) -> None:
        search = Search(Rows(read_files(), 3))
        one = wire("A", (7, 5))
        stuck = [(Fault("stuck", ("A",), 0),), (Fault("stuck", ("A",), 1),)]
        pulls: list[tuple[Optional[int], list[tuple[Fault, ...]]]] = [
            (None, []),
            (1, [(Fault("pull", ("A",), 0),)]),
        ]
        for pull, more in pulls:
            one.net.pull = pull
            with mock.patch.object(search, "all_open", return_value=None):
                with mock.patch.object(search, "smallest", return_value=None) as smallest:
                    self.assertIsNone(search.single(one))
            smallest.assert_called_once_with(["A"], [(), *stuck, *more], 3)

    def test_tie(self) -> None:
        search = Search(Rows(read_files(), 3))
        with mock.patch.object(search, "smallest", return_value=None) as smallest:
            search.tie(["A", "B", "C"], 2)
        names = [
            ("A", "B", "C"),
            ("A", "B", "C"),
            ("A", "B", "C"),
            ("B", "A", "C"),
            ("C", "A", "B"),
        ]
        kinds = ("and", "or", "dom", "dom", "dom")
        bases = [(Fault(kind, mine),) for kind, mine in zip(kinds, names)]
        smallest.assert_called_once_with(["A", "B", "C"], bases, 3)

    def test_no_more_faults_than_are_asked_for(self) -> None:
        bed = Bed()
        rows = rows_of(bed.board, [(bed.test, bed.rows("open:U1.1:0 open:U3.1:1 open:U4.1:1"))])
        search = Search(rows)
        self.assertIsNone(search.smallest(["D0"], [()], 2))
        found = search.smallest(["D0"], [()], 3)
        assert found
        self.assertEqual({len(choice) for choice in found.choices}, {3})
        self.assertEqual(found.count, 3)

    def test_every_wrong_pin_is_open(self) -> None:
        bed = Bed()
        rows = rows_of(bed.board, [(bed.test, bed.rows("open:U1.1:0 open:U3.1:1 open:U4.1:1"))])
        found = Search(rows).all_open(rows.wires["D0"])
        assert found
        lines = [[fault.line() for fault in choice] for choice in found.choices]
        self.assertEqual(lines, [["open U1.1 0", "open U3.1 1", "open U4.1 1"]])
        self.assertEqual((found.count, found.nets), (3, ("D0",)))
        rows = rows_of(bed.board, [(bed.test, bed.rows("swap:U1.1:U1.2"))])
        self.assertIsNone(Search(rows).all_open(rows.wires["D0"]))

    def test_pins_to_exchange(self) -> None:
        bed = Bed()
        rows = rows_of(bed.board, [(bed.test, bed.rows("swap:U1.1:U1.2"))])
        found = Search(rows).swapped(rows.wires["D0"], rows.wires["D1"])
        assert found
        self.assertEqual(found, component("D0 D1", 1))
        self.assertEqual(found.choices, ((Fault("swap", ("U1.1", "U1.2")),),))
        self.assertIsNone(Search(rows).swapped(rows.wires["D0"], rows.wires["D2"]))


if __name__ == "__main__":
    unittest.main()
