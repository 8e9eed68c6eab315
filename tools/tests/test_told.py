"""What is told of many faults, nets and pins: what is cut off where, and what comes first."""

from __future__ import annotations

import io
import itertools
import random
import re
import unittest
from types import SimpleNamespace
from unittest import mock

from tests.support import EXAMPLES, Bed, read_files

from btest_tools import btest, closeups, neighbors
from btest_tools.asking import Masked
from btest_tools.board import Board
from btest_tools.closeups import Marked
from btest_tools.explaining.candidates import Component
from btest_tools.explaining.faults import Choice, Fault, fault_of
from btest_tools.explaining.nearness import Nearness
from btest_tools.explaining.placed import (
    Placed,
    measures,
    neighbor_lines,
    opens_of,
    pairs_of,
    shorts_of,
)
from btest_tools.explaining.prices import Reading
from btest_tools.explaining.rows import Rows
from btest_tools.explaining.sets import Explained, Explainer, Explanation
from btest_tools.explaining.words import Teller, at_parts, left, where
from btest_tools.failing import Bench
from btest_tools.files import BadInput, Text
from btest_tools.logs import Failing, failing
from btest_tools.neighbors import Neighborhood
from btest_tools.netlists.layout import read_places
from btest_tools.pages.board import cover_of
from btest_tools.pages.pieces import SHOWN
from btest_tools.places import TOP, Place, Places


def choice_of(*lines: str) -> Choice:
    """Returns a choice of faults. A line `swap A B` is one of exchanged pins."""
    return tuple(
        Fault("swap", tuple(line.split()[1:])) if line.startswith("swap") else fault_of(line)
        for line in lines
    )


def explanation(*choices: Choice) -> Explanation:
    """Returns a set of one component for each choice."""
    board = read_files()
    parts = tuple(
        Component(tuple(choice[0].nets(board)), len(choice), (choice,)) for choice in choices
    )
    return Explanation(parts, [Reading(choices, 10, len(choices))])


def explained_by(*sets: Explanation) -> Explained:
    """Returns the ranks of these sets, one for each."""
    return Explained(Rows(read_files(), 0), [], [[one] for one in sets])


class Words(unittest.TestCase):
    """The words for sets of faults."""

    def setUp(self) -> None:
        self.board = read_files()
        self.teller = Teller(self.board, Nearness(self.board))

    def test_rows_of_pins(self) -> None:
        pins = [f"open U1.{at} 0" for at in range(1, 9)]
        for count, shown in ((6, "1, 2, 3, 4, 5, 6"), (7, "1, 2, 3, 4, 5, 6 and 1 more")):
            step = self.teller.next_step(explanation(choice_of(*pins[:count])))
            self.assertEqual(step, f"look at the pins {shown} of U1")
        one = explanation(*(choice_of(pin) for pin in pins[:2]), choice_of("stuck A1 0"))
        lines = list(self.teller.causes(one, one.readings[0]))
        self.assertEqual(lines[0], "U1, 2 open pins: U1.1 0 (D0), U1.2 0 (D1)")
        self.assertEqual(lines[1:], ["A1: stuck A1 0"])

    def test_four_steps(self) -> None:
        stuck = [choice_of(f"stuck {name} 0") for name in ("D0", "D1", "D2", "D3", "A1")]
        step = self.teller.next_step(explanation(*stuck))
        pins = (("D0", "U1.1"), ("D1", "U1.2"), ("D2", "U1.3"), ("D3", "U1.4"))
        said = [f"measure {name}, as at {pin}, against the supplies" for name, pin in pins]
        self.assertEqual(step, "; ".join(said))

    def test_four_open_pins(self) -> None:
        choices = tuple((fault_of(f"open U{at}.1 0"),) for at in (1, 3, 4, 2, 5))
        for count, more in ((4, ""), (5, " and 1 more")):
            one = Component(("D0",), 1, choices[:count])
            step = self.teller.step(one, choices[0])
            self.assertEqual(step, f"look at U1.1, U3.1, U4.1, U2.1{more}")

    def test_steps_of_a_short(self) -> None:
        near, far = "U1.1 (D0) and U1.2 (D1)", "U1.2 (D1) and U1.5 (A1)"
        for lines, step in (
            (("short AND D0 D1",), f"measure between {near}"),
            (("short OR D0 D1 A1",), f"measure between {near}, {far}"),
            (
                ("short DOM D0 D1", "open U3.1 0", "open U4.2 1"),
                f"measure between {near}, then look at U3.1, U4.2",
            ),
        ):
            choice = choice_of(*lines)
            one = Component(tuple(choice[0].names), len(choice), (choice,))
            self.assertEqual(self.teller.step(one, choice), step)

    def test_four_pairs_to_measure_between(self) -> None:
        names = ["D0", "D1", "D2", "D3", "A1", "CS"]
        for count, more in ((5, ""), (6, " and 1 more")):
            told = self.teller.probes(names[:count])
            self.assertEqual(told.count(" and U"), 4)
            self.assertTrue(told.endswith(f"U1.4 (D3) and U1.5 (A1){more}"), told)

    def test_pins_at_one_part(self) -> None:
        self.assertEqual(self.teller.first_pins("D0", "A1"), ("U1.1", "U1.5"))
        self.assertEqual(self.teller.first_pins("MODE", "IRQ"), ("U3.8", "U3.7"))
        self.assertEqual(self.teller.first_pins("CLK", "LAMP"), ("Y1.3", "U2.7"))

    def test_choices(self) -> None:
        choices = tuple((fault_of(f"open U1.{at} 0"),) for at in range(1, 6))
        for count, more in ((4, ""), (5, " or 1 more")):
            one = Component(("D0",), 1, choices[:count])
            told = " or ".join(f"open U1.{at} 0" for at in range(1, 5))
            self.assertEqual(self.teller.component(one, choices[0]), f"D0: {told}{more}")

    def test_lines(self) -> None:
        stuck = choice_of("stuck D0 0")
        for count, last in ((16, "D0: stuck D0 0"), (17, "and 1 more")):
            one = explanation(*[stuck] * count)
            lines = self.teller.lines(one, one.readings[0])
            self.assertEqual((len(lines), lines[-1]), (min(count, 17), last))

    def test_equal_sets(self) -> None:
        stuck, other = choice_of("stuck D0 0"), choice_of("open U1.1 0")
        first = explanation(stuck)
        first.readings.append(Reading((other,), 10, 1))
        explained = explained_by(first, explanation(other))
        explained.ranks[0] += [explanation(stuck)] * 5
        one, two = self.teller.ranks(explained)
        self.assertEqual((one.number, two.number), (1, 2))
        self.assertEqual(one.equals, [["D0: open U1.1 0 or stuck D0 0"], *[["D0: stuck D0 0"]] * 5])
        self.assertEqual((one.next, two.next), ("measure D0, as at U1.1, against the supplies", ""))
        explained.ranks[0].append(explanation(stuck))
        self.assertEqual(next(self.teller.ranks(explained)).equals[6:], [["1 more sets"]])
        # Other sets of as many causes as four are told, of five not.
        for causes, told in ((4, 1), (5, 0)):
            many = explanation(stuck)
            many.readings = [Reading((stuck,), 10, causes), Reading((other,), 10, causes)]
            (rank,) = self.teller.ranks(explained_by(many))
            self.assertEqual(len(rank.equals), told)

    def test_where(self) -> None:
        bed = Bed()
        found = Explainer(bed.board, [(bed.test, bed.rows("stuck:D0:0 open:U3.5:1"))]).explain()
        self.assertEqual(list(where(found)), [])
        found.differing.append("D1")
        self.assertEqual(list(where(found)), [at_parts(found)])
        self.assertEqual(list(left(found)), [])


class ByPlaces(unittest.TestCase):
    """What is measured and where, by the places of pins."""

    def setUp(self) -> None:
        self.board: Board = read_files()
        self.placed = Placed(self.board, read_places(str(EXAMPLES / "controller.ipc")))

    def pairs(self, line: str) -> list[tuple[str, str]]:
        """Returns the pins to measure between by a fault."""
        (fault,) = choice_of(line)
        return list(pairs_of(self.board, fault, self.placed))

    def test_pairs(self) -> None:
        self.assertEqual(self.pairs("short AND D0 D1 D2"), [("U1.1", "U1.2"), ("U1.2", "U1.3")])
        self.assertEqual(self.pairs("short AND D0 A1"), [("U1.1", "U1.5")])
        # An open pin is measured against the first driver of its net, or against another pin.
        self.assertEqual(self.pairs("open U3.5 1"), [("U3.5", "U1.5")])
        self.assertEqual(self.pairs("open U1.5 1"), [("U1.5", "R1.1")])
        self.assertEqual(self.pairs("open U1.1 1"), [("U1.1", "U3.1")])
        for line in ("stuck D0 0", "pull IRQ 0", "swap U1.1 U1.2"):
            self.assertEqual(self.pairs(line), [], line)

    def test_measures(self) -> None:
        sets = explanation(
            choice_of("short AND D0 D1"),
            choice_of("open U3.5 1"),
            choice_of("open U4.3 1"),
            choice_of("open U4.4 1"),
            choice_of("short OR D0 D1"),
        )
        explained = explained_by(sets, explanation(choice_of("short AND D2 D3")))
        pairs = [("U1.1", "U1.2"), ("U3.5", "U1.5")]  # U4 has two open pins: look at the part
        self.assertEqual(measures(self.board, explained, self.placed), pairs)
        self.assertEqual(opens_of(explained), ["U3.5", "U4.3", "U4.4"])
        self.assertEqual(shorts_of(explained), [("D0", "D1"), ("D2", "D3")])
        self.assertEqual(measures(self.board, explained_by(), self.placed), [])

    def test_only_the_first_set_of_a_rank_is_measured(self) -> None:
        explained = explained_by(explanation(choice_of("short AND D0 D1")))
        explained.ranks[0].append(explanation(choice_of("open U3.5 1")))
        self.assertEqual(opens_of(explained), [])
        self.assertEqual(measures(self.board, explained, self.placed), [("U1.1", "U1.2")])
        self.assertEqual(shorts_of(explained), [("D0", "D1")])

    def test_twenty_pairs(self) -> None:
        explained = explained_by(explanation(choice_of("short AND D0 D1")))
        names = (
            "btest_tools.explaining.placed.shorts_of",
            "btest_tools.explaining.placed.pairs_of",
        )
        for count in (20, 21):
            with mock.patch(names[0], return_value=[("D0", "D1")] * count):
                lines = list(neighbor_lines(explained, self.placed))
            self.assertEqual(lines[:20], ["U1.1 and U1.2 are neighbors (D0 and D1)"] * 20)
            self.assertEqual(lines[20:], ["and 1 more"] * (count - 20))
            pairs = [("A.1", f"B.{at}") for at in range(count)]
            with mock.patch(names[1], return_value=pairs):
                self.assertEqual(measures(self.board, explained, self.placed), pairs[:20])

    def test_pins_without_places(self) -> None:
        # By its number a pin is beside another, unless the places of both are known.
        places = Places()
        places.add("U1", "1", Place(0, 0, TOP))
        places.add("U1", "2", Place(5, 0, TOP))
        places.add("U1", "4", Place(5.4, 0, TOP))
        placed = Placed(self.board, places)
        self.assertEqual(list(placed.beside("U1.1")), [])
        self.assertEqual(list(placed.beside("U1.2")), ["U1.4", "U1.3"])
        self.assertEqual(list(placed.beside("U1.3")), ["U1.2", "U1.4"])


class Near(unittest.TestCase):
    """Neighbors by their places, against every pair of pins."""

    def test_every_pair(self) -> None:
        source = random.Random(7)
        for near in (0.5, 1.0, 2.0):
            places = Places()
            for at in range(120):
                places.add(f"U{at}", "1", Place(source.uniform(-6, 6), source.uniform(-6, 6), TOP))
            pins = list(places.pins)
            wanted: dict[str, list[str]] = {pin: [] for pin in pins}
            for one, other in itertools.permutations(pins, 2):
                if places.of(one)[0].distance(places.of(other)[0]) < near:
                    wanted[one].append(other)
            with mock.patch.object(neighbors, "NEAR", near):
                hood = Neighborhood(places)
                found = {pin: list(hood.beside(pin)) for pin in pins}
            self.assertEqual(found, {pin: sorted(others) for pin, others in wanted.items()})

    def test_order(self) -> None:
        # The nearest come first, then the order of the names, then those without places.
        places = Places()
        for name, x in (("A", 0.0), ("B", 0.5), ("C", 0.3), ("D", -0.3)):
            places.add(name, "1", Place(x, 0, TOP))
        hood = Neighborhood(places)
        found = hood.between(["X.1", "A.1"], ["B.1", "C.1", "D.1", "X.2"])
        self.assertEqual([pair.other for pair in found], ["C.1", "D.1", "B.1", "X.2"])
        self.assertEqual([pair.distance for pair in found], [0.3, 0.3, 0.5, None])


class CloseUps(unittest.TestCase):
    """Which parts have a close-up, and in which order."""

    def titles(self, *pins: str) -> list[str]:
        """Returns the parts that are shown. `U1.1!` fails, `U1.1?` may be open."""
        places = Places()
        marks = []
        for at, pin in enumerate(pins):
            word = pin.rstrip("!?")
            part, _, number = word.partition(".")
            places.add(part, number, Place(at, at % 2, TOP, 0.5, 0.5))
            marks.append(Marked(word, "A", "#000", 1, "!" in pin, "?" in pin))
        with mock.patch.object(closeups, "CloseUp") as picture:
            picture.return_value.letter = 40
            list(closeups.closeups(places, marks))
        return [call[0][1] for call in picture.call_args_list]

    def test_order(self) -> None:
        # A pin that may be open counts as four that fail.
        self.assertEqual(self.titles("R1.1!", "U1.1!", "U1.2!"), ["U1", "R1"])
        self.assertEqual(self.titles("U1.1!", "U1.2!", "U1.3!", "R1.1?"), ["R1", "U1"])
        four = ["U1.1!", "U1.2!", "U1.3!", "U1.4!"]
        self.assertEqual(self.titles(*four, "R1.1?"), ["U1", "R1"])
        self.assertEqual(self.titles("R1.1?", *four, "U1.5!"), ["U1", "R1"])
        self.assertEqual(self.titles("R1.1", "U1.1!"), ["U1"])
        five = [f"{part}.1!" for part in "EDCBA"]
        self.assertEqual(self.titles(*five), ["E", "D", "C", "B"])

    def test_where_a_name_is(self) -> None:
        # U1.1 is at the left edge of its part. Its name is left of it if nothing is there, else on
        # the right, rather on a pin without a mark than not at all, and never on one with a mark.
        for plain, shown, side in (
            ("", "", "left"),
            ("left", "", "right"),
            ("right", "", "left"),
            ("left right", "", "left"),
            ("", "left", "right"),
            ("right", "left", "right"),
            ("", "left right", ""),
        ):
            places = Places()
            places.add("U1", "1", Place(0, 0, TOP, 0.5, 0.5))
            places.add("U1", "2", Place(3, 0, TOP, 0.5, 0.5))
            marks = [Marked("U1.1", "A", "#000", 1, True, False)]
            for name, x in (("left", -0.7), ("right", 0.7)):
                if name in f"{plain} {shown}":
                    places.add(name, "1", Place(x, 0, TOP, 0.2, 0.2))
                if name in shown:
                    marks.append(Marked(f"{name}.1", "A", "#000", 1, True, False))
            text = closeups.CloseUp(places, "U1", TOP, marks).svg()
            pin = re.search(r'<path d="M(\d+) \d+L(\d+) [^"]*" fill="#000"', text)
            assert pin
            found = re.findall(r'<text x="(\d+)"', text)
            sides = ["left" if int(x) < int(pin[1]) else "right" for x in found]
            self.assertEqual(sides, [side] * bool(side), (plain, shown))

    def test_room_for_names(self) -> None:
        # The longest name has room and one letter more, but 21 letters at most, on each side of a
        # part of 9.5 mm. Letters are as high as 1.6 mm of the board, within 24 and 48 units, and
        # 0.64 of that wide.
        for names, letters in (
            (("1", "2"), 6),
            (("1", "1234"), 9),
            (("1234", "2"), 9),
            (("1234567", "2"), 12),
            (("1" * 16, "2"), 21),
            (("1" * 40, "2"), 21),
        ):
            places = Places()
            marks = []
            for at, name in enumerate(names):
                places.add("U1", name, Place(at * 9, 0, TOP, 0.5, 0.5))
                marks.append(Marked(f"U1.{name}", "A", "#000", 1, True, False))
            text = closeups.CloseUp(places, "U1", TOP, marks).svg()
            box = re.search(r'<rect x="(\d+)" y="\d+" width="(\d+)"', text)
            assert box
            letter = max(24.0, min(48.0, 1.6 * int(box[2]) / 9.5))
            self.assertAlmostEqual(int(box[1]), letters * 0.64 * letter, delta=2)

    def test_dense_letters(self) -> None:
        places = Places()
        places.add("U1", "1", Place(0, 0, TOP, 0.5, 0.5))
        for letter, kind in ((36.0, " class=dense"), (36.1, "")):
            with mock.patch.object(closeups, "CloseUp") as picture:
                picture.return_value.letter = letter
                (text,) = closeups.closeups(places, [Marked("U1.1", "A", "#000", 1, True, False)])
            self.assertTrue(text.startswith(f"<figure{kind}><figcaption>U1, from the top<"), text)


class Asked(unittest.TestCase):
    """What is asked of btest, and which btest it is."""

    def test_nets_with_many_receivers(self) -> None:
        # Four nets have twelve receivers. Then rows are printed and not changed digit by digit.
        bed = Bed()
        names = ("D0", "D1", "D2", "D3", "IRQ")
        rows = bed.rows(" ".join(f"stuck:{name}:0" for name in names))
        found: list[Failing] = failing(bed.board, bed.test, rows)
        self.assertEqual([one.name for one in found], list(names))
        for count in (1, 2, 3, 4):
            file = io.BytesIO()
            Masked(bed.test, rows).write(file, tuple(found[:count]))
            alone = bed.rows(" ".join(f"stuck:{name}:0" for name in names[:count]))
            self.assertEqual(bed.test.compare(file.getvalue().splitlines()), alone)

    def test_which_program(self) -> None:
        there, missing = EXAMPLES / "good.log", EXAMPLES / "nothing"
        for which, places, name in (
            ("/bin/btest", (there,), "/bin/btest"),
            (None, (missing, there), str(there)),
            (None, (EXAMPLES, missing), "btest"),
        ):
            with mock.patch("btest_tools.btest.shutil.which", return_value=which):
                with mock.patch.object(btest, "PLACES", places):
                    with mock.patch("btest_tools.btest.os.access", lambda name, _: name.exists()):
                        self.assertEqual(btest.default_program(), name)

    def test_refusals_name_the_log(self) -> None:
        # The name of the log is in place of the word for it, if that was among the words.
        program = btest.Btest("/bin/btest")
        log = Text("board.log", "00\n")
        said = b"first\n/dev/stdin line 1: so\n"
        for words, wanted in (
            (("4", btest.LOG), "board.log line 1: so"),
            (("4",), "/dev/stdin line 1: so"),
        ):
            done = mock.Mock(returncode=1, stdout=b"", stderr=said)
            with mock.patch("btest_tools.btest.subprocess.run", return_value=done) as run:
                with self.assertRaisesRegex(BadInput, f"^{wanted}$"):
                    program.run("diagnose", *words, log=log)
            self.assertEqual(run.call_args[0][0], ["/bin/btest", "diagnose", *words])
            self.assertEqual(run.call_args[1]["input"], b"00\n")

    def test_coverage_lists(self) -> None:
        long = "N" * 255
        pairs = [f"PAIR {long}{at} {long}\n" for at in range(SHOWN + 5)]
        head = "NETS 3\nNET A DARK\nDRIVER U1.1\nRECEIVER U2.1\nDRIVER U1.2\nNET B SUPPLY\n"
        for count in (0, 1, SHOWN, SHOWN + 5):
            text = head + "".join(pairs[:count])
            answer = SimpleNamespace(run=lambda *_, text=text, **__: text)
            cover = cover_of(Bench(answer, [], read_files(), None))  # type: ignore[arg-type]
            self.assertEqual(cover.reasons, {"A": "DARK", "B": "SUPPLY"})
            self.assertEqual((cover.drivers, cover.receivers), (["U1.1", "U1.2"], ["U2.1"]))
            self.assertEqual(cover.pair_count, count)
            shown = [[f"{long}{at}", long] for at in range(min(count, SHOWN))]
            self.assertEqual(cover.pairs, shown)


class ManyTies(unittest.TestCase):
    """A set of many ties, in which a net is taken by the smallest tie that fits."""

    def chosen(self, wanted: str, singles: str, *ties: tuple[str, int]) -> list[str]:
        """Returns the nets of the components of a set. A tie has its nets and its faults."""
        bed = Bed()
        made = Explainer(bed.board, [(bed.test, bed.rows("good"))])
        made.singles = {name: Component((name,), 1, ()) for name in singles.split()}
        made.ties = [Component(tuple(names.split("+")), count, ()) for names, count in ties]
        return ["+".join(one.nets) for one in made.many_ties(wanted.split())]

    def test_order(self) -> None:
        # A tie of fewer faults comes first, then one without other nets, then one of fewer nets.
        self.assertEqual(self.chosen("A B", "", ("A+B+X", 1), ("A+B", 2)), ["A+B+X"])
        self.assertEqual(self.chosen("A B C", "C", ("A+B+X", 1), ("A+B+C", 1)), ["A+B+C"])
        self.assertEqual(self.chosen("A B C", "C", ("A+B+C", 1), ("A+B", 1)), ["A+B", "C"])
        # C is in one tie alone, and is taken before A, which then has to be with B.
        ties = ("A+C", 1), ("A+B", 1), ("B+D", 1)
        self.assertEqual(self.chosen("A B C D", "", *ties), ["A+C", "B+D"])
        self.assertEqual(self.chosen("B A C D", "", *ties), ["A+C", "B+D"])
        self.assertEqual(self.chosen("A B C", "", *ties[:2]), [])


if __name__ == "__main__":
    unittest.main()
