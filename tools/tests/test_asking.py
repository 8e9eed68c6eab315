"""What is asked of btest about a board that failed, with a program in its place, and what a walking
test says. The logs and what comes of them were worked out by hand."""

from __future__ import annotations

import contextlib
import io
import pathlib
import unittest
from types import SimpleNamespace
from typing import Optional, Union, cast
from unittest import mock

from tests.support import DEMO, ROOT, Bed, guide_svf, read_files

from btest_tools import asking, btest, failing, walks
from btest_tools.asking import Masked, ask, ask_batch, lines_of
from btest_tools.btest import Btest
from btest_tools.explaining.nearness import Nearness
from btest_tools.failing import Bench, Look, look, show
from btest_tools.files import BadInput, Text
from btest_tools.logs import Failing
from btest_tools.logs import failing as nets_of
from btest_tools.scans import LogRow, Test
from btest_tools.walks import Ones, Walkers, conclusions, look_at_walk, misfits, walker_lines


class Fake:
    """A program that keeps what it is asked and gives one answer for each log of a text."""

    def __init__(self, answer: str = "FAIL 0\n") -> None:
        self.answer = answer
        self.asked: list[tuple[str, ...]] = []
        self.texts: list[bytes] = []

    def run(self, command: str, *words: str, **_: object) -> str:
        """Returns the answers to a text of logs."""
        self.asked.append((command, *words))
        path = pathlib.Path(words[1])
        self.texts.append(path.read_bytes() if path.is_file() else b"")
        count = self.texts[-1].count(b"BOARD ")
        return f"BOARD 0\n{self.answer}" * count or self.answer


def asked_of(fault: str, limit: int, most: int = 100, err: Optional[io.StringIO] = None) -> Fake:
    """Asks about the demo board with a fault, if a text of logs has some bytes at most."""
    bed, fake = Bed(), Fake()
    rows = bed.rows(fault)
    with mock.patch.object(asking, "LIMIT", limit), mock.patch.object(asking, "MOST", most):
        found = nets_of(bed.board, bed.test, rows)
        with contextlib.redirect_stderr(err or io.StringIO()):
            ask(cast(Btest, fake), ["c", "n"], bed.test, rows, found)
    return fake


class Asked(unittest.TestCase):
    """The texts of logs. A log of the demo board has twelve rows of twelve digits: 156 bytes."""

    three = "stuck:D0:0 stuck:D1:0 stuck:D3:0"  # any two of them may be one short

    def test_one_text(self) -> None:
        fake = asked_of(self.three, 64 << 20)
        self.assertEqual([one[:2] for one in fake.asked], [("batch", "2")])
        self.assertEqual([one[3:] for one in fake.asked], [("c", "n")])
        self.assertEqual(fake.texts[0].count(b"BOARD 0\n"), 6)
        self.assertEqual(len(fake.texts[0]), 6 * (156 + 8) - 1)  # the last line has no end

    def test_as_many_logs_as_have_room(self) -> None:
        for limit, counts in ((328, [2, 2, 2]), (327, [0] * 6), (656, [4, 2]), (1, [0] * 6)):
            fake = asked_of(self.three, limit)
            self.assertEqual(
                sorted((one.count(b"BOARD") for one in fake.texts), reverse=True), counts
            )
            command = "batch" if counts[0] else "diagnose"
            self.assertEqual({one[0] for one in fake.asked}, {command})
            if not counts[0]:
                self.assertEqual({len(text) for text in fake.texts}, {155})

    def test_the_number_of_pairs_has_a_bound(self) -> None:
        # 16 times the limit, in logs of 156 bytes, but never less than the nets that are asked.
        for limit, most, pairs in ((19, 1, 1), (20, 1, 2), (30, 1, 3), (1, 2, 2), (1, 0, 0)):
            fake = asked_of(self.three, limit, most)
            self.assertEqual(len(fake.texts), 3 + pairs, (limit, most))

    def test_progress(self) -> None:
        told = "explained: {} of 6 nets and pairs of nets\n".format
        for limit, said in ((64 << 20, ""), (656, told(4) + told(6))):
            err = io.StringIO()
            asked_of(self.three, limit, 100, err)
            self.assertEqual(err.getvalue(), said)

    def test_answers_go_to_their_nets(self) -> None:
        bed, fake = Bed(), mock.Mock()
        rows = bed.rows(self.three)
        found = nets_of(bed.board, bed.test, rows)
        fake.run.return_value = "".join(
            f"BOARD 0\nFAIL 1\nstuck {name} 0\n" for name in ("A", "B", "C", "AB", "AC", "BC")
        )
        ask(fake, [], bed.test, rows, found)
        self.assertEqual([one.alone for one in found], [[f"stuck {at} 0"] for at in "ABC"])
        pairs = [["AB", "AC"], ["AB", "BC"], ["AC", "BC"]]
        wanted = [[f"stuck {name} 0" for name in names] for names in pairs]
        self.assertEqual([one.pairs for one in found], wanted)
        names = ["A", "AB", "AC", "B", "BC", "C"]
        self.assertEqual(list(lines_of(found)), [f"stuck {name} 0" for name in names])

    def test_answers_without_a_fault(self) -> None:
        fake = mock.Mock()
        fake.run.return_value = "BOARD 0\nFAIL 0\nBOARD 0\nFAIL 10\nx\ny\nBOARD 0\nPASS\n"
        masked = cast(Masked, SimpleNamespace(write=lambda file, group: file.write(b"0\n")))
        self.assertEqual(ask_batch(fake, [], masked, [(), (), ()], 9), ["", "x\ny\n", ""])

    def test_sizes_of_logs(self) -> None:
        bed = Bed()
        for size, digits in ((8, 2), (9, 3), (12, 3)):
            masked = Masked(cast(Test, SimpleNamespace(size=size)), [LogRow(5, 1), LogRow(6, 0)])
            self.assertEqual((masked.width, masked.size), (digits, 2 * (digits + 1)))
            self.assertEqual(masked.line(0x1A), f"{0x1A:0{digits}X}\n".encode("ascii"))
        self.assertEqual(asking.LIMIT, 67_108_864)  # which btest reads at most
        self.assertEqual(Masked(bed.test, bed.rows("good")).size, 156)


class Program(unittest.TestCase):
    """Which program is called."""

    def test_where_it_is(self) -> None:
        self.assertEqual(btest.SHARE, ROOT)
        made = ROOT / "crates/btest/out/btest"
        self.assertEqual(btest.PLACES, (ROOT.parent.parent / "bin/btest", made))

    def test_what_is_missing(self) -> None:
        missing = FileNotFoundError(2, "No such file")
        for name, error, line in (
            ("btest", missing, "btest is not on the PATH; --btest PROGRAM names one"),
            ("./b", missing, "cannot run ./b as btest, --btest names another: No such file"),
            (
                "btest",
                PermissionError(13, "no"),
                "cannot run btest as btest, --btest names another: no",
            ),
            ("b\0", ValueError("a zero"), "cannot run b\0 as btest, --btest names another: a zero"),
        ):
            self.assertEqual(Btest(name).missing(error), line)
            with mock.patch("btest_tools.btest.subprocess.run", side_effect=error):
                with self.assertRaises(BadInput) as why:
                    Btest(name).run("svf")
            self.assertEqual(str(why.exception), line)

    def test_answers(self) -> None:
        cases: list[tuple[int, bytes, bytes, Union[str, tuple[str, ...]], str]] = [
            (0, b"PASS\n", b"", "PASS", "PASS\n"),
            (0, b"PASS\n", b"said", "", "PASS\n"),
            (0, b"", b"", "", ""),
            (0, b"else", b"", "PASS", "b is not btest, by what it answers to svf"),
            (1, b"PASS\n", b"", "PASS", "b is not btest, by what it answers to svf"),
            (1, b"", b"one\ntwo\n", "", "two"),
            (0, b"else", b"one\ntwo", ("A", "B"), "two"),
        ]
        for code, out, err, begin, wanted in cases:
            done = mock.Mock(returncode=code, stdout=out, stderr=err)
            with mock.patch("btest_tools.btest.subprocess.run", return_value=done) as run:
                try:
                    answer = Btest("b").run("svf", "c", begin=begin)
                except BadInput as wrong:
                    answer = str(wrong)
            self.assertEqual(answer, wanted)
            self.assertEqual(
                (run.call_args[0][0], run.call_args[1]["input"]), (["b", "svf", "c"], b"")
            )


class Answers:
    """A program that gives an answer for each command."""

    def __init__(self, **answers: str) -> None:
        self.answers, self.asked = answers, []  # type: ignore[var-annotated]

    def run(self, command: str, *_: str, **__: object) -> str:
        """Returns the answer to a command."""
        self.asked.append(command)
        return self.answers[command]


def bench(**answers: str) -> Bench:
    """Returns the demo board, for which a program gives these answers."""
    board = read_files()
    tests = {name: guide_svf(name) for name in ("svf", "walk")}
    program = cast(Btest, Answers(**{**tests, **answers}))
    return Bench(program, DEMO, board, Nearness(board))


def look_at(made: Bench, fault: str, walk: Optional[str] = None) -> Look:
    """Looks at the demo board with a fault."""
    return look(made, Text("log", Bed().log(fault)), Text("walk", walk) if walk else None)


class Looked(unittest.TestCase):
    """What is known of a board that failed."""

    def test_tests_are_made_once(self) -> None:
        made = bench()
        self.assertEqual(made.test().size, Bed().test.size)
        self.assertIs(made.test(), made.test("svf"))
        self.assertEqual(made.test("walk").rows(), 5)
        self.assertEqual(cast(Answers, made.btest).asked, ["svf", "walk"])

    def test_when_btest_is_asked(self) -> None:
        # About up to a number of nets, and about none if none differs.
        for fault, most, is_asked in (
            ("good", 2, False),
            ("stuck:D0:0 stuck:D1:0", 2, True),
            ("stuck:D0:0 stuck:D1:0", 1, False),
        ):
            with mock.patch.object(failing, "MOST", most), mock.patch.object(
                failing, "ask"
            ) as asks:
                seen = look_at(bench(diagnose="FAIL 0\n"), fault)
                self.assertEqual(asks.called, is_asked)
                self.assertEqual(seen.is_asked, is_asked or fault == "good")
        self.assertEqual(asking.MOST, 100)

    def test_what_btest_named(self) -> None:
        one = cast(Failing, SimpleNamespace(name="D0", alone=["stuck D0 0"], pairs=["open U1.1 0"]))
        proved = failing.proved_of([one])
        assert proved
        self.assertEqual([fault.line() for fault in proved["D0"]], ["stuck D0 0", "open U1.1 0"])
        with mock.patch.object(failing, "MOST", 1):
            self.assertIsNotNone(failing.proved_of([one]))
            self.assertIsNone(failing.proved_of([one, one]))

    def test_when_the_walking_test_is_made(self) -> None:
        # A board with more nets than a bound isn't walked, nor one of which a set alone is told.
        for fault, limit, commands in (
            ("or:D1:A1", 14, ["diagnose", "svf", "walk"]),
            ("or:D1:A1", 13, ["diagnose", "svf"]),
            ("stuck:D0:0", 14, ["diagnose", "svf"]),
        ):
            made = bench(diagnose="FAIL 0\n")
            with mock.patch.object(failing, "ask"), mock.patch.object(failing, "WALKING", limit):
                seen = look_at(made, fault)
            self.assertEqual(cast(Answers, made.btest).asked, commands)
            self.assertEqual(seen.walk, failing.WALK if len(commands) == 3 else "")
        self.assertEqual(failing.WALKING, 2000)

    def test_the_log_of_the_walking_test_counts(self) -> None:
        walk = Bed()
        walk.svf = guide_svf("walk")
        walk.test = Test(walk.svf)
        made = bench(diagnose="FAIL 0\n", groups="GROUPS 1\n")
        with mock.patch.object(failing, "ask"):
            seen = look_at(made, "or:D1:A1", walk.log("or:D1:A1"))
        self.assertEqual((seen.explained.count, seen.walk), (1, ""))
        self.assertEqual(cast(Answers, made.btest).asked, ["diagnose", "svf", "groups", "walk"])

    def test_what_is_printed(self) -> None:
        made = bench(diagnose="FAIL 0\n")
        with mock.patch.object(failing, "ask"):
            seen = look_at(made, "stuck:D0:0 open:U3.5:1")
        bits, parts = "\nBits are in the order", "\n2 nets differ."
        for most, head, begins in (
            (2, bits, "\nNET D0"),
            (1, parts, "  U3: 2 pins differ: D0, A1"),
        ):
            with mock.patch.object(failing, "MOST", most):
                lines = list(show(made, seen))
            self.assertEqual(lines[0], "FAIL 0")
            self.assertTrue(lines[1].startswith(head), lines[1])
            self.assertTrue(lines[2].startswith(begins), lines[2])
            self.assertIn("", lines)
            self.assertTrue(lines[-1].startswith("     Next: "), lines[-1])

    def test_a_board_of_which_no_net_differs(self) -> None:
        # Its walking test may differ: then what explains that is told.
        made = bench(diagnose="PASS\n")
        seen = look_at(made, "good")
        self.assertEqual(list(show(made, seen)), ["PASS"])
        seen.explained.differing.append("D0")
        seen.explained.left.append("D0")
        self.assertEqual(len(list(show(made, seen))), 5)

    def test_the_part_with_the_most_pins_comes_first(self) -> None:
        def one(name: str, *wrong: str) -> Failing:
            return cast(Failing, SimpleNamespace(name=name, wrong=list(wrong)))

        found = [one("A", "U1.1", "U2.1"), one("B", "U2.2", "U2.3"), one("C", "U1.2")]
        lines = ["  U2: 3 pins differ: A, B", "  U1: 2 pins differ: A, C"]
        self.assertEqual(list(failing.by_parts(found)), lines)


class Walked(unittest.TestCase):
    """Logs of a walking test, in which D0, D1, D2, D3 and A1 walk in this order."""

    def lines(self, fault: str, most: int = 100) -> list[str]:
        """Returns what is said of the walking test with a fault."""
        walk = Bed()
        walk.svf = guide_svf("walk")
        walk.test = Test(walk.svf)
        log = Text("log", walk.log(fault))
        with mock.patch.object(walks, "MOST", most):
            return list(look_at_walk(bench(groups="GROUPS 0\n"), log))

    def test_nets_that_are_listed(self) -> None:
        # Good nets are listed if few walk, and nets that fail always.
        good = "1     1                     D0"
        self.assertIn(good, self.lines("stuck:D3:0", 5))
        lines = self.lines("stuck:D3:0", 4)
        self.assertNotIn(good, lines)
        self.assertIn("4     none                  D3", lines)
        self.assertIn("4 of 5 nets that walk read 1 in their own row alone.", lines)

    def test_many_nets_differ(self) -> None:
        # D3 and A1 have two receivers each, which are wrong in their own row.
        lines = ["row 4 (D3): 2 bits differ", "row 5 (A1): 2 bits differ"]
        self.assertEqual(self.lines("stuck:D3:0 stuck:A1:0", 1), ["GROUPS 0", *lines])
        self.assertNotIn(lines[0], self.lines("stuck:D3:0 stuck:A1:0", 2))

    def test_pins_that_read_differently(self) -> None:
        lines = self.lines("open:U3.5:1")
        begin = lines.index("5     1-5                   A1 at U3.5")
        self.assertEqual(lines[begin + 1], "5     5                     A1 at U4.5")
        self.assertNotIn("1     1                     D0 at", "\n".join(lines))

    def test_pins_that_are_not_compared(self) -> None:
        reads = [("U1.1", ["01"]), ("U2.1", [None]), ("U3.1", ["01"]), ("U4.1", ["00"])]
        net = cast(Failing, SimpleNamespace(readers=reads))
        walkers = Walkers({1: "A", 2: "B"}, {"B": net}, {})
        lines = list(walker_lines(walkers, 2, "B"))
        wanted = [
            "2     2                     B at U1.1, U3.1",
            "2     none                  B at U4.1",
        ]
        self.assertEqual(lines, wanted)
        self.assertEqual(walkers.ones, {2: None})

    def test_rows_that_fit_no_groups(self) -> None:
        # They are told in their order.
        odd: Ones = {8: {8, 9}, 1: {1, 9}, 9: {9}, 16: {16}}
        self.assertEqual(misfits(odd, []), [1, 8, 9])
        self.assertEqual(misfits({at: {8 - at} for at in range(9)}, []), [0, 1, 2, 3, 5, 6, 7, 8])

    def said(self, ones: Ones) -> str:
        """Returns the conclusions from rows, in which nets are called A, B and so on."""
        names = dict(zip(ones, "ABCDE"))
        return "\n".join(conclusions(Walkers(names, {}, ones)))

    def test_nets_that_read_0(self) -> None:
        short = "a short of them in which a 0 wins fits"
        self.assertIn(
            f"A, B: 0 in every row; {short}, and with it all rows; so",
            self.said({1: set(), 2: set(), 3: {3}}),
        )
        self.assertIn(
            f"A, B: 0 in every row; {short}; so do", self.said({1: set(), 2: set(), 3: {3, 1}})
        )
        one = "A: 0 in every row; a short with a net that does not walk fits"
        self.assertIn(one, self.said({1: set(), 2: {2}}))
        self.assertEqual(self.said({1: {1}, 2: {2}}), "")
        self.assertNotIn("0 in every row", self.said({1: None, 2: {2}}))

    def test_nets_that_read_1(self) -> None:
        self.assertIn("A: 1 in every row, as nets", self.said({1: {1, 2, 3}, 2: {2}, 3: {3}}))
        self.assertEqual(self.said({1: {1, 2, 3}, 2: {1, 2, 3}, 3: {1, 2, 3}}), "")
        self.assertNotIn("1 in every row", self.said({1: {1, 2}, 2: {2}, 3: {3}}))


if __name__ == "__main__":
    unittest.main()
