"""failing-nets.py on the demo board, as docs/GUIDE.md tells of it."""

from __future__ import annotations

import unittest
from unittest import mock

from tests.support import DEMO, EXAMPLES, PROGRAM, Bed, Folder, need, read_files, tool

from btest_tools.asking import MOST
from btest_tools.board import Board
from btest_tools.btest import Btest
from btest_tools.explaining.nearness import Nearness
from btest_tools.explaining.sets import explain
from btest_tools.failing import WALK, Bench, Look, by_parts, look, show
from btest_tools.files import BadInput, Text
from btest_tools.walks import Ones, Walkers, conclusions, look_at_walk, misfits

WALKERS = ("D0", "D1", "D2", "D3", "A1")


def bench() -> Bench:
    """Returns the demo board under btest."""
    board: Board = read_files()
    return Bench(Btest(need()), DEMO, board, Nearness(board))


def look_at(fault: str) -> Look:
    """Looks at the demo board with a fault."""
    return look(bench(), Text("log", Bed().log(fault)))


@unittest.skipUnless(PROGRAM, "no btest is given")
class LookAt(unittest.TestCase):
    """What is known of a board."""

    def test_two_faults(self) -> None:
        seen = look_at("stuck:D0:0 open:U3.5:1")
        self.assertEqual((seen.head, seen.faults), ("FAIL 0", []))
        self.assertEqual([one.alone for one in seen.found], [["stuck D0 0"], ["open U3.5 1"]])
        self.assertEqual([one.pairs for one in seen.found], [[], []])

    def test_a_short(self) -> None:
        seen = look_at("and:D0:D1")
        self.assertEqual((seen.head, seen.faults), ("FAIL 1", ["short AND D0 D1"]))
        self.assertEqual([one.pairs for one in seen.found], [["short AND D0 D1"]] * 2)
        self.assertEqual([one.alone for one in seen.found], [["stuck D0 0"], ["stuck D1 0"]])
        # Where a 0 wins the nets read 0 in every row of the walking test, too.
        self.assertEqual(seen.walk, "")

    def test_the_walking_test_can_tell(self) -> None:
        self.assertEqual(look_at("or:D1:A1").walk, WALK)

    def test_sets_of_one_number_can_be_told_apart(self) -> None:
        bed = Bed()
        explained = explain(bed.board, [(bed.test, bed.rows("or:D1:A1"))])
        self.assertEqual((len(explained.ranks), explained.count), (2, 2))
        explained.ranks = [[*explained.ranks[0], *explained.ranks[1]]]
        with mock.patch("btest_tools.failing.explain", return_value=explained):
            self.assertEqual(look_at("or:D1:A1").walk, WALK)

    def test_a_good_board(self) -> None:
        seen = look_at("good")
        self.assertEqual(list(show(bench(), seen)), ["PASS"])

    def test_what_btest_refuses(self) -> None:
        with self.assertRaisesRegex(BadInput, "^log: 1 rows of 12$"):
            look(bench(), Text("log", "000000000000\n"))

    def test_both_logs(self) -> None:
        bed, walk = Bed(), Bed(DEMO, "walk")
        logs = [Text("log", one.log("or:D1:A1")) for one in (bed, walk)]
        seen = look(bench(), *logs)
        self.assertEqual(len(seen.explained.ranks), 1)
        self.assertEqual(seen.walk, "")

    def test_sections(self) -> None:
        lines = list(show(bench(), look_at("stuck:D0:0 open:U3.5:1")))
        self.assertEqual(lines[0], "FAIL 0")
        self.assertTrue(lines[1].startswith("\nBits are in the order of the rows of a pass"))
        self.assertEqual(lines[2], "\nNET D0                        3 of 3 receivers differ")
        head = "\nNET A1                        1 of 2 receivers differ; LINK R1 joins A1, A1R"
        self.assertIn(head, lines)
        self.assertIn("  explained by itself: open U3.5 1", lines)
        self.assertEqual(lines[lines.index(head) + 1], "  pin    pass 1-4: expected / got")
        lines = list(show(bench(), look_at("and:D0:D1")))
        self.assertEqual(lines[:2], ["FAIL 1", "  short AND D0 D1"])
        self.assertIn("  explained with another net: short AND D0 D1", lines)

    def test_nets_by_parts(self) -> None:
        seen = look_at("stuck:D0:0 open:U3.5:1")
        self.assertEqual(
            list(by_parts(seen.found)),
            ["  U3: 2 pins differ: D0, A1", "  U1: 1 pins differ: D0", "  U4: 1 pins differ: D0"],
        )

    def test_many_nets_have_no_sections(self) -> None:
        seen = look_at("stuck:D0:0")
        seen.found = seen.found * (MOST + 1)
        lines = list(show(bench(), seen))
        self.assertEqual(lines[1:3], ["  stuck D0 0", "\n101 nets differ."])
        self.assertFalse(any("NET D0" in line for line in lines))


@unittest.skipUnless(PROGRAM, "no btest is given")
class Printed(Folder):
    """The program."""

    def run_tool(self, *words: str) -> str:
        answer = tool("failing-nets.py", "--btest", need(), *words)
        self.assertEqual((answer.returncode, answer.stderr), (0, ""))
        return answer.stdout

    def test_walk(self) -> None:
        text = self.run_tool("--walk", str(EXAMPLES / "three-shorted.log"), *DEMO)
        self.assertTrue(text.startswith("GROUPS 1\nGROUP 3\n"))
        self.assertIn("\n2     1-2, 5                D1\n", text)

    def test_walk_in_which_a_zero_wins(self) -> None:
        log = self.write("log", Bed(DEMO, "walk").log("and:D0:D1:A1"))
        text = self.run_tool("--walk", log, *DEMO)
        self.assertTrue(text.startswith("GROUPS none\n"))
        short = "a short of them in which a 0 wins fits, and with it all rows"
        self.assertIn(f"D0, D1, A1: 0 in every row; {short}", text)

    def test_refusals(self) -> None:
        good, other = str(EXAMPLES / "good.log"), str(EXAMPLES / "three-shorted.log")
        program = ["--btest", need()]
        for words, line in (
            ([*program, other, *DEMO], "three-shorted.log: 5 rows of 12"),
            ([*program, "nothing.log", *DEMO], "cannot read nothing.log"),
            ([*program, good, *DEMO[:-1]], "controller.chain line 4: entity not given"),
            ([*program, good, *DEMO[:-1], "nothing.bsd"], "cannot read nothing.bsd"),
            (["--btest", "./nothing", good, *DEMO], "cannot run ./nothing as btest"),
            (["--btest", "/bin/echo", good, *DEMO], "/bin/echo is not btest"),
        ):
            for name, more in (("failing-nets.py", ()), ("report.py", ("--log",))):
                with self.subTest(f"{name}: {line}"):
                    all_words = [*words[:2], *more, *words[2:]]
                    answer = tool(name, *all_words)
                    self.assertEqual((answer.returncode, answer.stdout), (1, ""))
                    self.assertIn(line, answer.stderr)
                    self.assertEqual(answer.stderr.count("\n"), 1)


@unittest.skipUnless(PROGRAM, "no btest is given")
class Walked(unittest.TestCase):
    """Lines about the log of a walking test, worked by hand: D0, D1, D2, D3 and A1 walk."""

    def lines(self, fault: str) -> list[str]:
        log = Text("log", Bed(DEMO, "walk").log(fault))
        return list(look_at_walk(bench(), log))

    def test_a_good_board(self) -> None:
        rows = [f"{at}     {at}{' ' * 21}{name}" for at, name in enumerate(WALKERS, 1)]
        own = "5 of 5 nets that walk read 1 in their own row alone."
        head = ["GROUPS 0", "", "row   reads 1 in the rows   net"]
        self.assertEqual(self.lines("good"), [*head, *rows, own])

    def test_an_open_receiver(self) -> None:
        lines = self.lines("open:U3.5:1")
        self.assertIn("5     1-5                   A1 at U3.5", lines)
        self.assertIn("5     5                     A1 at U4.5", lines)
        self.assertEqual(lines[-1], "\nRows that fit no set of groups in which a 1 wins: 5 (A1)")

    def test_a_net_stuck_at_0(self) -> None:
        lines = self.lines("stuck:D3:0")
        self.assertIn("4     none                  D3", lines)
        short = "a short with a net that does not walk fits, if a 0 wins in it"
        others = "so do open drivers and nets that are stuck at 0."
        self.assertEqual(lines[-1], f"D3: 0 in every row; {short}; {others}")

    def test_many_nets_that_differ(self) -> None:
        with mock.patch("btest_tools.walks.MOST", 1):
            lines = self.lines("stuck:D3:0 open:U3.5:1")
        # In each row U3.5 reads 1, as it should in the fifth. D3 has two pins that read.
        self.assertEqual(lines[0], "GROUPS none")
        self.assertEqual(lines[1], "row 1 (D0): 1 bits differ")
        self.assertEqual(len(lines), 5)
        self.assertIn("row 4 (D3): 3 bits differ", lines)

    def test_a_net_stuck_at_1(self) -> None:
        lines = self.lines("stuck:D3:1")
        why = "1 in every row, as nets that are stuck at 1 or shorted with one that is."
        self.assertEqual(lines[-1], f"D3: {why}")


class Rows(unittest.TestCase):
    """Rows of a walking test, worked by hand."""

    def test_misfits(self) -> None:
        self.assertEqual(misfits({1: {1}, 2: {2, 3}, 3: {2, 3}}, []), [])
        self.assertEqual(misfits({1: {1, 2}, 2: {2}, 3: {3}}, []), [1, 2])
        self.assertEqual(misfits({1: set(), 2: {2}}, []), [1])
        self.assertEqual(misfits({1: {1, 2}, 2: {2}}, [1]), [1])
        self.assertEqual(misfits({1: None, 2: {2}}, []), [1])

    def test_nets_that_read_1_in_all_rows(self) -> None:
        # If all nets do, they are one group. If one does, it may be stuck.
        both: Ones = {1: {1, 2}, 2: {1, 2}}
        self.assertEqual(list(conclusions(Walkers({1: "A", 2: "B"}, {}, both))), [])
        one: Ones = {1: {1, 2}, 2: {2}}
        lines = list(conclusions(Walkers({1: "A", 2: "B"}, {}, one)))
        self.assertEqual(lines[0], "\nRows that fit no set of groups in which a 1 wins: 1 (A)")
        self.assertTrue(lines[1].startswith("A: 1 in every row, "))


if __name__ == "__main__":
    unittest.main()
