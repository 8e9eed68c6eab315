"""The commands of the station, with a program in place of OpenOCD that plays the texts on a model
of the board."""

from __future__ import annotations

import contextlib
import csv
import io
import os
import pathlib
import sys
import unittest
from unittest import mock

from tests.support import DEMO, PROGRAM, SECONDS, TOOLS, Folder, need

from btest_tools.btest import Btest
from btest_tools.files import BadInput
from btest_tools.station import attempts, command, day, folder, openocd, record
from btest_tools.station.explanation import explain
from btest_tools.station.record import Log, Record
from btest_tools.station.stages import MOST, Bench
from btest_tools.station.yields import Fault, Tested

# It reads names of texts, as OpenOCD does with the script of the station. FAULTS has the faults of
# the board, one for each time that its test is played, and the last for all times after; `chain`
# is a scan chain that is open at its end.
PLAYER = """#!{python} -B
import json, os, sys
sys.path.insert(0, {tools!r})
from btest_tools.board import read_board
from btest_tools.model import Model, play
from btest_tools.station.player import compared

with open("product.json") as file:
    about = json.load(file)
faults = os.environ["FAULTS"].split(";")
model = Model(read_board(about["chain"], about["nets"], about["bsdls"]))
print("ready fake 1", flush=True)
if faults == ["no cable"]:
    print("Error: unable to open the cable", file=sys.stderr)
    sys.exit(1)
for name in map(str.strip, sys.stdin):
    with open(name) as file:
        text = file.read()
    statements = compared(text)
    came = [one.tdo for one in statements]
    if name == "chain.svf" and faults[0] == "chain":
        came[0] = (1 << statements[0].size) - 1
    if name in ("board.svf", "walk.svf"):
        model.set_faults(faults[0] if ":" in faults[0] else "good")
        played = play(model, text)
        came = [played.pop(0) if one.register == "SDR" else one.tdo for one in statements]
    if name == "board.svf" and len(faults) > 1:
        del faults[0]
    for one, bits in zip(statements, came):
        if one.differs(bits):
            print(f"tdo check error at line {{one.line}}")
            print(f"   READ = 0x{{one.tdo ^ one.differs(bits):x}}")
    print("played 0", flush=True)
"""


@unittest.skipUnless(PROGRAM, "no btest is given")
class Commands(Folder):
    """The demo board at a station."""

    def setUp(self) -> None:
        super().setUp()
        for limit in ("WAIT", "START"):  # a busy machine may take longer than a station waits
            patch = mock.patch.object(openocd, limit, SECONDS)
            patch.start()
            self.addCleanup(patch.stop)
        self.product = f"{self.folder}/A"
        self.player = self.write("player", PLAYER.format(python=sys.executable, tools=str(TOOLS)))
        os.chmod(self.player, 0o755)
        chain, nets, *bsdls = DEMO
        cable = self.write("cable", "adapter driver none\n")
        words = ("--chain", chain, "--nets", nets, "--cable", cable, *bsdls)
        self.prepare = ("prepare", self.product, *words, "--btest", need())
        self.made = self.run_words(*self.prepare)

    def run_words(self, *words: str, status: int = 0, faults: str = "good") -> str:
        """Runs the station in this process, and returns what it prints."""
        out = io.StringIO()
        with mock.patch.object(sys, "argv", ["station.py", *words]):
            with mock.patch.dict(os.environ, {"FAULTS": faults}), contextlib.redirect_stdout(out):
                with contextlib.redirect_stderr(out), self.assertRaises(SystemExit) as end:
                    command.main()
        self.assertEqual(end.exception.code, status, out.getvalue())
        return out.getvalue()

    def play(self, serial: str, faults: str = "good", status: int = 0) -> str:
        """Tests a board with faults, and returns what is printed."""
        words = ("test", self.product, serial, "--openocd", self.player, "--btest", need())
        return self.run_words(*words, status=status, faults=faults)

    def test_a_good_board(self) -> None:
        text = self.play("B0")
        self.assertRegex(text, r"\nPASS  B0  \S+  attempt 1\n$")

    def test_prepared(self) -> None:
        lines = self.made.splitlines()
        self.assertRegex(lines[0], rf"^{self.product} is made: test [0-9a-f]{{64}}$")
        self.assertEqual(lines[1:], ["NETS 14 COVERED 6"])
        text = self.run_words("prepare", "--check", self.product)
        self.assertRegex(
            text, rf"^{self.product} is whole: test {lines[0][-64:]}, btest \S+ sha256:"
        )
        again = self.run_words(*self.prepare, status=1)
        self.assertIn(f"{self.product} is there already", again)
        missing = self.run_words("prepare", f"{self.folder}/B", "--chain", DEMO[0], status=2)
        self.assertIn("--chain, --nets, --cable and BSDL texts are wanted", missing)

    def test_a_folder_that_is_not_whole(self) -> None:
        path = pathlib.Path(self.product, "cover.txt")
        path.chmod(0o644)
        path.write_text("other\n", encoding="ascii")
        words = ("prepare", "--check", self.product)
        self.assertIn(f"{path} was changed; the folder", self.run_words(*words, status=6))
        path.unlink()
        self.assertIn(f"{path} is missing; the folder", self.run_words(*words, status=6))
        self.assertIn("isn't whole", self.play("A1", "good", 6))
        other = self.run_words("show", self.folder, status=6)
        self.assertIn("is missing; the folder isn't whole", other)

    def test_a_short(self) -> None:
        text = self.play("A1", "and:D0:D1", 1)
        self.assertRegex(text, r"\nFAIL \(2 of 2\)  A1  \S+  attempt 1\n")
        self.assertIn("likely one cause\n  D0, D1: short AND D0 D1\n", text)
        self.assertIn("next: measure between U1.1 (D0) and U1.2 (D1)\n", text)
        log = self.run_words("log", self.product, "A1")
        head = r"# attempt 1 of A1, board, \S+\n# test [0-9a-f]{64}\n"
        self.assertRegex(log, rf"^{head}([0-9A-F]+\n){{12}}$")
        walk = self.run_words("log", self.product, "--attempt", "1", "--stage", "walk")
        self.assertRegex(walk, r"([0-9A-F]+\n){5}$")
        found = attempts.inputs(self.product, "A1", None)
        self.assertEqual((found.title, found.log.text), ("A1, attempt 1", log))
        self.assertEqual(found.walk_log().text, walk)
        self.assertEqual(
            attempts.inputs(self.product, None, 1).files[0],
            f"{self.product}/board/controller.chain",
        )

    def test_the_last_attempt_counts(self) -> None:
        self.play("A1", "stuck:D0:0", 1)
        self.play("A1", "stuck:D1:0", 1)
        self.play("A1", "chain", 3)
        found = attempts.inputs(self.product, "A1", None)
        self.assertEqual(found.attempt.number, 2)  # the last that has a log

    def test_a_stuck_net_has_no_walk(self) -> None:
        self.play("A1", "stuck:D0:0", 1)
        found = attempts.inputs(self.product, "A1", None)
        with self.assertRaisesRegex(BadInput, "attempt 1 has no log of the walking test"):
            found.walk_log()
        words = ("log", self.product, "A1", "--stage", "walk")
        said = "attempt 1 (FAIL) has no log of the stage walk"
        self.assertIn(said, self.run_words(*words, status=1))

    def test_what_comes_and_goes(self) -> None:
        text = self.play("A1", "stuck:D0:0;good", 1)
        self.assertRegex(text, r"\nFAIL \(1 of 2\)  A1 ")
        # The open pin reads 1 at the first time and 0 at the second.
        text = self.play("A2", "open:U3.5:1;open:U3.5:0", 1)
        self.assertRegex(text, r"\nFAIL \(2 of 2, \d+ bits differ\)  A2 ")

    def test_verdicts_of_other_stages(self) -> None:
        text = self.play("A1", "chain", 3)
        self.assertRegex(text, r"\nCHAIN  A1  \S+  attempt 1\nno part answers as it should: ")
        text = self.play("A2", "no cable", 5)
        self.assertIn("OpenOCD: unable to open the cable", text)
        self.assertIn("the pins may not be in reset: take the supply off the board", text)
        text = self.run_words(
            "test", self.product, "A3", "--openocd", "./none", "--btest", need(), status=5
        )
        self.assertIn("cannot run ./none: No such file", text)
        self.assertIn("visible character", self.run_words("test", self.product, " ", status=2))
        said = self.run_words("log", self.product, "A1", status=1)
        self.assertIn("attempt 1 (CHAIN) has no log of the stage board", said)

    def test_lists(self) -> None:
        self.play("A1")
        self.play("A2", "and:D0:D1", 1)
        lines = self.run_words("show", self.product).splitlines()
        self.assertEqual(len(lines), 2)
        self.assertRegex(lines[0], r"^     1  \S+  PASS     A1$")
        cause = "likely one cause; D0, D1: short AND D0 D1; next: measure between "
        self.assertRegex(lines[1], rf"^     2  \S+  FAIL     A2  2 of 2  {cause}")
        self.assertEqual(self.run_words("show", self.product, "A2").splitlines(), lines[1:])
        said = "there is no attempt of A3"
        self.assertIn(said, self.run_words("show", self.product, "A3", status=1))
        rows = list(csv.reader(io.StringIO(self.run_words("csv", self.product))))
        self.assertEqual(rows[0], list(record.Attempt._fields))
        self.assertEqual([row[0] for row in rows[1:]], ["1", "2"])
        for words, said in (
            (("--attempt", "3"), "there is no attempt 3"),
            (("A1", "--attempt", "2"), "there is no attempt 2 of A1"),
            (("A9",), "there is no attempt of A9"),
            ((), "a serial number or --attempt N is wanted"),
        ):
            text = self.run_words("log", self.product, *words, status=1)
            self.assertEqual(text, f"station.py: {said}\n")

    def test_a_day(self) -> None:
        words = ("day", self.product, "--btest", need())
        self.assertIn("no board was tested with", self.run_words(*words, status=1))
        for serial, faults in (("A1", "good"), ("A<2", "and:D0:D1"), ("A3", "and:D0:D1")):
            self.play(serial, faults, 0 if faults == "good" else 1)
        path = pathlib.Path(self.run_words(*words).strip())
        self.assertEqual(path.parent, pathlib.Path(self.product, "days"))
        text = path.read_text("utf-8")
        for piece in (
            f"<title>A, {path.stem}</title>",
            "<tr><td>boards tested</td><td>3</td></tr>",
            "<tr><td>passed at the first attempt</td><td>1 (33.3 %)</td></tr>",
            "<tr><td>not passed</td><td>2 (66.7 %)</td></tr>",
            f'<tr><td>2</td><td>short AND D0 D1</td><td><a href="{path.stem}/2.html">A&lt;2</a>, ',
            "<tr><td>D0</td><td>2</td></tr>",
        ):
            self.assertIn(piece, text)
        link = rf"<a href={path.stem}/passed-1.html#a1>A1</a>"
        self.assertRegex(text, rf"<tr><td>{link}<td>\d\d:\d\d:\d\d<td>PASS<td>")
        self.assertNotIn("without a verdict", text)
        below = (path.parent / path.stem / "2.html").read_text("utf-8")
        self.assertIn("<title>Board A&lt;2</title>", below)
        self.assertRegex(below, r"<h2>FAIL \(2 of 2\): attempt 2, ")
        self.assertIn("stage: board<br>\nlikely one cause", below)
        self.assertIn("<pre>FAIL 1\n  short AND D0 D1\n", below)
        self.assertEqual(below.count("<details>"), 3)  # two runs, and the walking test
        self.assertFalse((path.parent / path.stem / "1.html").exists())
        out = pathlib.Path(self.folder, "out")
        self.run_words(*words, path.stem, "--out", str(out))
        self.assertEqual((out / path.name).read_text("utf-8"), text)
        for name, said in (("2020-01-01", "no board was tested on"), ("1.1.2020", "is no day as")):
            self.assertIn(f"{name}"[:4], self.run_words(*words, name, status=1))
            self.assertIn(said, self.run_words(*words, name, status=1))

    def test_logs_without_an_explanation(self) -> None:
        bench = Bench(folder.load(pathlib.Path(self.product)), Btest(need()))
        self.assertEqual(explain(bench, [Log("walk", "")]).lines, ())
        said = explain(bench, [Log("board", "00\n")]).lines
        self.assertTrue(said[0].startswith("the log can't be explained: "), said)
        self.assertTrue(bench.has_walk)
        self.assertEqual(MOST, 64 * 1024 * 1024)


class Pages(unittest.TestCase):
    """Pieces of the pages of a day."""

    def test_faults(self) -> None:
        board = Tested("A", [mock.Mock(number=1)], False)
        for count, names in ((6, "1 or 2 or 3 or 4 or 5 or 6</td>"), (7, "5 or 6 ..</td>")):
            fault = Fault(tuple(str(at) for at in range(1, count + 1)), "", [board])
            with mock.patch.object(day, "faults_of", return_value=[fault]):
                self.assertIn(names, day.fault_tables(mock.Mock(net_of={})))
        fault = Fault(("1",), "1 of 2", [board])
        with mock.patch.object(day, "faults_of", return_value=[fault]):
            self.assertIn("<td>1 (1 of 2)</td>", day.fault_tables(mock.Mock(net_of={})))
        with mock.patch.object(day, "faults_of", return_value=[]):
            self.assertEqual(day.fault_tables(mock.Mock()), "")

    def test_rows(self) -> None:
        self.assertEqual(day.percent(1, 3), " (33.3 %)")
        self.assertEqual(day.percent(0, 0), "")
        self.assertEqual(day.more_rows(day.SHOWN), "")
        self.assertIn("and 2 more", day.more_rows(day.SHOWN + 2))
        self.assertEqual(day.row("a", "b"), "<tr><td>a</td><td>b</td></tr>\n")
        self.assertIn("<tr><th>a</th><th>b</th></tr>", day.table(("a", "b"), []))

    def test_logs_are_cut(self) -> None:
        part = day.log_part(Log("<b", "0\n"))
        self.assertIn("<summary>log of &lt;b</summary><pre>0\n</pre>", part)
        self.assertNotIn("..", day.log_part(Log("board", "0" * 99_999)))
        self.assertIn("0..\n</pre>", day.log_part(Log("board", "0" * 100_001)))
        self.assertEqual(day.log_part(Log("board", "0" * 100_001)).count("0"), 100_000)


if __name__ == "__main__":
    unittest.main()
