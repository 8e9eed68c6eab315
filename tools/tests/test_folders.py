"""The folder of a product and the pages of a day, with a program in place of btest that prints what a
test wants. What comes was worked out by hand."""

from __future__ import annotations

import contextlib
import dataclasses
import datetime
import hashlib
import io
import json
import os
import pathlib
import re
import sys
import unittest
from types import SimpleNamespace
from typing import Optional, cast
from unittest import mock

from tests.support import DEMO, EXAMPLES, ROOT, Folder, read_files

from btest_tools.btest import Btest
from btest_tools.explaining.placed import Placed
from btest_tools.files import BadInput, Text, frame
from btest_tools.station import attempts, clock, command, day, folder, letters, line, record
from btest_tools.station import day_reading, explanation, page_folder
from btest_tools.station.day_reading import Day, failures_of, read_day
from btest_tools.station.folder import NotWhole, Product, Sources
from btest_tools.station.lock import NAME as LOCK
from btest_tools.station.lock import Lock
from btest_tools.station.page_folder import PageFolder
from btest_tools.station.parts import Link, code_text, open_place, pattern_text, wrong_parts
from btest_tools.station.player import Compared
from btest_tools.station.record import Attempt, Beginning, Ending, Finding, Log, LogMark, Record
from btest_tools.station.record import RecordFailed
from btest_tools.station.stages import Bench, Outcome
from btest_tools.station.yields import Tested, Yield, boards_of, key_of, runs_of, yield_of

CABLE = "adapter driver none\n"
TODAY, BEFORE = "2026-05-04", "2026-05-03"
PLACES = str(EXAMPLES / "controller.ipc")


class Fake:
    """A program that prints its command, and refuses some commands with a line."""

    def __init__(self, **refused: str) -> None:
        self.program, self.refused = sys.executable, refused
        self.asked: list[tuple[str, ...]] = []

    def run(self, name: str, *words: str, **_: object) -> str:
        """Returns what a command prints."""
        self.asked.append((name, *words))
        if name in self.refused:
            raise BadInput(self.refused[name].format(*words))
        return f"{name} text\n"


class Made(Folder):
    """A folder that is made of the demo board."""

    def setUp(self) -> None:
        super().setUp()
        self.path = pathlib.Path(self.folder, "A")
        self.cable = self.write("cable.txt", CABLE)

    def make(self, places: Optional[str] = None, **refused: str) -> Product:
        """Makes the folder."""
        btest = cast(Btest, Fake(**refused))
        return folder.prepare(self.path, btest, Sources(DEMO, self.cable, places))

    def lines(self, name: str) -> list[str]:
        """Returns the lines of a file of the folder."""
        return (self.path / name).read_text(encoding="utf-8").splitlines()

    def test_what_is_in_it(self) -> None:
        product = self.make()
        names = [f"board/{pathlib.Path(name).name}" for name in DEMO]
        texts = ["board.svf", "chain.svf", "cover.txt", "ident.svf", "reset.svf", "walk.svf"]
        marked = sorted([*names, *texts, "cable.cfg", "product.json"])
        self.assertEqual([one.split("  ")[1] for one in self.lines("fingerprints.sha256")], marked)
        for one in self.lines("fingerprints.sha256"):
            mark, _, name = one.partition("  ")
            path = self.path / name
            self.assertEqual(mark, hashlib.sha256(path.read_bytes()).hexdigest())
            self.assertEqual(path.stat().st_mode & 0o777, 0o444)
        marks = self.path / "fingerprints.sha256"
        self.assertEqual(marks.stat().st_mode & 0o777, 0o444)
        self.assertEqual(self.path.stat().st_mode & 0o777, 0o755)
        for name, text in (
            ("board.svf", "svf text"),
            ("walk.svf", "walk text"),
            ("cover.txt", "cover text"),
        ):
            self.assertEqual(self.lines(name), [text])
        self.assertEqual(self.lines("reset.svf"), ["TRST OFF;", "STATE RESET;"])
        self.assertEqual(self.lines("cable.cfg"), [CABLE.strip()])
        self.assertEqual(product.files, [str(self.path / name) for name in names])
        self.assertEqual(
            (product.layout_file, product.places, product.has_ident), (None, None, True)
        )
        self.assertEqual(product.text("walk.svf"), "walk text\n")
        self.assertEqual(product.record, self.path / "record.sqlite")
        mark = hashlib.sha256((self.path / "fingerprints.sha256").read_bytes()).hexdigest()
        self.assertEqual(product.test, mark)
        self.assertEqual(os.listdir(self.folder).count("A"), 1)
        self.assertEqual(len(os.listdir(self.folder)), 2)  # with the cable's file, and no draft

    def test_what_is_known_of_it(self) -> None:
        product = self.make()
        about = json.loads("\n".join(self.lines("product.json")))
        self.assertEqual(sorted(about), ["bsdls", "btest", "chain", "nets"])
        version = (ROOT / "VERSION").read_text(encoding="ascii").strip()
        mark = hashlib.sha256(pathlib.Path(sys.executable).read_bytes()).hexdigest()
        self.assertEqual(about["btest"], f"{version} sha256:{mark}")
        self.assertEqual(product.btest, about["btest"])
        self.assertEqual(about["chain"], "board/controller.chain")

    def test_what_btest_is_asked(self) -> None:
        btest = Fake()
        folder.prepare(self.path, cast(Btest, btest), Sources(DEMO, self.cable))
        asked = {name: [pathlib.Path(word).name for word in words] for name, *words in btest.asked}
        names = [pathlib.Path(name).name for name in DEMO]
        short = [names[0], *names[2:]]
        wanted = {"cover": names, "chain": short, "ident": short, "svf": names, "walk": names}
        self.assertEqual(asked, wanted)

    def test_places(self) -> None:
        product = self.make(PLACES)
        self.assertEqual(product.layout_file, str(self.path / "board/controller.ipc"))
        places = product.places
        assert places
        count, pins = folder.placed_pins(product.files, places)
        self.assertEqual(
            (count, pins), (folder.placed_pins(DEMO, places)[0], len(read_files().net_of))
        )
        self.assertGreater(count, pins // 2)

    def test_places_of_another_board(self) -> None:
        text = "327A                X9    -1         A01X+010000Y+020000\n999\n"
        other = self.write("other.ipc", text)
        with self.assertRaises(BadInput) as why:
            self.make(other)
        self.assertEqual(str(why.exception), f"{other} has no place of a pin of {DEMO[1]}")
        self.assertFalse(self.path.exists())

    def test_refusals_of_btest(self) -> None:
        # They name the files of the words, and a chain without a description has no codes.
        with self.assertRaises(BadInput) as why:
            self.make(svf="{0} line 1: so")
        self.assertEqual(str(why.exception), f"{DEMO[0]} line 1: so")
        for name, line_of in (("svf", "X: part without a description"), ("ident", "X: another")):
            with self.assertRaises(BadInput):
                self.make(**{name: line_of})
        self.assertFalse(self.path.exists())
        product = self.make(ident="{0}: part without a description")
        self.assertFalse(product.has_ident)
        self.assertNotIn("ident.svf", "".join(self.lines("fingerprints.sha256")))

    def test_a_folder_that_is_there(self) -> None:
        self.path.mkdir()
        self.assertRaisesRegex(BadInput, "is there already; a new revision", self.make)
        self.path.rmdir()
        self.path.symlink_to("nothing")
        self.assertRaisesRegex(BadInput, "is there already", self.make)
        self.path = pathlib.Path(self.folder, "none", "A")
        self.assertRaisesRegex(BadInput, "A can't be written: No such file", self.make)

    def test_what_is_wrong_with_it(self) -> None:
        self.assertRaisesRegex(NotWhole, "no folder that station.py", folder.load, self.path)
        self.make()
        self.assertEqual(list(folder.faults(self.path)), [])
        (self.path / "cover.txt").chmod(0o644)
        (self.path / "cover.txt").write_text("other", encoding="ascii")
        (self.path / "walk.svf").unlink()
        (self.path / "record.sqlite").unlink()
        said = [one.replace(f"{self.path}/", "") for one in folder.faults(self.path)]
        wanted = ["cover.txt was changed", "walk.svf is missing", "record.sqlite is missing"]
        self.assertEqual(said, wanted)
        with self.assertRaisesRegex(NotWhole, "cover.txt was changed; the folder isn't whole$"):
            folder.load(self.path)

    def test_lists_of_fingerprints(self) -> None:
        self.path.mkdir()
        path = self.path / "fingerprints.sha256"
        mark = "0" * 64
        for text, good in (
            (f"{mark}  a\n{mark}  b/c\n", True),
            (f"{mark[1:]}  a\n", False),
            (f"{mark}0  a\n", False),
            (f"{mark}  \n", False),
            (f"{mark} a\n", False),
            (f"{mark}  ../a\n", False),
            (f"{'A' * 64}  a\n", False),
        ):
            path.write_text(text, encoding="ascii")
            if good:
                found = list(folder.fingerprints(self.path))
                self.assertEqual(found, [("a", mark), ("b/c", mark)])
            else:
                with self.assertRaisesRegex(NotWhole, "is no list of fingerprints$"):
                    list(folder.fingerprints(self.path))

    def test_a_product_that_cannot_be_read(self) -> None:
        self.make()
        path = self.path / "product.json"
        path.chmod(0o644)
        for text in (
            "{",
            "[]",
            '{"chain": "a"}',
            '{"chain": 1, "nets": 2, "btest": 3, "bsdls": 4}',
        ):
            path.write_text(text, encoding="ascii")
            with mock.patch.object(folder, "faults", return_value=[]):
                with self.assertRaisesRegex(NotWhole, "product.json can't be read; the folder"):
                    folder.load(self.path)

    def test_another_btest(self) -> None:
        # It has to make the same tests. One with the same mark isn't asked.
        product = self.make()
        for mark, svf, walk, is_good, asked in (
            ("a", "svf", "walk", True, 2),
            ("a", "other", "walk", False, 1),
            ("a", "svf", "other", False, 2),
            ("b", "other", "other", True, 0),
        ):
            answers = {"svf": f"{svf} text\n", "walk": f"{walk} text\n"}
            btest = mock.Mock(
                **{"run.side_effect": lambda name, *_, answers=answers: answers[name]}
            )
            made = dataclasses.replace(product, btest="1.0 b")
            with mock.patch.object(folder, "version_of", return_value=f"2.0 {mark}"):
                if is_good:
                    self.assertEqual(folder.check_btest(made, btest), f"2.0 {mark}")
                else:
                    with self.assertRaisesRegex(NotWhole, "^this btest makes another test than"):
                        folder.check_btest(made, btest)
            self.assertEqual(btest.run.call_count, asked)

    def test_versions(self) -> None:
        missing = pathlib.Path(self.folder, "VERSION")
        with mock.patch.object(folder, "VERSION", missing):
            self.assertTrue(
                folder.version_of(cast(Btest, Fake())).startswith("of no version sha256:")
            )
        self.assertEqual(folder.VERSION, ROOT / "VERSION")
        with self.assertRaisesRegex(BadInput, "^btest is not on the PATH"):
            with mock.patch("btest_tools.station.folder.shutil.which", return_value=None):
                folder.version_of(Btest("btest"))

    def test_names(self) -> None:
        words = ["x/a b.net", "y/a_b.net", "z/a?b.net", "µ", "..", "", "C.chain"]
        names = ["a_b.net", "2-a_b.net", "3-a_b.net", "_", "..", "2-_", "C.chain"]
        self.assertEqual(folder.names_of(words), [f"board/{name}" for name in names])


def attempt(
    number: int, serial: str, verdict: str = "PASS", on: str = TODAY, **more: str
) -> Attempt:
    """Returns an attempt of a day, at a time that has its number in its seconds."""
    ended = "" if verdict == "CUT" else f"{on}T08:01:{number % 60:02}Z"
    values = {
        **{"utc": f"{on}T08:00:{number % 60:02}Z", "local": f"{on}T10:00:{number % 60:02}+02:00"},
        **{"stage": "board", "runs": "", "says": "", "test": "t", "btest": "b", "player": "p"},
        **{"station": "s", "ended_utc": ended, **more},
    }
    return Attempt(number=number, serial=serial, verdict=verdict, day=on, **values)


def day_of(*found: Attempt, **more: object) -> Day:
    """Returns a day with some attempts."""
    product = cast(Product, SimpleNamespace(folder=pathlib.Path("/x/A<B"), files=DEMO, test="t"))
    values = {"findings": {}, "marks": {}, "text": lambda mark: f"text of {mark}\n", **more}
    return Day(TODAY, product, cast(Bench, None), boards_of(found), **values)  # type: ignore[arg-type]


def finding(*faults: str) -> Finding:
    """Returns what explains a failure."""
    return Finding.of(faults, ("likely <one>", "  second"), "details <\n", "<svg>")


class Yields(unittest.TestCase):
    """How many boards passed."""

    def test_boards(self) -> None:
        found = [
            attempt(1, "A", on=BEFORE),
            attempt(2, "A"),
            attempt(3, "B", "CUT"),
            attempt(4, "B"),
        ]
        one, two = boards_of(found)
        self.assertEqual((one.number, one.always_passed, two.always_passed), (1, True, False))
        self.assertEqual(one.last_of(TODAY).number, 2)
        self.assertEqual(one.last_of(BEFORE).number, 1)  # the clock went back
        self.assertEqual([one.number for one in two.judged], [4])

    def test_yield(self) -> None:
        # A and B pass at once, C after repair, D fails, E fails after a pass, F isn't judged.
        verdicts = (
            "A PASS, B CUT, B PASS, C FAIL, C PASS, D PART, E PASS, E CHAIN, F PLAYER, F STOPPED"
        )
        words = [one.split() for one in verdicts.split(", ")]
        found = yield_of(boards_of([attempt(at, *one) for at, one in enumerate(words, 1)]))
        self.assertEqual(found, Yield(6, 5, 2, 1))
        self.assertEqual(found.failed, 2)

    def test_keys(self) -> None:
        marks = {1: "0123456789", 2: "ab"}
        bad = attempt(1, "A", "FAIL")
        self.assertEqual(key_of(bad, {1: finding("x", "y")}, marks), ("x", "y"))
        self.assertEqual(key_of(bad, {1: finding()}, marks), ("no single fault; log 01234567",))
        self.assertEqual(key_of(bad, {}, {}), ("no single fault; log ",))
        chain = attempt(2, "A", "CHAIN", says="so")
        self.assertEqual(key_of(chain, {2: finding("x")}, marks), ("chain: so",))

    def test_runs(self) -> None:
        told = {
            "": "",
            "2 of 2": "",
            "2 of 2, 5 bits differ": "2 of 2, bits differ",
            "1 of 2": "1 of 2",
        }
        for runs, words in told.items():
            self.assertEqual(runs_of(attempt(1, "A", "FAIL", runs=runs)), words)


class Pages(unittest.TestCase):
    """The pages of a day."""

    def test_the_yield_as_a_table(self) -> None:
        text = day.yield_table(Yield(2003, 2000, 1500, 1))
        for row in (
            "<td>boards tested</td><td>2,003</td>",
            "<td>passed at the first attempt</td><td>1,500 (75.0 %)</td>",
            "<td>passed after repair</td><td>1 (0.1 %)</td>",
            "<td>not passed</td><td>499 (24.9 %)</td>",
            "<td>without a verdict, and not in the shares</td><td>3</td>",
        ):
            self.assertIn(row, text)
        self.assertNotIn("without a verdict", day.yield_table(Yield(2, 2, 2, 0)))

    def test_rows_of_boards(self) -> None:
        # A passed six times, of which four are shown beside the last.
        found = [attempt(at, "A<") for at in range(1, 7)] + [attempt(7, "B")]
        a, b = day.board_rows(day_of(*found))
        link = f"<a href={TODAY}/passed-1.html#a1>A&lt;</a>"
        self.assertEqual(a, f"<tr><td>{link}<td>10:00:06<td>PASS<td>{'PASS ' * 4}<td></tr>\n")
        self.assertIn("#a7>B</a><td>10:00:07<td>PASS<td><td></tr>", b)

    def test_a_thousand_boards_share_a_page(self) -> None:
        found = [attempt(at, f"S{at}") for at in range(1, 1002)]
        rows = list(day.board_rows(day_of(*found)))
        self.assertIn("passed-1.html#a1000>", rows[999])
        self.assertIn("passed-2.html#a1001>", rows[1000])
        first, second = day.passed_pages(day_of(*found))
        self.assertEqual((first.count("<tr id="), second.count("<tr id=")), (1000, 1))
        self.assertEqual(len(list(day.passed_pages(day_of(*found[:1000])))), 1)
        self.assertEqual(list(day.passed_pages(day_of(attempt(1, "A", "FAIL")))), [])

    def test_a_page_of_boards_that_passed(self) -> None:
        found = [attempt(1, "A<", player=""), attempt(2, "A<"), attempt(3, "B", player="")]
        (text,) = day.passed_pages(day_of(*found))
        times = [f"<td>{TODAY}T10:00:0{at}+02:00<td>{TODAY}T08:01:0{at}Z" for at in range(4)]
        for row in (
            f"<tr id=a1><td>A&lt;<td>1{times[1]}<td>1</tr>\n<tr><td>A&lt;<td>2{times[2]}<td>2</tr>",
            f"<tr id=a3><td>B<td>3{times[3]}<td>1</tr>",
            "<td>1</td><td>test t<br>\nbtest b<br>\nplayer none<br>\nstation s</td>",
            "<td>2</td><td>test t<br>\nbtest b<br>\nplayer p<br>\nstation s</td>",
            f'<p><a href="../{TODAY}.html">{TODAY}</a></p>',
        ):
            self.assertIn(row, text)

    def test_a_board_that_failed(self) -> None:
        verdicts = ("PASS", "CUT", "CHAIN", "PART", "STOPPED", "FAIL")
        found = [attempt(at, "B<", verdict, says="so <") for at, verdict in enumerate(verdicts, 1)]
        found[-1] = found[-1]._replace(runs="1 of 2")
        one = day_of(*found, findings={6: finding("x")}, unread={4: "why <", 9: "other"})
        (row,) = day.board_rows(one)
        for piece in (
            f'<td><a href="{TODAY}/1.html">B&lt;</a></td><td>10:00:06</td>',
            "<td><span class=bad>FAIL (1 of 2)</span></td>",
            "<td><span class=quiet>CUT CHAIN PART STOPPED</span></td>",
            "<td>so &lt;; likely &lt;one&gt;; second; not judged: why &lt;</td>",
        ):
            self.assertIn(piece, row)
        passed = [attempt(1, "C", "FAIL"), attempt(2, "C")]
        (row,) = day.board_rows(day_of(*passed))
        self.assertIn("<td>PASS</td><td><span class=quiet>FAIL</span></td><td></td>", row)

    def test_the_page_of_a_board(self) -> None:
        found = [
            attempt(1, "B", "FAIL", runs="1 of 2", says="so"),
            attempt(2, "B", "CUT", stage=""),
        ]
        marks = {1: [LogMark("board", "m1"), LogMark("walk", "m2")]}
        one = day_of(*found, findings={1: finding("x")}, marks=marks, unread={2: "why"})
        text = day.board_page(one, one.boards[0])
        for piece in (
            f"<h2>FAIL (1 of 2): attempt 1, {TODAY}T10:00:01+02:00</h2>\n"
            "<p>stage: board<br>\nso<br>\nlikely &lt;one&gt;<br>\n  second</p>\n"
            "<pre>details &lt;\n</pre>\n<svg>"
            "<details><summary>log of board</summary><pre>text of m1\n</pre></details>\n"
            "<details><summary>log of walk</summary><pre>text of m2\n</pre></details>\n",
            f"station s<br>\nended {TODAY}T08:01:01Z</p>",
            f"<h2>CUT: attempt 2, {TODAY}T10:00:02+02:00</h2>\n<p>not judged: why</p>\n<p class=quiet>",
        ):
            self.assertIn(piece, text)
        self.assertTrue(text.rstrip().endswith("station s</p>\n</body>\n</html>"))

    def test_tables_of_faults(self) -> None:
        # B and C have a fault of U1 at D0, and D one of U3 at A1.
        found = [attempt(at, name, "FAIL") for at, name in enumerate("BCD", 1)]
        told = {1: finding("open U1.1 0"), 2: finding("open U1.1 0"), 3: finding("open U3.5 1")}
        text = day.fault_tables(day_of(*found, findings=told))
        link = f'<a href="{TODAY}/'
        rows = [
            f'<tr><td>2</td><td>open U1.1 0</td><td>{link}1.html">B</a>, {link}2.html">C</a></td></tr>',
            f'<tr><td>1</td><td>open U3.5 1</td><td>{link}3.html">D</a></td></tr>',
            "<tr><th>part</th><th>boards</th></tr>\n<tr><td>U1</td><td>2</td></tr>",
            "<tr><td>U3</td><td>1</td></tr>",
            "<tr><th>net</th><th>boards</th></tr>\n<tr><td>D0</td><td>2</td></tr>",
        ]
        for row in rows:
            self.assertIn(row, text)
        self.assertNotIn("more</p>", text)
        self.assertLess(text.index("Boards by parts"), text.index("Boards by nets"))

    def test_forty_rows(self) -> None:
        for count, more in ((40, 0), (41, 1)):
            found = [attempt(at, f"S{at}", "CHAIN", says=f"w{at}") for at in range(1, count + 1)]
            text = day.fault_tables(day_of(*found))
            self.assertEqual((text.count("<td>chain: w"), text.count("and 1 more")), (40, more))
            same = [one._replace(says="so") for one in found]
            text = day.fault_tables(day_of(*same))
            self.assertEqual((text.count("<a href"), text.count("</a> ..")), (40, more))
            self.assertIn(f"<td>{count}</td><td>chain: so</td>", text)

    def test_logs_of_the_longest_length(self) -> None:
        for count, dots in ((100_000, 0), (100_001, 1)):
            self.assertEqual(day.log_part(Log("board", "0" * count)).count("..\n"), dots)

    def test_a_day(self) -> None:
        one = day_of(attempt(1, "A"))
        self.assertEqual(one.title, f"A<B, {TODAY}")
        self.assertEqual(one.net_of["U1.1"], "D0")
        text = day.day_page(one)
        self.assertIn(f"<title>A&lt;B, {TODAY}</title>", text)
        self.assertIn("<h2>Yield</h2>\n<table>", text)
        self.assertIn("<h2>Boards</h2>\n<table>\n<tr><th>serial number</th>", text)

    def test_marks(self) -> None:
        marks = {
            1: [LogMark("board again", "x"), LogMark("board", "y"), LogMark("walk", "z")],
            2: [],
        }
        self.assertEqual(day_of(attempt(1, "A"), marks=marks).board_marks, {1: "y"})


class Explained(unittest.TestCase):
    """Which failures of a day are explained."""

    def explain(
        self, marks: int, texts: int, test: str = "t", known: bool = False
    ) -> tuple[Day, int]:
        """Explains an attempt with marks of logs, of which some can be read. Returns the day, and how
        often the logs were explained."""
        one = attempt(1, "A", "FAIL", test=test)
        found = {1: [LogMark("board", f"m{at}") for at in range(marks)]} if marks else {}
        text = lambda mark: "0\n" if int(mark[1:]) < texts else None  # noqa: E731
        told = {1: finding("old")} if known else {}
        made = day_of(one, marks=found, text=text, findings=told)
        with mock.patch.object(day_reading, "explain", return_value=finding("new")) as explains:
            made.explain(one)
        return made, explains.call_count

    def test_explained(self) -> None:
        for words, faults, why, count in (
            ((2, 2), ("new",), "", 1),
            ((2, 2, "t", True), ("old",), "", 0),
            ((2, 1), None, "the log of attempt 1 can't be read", 0),
            ((0, 0), None, "the log of attempt 1 can't be read", 0),
            ((2, 1, "t", True), None, "the log of attempt 1 can't be read", 0),
            (
                (2, 2, "u", True),
                None,
                "attempt 1 was made by another test: its fingerprint is u.., ",
                0,
            ),
        ):
            made, explains = self.explain(*words)  # type: ignore[arg-type]
            self.assertEqual(explains, count, words)
            self.assertEqual(made.findings[1].faults if made.findings else None, faults)
            self.assertTrue(made.unread.get(1, "").startswith(why))
            self.assertEqual(bool(made.unread), bool(why))

    def test_failures(self) -> None:
        found = [attempt(1, "A"), attempt(2, "B", "FAIL"), attempt(3, "B"), attempt(4, "C", "CUT")]
        self.assertEqual([one.number for one in failures_of(boards_of(found))], [2, 4])

    def test_which_day_is_read(self) -> None:
        found = [attempt(1, "A"), attempt(2, "B", "FAIL"), attempt(3, "C", "CHAIN")]
        attrs: dict[str, object] = {"last.return_value": found[-1]}
        attrs["of_boards_of.return_value"] = found
        attrs.update({"findings.return_value": {}, "log_marks.return_value": {}})
        product = cast(Product, SimpleNamespace(folder="F", test="t"))
        for name, day_read, why in (
            (None, TODAY, ""),
            (BEFORE, BEFORE, ""),
            ("2026-5-4", "", "2026-5-4 is no day as 2026-05-31"),
            ("x2026-05-04", "", "x2026-05-04 is no day"),
        ):
            store = mock.Mock(**attrs)
            with mock.patch.object(folder, "check_btest") as check:
                if why:
                    with self.assertRaisesRegex(BadInput, why):
                        read_day(product, store, cast(Btest, None), name)
                    continue
                made = read_day(product, store, cast(Btest, None), name)
            check.assert_called_once()
            store.of_boards_of.assert_called_once_with(day_read)
            store.findings.assert_called_once_with([2, 3])
            store.log_marks.assert_called_once_with([2, 3])
            self.assertEqual((made.name, list(made.unread)), (day_read, [2]))

    def test_a_day_without_boards(self) -> None:
        product = cast(Product, SimpleNamespace(folder="F"))
        for last, name, why in (
            (None, None, "no board was tested with F"),
            (None, TODAY, f"no board was tested on {TODAY}"),
        ):
            store = mock.Mock(**{"last.return_value": last, "of_boards_of.return_value": []})
            with self.assertRaisesRegex(BadInput, f"^{why}$"):
                read_day(product, store, cast(Btest, None), name)


class Written(Folder):
    """Pages in their folder."""

    def test_pages_that_are_too_many(self) -> None:
        out = pathlib.Path(self.folder, TODAY)
        day.write_boards(day_of(attempt(1, "A"), attempt(2, "B", "FAIL")), out)
        self.assertEqual(sorted(os.listdir(out)), ["2.html", "passed-1.html"])
        for number in (2, 3, 5):
            (out / f"passed-{number}.html").write_text("old", encoding="ascii")
        day.write_boards(day_of(attempt(1, "A")), out)
        self.assertEqual(sorted(os.listdir(out)), ["2.html", "passed-1.html", "passed-5.html"])
        day.write_boards(day_of(attempt(2, "B", "FAIL")), out)
        self.assertEqual(sorted(os.listdir(out)), ["2.html", "passed-5.html"])

    def test_where_pages_are(self) -> None:
        product = cast(Product, SimpleNamespace(folder=pathlib.Path(self.folder)))
        other = pathlib.Path(self.folder, "other")
        for out, wanted in ((None, pathlib.Path(self.folder, "days")), (other, other)):
            with mock.patch.object(day, "read_day", return_value=day_of(attempt(1, "A"))):
                path = day.write(product, cast(Record, None), cast(Btest, None), None, out)
            self.assertEqual(path, wanted / f"{TODAY}.html")
            self.assertTrue(path.is_file())
            self.assertEqual(os.listdir(wanted / TODAY), ["passed-1.html"])

    def test_a_page_that_cannot_be_deleted(self) -> None:
        with PageFolder(pathlib.Path(self.folder)) as pages:
            os.mkdir(f"{self.folder}/a.html")
            with self.assertRaisesRegex(page_folder.PageFailed, "a.html can't be written: "):
                pages.drop("a.html")
            self.assertFalse(pages.holds("a.html", b""))
            self.assertFalse(pages.holds("b.html", b""))
        self.assertRaises(OSError, os.fstat, pages.file)

    def test_locks(self) -> None:
        path = pathlib.Path(self.folder)
        lock = Lock(path, "12:00")
        text = (path / LOCK).read_text(encoding="utf-8")
        host, process, since = text.split()
        self.assertEqual((process, since, text[-1]), (str(os.getpid()), "12:00", "\n"))
        said = rf"another station \({re.escape(host)}, process {process}, since 12:00\) tests with"
        self.assertRaisesRegex(RecordFailed, said, Lock, path, "")
        (path / LOCK).write_text("one two\n", encoding="ascii")
        self.assertRaisesRegex(RecordFailed, "another station tests with", Lock, path, "")
        lock.release()
        with self.assertRaisesRegex(RecordFailed, "station.lock can't be written: No such"):
            Lock(path / "none", "")


class Told(unittest.TestCase):
    """What the station says."""

    def test_lines_of_attempts(self) -> None:
        one = attempt(7, "A", "FAIL", runs="1 of 2", says="so")
        self.assertEqual(
            command.told(one), f"     7  {TODAY}T10:00:07+02:00  FAIL     A  1 of 2  so\n"
        )
        self.assertEqual(command.told(attempt(1, "B"))[-13:], "  PASS     B\n")

    def test_explained_attempts(self) -> None:
        found = [attempt(1, "A", "FAIL", says="so"), attempt(2, "B", "FAIL"), attempt(3, "C")]
        store = mock.Mock(**{"explanations.return_value": {1: "x", 2: "y"}})
        said = [one.says for one in command.explained(store, found)]
        self.assertEqual(said, ["so; x", "y", ""])

    def test_statuses(self) -> None:
        for wrong, name, status in (
            (BadInput("x"), "test", 5),
            (BadInput("x"), "show", 1),
            (line.BadSerial("x"), "test", 2),
            (NotWhole("x"), "test", 6),
            (RecordFailed("x"), "show", 7),
            (line.NotTold("x"), "test", 7),
            (page_folder.PageFailed("x"), "day", 7),
        ):
            self.assertEqual(command.status_of(wrong, name), status)

    def words(self, *words: str) -> command.Words:
        """Returns what a command line says."""
        with mock.patch.object(sys, "argv", ["station.py", *words]):
            return command.read_words()

    def test_words_that_may_be_left_out(self) -> None:
        one = self.words("test", "F")
        said = one.folder, one.serial, one.openocd, one.limit
        self.assertEqual(said, (pathlib.Path("F"), None, "openocd", 600))
        one = self.words("test", "F", "A", "--limit", "2.5")
        self.assertEqual((one.serial, one.limit), ("A", 2.5))
        one = self.words("log", "F", "--attempt", "3")
        self.assertEqual((one.serial, one.attempt, one.stage), (None, 3, "board"))
        one = self.words("log", "F", "A", "--stage", "board again")
        self.assertEqual((one.serial, one.attempt, one.stage), ("A", None, "board again"))
        self.assertEqual(self.words("log", "F", "--stage", "walk").stage, "walk")
        one = self.words("day", "F")
        self.assertEqual((one.day, one.out), (None, None))

    def test_words_that_may_not(self) -> None:
        files = ["--chain", "c", "--nets", "n", "--cable", "k", "b"]
        self.assertEqual(self.words("prepare", "F", *files).bsdls, ["b"])
        self.assertTrue(self.words("prepare", "F", "--check").check)
        for words in (
            ["prepare", "F", *files[2:]],
            ["prepare", "F", *files[:2], *files[4:]],
            ["prepare", "F", *files[:4], "b"],
            ["prepare", "F", *files[:-1]],
            ["log", "F", "--stage", "chain"],
            ["other", "F"],
        ):
            with contextlib.redirect_stderr(io.StringIO()), self.assertRaises(SystemExit) as end:
                self.words(*words)
            self.assertEqual(end.exception.code, 2, words)

    def test_moments(self) -> None:
        one = clock.moment()
        self.assertRegex(one.utc, r"^\d{4}-\d\d-\d\dT\d\d:\d\d:\d\dZ$")
        self.assertRegex(one.local, r"^\d{4}-\d\d-\d\dT\d\d:\d\d:\d\d[+-]\d\d:\d\d$")
        local = datetime.datetime.fromisoformat(one.local)
        self.assertEqual(local, datetime.datetime.fromisoformat(one.utc.replace("Z", "+00:00")))

    def test_letters(self) -> None:
        plain = letters.large("PASS")
        self.assertEqual(plain.count("\n"), 7)
        self.assertTrue(plain.startswith("########       ######"), plain)
        self.assertNotIn("\033", plain)
        for word, color in (("PASS", 32), ("FAIL", 31), ("STOP", 33)):
            with mock.patch.object(letters, "sys") as system, mock.patch.dict(os.environ):
                os.environ.pop("NO_COLOR", None)
                system.stdout.isatty.return_value = True
                text = letters.large(word)
                self.assertEqual(text.count(f"\033[1;{color}m"), 7)
                self.assertEqual(text.count("\033[0m\n"), 7)
                os.environ["NO_COLOR"] = ""
                self.assertNotIn("\033", letters.large(word))

    def test_codes(self) -> None:
        # Version 1 in the highest 4 bits, part number 0x0123 in 16, maker 0x00B in 11, then a 1.
        self.assertEqual(code_text(0x10123017), "maker 0x00B, part number 0x0123, version 1")
        self.assertEqual(code_text(0xFFFFFFFF), "maker 0x7FF, part number 0xFFFF, version 15")
        code = f"{0xC0123017:032b}"
        self.assertEqual(pattern_text(code), "maker 0x00B, part number 0x0123, version 12")
        self.assertEqual(
            pattern_text("X" * 4 + code[4:]), "maker 0x00B, part number 0x0123, version any"
        )
        odd = "1X00" + code[4:19] + "X" + "X" * 11 + "1"
        self.assertEqual(pattern_text(odd), "maker any, part number 000000010010001X, version 1X00")

    def test_parts_with_other_codes(self) -> None:
        chain = [Link("U1", 2, True), Link("U2", 2, True)]
        good = 0x10123017 << 32 | 0x20123019
        statement = Compared("SDR", 64, good, (1 << 64) - 1, 1)
        says = "wrong part {}: it has maker 0x00{}, part number 0x0123, version {}; it should have "
        for bits, begins in (
            (good ^ 1 << 60, [says.format("U1", "B", 0)]),
            (good ^ 1 << 28, [says.format("U2", "C", 3)]),
            (good ^ 1 << 28 ^ 1 << 60, [says.format("U2", "C", 3), says.format("U1", "B", 0)]),
            (good, ["the codes of the parts are not those of the chain file"]),
            ((1 << 64) - 1, ["all bits of the codes are 1: look at the scan chain"]),
        ):
            lines = wrong_parts(chain, statement, bits)
            self.assertEqual(len(lines), len(begins))
            for said, begin in zip(lines, begins):
                self.assertTrue(said.startswith(begin), said)

    def test_where_a_chain_is_open(self) -> None:
        # U3 is at TDO. Each part loads 01, and only the two lowest bits of a part count.
        chain = [Link("U1", 2, True), Link("U2", 3, True), Link("U3", 2, True)]
        statement = Compared("SIR", 7, 0b0100101, 0b1101111, 1)
        for bits, begin in (
            (
                0b0000101,
                "U2, U3 answer, U1 doesn't and all bits behind are 0: look at U1 and the way",
            ),
            (
                0b1000101,
                "U2, U3 answer, U1 doesn't: look at U1 and the way from its TDO to TDI of U2",
            ),
            (0b1111101, "U3 answers, U2 doesn't and all bits behind are 1: look at U2"),
            (
                0b1111111,
                "no part answers as it should and all bits behind are 1: look at the cable",
            ),
            (0b0100110, "no part answers as it should: look at the cable, the supply"),
            (0b0110101, "all parts answer, but the bits behind them are wrong: look at the cable"),
        ):
            said = open_place(chain, statement, bits)
            self.assertTrue(said.startswith(begin), said)


class Stations(unittest.TestCase):
    """A station that tells and records."""

    def station(self, **attrs: object) -> line.Station:
        """Returns a station with some parts."""
        one = object.__new__(line.Station)
        now = clock.Moment(f"{TODAY}T08:00:00Z", f"{TODAY}T10:00:00+02:00")
        values = {
            "clock": lambda: now,
            "record": mock.Mock(),
            "version": "v",
            "bench": None,
            **attrs,
        }
        one.__dict__.update(values)
        return one

    def test_the_beginning(self) -> None:
        for last, said in (
            (None, ""),
            (attempt(1, "A", on=BEFORE), ""),
            (attempt(0, "A"), ""),
            (attempt(1, "A"), f"the clock went back: attempt 1 is of {TODAY}T10:00:01+02:00\n"),
        ):
            one = self.station(product=mock.Mock(test="t"))
            cast(mock.Mock, one.record).last.return_value = last
            with contextlib.redirect_stderr(io.StringIO()) as err:
                one.begin("A")
            self.assertEqual(err.getvalue(), said)
            (row,) = cast(mock.Mock, one.record).begin.call_args[0]
            self.assertEqual(
                row[:5], ("A", f"{TODAY}T08:00:00Z", f"{TODAY}T10:00:00+02:00", "t", "v")
            )
            self.assertRegex(row.station, rf" process {os.getpid()}$")

    def test_the_end(self) -> None:
        one = self.station()
        logs = [Log("board", "0\n")]
        one.end(3, "p", Outcome("FAIL", "board", ["a", "b"], "2 of 2", logs))
        ending = Ending(f"{TODAY}T08:00:00Z", "p", "board", "FAIL", "2 of 2", "a; b")
        cast(mock.Mock, one.record).end.assert_called_once_with(3, ending, logs)

    def test_what_is_shown(self) -> None:
        for verdict, word in (
            ("PASS", "PASS"),
            ("CHAIN", "FAIL"),
            ("PART", "FAIL"),
            ("PLAYER", "STOP"),
        ):
            with mock.patch.object(line, "say") as say:
                self.station().show(3, "A", Outcome(verdict, "chain", ["x", "y"]))
            (text,) = say.call_args[0]
            head = f"{verdict}  A  {TODAY}T10:00:00+02:00  attempt 3\nx\ny\n"
            self.assertEqual(text, f"\n{letters.large(word)}\n{head}")
        with mock.patch.object(line, "say") as say:
            self.station().show(3, "A", Outcome("FAIL", "board", [], "1 of 2"))
        self.assertIn("\nFAIL (1 of 2)  A  ", say.call_args[0][0])

    def test_what_explains_a_failure(self) -> None:
        one, found = self.station(), Finding.of(("x",), ("a", "b"), "")
        with mock.patch.object(line, "explain", return_value=found) as explains:
            with mock.patch.object(line, "say") as say:
                one.explain(3, Outcome("FAIL", "board", []))
                self.assertEqual(explains.call_args[0][2], "attempt3")
                say.assert_called_once_with("a\nb\n")
                store = cast(mock.Mock, one.record)
                store.explain.assert_called_once_with(3, found)
                store.explain.side_effect = RecordFailed("full")
                with contextlib.redirect_stderr(io.StringIO()) as err:
                    one.explain(3, Outcome("FAIL", "board", []))
        said = "full; the attempt is in it, without what explains it\n"
        self.assertEqual(err.getvalue(), said)

    def test_explanations(self) -> None:
        logs = [Log("walk", "1\n"), Log("board", "0\n"), Log("board again", "2\n")]
        bench = mock.Mock(places=None)
        self.assertEqual(explanation.explain(bench, logs[:1]), Finding.of((), (), ""))
        seen = mock.Mock(faults=["x"])
        names = ("look", "show", "neighbor_lines", "first_lines", "picture")
        answers: tuple[object, ...] = (seen, ["FAIL 1", "  x"], ["near"], ["likely"], "<svg>")
        with contextlib.ExitStack() as stack:
            parts = [
                stack.enter_context(mock.patch.object(explanation, name, return_value=answer))
                for name, answer in zip(names, answers)
            ]
            found = explanation.explain(bench, logs, "n")
            _, log, walk = parts[0].call_args[0]
            self.assertEqual((log.text, walk.text), ("0\n", "1\n"))
            self.assertEqual(found, Finding.of(("x",), ("likely",), "FAIL 1\n  x\nnear\n", "<svg>"))
            parts[4].assert_called_once_with(bench, seen, "n")
            explanation.explain(bench, logs[1:])
            self.assertIsNone(parts[0].call_args[0][2])
            parts[0].side_effect = BadInput("so")
            lines = explanation.explain(bench, logs).lines
        self.assertEqual(lines, ("the log can't be explained: so",))
        self.assertEqual(explanation.picture(bench, seen, "n"), "")
        with mock.patch.object(explanation, "places_section", return_value="<svg>") as draws:
            bench.places = "places"
            self.assertEqual(explanation.picture(bench, seen, "n"), "<svg>")
        draws.assert_called_once_with(bench.failing.board, seen, "places", "n")


class Recorded(Folder):
    """Records in a folder that may not be written."""

    def test_only_one_may_be_written(self) -> None:
        path = pathlib.Path(self.folder, "record.sqlite")
        record.create(path)
        cases: list[list[pathlib.Path]] = [[], [path], [path.parent], [path, path.parent]]
        for writable in cases:
            with mock.patch(
                "btest_tools.station.record.os.access",
                lambda name, _, good=writable: name in good,
            ):
                with Record(path) as store:
                    row = Beginning("A", "u", "l", "t", "b", "s")
                    if len(writable) == 2:
                        self.assertEqual(store.begin(row), 1)
                    else:
                        self.assertRaises(RecordFailed, store.begin, row)

    def test_the_name_of_a_program(self) -> None:
        with mock.patch.object(sys, "argv", ["/bin/tool.py", "word"]):
            with contextlib.redirect_stderr(io.StringIO()) as err, self.assertRaises(SystemExit):
                frame(mock.Mock(side_effect=BadInput("so")))
        self.assertEqual(err.getvalue(), "tool.py: so\n")


class Meant(unittest.TestCase):
    """Attempts in place of files."""

    def test_words(self) -> None:
        for station, nets, log, wanted in (
            ("F", None, None, "found"),
            (None, "n", "l", None),
            ("F", "n", None, "error"),
            ("F", None, "l", "error"),
            (None, None, "l", "error"),
        ):
            reader = mock.Mock(**{"error.side_effect": ValueError})
            chosen = cast(
                command.Words,
                SimpleNamespace(
                    station=station, nets=nets, chain=nets, log=log, serial="A", attempt=2
                ),
            )
            with mock.patch.object(attempts, "inputs", return_value="found") as inputs:
                try:
                    found: object = attempts.chosen_inputs(reader, chosen)
                except ValueError:
                    found = "error"
            self.assertEqual(found, wanted)
            if wanted == "found":
                inputs.assert_called_once_with("F", "A", 2)

    def test_the_test_must_be_the_same(self) -> None:
        product = cast(Product, SimpleNamespace(test="b" * 64, folder="F"))
        with self.assertRaises(BadInput) as why:
            attempts.check_test(product, attempt(3, "A", test="a" * 64))
        said = f"its fingerprint is {'a' * 12}.., that of F is {'b' * 12}.."
        self.assertEqual(str(why.exception), f"attempt 3 was made by another test: {said}")
        attempts.check_test(product, attempt(3, "A", test="b" * 64))

    def test_a_walking_test_that_was_not_played(self) -> None:
        log = Text("the log", "0\n")
        one = attempts.Inputs(attempt(3, "A"), [], None, log, None)
        self.assertEqual(one.title, "A, attempt 3")
        self.assertRaisesRegex(BadInput, "^attempt 3 has no log of the walking", one.walk_log)
        self.assertIs(one._replace(walk=log).walk_log(), log)

    def test_boards_with_places(self) -> None:
        board = read_files()
        self.assertEqual(Placed(board).between("D0", "D1"), ("U1.1", "U1.2"))
        self.assertEqual(record.FORMAT, 1)
        self.assertEqual(Beginning("A", "u", "l", "t", "b", "s")[:3], ("A", "u", "l"))
        self.assertEqual(Tested("A", [attempt(4, "A")], True).number, 4)


if __name__ == "__main__":
    unittest.main()
