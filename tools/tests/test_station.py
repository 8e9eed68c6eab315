"""The station without a player: what registers say, serial numbers, the record, the yield. The
expected values were worked out by hand."""

from __future__ import annotations

import os
import pathlib
import signal
import sqlite3
import tempfile
import unittest

from tests.support import DEMO

from btest_tools.board import read_board
from btest_tools.files import BadInput
from btest_tools.station import record
from btest_tools.station.letters import large
from btest_tools.station.line import BadSerial, serial_of
from btest_tools.station.lock import Lock
from btest_tools.station.openocd import OpenOcd
from btest_tools.station.page_folder import PageFailed, PageFolder
from btest_tools.station.parts import Link, codes, open_place, wrong_parts
from btest_tools.station.player import Compared, Interrupted, PlayerFailed, compared
from btest_tools.station.record import Beginning, Ending, Finding, Log, Record, RecordFailed
from btest_tools.station.stop import Stop
from btest_tools.station.yields import boards_of, counts, faults_of, yield_of

SVF = """SIR 7 TDI (7F) TDO (25) MASK (6F);
SDR 8 TDI (00);
SDR 9
 TDI (0A5)
 TDO (1 4A) MASK (1FF);
"""


class PlayerTest(unittest.TestCase):
    """What a text compares."""

    def test_compared(self) -> None:
        """Each statement that compares has the line in which it ends."""
        found = compared(SVF)
        wanted = [Compared("SIR", 7, 0x25, 0x6F, 1), Compared("SDR", 9, 0x14A, 0x1FF, 5)]
        self.assertEqual(found, wanted)
        self.assertEqual(found[0].differs(0x35), 0)  # bit 4 isn't compared
        self.assertEqual(found[0].differs(0x24), 1)


class StopTest(unittest.TestCase):
    """Ctrl-C and a player that has ended."""

    def test_stopped(self) -> None:
        """An end of the player is its failure, and with Ctrl-C the operator's stop, until the pins
        are brought to reset."""
        stop = Stop()
        self.addCleanup(stop.close)
        player = OpenOcd(pathlib.Path("/"), stop, "true", 5)
        self.addCleanup(player.close)
        for is_asked, may_stop, wanted in (
            (False, True, PlayerFailed),
            (True, True, Interrupted),
            (True, False, PlayerFailed),
        ):
            player.start()
            assert player.process
            player.process.wait()
            if is_asked:
                stop.ask(signal.SIGINT, None)
            self.assertEqual(stop.is_asked, is_asked)
            player.may_stop = may_stop
            self.assertRaises(wanted, player.ask, "board.svf", 5)
        stop.clear()
        self.assertFalse(stop.is_asked)


class ChainTest(unittest.TestCase):
    """Three parts with 2, 3 and 2 instruction bits. U3 is at TDO, and each part loads 01."""

    chain = [Link("U1", 2, False), Link("U2", 3, False), Link("U3", 2, False)]
    statement = Compared("SIR", 7, 0b0100101, 0b1101111, 6)

    def told(self, bits: int) -> str:
        """Returns what is said of the bits that the instruction registers loaded."""
        return open_place(self.chain, self.statement, bits)

    def test_open_behind_first(self) -> None:
        """U1 loads ones: the way from it to U2 is open."""
        wanted = "U2, U3 answer, U1 doesn't and all bits behind are 1: look at U1 and the way from"
        self.assertEqual(self.told(0b1100101), wanted + " its TDO to TDI of U2")

    def test_wrong_bits(self) -> None:
        """U2 loads 00 and U1 what it should: no part behind U3 is sure."""
        wanted = "U3 answers, U2 doesn't: look at U2 and the way from its TDO to TDI of U3"
        self.assertEqual(self.told(0b0100001), wanted)

    def test_nothing(self) -> None:
        """No part answers."""
        self.assertTrue(self.told(0).startswith("no part answers as it should and all bits"))

    def test_all_answer(self) -> None:
        """The first bits of all parts are right, and one behind them isn't."""
        chain = [Link("U1", 3, False)]
        statement = Compared("SIR", 3, 0b001, 0b111, 6)
        told = open_place(chain, statement, 0b101)
        self.assertTrue(told.startswith("all parts answer"), told)


class CodesTest(unittest.TestCase):
    """U1 has a code whose version doesn't matter: part number 0x0123, maker 0x00B. U2 at TDO has
    none."""

    chain = [Link("U1", 4, True), Link("U2", 4, False)]
    statement = Compared("SDR", 33, 0x10123017 << 1, 0x0FFFFFFF << 1 | 1, 6)
    wanted = "it should have maker 0x00B, part number 0x0123, version any"

    def told(self, bits: int) -> list[str]:
        """Returns what is said of the bits of the codes."""
        return wrong_parts(self.chain, self.statement, bits)

    def test_other_maker(self) -> None:
        """Version 2 of maker 0x00F."""
        line = "wrong part U1: it has maker 0x00F, part number 0x0123, version 2; "
        self.assertEqual(self.told(0x2012301F << 1), [line + self.wanted])

    def test_no_code(self) -> None:
        """A part that should have a code gives a single 0."""
        self.assertEqual(self.told(0), [f"wrong part U1: it has no code; {self.wanted}"])

    def test_code_too_many(self) -> None:
        """U2 has a code and should have none; U1 is beyond the end of the scan."""
        has = "wrong part U2: it has maker 0x00B, part number 0x0123, version 1"
        bits = 0x10123017 | 1 << 32  # the next code begins with a 1, too
        self.assertEqual(self.told(bits), [has + "; it should have no code"])

    def test_open(self) -> None:
        """Ones alone are no codes."""
        told = self.told((1 << 33) - 1)
        self.assertEqual(told, ["all bits of the codes are 1: look at the scan chain"])

    def test_end(self) -> None:
        """A part isn't yielded if the scan ends before it, or within its code."""
        chain = [Link("U1", 4, True), Link("U2", 4, False)]
        none = chain[1], None
        self.assertEqual(list(codes(chain, 1, 0)), [none])
        self.assertEqual(list(codes(chain, 32, 0b10)), [none])
        self.assertEqual(list(codes(chain, 33, 0b1110)), [none, (chain[0], 0b111)])
        self.assertEqual(list(codes(chain, 2, 0)), [none, (chain[0], None)])

    def test_partly_known(self) -> None:
        """A field in which some bits don't matter is shown in its bits."""
        chain = [Link("U1", 4, True)]
        statement = Compared("SDR", 32, 0x10123017, 0x1FFFFFFF, 6)
        told = wrong_parts(chain, statement, 0x10124017)
        self.assertTrue(told[0].endswith("part number 0x0123, version XXX1"), told)


class SerialTest(unittest.TestCase):
    """Serial numbers."""

    def test_good(self) -> None:
        """Blanks within are kept, those around are not."""
        for text in ("1", "x" * 64, "A [1] $x", "é µ 板"):
            self.assertEqual(serial_of(f" {text} "), text)

    def test_bad(self) -> None:
        """What isn't visible, nothing, and more than 64 characters."""
        for text in ("", "   ", "x" * 65, "a\tb", "a\nb", "\x1b", "\udcff", "a\u200bb", "a\u00a0b"):
            self.assertRaises(BadSerial, serial_of, text)

    def test_letters(self) -> None:
        """Large letters have seven lines."""
        self.assertEqual(
            large("FAIL").splitlines()[-1], "##           ##      ##   ##########   ##########"
        )
        self.assertEqual(len(large("STOP").splitlines()), 7)


BEGIN = Beginning(
    "A1", "2026-05-04T08:00:00Z", "2026-05-04T10:00:00+02:00", "test", "btest", "here"
)
DAYS = {"1": "2026-05-03", "2": "2026-05-04", "3": "2026-05-05"}


class RecordTest(unittest.TestCase):
    """A record in a folder of its own."""

    def setUp(self) -> None:
        """Makes it."""
        room = tempfile.TemporaryDirectory()  # pylint: disable=consider-using-with
        self.addCleanup(room.cleanup)
        self.folder = pathlib.Path(room.name)
        self.path = self.folder / "a [b] #?% é.sqlite"
        record.create(self.path)
        self.record = Record(self.path)
        self.record.database.execute("PRAGMA synchronous = OFF")  # which is faster
        self.addCleanup(self.record.close)

    def add(self, serial: str, day: str, verdict: str, *faults: str) -> int:
        """Adds an attempt of a day."""
        name = DAYS[day]
        local = f"{name}T10:00:00+02:00"
        begin = BEGIN._replace(serial=serial, utc=f"{name}T08:00:00Z", local=local)
        number = self.record.begin(begin)
        if verdict != "CUT":
            ending = Ending("", "", "board", verdict, "", "")
            logs = [Log("board", f"{serial}\n")] if verdict == "FAIL" else []
            self.record.end(number, ending, logs)
        if faults:
            self.record.explain(number, Finding.of(faults, ("line",), "details", "<svg>"))
        return number

    def test_attempt(self) -> None:
        """What is written comes back, and an attempt without an end is CUT."""
        number = self.record.begin(BEGIN)
        one = self.record.attempt(number)
        assert one
        self.assertEqual((one.verdict, one.day, one.local), ("CUT", "2026-05-04", BEGIN.local))
        logs = [Log("board", "0A\nFF\n"), Log("walk", "01\n"), Log("board again", "0A\nFF\n")]
        ending = Ending("2026-05-04T08:00:09Z", "player", "board", "FAIL", "2 of 2", "says")
        self.record.end(number, ending, logs)
        one = self.record.last()
        assert one
        self.assertEqual((one.verdict, one.runs, one.says), ("FAIL", "2 of 2", "says"))
        self.assertEqual(self.record.logs(number), logs)
        self.assertEqual(self.record.attempt(number + 1), None)
        self.assertTrue(self.record.is_whole())

    def test_once(self) -> None:
        """An attempt ends once."""
        number = self.add("A1", "2", "PASS")
        ending = Ending("", "", "board", "FAIL", "", "")
        self.assertRaises(RecordFailed, self.record.end, number, ending, [])
        self.assertEqual([one.verdict for one in self.record.attempts()], ["PASS"])

    def test_changes(self) -> None:
        """No row is changed or deleted."""
        self.add("A1", "2", "FAIL", "stuck D0 0")
        with self.record.database as database:
            for table in ("attempt", "ending", "log", "log_text", "finding"):
                self.assertRaises(sqlite3.Error, database.execute, f"DELETE FROM {table}")
                column = "packed" if table == "log_text" else "rowid" if table == "ending" else None
                if column:
                    change = f"UPDATE {table} SET {column} = 1"
                    self.assertRaises(sqlite3.Error, database.execute, change)

    def test_no_record(self) -> None:
        """A file that is none is told of in a line."""
        path = self.folder / "none"
        path.write_text("no database, and long enough to see that" * 40)
        self.assertRaisesRegex(BadInput, "not a database", Record, path)

    def test_yield(self) -> None:
        """Five boards on the second day: one was judged the day before, one was never judged."""
        for serial, day, verdict in (
            ("A", "1", "FAIL"),
            ("A", "2", "PASS"),  # after repair
            ("B", "2", "PASS"),  # at once
            ("C", "2", "PASS"),
            ("C", "2", "FAIL"),  # passed, and failed then
            ("D", "2", "PLAYER"),
            ("D", "2", "CUT"),  # no verdict
            ("E", "2", "STOPPED"),
            ("E", "2", "CHAIN"),  # not passed
            ("E", "3", "PASS"),  # is of the day after
            ("F", "3", "PASS"),
        ):
            self.add(serial, day, verdict)
        boards = boards_of(self.record.of_boards_of(DAYS["2"]))
        self.assertEqual([board.serial for board in boards], ["A", "B", "C", "D", "E"])
        found = yield_of(boards)
        counted = (found.boards, found.judged, found.first, found.after_repair, found.failed)
        self.assertEqual(counted, (5, 4, 1, 1, 2))

    def test_faults(self) -> None:
        """A board counts once for a fault, and its nets and parts once for all faults."""
        pair = ("open U1.1 0", "stuck D0 0")
        self.add("A", "2", "FAIL", *pair)
        self.add("A", "2", "FAIL", *pair)
        self.add("B", "2", "FAIL", *pair)
        self.add("C", "2", "FAIL", "short AND D0 D1 with open U3.5 1")
        boards = boards_of(self.record.of_boards_of(DAYS["2"]))
        findings = self.record.findings([1, 2, 3, 4])
        faults = faults_of(boards, DAYS["2"], findings, {})
        self.assertEqual([len(fault.boards) for fault in faults], [2, 1])
        board = read_board(DEMO[0], DEMO[1], DEMO[2:])
        parts, nets = counts(faults, {pin: net.name for pin, net in board.net_of.items()})
        self.assertEqual(parts, [("U1", 2), ("U3", 1)])
        self.assertEqual(nets, [("D0", 3), ("A1", 1), ("D1", 1)])

    def test_the_most_frequent_fault_is_first(self) -> None:
        """B and C have the same fault, and A another one before."""
        self.add("A", "2", "FAIL", "stuck D0 0")
        for serial in ("B", "C"):
            self.add(serial, "2", "FAIL", "stuck D1 0")
        boards = boards_of(self.record.of_boards_of(DAYS["2"]))
        faults = faults_of(boards, DAYS["2"], self.record.findings([1, 2, 3]), {})
        self.assertEqual([fault.names for fault in faults], [("stuck D1 0",), ("stuck D0 0",)])

    def test_runs(self) -> None:
        """A fault that comes and goes is another row, and what can't be judged is none."""
        fault, says = "open U2.4 1", ("likely one cause", "  D2: open U2.4 1")
        numbers = []
        for serial, runs in (("A", "2 of 2"), ("B", "1 of 2"), ("C", "2 of 2, 5 bits differ")):
            numbers.append(self.record.begin(BEGIN._replace(serial=serial)))
            self.record.end(numbers[-1], Ending("", "", "board", "FAIL", runs, ""), [])
            self.record.explain(numbers[-1], Finding.of((fault,), says, ""))
        boards = boards_of(self.record.of_boards_of(DAYS["2"]))
        findings = self.record.findings(numbers)
        faults = faults_of(boards, DAYS["2"], findings, {})
        self.assertEqual([one.runs for one in faults], ["", "1 of 2", "2 of 2, bits differ"])
        faults = faults_of(boards, DAYS["2"], findings, {}, numbers[1:])
        self.assertEqual([one.runs for one in faults], [""])
        told = dict.fromkeys(numbers, "likely one cause; D2: open U2.4 1")
        self.assertEqual(self.record.explanations(), told)

    def test_findings(self) -> None:
        """A finding comes back with its picture, equal ones are one object, and the log of a
        failure is found by its fingerprint."""
        numbers = [self.add(name, "2", "FAIL", "stuck D0 0") for name in "AAB"]
        found = self.record.findings([*numbers, 99])
        self.assertEqual(list(found), numbers)
        self.assertEqual(found[1].more(), ("details", "<svg>"))
        self.assertIs(found[1], found[3])
        self.assertEqual(Finding((), (), b"no zlib").more(), ("", ""))
        marks = self.record.log_marks(numbers)
        self.assertEqual(marks[1], marks[2])
        self.assertEqual([mark.stage for mark in marks[3]], ["board"])
        self.assertEqual(self.record.log_text(marks[3][0].fingerprint), "B\n")
        self.assertEqual(self.record.log_text("none"), None)

    def test_many(self) -> None:
        """Attempts are asked for some hundred at a time."""
        with self.record.database as database:
            database.execute("BEGIN")
            for number in range(1, 1202):
                row = (number, '["f"]', "[]", b"")
                database.execute("INSERT INTO finding VALUES (?, ?, ?, ?)", row)
        found = self.record.findings(range(1, 1202))
        self.assertEqual(list(found), list(range(1, 1202)))

    def test_pages(self) -> None:
        """A page is written only if it is new or has changed."""
        with PageFolder(self.folder / "days" / "day") as pages:
            pages.put("1.html", "µ")
            path = pages.path / "1.html"
            path.chmod(0o444)
            os.utime(path, ns=(5, 5))
            pages.put("1.html", "µ")
            self.assertEqual(path.stat().st_mtime_ns, 5)
            path.chmod(0o644)
            for text in ("µ.", "", "x" * 100_000):
                pages.put("1.html", text)
                self.assertEqual(path.read_text("utf-8"), text)
            self.assertEqual((pages.drop("1.html"), pages.drop("1.html")), (True, False))
            path.mkdir()
            self.assertRaisesRegex(PageFailed, "1.html can't be written", pages.put, "1.html", "")
        self.assertRaisesRegex(PageFailed, "sqlite can't be written", PageFolder, self.path)

    def test_lock(self) -> None:
        """A folder has one station, until that gives it back."""
        lock = Lock(self.folder, "2026-05-04T08:00:00Z")
        self.assertRaisesRegex(RecordFailed, "since 2026-05-04", Lock, self.folder, "")
        lock.release()
        Lock(self.folder, "").release()


if __name__ == "__main__":
    unittest.main()
