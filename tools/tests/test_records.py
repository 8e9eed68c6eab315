"""The record of a station as a file: what is refused, taken back or passed over. No text that a
station prints is compared here."""

from __future__ import annotations

import os
import pathlib
import sqlite3
import unittest
from types import SimpleNamespace
from typing import Optional, cast
from unittest import mock

from tests.support import Folder

from btest_tools.files import BadInput
from btest_tools.station import attempts, line, record
from btest_tools.station.folder import Product
from btest_tools.station.record import Beginning, Ending, Finding, Log, Record, RecordFailed

DAY, OTHER = "2026-05-04", "2026-05-05"
ENDING = Ending("2026-05-04T08:00:09Z", "player", "board", "FAIL", "2 of 2", "says")


def beginning(serial: str, day: str = DAY) -> Beginning:
    """Returns the beginning of an attempt."""
    return Beginning(serial, f"{day}T08:00:00Z", f"{day}T10:00:00+02:00", "test", "btest", "here")


class Kept(Folder):
    """A record with some attempts."""

    def setUp(self) -> None:
        super().setUp()
        self.path = pathlib.Path(self.folder, "record.sqlite")
        record.create(self.path)
        self.record = Record(self.path)
        self.addCleanup(self.record.close)

    def add(self, serial: str, verdict: Optional[str] = "FAIL", day: str = DAY) -> int:
        """Adds an attempt with two logs, which didn't end if it has no verdict."""
        number = self.record.begin(beginning(serial, day))
        if verdict:
            logs = [Log("board", f"{serial:.2}\n"), Log("walk", "01\n")]
            self.record.end(number, ENDING._replace(verdict=verdict), logs)
        return number

    def damage(self, table: str, change: str) -> None:
        """Changes what no program changes."""
        with sqlite3.connect(self.path) as database:
            database.execute(f"DROP TRIGGER IF EXISTS {self.trigger(database, table)}")
            database.execute(f"UPDATE {table} SET {change}")
        database.close()

    def trigger(self, database: sqlite3.Connection, table: str) -> str:
        """Returns the name of what guards a table against changes."""
        statement = "SELECT name, sql FROM sqlite_master WHERE type = 'trigger' AND tbl_name = ?"
        found = database.execute(statement, (table,)).fetchall()
        return str(next(name for name, sql in found if "UPDATE" in sql.upper()))

    def test_all_columns(self) -> None:
        number = self.add("A1")
        one = self.record.attempt(number)
        assert one
        wanted = {
            **{"number": 1, "serial": "A1", "day": DAY, "test": "test", "btest": "btest"},
            **{"utc": f"{DAY}T08:00:00Z", "local": f"{DAY}T10:00:00+02:00", "station": "here"},
            **{"verdict": "FAIL", "stage": "board", "runs": "2 of 2", "says": "says"},
            **{"player": "player", "ended_utc": ENDING.utc},
        }
        self.assertEqual({name: getattr(one, name) for name in wanted}, wanted)
        cut = self.record.attempt(self.add("A2", None))
        assert cut
        self.assertEqual((cut.verdict, cut.number, self.record.logs(2)), ("CUT", 2, []))

    def test_which_attempts(self) -> None:
        for serial, day in (("A", DAY), ("B", DAY), ("A", OTHER), ("C", OTHER)):
            self.add(serial, day=day)
        for found, numbers in (
            (self.record.attempts(), [1, 2, 3, 4]),
            (self.record.of_serial("A"), [1, 3]),
            (self.record.of_serial("a"), []),
            (self.record.of_boards_of(DAY), [1, 2]),
            (self.record.of_boards_of(OTHER), [1, 3, 4]),
        ):
            self.assertEqual([one.number for one in found], numbers)
        last = self.record.last()
        self.assertEqual(last and last.number, 4)
        marks = self.record.log_marks([3, 4, 9])
        self.assertEqual(list(marks), [3, 4])
        self.assertEqual([mark.stage for mark in marks[4]], ["board", "walk"])
        self.assertEqual(marks[3][1], marks[4][1])  # equal logs
        self.assertNotEqual(marks[3][0], marks[4][0])

    def test_what_fails_is_taken_back(self) -> None:
        number = self.add("A1", None)
        bad = [Log("board", "0\n"), Log("walk", "\u00b5")]  # which is no row of a log
        self.assertRaises(ValueError, self.record.end, number, ENDING, bad)
        one = self.record.attempt(number)
        self.assertEqual((one and one.verdict, self.record.logs(number)), ("CUT", []))
        self.record.end(number, ENDING, bad[:1])
        self.assertEqual(self.record.logs(number), bad[:1])

    def test_logs_that_are_damaged(self) -> None:
        self.add("A1")
        self.damage("log_text", "packed = x'00'")
        self.assertRaises(RecordFailed, self.record.logs, 1)
        marks = self.record.log_marks([1])[1]
        self.assertEqual([self.record.log_text(mark.fingerprint) for mark in marks], [None] * 2)

    def test_logs_by_their_marks(self) -> None:
        self.add("A1")
        marks = self.record.log_marks([1])[1]
        texts = [self.record.log_text(mark.fingerprint) for mark in marks]
        self.assertEqual(texts, ["A1\n", "01\n"])
        self.assertIsNone(self.record.log_text("none"))

    def test_explanations(self) -> None:
        for serial in ("A1", "A2"):
            self.add(serial)
        finding = Finding.of(("stuck D0 0", "open U1.1 0"), ("one", "two"), "details\n", "<svg>")
        self.assertEqual(finding.more(), ("details\n", "<svg>"))
        self.record.explain(1, finding)
        self.record.explain(2, finding)
        self.assertEqual(self.record.findings([1, 2]), {1: finding, 2: finding})
        self.assertEqual(self.record.explanations(), {1: "one; two", 2: "one; two"})
        self.assertEqual(self.record.findings([3]), {})
        self.damage("finding", "faults = '[' WHERE attempt = 1")
        self.assertEqual(self.record.findings([1, 2]), {2: finding})

    def test_other_formats(self) -> None:
        with sqlite3.connect(self.path) as database:
            database.execute(f"PRAGMA user_version = {record.FORMAT + 1}")
        database.close()
        self.assertRaises(RecordFailed, Record, self.path)
        self.assertRaises(RecordFailed, record.create, self.path)  # it is there

    def test_a_record_that_may_not_be_written(self) -> None:
        self.add("A1")
        with mock.patch("btest_tools.station.record.os.access", return_value=False):
            with Record(self.path) as other:
                self.assertEqual([one.serial for one in other.attempts()], ["A1"])
                self.assertRaises(RecordFailed, other.begin, beginning("A2"))
        self.assertRaises(sqlite3.Error, other.database.execute, "SELECT 1")  # it is closed

    def test_which_attempt_is_meant(self) -> None:
        for name, verdict in (("A", "FAIL"), ("B", "FAIL"), ("A", None), ("C", None)):
            self.add(name, verdict)
        cases: list[tuple[Optional[str], Optional[int], int]] = [
            ("A", None, 1),  # the last that has a log
            ("C", None, 4),
            (None, 3, 3),
            ("A", 3, 3),
            ("B", 2, 2),
        ]
        for serial, number, found in cases:
            self.assertEqual(attempts.find(self.record, serial, number).number, found)
        bad: list[tuple[Optional[str], Optional[int]]] = [("B", 3), (None, 9), ("D", None)]
        for serial, number in [*bad, (None, None)]:
            with self.assertRaises(BadInput):
                attempts.find(self.record, serial, number)

    def test_logs_as_texts(self) -> None:
        self.add("A1 \u00b5")
        one = self.record.attempt(1)
        assert one
        product, other = (
            cast(Product, SimpleNamespace(test=test, folder="F")) for test in ("test", "other")
        )
        text = attempts.log_of(product, self.record, one, "walk").text
        self.assertEqual([row for row in text.splitlines() if not row.startswith("#")], ["01"])
        self.assertTrue(text.isascii())
        self.assertRaises(BadInput, attempts.log_of, product, self.record, one, "chain")
        self.assertRaises(BadInput, attempts.log_of, other, self.record, one, "walk")


class Asked(unittest.TestCase):
    """Serial numbers, one after another."""

    def test_what_is_tested(self) -> None:
        for ends_at, tested, cleared, status in (("", 3, 4, 0), ("b", 2, 2, 130)):
            stop = mock.Mock(has_to_end=False)

            def test(serial: str, stop: mock.Mock = stop, last: str = ends_at) -> None:
                stop.has_to_end = serial == last

            station = mock.Mock(stop=stop, typed=lambda: [" a ", "\t", "b", "c"])
            station.test = mock.Mock(side_effect=test)
            with mock.patch.object(line, "tell") as tell:
                self.assertEqual(line.Station.test_all(station), status)
            calls = [call[0][0] for call in station.test.call_args_list]
            self.assertEqual(calls, ["a", "b", "c"][:tested])
            self.assertEqual(stop.clear.call_count, cleared)
            tell.assert_called_once()


if __name__ == "__main__":
    unittest.main()
