"""The record of a station: an SQLite database to which rows are added and in which none is changed.

An attempt has a row when it begins, and a second one when it ends, with its logs, in one
transaction. So an attempt that was killed has no end, and one that was told has one. Equal logs
are stored once.
"""

from __future__ import annotations

import contextlib
import hashlib
import json
import os
import pathlib
import sqlite3
import zlib
from collections.abc import Iterator, Sequence
from operator import itemgetter
from typing import Any, NamedTuple, Optional

from btest_tools.files import BadInput

NAME = "record.sqlite"
FORMAT = 1
SECONDS = 30.0  # how long a writer waits for a reader
AT_ONCE = 500  # attempts that a statement names
BEHIND = "\f"  # between the words about a failure and its picture
TABLES = (
    """CREATE TABLE attempt (number INTEGER PRIMARY KEY AUTOINCREMENT, serial TEXT NOT NULL,
       utc TEXT NOT NULL, local TEXT NOT NULL, day TEXT NOT NULL, test TEXT NOT NULL,
       btest TEXT NOT NULL, station TEXT NOT NULL)""",
    """CREATE TABLE ending (attempt INTEGER PRIMARY KEY REFERENCES attempt, utc TEXT NOT NULL,
       player TEXT NOT NULL, stage TEXT NOT NULL, verdict TEXT NOT NULL, runs TEXT NOT NULL,
       says TEXT NOT NULL)""",
    "CREATE TABLE log_text (fingerprint TEXT PRIMARY KEY, packed BLOB NOT NULL) WITHOUT ROWID",
    """CREATE TABLE log (attempt INTEGER NOT NULL REFERENCES attempt, place INTEGER NOT NULL,
       stage TEXT NOT NULL, fingerprint TEXT NOT NULL REFERENCES log_text,
       PRIMARY KEY (attempt, place)) WITHOUT ROWID""",
    """CREATE TABLE finding (attempt INTEGER PRIMARY KEY REFERENCES attempt, faults TEXT NOT NULL,
       lines TEXT NOT NULL, packed BLOB NOT NULL)""",
    "CREATE INDEX attempt_serial ON attempt (serial)",
    "CREATE INDEX attempt_day ON attempt (day)",
)
NEVER = """CREATE TRIGGER {table}_{what} BEFORE {what} ON {table}
           BEGIN SELECT RAISE(ABORT, 'nothing in the record is changed'); END"""
COLUMNS = """number, serial, attempt.utc, local, day, coalesce(verdict, 'CUT'), coalesce(stage, ''),
             coalesce(runs, ''), coalesce(says, 'the station was ended in this attempt'), test,
             btest, coalesce(player, ''), station, coalesce(ending.utc, '')"""


class RecordFailed(BadInput):
    """Why the record can't be written."""


class Log(NamedTuple):
    """What a board answered in a stage: the text of a response log."""

    stage: str
    rows: str


class LogMark(NamedTuple):
    """Which log a board gave in a stage: the fingerprint of its text."""

    stage: str
    fingerprint: str


class Finding(NamedTuple):
    """What explains a failure: the faults, any of which gives the log, the first lines to read, and
    packed what is known beyond that."""

    faults: tuple[str, ...]
    lines: tuple[str, ...]
    packed: bytes

    @classmethod
    def of(
        cls, faults: Sequence[str], lines: Sequence[str], details: str, picture: str = ""
    ) -> Finding:
        """Makes one, with all that is known of the nets and a picture of the board in HTML."""
        packed = zlib.compress(f"{details}{BEHIND}{picture}".encode("utf-8"))
        return cls(tuple(faults), tuple(lines), packed)

    def more(self) -> tuple[str, str]:
        """Returns what is known of the nets and the picture, each empty if there is none or if it
        can't be read."""
        details, _, picture = (unpacked(self.packed) or "").partition(BEHIND)
        return details, picture


class Beginning(NamedTuple):
    """What is known of an attempt when it begins."""

    serial: str
    utc: str
    local: str
    test: str
    btest: str
    station: str


class Ending(NamedTuple):
    """What is known of an attempt when it has ended."""

    utc: str
    player: str
    stage: str
    verdict: str
    runs: str
    says: str


class Attempt(NamedTuple):
    """An attempt in the record. An attempt that was killed has the verdict CUT, and no end."""

    number: int
    serial: str
    utc: str
    local: str
    day: str
    verdict: str
    stage: str
    runs: str
    says: str
    test: str
    btest: str
    player: str
    station: str
    ended_utc: str

    @property
    def made_with(self) -> tuple[str, str, str, str]:
        """The fingerprint of the test, the versions of btest and of the player, the station."""
        return self.test, self.btest, self.player, self.station


@contextlib.contextmanager
def told(path: pathlib.Path, what: str) -> Iterator[None]:
    """Makes one line of what SQLite says."""
    try:
        yield
    except (sqlite3.Error, OSError) as error:
        why = error.strerror if isinstance(error, OSError) else str(error)
        raise RecordFailed(f"the record {path} can't be {what}: {why}") from None


def unpacked(packed: bytes) -> Optional[str]:
    """Returns a text that was packed, or None if it can't be read."""
    try:
        return zlib.decompress(packed).decode("utf-8")
    except (zlib.error, ValueError, TypeError):
        return None


def create(path: pathlib.Path) -> None:
    """Makes an empty record."""
    with told(path, "written"):
        with contextlib.closing(sqlite3.connect(path, isolation_level=None)) as database:
            database.execute("BEGIN")
            for table in TABLES:
                database.execute(table)
            for table in ("attempt", "ending", "log_text", "log", "finding"):
                for what in ("UPDATE", "DELETE"):
                    database.execute(NEVER.format(table=table, what=what))
            database.execute(f"PRAGMA user_version = {FORMAT}")
            database.execute("COMMIT")


def connect(path: pathlib.Path) -> sqlite3.Connection:
    """Opens a record. What a killed station left half written is taken back, if that may be."""
    mode = "rw" if os.access(path, os.W_OK) and os.access(path.parent, os.W_OK) else "ro"
    database = sqlite3.connect(
        f"{path.resolve().as_uri()}?mode={mode}", uri=True, timeout=SECONDS, isolation_level=None
    )
    try:
        database.execute("PRAGMA synchronous = FULL")
        version = database.execute("PRAGMA user_version").fetchone()[0]
    except sqlite3.Error:
        database.close()
        raise
    if version != FORMAT:
        database.close()
        raise sqlite3.DatabaseError(f"it has format {version}, and this program reads {FORMAT}")
    return database


class Record:
    """A record that is open."""

    def __init__(self, path: pathlib.Path) -> None:
        self.path = path
        with told(path, "read"):
            self.database = connect(path)

    def close(self) -> None:
        """Closes it."""
        self.database.close()

    def __enter__(self) -> Record:
        return self

    def __exit__(self, *_: object) -> None:
        self.close()

    @contextlib.contextmanager
    def transaction(self) -> Iterator[sqlite3.Connection]:
        """Writes all of what is done in it, or nothing."""
        with told(self.path, "written"):
            self.database.execute("BEGIN IMMEDIATE")
            try:
                yield self.database
                self.database.execute("COMMIT")
            except BaseException:
                if self.database.in_transaction:
                    self.database.execute("ROLLBACK")
                raise

    def begin(self, beginning: Beginning) -> int:
        """Adds an attempt and returns its number."""
        with self.transaction() as database:
            row = (*beginning[:3], beginning.local[:10], *beginning[3:])
            done = database.execute("INSERT INTO attempt VALUES (NULL, ?, ?, ?, ?, ?, ?, ?)", row)
            return int(done.lastrowid or 0)

    def end(self, number: int, ending: Ending, logs: Sequence[Log]) -> None:
        """Adds the end of an attempt, with its logs."""
        with self.transaction() as database:
            database.execute("INSERT INTO ending VALUES (?, ?, ?, ?, ?, ?, ?)", (number, *ending))
            for place, log in enumerate(logs):
                rows = log.rows.encode("ascii")
                mark = hashlib.sha256(rows).hexdigest()
                packed = zlib.compress(rows)
                database.execute("INSERT OR IGNORE INTO log_text VALUES (?, ?)", (mark, packed))
                row = (number, place, log.stage, mark)
                database.execute("INSERT INTO log VALUES (?, ?, ?, ?)", row)

    def explain(self, number: int, finding: Finding) -> None:
        """Adds what explains the failure of an attempt."""
        with self.transaction() as database:
            names, lines = json.dumps(finding.faults), json.dumps(finding.lines)
            row = (number, names, lines, finding.packed)
            database.execute("INSERT INTO finding VALUES (?, ?, ?, ?)", row)

    def query(self, rest: str, *values: object) -> list[Attempt]:
        """Returns the attempts that the rest of a statement asks for."""
        statement = f"SELECT {COLUMNS} FROM attempt LEFT JOIN ending ON number = attempt {rest}"
        with told(self.path, "read"):
            return list(map(Attempt._make, self.database.execute(statement, values)))

    def attempts(self) -> list[Attempt]:
        """Returns all attempts, in their order."""
        return self.query("ORDER BY number")

    def of_serial(self, serial: str) -> list[Attempt]:
        """Returns the attempts of a board."""
        return self.query("WHERE serial = ? ORDER BY number", serial)

    def of_boards_of(self, day: str) -> list[Attempt]:
        """Returns the attempts of the boards that were tested on a day, up to the last one of this
        day, in their order. Those of earlier days are among them."""
        found = self.query("WHERE day = ? ORDER BY number", day)
        if found:
            boards = "SELECT serial FROM attempt WHERE day = ?"
            rest = f"WHERE day <> ? AND number < ? AND serial IN ({boards})"
            found += self.query(rest, day, found[-1].number, day)
        return sorted(found, key=itemgetter(0))

    def attempt(self, number: int) -> Optional[Attempt]:
        """Returns the attempt with a number."""
        return next(iter(self.query("WHERE number = ?", number)), None)

    def last(self) -> Optional[Attempt]:
        """Returns the last attempt."""
        return next(iter(self.query("ORDER BY number DESC LIMIT 1")), None)

    def logs(self, number: int) -> list[Log]:
        """Returns the logs of an attempt."""
        statement = """SELECT stage, packed FROM log JOIN log_text USING (fingerprint)
                       WHERE attempt = ? ORDER BY place"""
        found = []
        with told(self.path, "read"):
            for stage, packed in self.database.execute(statement, (number,)):
                text = unpacked(packed)
                if text is None:
                    raise RecordFailed(f"the log of attempt {number} can't be read")
                found.append(Log(stage, text))
        return found

    def log_marks(self, numbers: Sequence[int]) -> dict[int, list[LogMark]]:
        """Returns for each of some attempts that has logs which ones these are."""
        statement = """SELECT attempt, stage, fingerprint FROM log WHERE attempt IN ({})
                       ORDER BY attempt, place"""
        found: dict[int, list[LogMark]] = {}
        for number, *mark in self.rows_of(numbers, statement):
            found.setdefault(number, []).append(LogMark(*mark))
        return found

    def log_text(self, mark: str) -> Optional[str]:
        """Returns the log with a fingerprint, or None if it can't be read."""
        statement = "SELECT packed FROM log_text WHERE fingerprint = ?"
        with told(self.path, "read"):
            row = self.database.execute(statement, (mark,)).fetchone()
        return unpacked(row[0]) if row else None

    def findings(self, numbers: Sequence[int]) -> dict[int, Finding]:
        """Returns what explains the failures of some attempts. Equal findings are one object."""
        statement = "SELECT attempt, faults, lines, packed FROM finding WHERE attempt IN ({})"
        known: dict[tuple[object, ...], Finding] = {}
        found = {}
        for number, *row in self.rows_of(numbers, statement):
            faults, lines, packed = key = tuple(row)
            with contextlib.suppress(ValueError, TypeError):
                if key not in known:
                    texts = tuple(json.loads(faults)), tuple(json.loads(lines))
                    known[key] = Finding(*texts, packed)
                found[number] = known[key]
        return found

    def explanations(self) -> dict[int, str]:
        """Returns what explains each failure, in a line."""
        statement = "SELECT attempt, lines FROM finding"
        known: dict[str, str] = {}
        found = {}
        with told(self.path, "read"):
            for number, lines in self.database.execute(statement):
                with contextlib.suppress(ValueError, TypeError):
                    if lines not in known:
                        known[lines] = "; ".join(line.strip() for line in json.loads(lines))
                    found[number] = known[lines]
        return found

    def rows_of(self, numbers: Sequence[int], statement: str) -> Iterator[tuple[Any, ...]]:
        """Yields the rows of a statement with a place for the numbers of attempts, for some of
        them at a time."""
        with told(self.path, "read"):
            for at in range(0, len(numbers), AT_ONCE):
                some = ", ".join(map(str, numbers[at : at + AT_ONCE]))
                yield from self.database.execute(statement.format(some))

    def is_whole(self) -> bool:
        """Returns whether SQLite finds nothing wrong."""
        with told(self.path, "read"):
            return bool(self.database.execute("PRAGMA integrity_check").fetchone()[0] == "ok")
