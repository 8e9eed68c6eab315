"""An attempt of a folder, in place of the names of files: its log, and the files of its test."""

from __future__ import annotations

import argparse
import pathlib
from typing import NamedTuple, Optional

from btest_tools.files import BadInput, Text
from btest_tools.station import folder
from btest_tools.station.folder import Product
from btest_tools.station.record import Attempt, Log, Record


class Inputs(NamedTuple):
    """The words of a btest command about an attempt. `walk` is None if no walking test was
    played, and `places` if the folder has no file of places."""

    attempt: Attempt
    files: list[str]
    places: Optional[str]
    log: Text
    walk: Optional[Text]

    def walk_log(self) -> Text:
        """Returns the log of the walking test."""
        if not self.walk:
            raise BadInput(f"attempt {self.attempt.number} has no log of the walking test")
        return self.walk

    @property
    def title(self) -> str:
        """Which board it is."""
        return f"{self.attempt.serial}, attempt {self.attempt.number}"


def check_test(product: Product, attempt: Attempt) -> None:
    """Refuses an attempt that was made by another test than the folder has."""
    made = attempt.test
    if made != product.test:
        raise BadInput(
            f"attempt {attempt.number} was made by another test: its fingerprint is {made[:12]}.., "
            f"that of {product.folder} is {product.test[:12]}.."
        )


def find(record: Record, serial: Optional[str], number: Optional[int]) -> Attempt:
    """Returns the attempt with a number, else the last one of a serial number that has a log."""
    if number is not None:
        attempt = record.attempt(number)
        if not attempt or serial not in (None, attempt.serial):
            raise BadInput(f"there is no attempt {number}{f' of {serial}' if serial else ''}")
        return attempt
    if serial is None:
        raise BadInput("a serial number or --attempt N is wanted")
    attempts = record.of_serial(serial)
    if not attempts:
        raise BadInput(f"there is no attempt of {serial}")
    return next((one for one in reversed(attempts) if record.logs(one.number)), attempts[-1])


def log_text(product: Product, attempt: Attempt, log: Log) -> Text:
    """Returns a log as btest reads it, with a comment that says where it is from."""
    check_test(product, attempt)
    serial = attempt.serial.encode("ascii", "backslashreplace").decode("ascii")
    head = f"# attempt {attempt.number} of {serial}, {log.stage}, {attempt.local}\n"
    name = f"the log {log.stage} of attempt {attempt.number}"
    return Text(name, f"{head}# test {attempt.test}\n{log.rows}")


def log_of(product: Product, record: Record, attempt: Attempt, stage: str) -> Text:
    """Returns the log of a stage of an attempt."""
    for log in record.logs(attempt.number):
        if log.stage == stage:
            return log_text(product, attempt, log)
    verdict = attempt.verdict
    raise BadInput(f"attempt {attempt.number} ({verdict}) has no log of the stage {stage}")


def inputs(name: str, serial: Optional[str], number: Optional[int]) -> Inputs:
    """Returns the log and the files of an attempt of a folder."""
    product = folder.load(pathlib.Path(name))
    with Record(product.record) as record:
        attempt = find(record, serial, number)
        log = log_of(product, record, attempt, "board")
        has_walk = any(one.stage == "walk" for one in record.logs(attempt.number))
        walk = log_of(product, record, attempt, "walk") if has_walk else None
    return Inputs(attempt, product.files, product.layout_file, log, walk)


# The words of other programs


def add_words(words: argparse.ArgumentParser) -> None:
    """Adds the words that name an attempt in place of files."""
    folder_help = "takes an attempt of the folder of a station in place of all files"
    words.add_argument("--station", metavar="FOLDER", help=folder_help)
    words.add_argument("--serial", help="the serial number of its board: the last that has a log")
    words.add_argument("--attempt", metavar="N", type=int, help="the number of the attempt")


def chosen_inputs(words: argparse.ArgumentParser, chosen: argparse.Namespace) -> Optional[Inputs]:
    """Returns the attempt that the words name, or None if they name files."""
    files = [getattr(chosen, name, None) for name in ("log", "chain", "nets")]
    if chosen.station:
        if any(files):
            words.error("--station FOLDER takes the place of the files")
        return inputs(chosen.station, chosen.serial, chosen.attempt)
    if not chosen.nets:
        words.error("the names of the files are wanted, or --station FOLDER")
    return None
