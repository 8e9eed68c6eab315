"""The command line of the station."""

from __future__ import annotations

import argparse
import csv
import gc
import io
import pathlib
import sys
from collections.abc import Callable, Iterable, Iterator
from typing import NamedTuple, NoReturn, Optional

from btest_tools.btest import WHICH, Btest, default_program
from btest_tools.files import BadInput, put, tell
from btest_tools.station import attempts, day, folder, line, page_folder, record
from btest_tools.station.record import Attempt, Record

EPILOG = """Exit status of test: 0 the board passes, 1 it fails, 2 the command line, 3 the scan
chain, 4 a wrong part, 5 no result (no cable, for example), 6 the folder isn't whole, 7 the
record can't be written, 130 stopped. Of the others: 0 done, 1 refused, and 2, 6 and 7 as above."""
FOLDER = "the folder of the product"
PLACES = "where the pins are, for pictures: a .kicad_pcb, or a netlist by IPC-D-356"
SERIAL = "the serial number of a board; behind -- if it begins with -"


class Words(argparse.Namespace):
    """The words of the command line."""

    command: str
    folder: pathlib.Path
    btest: str
    openocd: str
    limit: float
    check: bool
    chain: Optional[str]
    nets: Optional[str]
    cable: Optional[str]
    places: Optional[str]
    bsdls: list[str]
    serial: Optional[str]
    attempt: Optional[int]
    stage: str
    day: Optional[str]
    out: Optional[pathlib.Path]


def prepare(words: Words) -> int:
    """Makes a folder, or says whether one is whole."""
    if words.check:
        product = folder.load(words.folder)
        with Record(product.record) as found:
            if not found.is_whole():
                raise folder.NotWhole(f"{product.record} is damaged; the folder isn't whole")
        put(f"{words.folder} is whole: test {product.test}, btest {product.btest}\n")
        return 0
    files = [words.chain or "", words.nets or "", *words.bsdls]
    sources = folder.Sources(files, words.cable or "", words.places)
    product = folder.prepare(words.folder, Btest(words.btest), sources)
    covered = product.text(folder.COVER).splitlines()[0]
    put(f"{words.folder} is made: test {product.test}\n{covered}\n")
    places = product.places
    if places:
        count, pins = folder.placed_pins(product.files, places)
        put(f"{count} of {pins} pins have a place\n")
    if not product.has_ident:
        put("a part of the chain has no description, so no identification codes are read\n")
    return 0


def test(words: Words) -> int:
    """Tests one board, or one after another."""
    serial = None if words.serial is None else line.serial_of(words.serial)
    product = folder.load(words.folder)
    station = line.Station(product, Btest(words.btest), words.openocd, words.limit)
    try:
        return station.test_all() if serial is None else station.test(serial)
    finally:
        station.close()


def open_record(words: Words) -> Record:
    """Opens the record of a folder, which may be changed otherwise."""
    path = words.folder / record.NAME
    if not path.is_file():
        raise folder.NotWhole(f"{path} is missing; the folder isn't whole")
    return Record(path)


def explained(found: Record, rows: Iterable[Attempt]) -> Iterator[Attempt]:
    """Yields attempts, of which each failure says what explains it."""
    explanations = found.explanations()
    for one in rows:
        if one.number in explanations:
            says = "; ".join(filter(None, [one.says, explanations[one.number]]))
            yield one._replace(says=says)
        else:
            yield one


def told(attempt: Attempt) -> str:
    """Returns the line of an attempt."""
    known = "".join(f"  {text}" for text in (attempt.runs, attempt.says) if text)
    verdict = f"{attempt.verdict:7}"
    return f"{attempt.number:6}  {attempt.local}  {verdict}  {attempt.serial}{known}\n"


def show(words: Words) -> int:
    """Lists the attempts."""
    with open_record(words) as found:
        if words.serial is None:
            put("".join(map(told, explained(found, found.attempts()))))
            return 0
        rows = found.of_serial(line.serial_of(words.serial))
        if not rows:
            raise BadInput(f"there is no attempt of {words.serial}")
        put("".join(map(told, explained(found, rows))))
    return 0


def log(words: Words) -> int:
    """Writes the log of an attempt."""
    product = folder.load(words.folder)
    with Record(product.record) as found:
        serial = None if words.serial is None else line.serial_of(words.serial)
        attempt = attempts.find(found, serial, words.attempt)
        put(attempts.log_of(product, found, attempt, words.stage).text)
    return 0


def table(words: Words) -> int:
    """Writes all attempts as comma-separated values."""
    text = io.StringIO()
    rows = csv.writer(text)
    rows.writerow(Attempt._fields)
    with open_record(words) as found:
        rows.writerows(explained(found, found.attempts()))
    put(text.getvalue())
    return 0


def page(words: Words) -> int:
    """Makes the page of a day."""
    gc.disable()  # a day may have a million objects, all of them to the end
    product = folder.load(words.folder)
    with Record(product.record) as found:
        put(f"{day.write(product, found, Btest(words.btest), words.day, words.out)}\n")
    return 0


def add_programs(words: argparse.ArgumentParser) -> None:
    """Adds the option that every command which calls btest has."""
    words.add_argument("--btest", metavar="PROGRAM", default=default_program(), help=WHICH)


def options() -> argparse.ArgumentParser:
    """Returns the reader of the first word."""
    about = (
        "A station on the line: prepares the folder of a product, tests its boards with OpenOCD "
        "and keeps a record of each attempt."
    )
    lines = "".join(f"  {name:8} {one.about}\n" for name, one in COMMANDS.items())
    words = argparse.ArgumentParser(
        description=f"{about}\n\ncommands, each with a --help of its own:\n{lines}",
        epilog=EPILOG,
        formatter_class=argparse.RawDescriptionHelpFormatter,
    )
    words.add_argument("command", metavar="COMMAND", choices=COMMANDS, help=", ".join(COMMANDS))
    words.add_argument("words", metavar="..", nargs=argparse.REMAINDER, help="its words")
    return words


def add_folder(words: argparse.ArgumentParser) -> None:
    """Adds the word that every command has."""
    words.add_argument("folder", metavar="FOLDER", type=pathlib.Path, help=FOLDER)


def add_show(words: argparse.ArgumentParser) -> None:
    """Adds the words of show."""
    add_folder(words)
    words.add_argument("serial", metavar="SERIAL", nargs="?", help=SERIAL)


def add_prepare(words: argparse.ArgumentParser) -> None:
    """Adds the words of prepare."""
    add_folder(words)
    words.add_argument("--check", action="store_true", help="says whether FOLDER is whole")
    words.add_argument("--chain", metavar="CHAIN", help="the chain file")
    words.add_argument("--nets", metavar="NETS", help="the net file")
    words.add_argument("--cable", metavar="CABLE.cfg", help="OpenOCD's file for the adapter")
    words.add_argument("--places", metavar="FILE", help=PLACES)
    words.add_argument("bsdls", metavar="BSDL", nargs="*", help="the BSDL texts of the parts")
    add_programs(words)


def add_test(words: argparse.ArgumentParser) -> None:
    """Adds the words of test."""
    add_folder(words)
    help_text = f"{SERIAL}; without it, one after another is asked for"
    words.add_argument("serial", metavar="SERIAL", nargs="?", help=help_text)
    words.add_argument("--openocd", metavar="PROGRAM", default="openocd", help="the player")
    limit = "how long the player may take for one text (600)"
    words.add_argument("--limit", metavar="SECONDS", type=float, default=600, help=limit)
    add_programs(words)


def add_log(words: argparse.ArgumentParser) -> None:
    """Adds the words of log."""
    add_folder(words)
    last = f"{SERIAL}; its last attempt that has a log"
    words.add_argument("serial", metavar="SERIAL", nargs="?", help=last)
    words.add_argument("--attempt", metavar="N", type=int, help="the attempt with this number")
    stages = ("board", "board again", "walk")
    words.add_argument("--stage", choices=stages, default="board", help="of which test (board)")


def add_day(words: argparse.ArgumentParser) -> None:
    """Adds the words of day."""
    add_folder(words)
    words.add_argument("day", metavar="YYYY-MM-DD", nargs="?", help="else that of the last attempt")
    words.add_argument("--out", metavar="DIR", type=pathlib.Path, help="else FOLDER/days")
    add_programs(words)


class Command(NamedTuple):
    """A command: what it does, in words, its words, and the function that does it."""

    about: str
    add: Callable[[argparse.ArgumentParser], None]
    run: Callable[[Words], int]


COMMANDS = {
    "prepare": Command(
        "makes the folder of a product, or says if it is whole", add_prepare, prepare
    ),
    "test": Command("tests a board, or one after another", add_test, test),
    "show": Command("lists the attempts", add_show, show),
    "log": Command("writes the log of an attempt for btest", add_log, log),
    "day": Command("makes the page of a day", add_day, page),
    "csv": Command("writes all attempts as comma-separated values", add_folder, table),
}


def read_words() -> Words:
    """Returns what the command line says."""
    first = options().parse_args()
    command = COMMANDS[first.command]
    reader = argparse.ArgumentParser(f"station.py {first.command}", description=command.about)
    command.add(reader)
    words = Words(command=first.command)
    reader.parse_intermixed_args(first.words, words)
    if words.command == "prepare" and not words.check:
        if not (words.chain and words.nets and words.cable and words.bsdls):
            reader.error("--chain, --nets, --cable and BSDL texts are wanted, or --check")
    return words


def main() -> NoReturn:
    """Does what the command line says, and ends with its status."""
    words = read_words()
    if isinstance(sys.stdout, io.TextIOWrapper):  # serial numbers have characters of any kind
        sys.stdout.reconfigure(errors="backslashreplace")
    try:
        sys.exit(COMMANDS[words.command].run(words))
    except BadInput as wrong:
        tell(f"station.py: {wrong}")
        sys.exit(status_of(wrong, words.command))


def status_of(wrong: BadInput, command: str) -> int:
    """Returns the exit status for what is wrong."""
    if isinstance(wrong, line.BadSerial):
        return 2
    if isinstance(wrong, folder.NotWhole):
        return 6
    if isinstance(wrong, (record.RecordFailed, line.NotTold, page_folder.PageFailed)):
        return 7
    return 5 if command == "test" else 1
