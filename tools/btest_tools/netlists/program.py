"""The frame of the programs that make a net file of a netlist."""

from __future__ import annotations

import argparse
import os
import sys
from typing import Callable

from btest_tools.files import BadInput, frame, put, tell, write_whole
from btest_tools.netlists.net_file import LIMIT, Nets, Refused, last_line

NOTE = """A byte of a net's name that may not be in a net file, and a # in front, becomes _, and a
line on standard error says so. What can't be mended so ends the program with one line and status
1, and nothing is written."""
BYTE_ORDER_MARK = b"\xef\xbb\xbf"


def read_bytes(name: str) -> bytes:
    """Reads a file whole, which may be a pipe, but for a byte order mark."""
    try:
        with open(name, "rb") as file:
            text = file.read(LIMIT + 1)
    except (OSError, ValueError):
        raise BadInput(f"cannot read {name}") from None
    if len(text) > LIMIT:
        raise BadInput(f"{name}: longer than {LIMIT} bytes")
    return text[len(BYTE_ORDER_MARK) :] if text.startswith(BYTE_ORDER_MARK) else text


def write(name: str, text: str) -> None:
    """Writes a file whole or not at all. What is no plain file, as a pipe, is written as it is."""
    if os.path.exists(name) and not os.path.isfile(name):
        try:
            with open(name, "w", encoding="utf-8") as file:
                file.write(text)
        except OSError as error:
            raise BadInput(f"cannot write {name}: {error.strerror}") from None
    else:
        write_whole(name, text)


def print_whole(text: str) -> None:
    """Writes to standard output. A reader that leaves before the end is an error, too."""
    try:
        put(text)
    except SystemExit:
        raise BadInput("cannot write standard output: its reader left") from None


def run(what: str, read: Callable[[bytes], Nets]) -> None:
    """Reads the netlist of the command line and writes its net file."""
    words = argparse.ArgumentParser(description=f"Prints the net file of {what}.", epilog=NOTE)
    words.add_argument("-o", "--output", metavar="FILE", help="else standard output")
    words.add_argument("netlist", metavar="NETLIST", help=what)
    chosen = words.parse_args()
    content = read_bytes(chosen.netlist)
    try:
        nets = read(content)
        text = nets.text()
        if not text:
            raise Refused(last_line(content), f"no nets: is this {what}?")
    except Refused as why:
        raise BadInput(f"{chosen.netlist} {why}") from None
    for line in nets.renamed():
        tell(line)
    if chosen.output:
        write(chosen.output, text)
    else:
        print_whole(text)


def main(what: str, read: Callable[[bytes], Nets]) -> None:
    """Runs a program. Bad input becomes one line on standard error, and the status is 1."""
    sys.dont_write_bytecode = True
    frame(lambda: run(what, read))
