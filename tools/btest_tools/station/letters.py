"""PASS and FAIL in letters that are read from across the room."""

from __future__ import annotations

import os
import sys

SHAPES = {
    "P": ("#### ", "#   #", "#   #", "#### ", "#    ", "#    ", "#    "),
    "A": (" ### ", "#   #", "#   #", "#####", "#   #", "#   #", "#   #"),
    "S": (" ####", "#    ", "#    ", " ### ", "    #", "    #", "#### "),
    "F": ("#####", "#    ", "#    ", "#### ", "#    ", "#    ", "#    "),
    "I": ("#####", "  #  ", "  #  ", "  #  ", "  #  ", "  #  ", "#####"),
    "L": ("#    ", "#    ", "#    ", "#    ", "#    ", "#    ", "#####"),
    "T": ("#####", "  #  ", "  #  ", "  #  ", "  #  ", "  #  ", "  #  "),
    "O": (" ### ", "#   #", "#   #", "#   #", "#   #", "#   #", " ### "),
}
COLORS = {"PASS": "\033[1;32m", "FAIL": "\033[1;31m", "STOP": "\033[1;33m"}
PLAIN = "\033[0m"


def large(word: str) -> str:
    """Returns a word in large letters, in its color if standard output is a terminal."""
    doubled = {letter: [row.replace("#", "##").replace(" ", "  ") for row in SHAPES[letter]]
               for letter in word}  # fmt: skip
    rows = ["   ".join(doubled[letter][row] for letter in word).rstrip() for row in range(7)]
    is_colored = sys.stdout.isatty() and "NO_COLOR" not in os.environ
    begin, end = (COLORS[word], PLAIN) if is_colored else ("", "")
    return "\n".join(f"{begin}{row}{end}" for row in rows) + "\n"
