"""What the tests share. The program btest is that of the environment's BTEST; without one, what
needs it is skipped."""

from __future__ import annotations

import os
import pathlib
import subprocess
import sys
import tempfile
import unittest
from collections.abc import Sequence
from typing import Optional

ROOT = pathlib.Path(__file__).resolve().parents[2]
TOOLS, EXAMPLES = ROOT / "tools", ROOT / "examples"
STORED = ROOT / "crates/btest/data"  # the files of the small board of README.md
sys.path.insert(0, str(TOOLS))

# pylint: disable=wrong-import-position
from btest_tools.board import Board, read_board  # noqa: E402
from btest_tools.btest import Btest  # noqa: E402
from btest_tools.model import Model, play  # noqa: E402
from btest_tools.scans import LogRow, Test  # noqa: E402

NAMES = ("controller.chain", "controller.nets", "processor.bsd", "octal-buffer.bsd", "port.bsd")
DEMO = [str(EXAMPLES / name) for name in NAMES]
PROGRAM = os.environ.get("BTEST", "")
SECONDS = int(os.environ.get("BTEST_SECONDS", "60"))  # that a program may take

# A board with what the demo board doesn't have: a part without a description, a LINK line whose
# second net is the first in the net file, and a PULL line that names the net by the name that is
# gone.
CHAIN = "DEVICE U1 DRV -\nBYPASS U9 3\nDEVICE U2 RCV -\nLINK R1 1 2\nPULL LATE 1\n"
NETS = "NET N1 U1.1 R1.2\nNET N2 U1.2 U2.2\nNET LATE R1.1 U2.1  # of N1\n"

# The test of the demo board's examples: `btest svf` as docs/GUIDE.md prints it.
GUIDE = (ROOT / "docs/GUIDE.md").read_text(encoding="utf-8")


def guide_svf(command: str) -> str:
    """Returns the text that the guide shows for `btest svf` or `btest walk` of the demo board."""
    begin = GUIDE.index(f"$ btest {command} examples/controller.chain examples/controller.nets")
    text = GUIDE[GUIDE.index("\n", begin) + 1 :]
    return text[: text.index("```")]


def need(program: str = PROGRAM) -> str:
    """Returns the program btest, or skips the test."""
    if not program:
        raise unittest.SkipTest("no btest is given")
    return program


def read_files(names: Sequence[str] = DEMO) -> Board:
    """Reads a board."""
    return read_board(names[0], names[1], names[2:])


def small_board(folder: str, **texts: str) -> list[str]:
    """Writes the small board, with some texts in place of its own. Returns its files."""
    texts = {"chain": CHAIN, "nets": NETS, **texts}
    for name, text in texts.items():
        pathlib.Path(folder, name).write_text(text, encoding="latin-1")
    names = [f"{folder}/chain", f"{folder}/nets"]
    if "bsdl" in texts:
        return [*names, f"{folder}/bsdl", str(STORED / "receiver.bsd")]
    return [*names, str(STORED / "driver.bsd"), str(STORED / "receiver.bsd")]


class Bed:
    """The demo board under the tests that the guide shows, or another board under btest's."""

    def __init__(self, names: Optional[Sequence[str]] = None, command: str = "svf") -> None:
        self.files = list(names or DEMO)
        self.board = read_files(self.files)
        if names:
            self.svf = Btest(need()).run(command, *names)
        else:
            self.svf = guide_svf(command)
        self.test, self.model = Test(self.svf), Model(self.board)

    def rows(self, fault: str) -> list[LogRow]:
        """Returns the log of the board with faults."""
        self.model.set_faults(fault)
        came = play(self.model, self.svf)
        wanted = self.test.wanted()
        return [LogRow(want, (want ^ got) & one.mask) for (one, want), got in zip(wanted, came)]

    def log(self, fault: str) -> str:
        """Returns the log of the board with faults as a text."""
        width = (self.test.size + 3) // 4
        return "".join(f"{row.got:0{width}X}\n" for row in self.rows(fault))


def tool(name: str, *words: str, stdin: str = "") -> subprocess.CompletedProcess[str]:
    """Runs a program of tools/."""
    command = [sys.executable, "-B", str(TOOLS / name), *map(str, words)]
    return subprocess.run(
        command, input=stdin, capture_output=True, encoding="utf-8", timeout=SECONDS, check=False
    )


class Folder(unittest.TestCase):
    """A test with a folder of its own."""

    def setUp(self) -> None:
        holder = tempfile.TemporaryDirectory()  # pylint: disable=consider-using-with
        self.addCleanup(holder.cleanup)
        self.folder = holder.name

    def write(self, name: str, text: str) -> str:
        """Writes a file, and returns its name."""
        pathlib.Path(self.folder, name).write_text(text, encoding="latin-1")
        return f"{self.folder}/{name}"
