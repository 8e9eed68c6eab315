"""OpenOCD as a player, with a shell script in its place that says what a file has for each text."""

from __future__ import annotations

import os
import pathlib
import signal
import tempfile
import time
from types import SimpleNamespace
from typing import cast
from unittest import mock

from tests.support import Folder

from btest_tools.station import openocd
from btest_tools.station.folder import CABLE, RESET
from btest_tools.station.openocd import SCRIPT, OpenOcd
from btest_tools.station.player import Compared, Interrupted, PlayerFailed
from btest_tools.station.stop import Stop

# It notes its words and the names of the texts. If a text has no file, it never answers.
PROGRAM = """#!/bin/sh
printf '%s\\n' "$@" >> words
[ -e silent ] || echo "ready fake 1"
while read name; do
    echo "$name" >> played
    [ -e "$name.says" ] || exec sleep 60
    [ -s "$name.says" ] || exit 3
    cat "$name.says"
done
"""
ONE, TWO = Compared("SIR", 4, 1, 3, 1), Compared("SDR", 9, 5, 7, 4)
GOOD = "played 0\n"


def check(line: int, bits: int) -> str:
    """Returns what OpenOCD prints of bits that differ."""
    return f"tdo check error at line {line}\n   READ = 0x{bits:x}\n   WANT = 0x0\n   MASK = 0x1\n"


class Player(Folder):
    """A player whose program says what the test wants."""

    def setUp(self) -> None:
        super().setUp()
        program = self.write("program", PROGRAM)
        os.chmod(program, 0o755)
        reading, self.writing = os.pipe()
        self.addCleanup(os.close, reading)
        self.addCleanup(os.close, self.writing)
        stop = cast(Stop, SimpleNamespace(file=reading, is_asked=False))
        self.player = OpenOcd(pathlib.Path(self.folder), stop, program, 30)
        self.addCleanup(self.player.close)
        self.write(f"{RESET}.says", GOOD)

    def noted(self, name: str) -> list[str]:
        """Returns what the program noted."""
        path = pathlib.Path(self.folder, name)
        return path.read_text(encoding="utf-8").splitlines() if path.exists() else []

    def test_bits(self) -> None:
        self.write("a.svf.says", check(4, 0x1F2) + GOOD)
        self.write("b.svf.says", check(1, 0xB) + check(4, 0x10) + GOOD)
        self.write("c.svf.says", "svf processing file\n" + GOOD)
        for name, bits in (
            ("a.svf", [None, 0x1F2]),
            ("b.svf", [0xB, 0x10]),
            ("c.svf", [None, None]),
            ("a.svf", [None, 0x1F2]),
        ):
            self.assertEqual(self.player.play(name, [ONE, TWO]), bits)
        self.assertEqual(self.player.version, "fake 1")
        words = "\n".join(["-f", CABLE, "-c", SCRIPT, ""]).splitlines()
        self.assertEqual(self.noted("words"), words)  # one program plays all texts
        self.assertEqual(self.noted("played"), ["a.svf", "b.svf", "c.svf", "a.svf"])

    def test_texts_that_fail(self) -> None:
        self.write("a.svf.says", "unable to open the text\nplayed 1\n")
        self.write("b.svf.says", "played 1\n")
        self.write("c.svf.says", "Error: cable\n" + GOOD)
        self.write("d.svf.says", check(2, 1) + GOOD)  # no statement of line 2 compares
        for name in ("a.svf", "b.svf", "c.svf", "d.svf"):
            self.assertRaises(PlayerFailed, self.player.play, name, [ONE, TWO])
        self.assertEqual(len(self.noted("played")), 4)

    def test_a_program_that_ends(self) -> None:
        self.write("a.svf.says", "")
        self.assertRaises(PlayerFailed, self.player.play, "a.svf", [ONE])
        self.assertIsNone(self.player.process)
        self.player.program = f"{self.folder}/none"
        self.assertRaises(PlayerFailed, self.player.play, "a.svf", [ONE])

    def test_a_program_that_does_not_answer(self) -> None:
        self.player.limit = 0.2
        self.player.start()
        process = self.player.process
        assert process and process.stdin and process.stdout
        with self.assertRaisesRegex(PlayerFailed, "^OpenOCD didn't answer in 0.2 s$"):
            self.player.play("a.svf", [ONE])
        self.assertIsNone(self.player.process)
        self.assertEqual((process.stdin.closed, process.stdout.closed), (True, True))
        self.assertEqual(process.returncode, -signal.SIGKILL)

    def test_what_is_said(self) -> None:
        # The first line that looks like an error, or how the program ended. Each text has a file of
        # its own, since the program may still read the last one.
        for name, text, line in (
            ("a", "", "it ended with status 3"),
            ("b", "played 1\n", "b was not played"),
            ("c", "unable to open\ncannot\nplayed 0\n", "unable to open"),
            ("d", "svf processing file: error\nplayed 1\n", "d was not played"),
        ):
            self.write(f"{name}.says", text)
            with self.assertRaises(PlayerFailed) as why:
                self.player.play(name, [ONE])
            self.assertEqual(str(why.exception), f"OpenOCD: {line}")

    def test_how_it_ended(self) -> None:
        for said, status, line in (
            (b"Info : x\nError: a \nError: b\n", 1, "a"),
            (b"Error: tdo check error at line 3\nError: b\n", 1, "b"),
            (b"Info : x\n", 1, "it ended with status 1"),
            (b"", -9, "it ended by signal 9; the cable may have been pulled"),
        ):
            with tempfile.TemporaryFile() as file:
                file.write(said)
                self.player.said = file
                with mock.patch.object(self.player, "end", return_value=status):
                    self.assertEqual(str(self.player.failed()), f"OpenOCD: {line}")
        self.player.said = None
        self.assertEqual(str(self.player.failed()), "OpenOCD: it ended with status 0")

    def test_a_line_that_compares_nothing(self) -> None:
        self.write("a.svf.says", check(1, 0xA) + check(3, 0xB) + check(2, 0xC) + GOOD)
        with self.assertRaisesRegex(PlayerFailed, "^OpenOCD: line 2 of a.svf compares nothing$"):
            self.player.play("a.svf", [ONE])

    def test_a_stop(self) -> None:
        # The text in play comes to its end, and the same program plays the reset.
        self.write("a.svf.says", check(1, 0xA) + GOOD)
        self.write("b.svf.says", check(1, 0xB) + GOOD)
        os.write(self.writing, b"x")
        self.assertRaises(Interrupted, self.player.play, "a.svf", [ONE])
        self.player.reset()
        self.assertEqual(self.player.play("b.svf", [ONE]), [0xB])  # it isn't stopped any more
        self.assertEqual(self.noted("played"), ["a.svf", RESET, "b.svf"])
        self.assertEqual(self.noted("words").count("-f"), 1)

    def test_a_stop_of_a_text_that_does_not_end(self) -> None:
        os.write(self.writing, b"x")
        self.assertRaises(Interrupted, self.player.play, "a.svf", [ONE])
        with mock.patch.object(openocd, "WAIT", 0.2):
            self.player.reset()
        self.assertEqual(self.noted("played")[-1], RESET)
        self.assertEqual(self.noted("words").count("-f"), 2)

    def test_a_reset_before_all_texts(self) -> None:
        self.player.limit = 1
        self.player.reset()
        self.assertEqual(self.noted("played"), [RESET])
        self.assertEqual((self.player.limit, self.player.may_stop), (openocd.AFTER, False))

    def test_the_end(self) -> None:
        self.write("a.svf.says", GOOD)
        self.player.play("a.svf", [ONE])
        process = self.player.process
        assert process
        begun = time.monotonic()
        self.player.close()
        self.assertLess(time.monotonic() - begun, openocd.WAIT)
        self.assertEqual(process.poll(), 0)
        self.assertIsNone(self.player.said)
        self.player.close()
        self.assertEqual(self.player.end(), 0)
