"""Reading and writing files, and the frame of a program."""

from __future__ import annotations

import contextlib
import io
import os
import pathlib
import subprocess
import sys
import threading
import unittest
from typing import Optional
from unittest import mock

from tests.support import DEMO, EXAMPLES, TOOLS, Folder, need, tool

from btest_tools.files import BadInput, frame, read, tell, write_whole
from btest_tools.netlists.program import write

GOOD = str(EXAMPLES / "good.log")


class ReadAndWrite(Folder):
    """Files in and out."""

    def test_a_file_is_read_byte_by_byte(self) -> None:
        pathlib.Path(self.folder, "f").write_bytes(b"a\r\n\xb5 b")
        file = read(f"{self.folder}/f")
        self.assertEqual(file.text, "a\r\n\xb5 b")
        self.assertEqual(file.lines(), [b"a", b"\xb5 b"])

    def test_what_cannot_be_read_is_told_in_one_line(self) -> None:
        for name in (f"{self.folder}/missing", self.folder, "a\0b"):
            with self.assertRaisesRegex(BadInput, "^cannot read "):
                read(name)

    def test_a_file_is_written_whole(self) -> None:
        name = f"{self.folder}/page"
        write_whole(name, "old")
        write_whole(name, "µ")
        self.assertEqual(pathlib.Path(name).read_bytes(), "µ".encode())
        self.assertEqual(os.listdir(self.folder), ["page"])
        self.assertEqual(os.stat(name).st_mode & 0o777, 0o644)

    def test_bytes_are_written_unchanged(self) -> None:
        write_whole(f"{self.folder}/log", b"\xff\0")
        self.assertEqual(pathlib.Path(self.folder, "log").read_bytes(), b"\xff\0")

    def test_a_pipe_is_written_as_it_is(self) -> None:
        pipe, found = f"{self.folder}/pipe", []
        os.mkfifo(pipe)
        reader = threading.Thread(target=lambda: found.append(pathlib.Path(pipe).read_text()))
        reader.start()
        write(pipe, "NET A U1.1\n")
        reader.join()
        self.assertEqual(found, ["NET A U1.1\n"])

    def test_what_cannot_be_written_leaves_nothing(self) -> None:
        os.mkdir(f"{self.folder}/taken")
        for name in (f"{self.folder}/none/page", f"{self.folder}/taken"):
            with self.assertRaisesRegex(BadInput, f"^cannot write {name}: "):
                write_whole(name, "x")
        self.assertEqual(os.listdir(self.folder), ["taken"])


class Ends(unittest.TestCase):
    """How a program ends."""

    def ends(self, error: Optional[BaseException]) -> tuple[object, str]:
        """Returns the status of a program that raises this, and what it says."""
        err = io.StringIO()
        with mock.patch.object(sys, "argv", ["/bin/tool.py"]):
            with contextlib.redirect_stderr(err), self.assertRaises(SystemExit) as end:
                frame(mock.Mock(side_effect=error))
        return end.exception.code, err.getvalue()

    def test_statuses(self) -> None:
        missing = FileNotFoundError(2, "No such file", "page")
        for error, status, said in (
            (None, 0, ""),
            (BadInput("so"), 1, "tool.py: so\n"),
            (missing, 1, "tool.py: page: No such file\n"),
            (OSError(28, "No space"), 1, "tool.py: a file: No space\n"),
            (KeyboardInterrupt(), 130, ""),
            (SystemExit(2), 2, ""),
            (SystemExit(0), 0, ""),
        ):
            self.assertEqual(self.ends(error), (status, said))

    def test_output_that_is_still_in_the_buffer(self) -> None:
        full = mock.Mock()
        full.flush.side_effect = OSError(28, "No space")
        line = "tool.py: cannot write standard output: No space\n"
        for error in (SystemExit(0), None):
            with mock.patch.object(sys, "stdout", full):
                with mock.patch("btest_tools.files.drop_output"):
                    self.assertEqual(self.ends(error), (1, line))

    def test_a_closed_error_stream(self) -> None:
        with mock.patch.object(sys, "stderr", None):
            tell("line")

    def test_output_that_is_not_buffered(self) -> None:
        # Python then has the file itself under standard output, and drops what one write leaves.
        raw = mock.Mock(spec=io.RawIOBase)
        out = mock.Mock(buffer=raw, encoding="utf-8", errors="strict")
        with mock.patch.object(sys, "stdout", out), mock.patch("io.BufferedWriter") as writer:
            with mock.patch("io.TextIOWrapper") as wrapper:
                with self.assertRaises(SystemExit):
                    frame(lambda: None)
        writer.assert_called_once_with(raw)
        wrapper.assert_called_once_with(writer.return_value, "utf-8", "strict")


class Frame(Folder):
    """Streams that fail: one line, and status 1."""

    def run_with(self, **streams: object) -> subprocess.CompletedProcess[str]:
        words = [sys.executable, "-B", str(TOOLS / "failing-nets.py"), "--btest", need(), GOOD]
        return subprocess.run(  # type: ignore[call-overload,no-any-return]
            [*words, *DEMO],
            stdin=subprocess.DEVNULL,
            stderr=subprocess.PIPE,
            encoding="utf-8",
            check=False,
            **streams,
        )

    def test_standard_output_is_full(self) -> None:
        with open("/dev/full", "w", encoding="ascii") as full:
            answer = self.run_with(stdout=full)
        line = "failing-nets.py: cannot write standard output: No space left on device\n"
        self.assertEqual((answer.returncode, answer.stderr), (1, line))

    def test_standard_output_is_closed(self) -> None:
        answer = self.run_with(stdout=None, preexec_fn=lambda: os.close(1))
        line = "failing-nets.py: cannot write standard output: it is closed\n"
        self.assertEqual((answer.returncode, answer.stderr), (1, line))

    def test_help_on_a_full_disk(self) -> None:
        words = [sys.executable, "-B", str(TOOLS / "failing-nets.py"), "--help"]
        with open("/dev/full", "w", encoding="ascii") as full:
            answer = subprocess.run(
                words, stdout=full, stderr=subprocess.PIPE, encoding="utf-8", check=False
            )
        self.assertEqual(answer.returncode, 1)
        self.assertIn("cannot write standard output", answer.stderr)
        self.assertEqual(answer.stderr.count("\n"), 1)

    def test_the_reader_leaves(self) -> None:
        ends = os.pipe()
        os.close(ends[0])
        with os.fdopen(ends[1], "w") as broken:
            answer = self.run_with(stdout=broken)
        self.assertEqual((answer.returncode, answer.stderr), (1, ""))

    def test_a_log_that_is_a_pipe_is_read_once(self) -> None:
        log = (EXAMPLES / "shorted.log").read_text(encoding="ascii")
        answer = tool("failing-nets.py", "--btest", need(), "/dev/stdin", *DEMO, stdin=log)
        self.assertIn("FAIL 1\n  short AND D0 D1\n", answer.stdout)
        self.assertIn("NET D0 ", answer.stdout)

    def test_a_refusal_names_the_log(self) -> None:
        answer = tool("failing-nets.py", "--btest", need(), "/dev/null", *DEMO)
        line = "failing-nets.py: /dev/null: 0 rows of 12\n"
        self.assertEqual((answer.returncode, answer.stdout, answer.stderr), (1, "", line))


if __name__ == "__main__":
    unittest.main()
