"""Calling the program btest."""

from __future__ import annotations

import os
import pathlib
import shutil
import subprocess
from typing import Optional, Union

from btest_tools.files import BadInput, Text

SHARE = pathlib.Path(__file__).resolve().parents[2]  # the repository, or share/btest of a package
PLACES = (SHARE.parent.parent / "bin/btest", SHARE / "crates/btest/out/btest")
WHICH = "else the btest on the PATH, else the one that is installed with these tools or made here"
LOG = "/dev/stdin"  # the word for a log that was read already


def default_program() -> str:
    """Returns the btest on the PATH, else the one installed with these tools or made here."""
    there = [str(place) for place in PLACES if os.access(place, os.X_OK) and place.is_file()]
    return shutil.which("btest") or (there or ["btest"])[0]


class Btest:
    """A program that answers as btest does."""

    def __init__(self, program: str) -> None:
        self.program = program

    def missing(self, error: Exception) -> str:
        """Returns why the program can't be run."""
        if self.program == "btest" and isinstance(error, FileNotFoundError):
            return "btest is not on the PATH; --btest PROGRAM names one"
        why = error.strerror if isinstance(error, OSError) else str(error)
        return f"cannot run {self.program} as btest, --btest names another: {why}"

    def run(
        self,
        command: str,
        *words: str,
        begin: Union[str, tuple[str, ...]] = "",
        log: Optional[Text] = None,
    ) -> str:
        """Returns what a command prints. Its refusal is a BadInput. The word LOG among `words`
        stands for `log`, a text that was read once, as from a pipe."""
        content = log.text.encode("latin-1") if log else b""
        try:
            done = subprocess.run(
                [self.program, command, *words], input=content, capture_output=True, check=False
            )
        except (OSError, ValueError) as error:
            raise BadInput(self.missing(error)) from None
        text = done.stdout.decode("utf-8", "replace")
        lines = done.stderr.decode("utf-8", "replace").splitlines()
        if done.returncode or not text.startswith(begin):
            answer = f"{self.program} is not btest, by what it answers to {command}"
            line = lines[-1] if lines else answer
            raise BadInput(line.replace(LOG, log.name) if log and LOG in words else line)
        return text
