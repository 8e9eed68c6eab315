"""Files in and out, and the frame of a program: bad input is one line, never a traceback."""

from __future__ import annotations

import io
import os
import pathlib
import sys
import tempfile
from typing import Callable, NamedTuple, NoReturn, Union


class BadInput(Exception):
    """What is wrong with a file, a word or a fault, in one line."""


class Text(NamedTuple):
    """A file that was read. `text` has one character for each byte."""

    name: str
    text: str

    def lines(self) -> list[bytes]:
        """Returns the lines as bytes, without their ends."""
        return self.text.encode("latin-1").splitlines()


def read(name: str) -> Text:
    """Reads a file once, from its beginning to its end, so it may be a pipe."""
    try:
        with open(name, "rb") as file:
            return Text(name, file.read().decode("latin-1"))
    except (OSError, ValueError):
        raise BadInput(f"cannot read {name}") from None


def write_whole(name: str, content: Union[str, bytes]) -> None:
    """Writes a file under its name only when all of it is on the disk. Text becomes UTF-8."""
    path = pathlib.Path(name)
    data = content if isinstance(content, bytes) else content.encode("utf-8")
    draft = ""
    try:
        number, draft = tempfile.mkstemp(prefix=f".{path.name}.", dir=path.parent)
        with os.fdopen(number, "wb") as file:
            file.write(data)
            file.flush()
            os.fsync(file.fileno())
        os.chmod(draft, 0o644)
        os.replace(draft, path)
    except OSError as error:
        if draft and os.path.exists(draft):
            os.unlink(draft)
        raise BadInput(f"cannot write {name}: {error.strerror}") from None


def put(text: str) -> None:
    """Writes to standard output, and says in one line if that fails."""
    if sys.stdout is None:
        raise BadInput("cannot write standard output: it is closed")
    try:
        sys.stdout.write(text)
        sys.stdout.flush()
    except BrokenPipeError:
        drop_output()
        raise SystemExit(1) from None  # the reader left, and needs no line
    except OSError as error:
        drop_output()
        raise BadInput(f"cannot write standard output: {error.strerror}") from None


def buffer_output() -> None:
    """Has standard output buffered, whatever PYTHONUNBUFFERED says.

    If Python doesn't buffer, it drops without an error what a write didn't take at once.
    """
    raw = getattr(sys.stdout, "buffer", None)
    if isinstance(raw, io.RawIOBase):
        buffered = io.BufferedWriter(raw)
        sys.stdout = io.TextIOWrapper(buffered, sys.stdout.encoding, sys.stdout.errors)


def drop_output() -> None:
    """Sends what standard output still holds nowhere, so that the end of Python doesn't try it."""
    try:
        os.dup2(os.open(os.devnull, os.O_WRONLY), sys.stdout.fileno())
    except (OSError, ValueError):
        pass


def tell(line: str) -> None:
    """Writes a line to standard error, if anyone can read it."""
    try:
        if sys.stderr is not None:
            print(line, file=sys.stderr, flush=True)
    except OSError:
        pass


def frame(main: Callable[[], object]) -> NoReturn:
    """Runs a program. BadInput becomes one line on standard error, and the status is 1."""
    program = os.path.basename(sys.argv[0])
    buffer_output()
    try:
        try:
            main()
        except SystemExit:  # --help prints, and a bad command line ends
            if sys.stdout is not None:
                put("")
            raise
        if sys.stdout is not None:
            put("")
    except BadInput as wrong:
        tell(f"{program}: {wrong}")
        sys.exit(1)
    except OSError as error:
        tell(f"{program}: {error.filename or 'a file'}: {error.strerror}")
        sys.exit(1)
    except KeyboardInterrupt:
        sys.exit(130)
    sys.exit(0)
