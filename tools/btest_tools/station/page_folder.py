"""A folder of pages, in which a page is written only if it is new or has changed."""

from __future__ import annotations

import os
import pathlib
from types import TracebackType
from typing import Optional

from btest_tools.files import BadInput


class PageFailed(BadInput):
    """Why a page can't be written."""


class PageFolder:
    """A folder that is open. A day may have thousands of pages, and to make a file takes ten times
    as long as to see that it is there with the same text."""

    def __init__(self, path: pathlib.Path) -> None:
        self.path = path
        try:
            path.mkdir(parents=True, exist_ok=True)
            self.file = os.open(path, os.O_RDONLY | os.O_DIRECTORY)
        except OSError as error:
            raise self.failed(path, error) from None

    def __enter__(self) -> PageFolder:
        return self

    def __exit__(
        self,
        _kind: Optional[type[BaseException]],
        _error: Optional[BaseException],
        _trace: Optional[TracebackType],
    ) -> None:
        os.close(self.file)

    @staticmethod
    def failed(path: pathlib.Path, error: OSError) -> PageFailed:
        """Returns why a file can't be written."""
        return PageFailed(f"{path} can't be written: {error.strerror}")

    def put(self, name: str, text: str) -> None:
        """Writes a page, unless it is there with this text."""
        data = text.encode("utf-8")
        if self.holds(name, data):
            return
        try:
            self.write(name, data)
        except OSError as error:
            raise self.failed(self.path / name, error) from None

    def holds(self, name: str, data: bytes) -> bool:
        """Returns whether a file has this content."""
        try:
            file = os.open(name, os.O_RDONLY, dir_fd=self.file)
        except OSError:
            return False
        try:
            return os.read(file, len(data) + 1) == data
        except OSError:
            return False
        finally:
            os.close(file)

    def write(self, name: str, data: bytes) -> None:
        """Writes a file."""
        how = os.O_WRONLY | os.O_CREAT | os.O_TRUNC
        file = os.open(name, how, 0o666, dir_fd=self.file)
        try:
            rest = memoryview(data)
            while rest:
                rest = rest[os.write(file, rest) :]
        finally:
            os.close(file)

    def drop(self, name: str) -> bool:
        """Deletes a page. Returns whether it was there."""
        try:
            os.unlink(name, dir_fd=self.file)
        except FileNotFoundError:
            return False
        except OSError as error:
            raise self.failed(self.path / name, error) from None
        return True
