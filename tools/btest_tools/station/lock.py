"""One station on one folder."""

from __future__ import annotations

import fcntl
import os
import pathlib
import socket

from btest_tools.station.record import RecordFailed

NAME = "station.lock"


class Lock:
    """A lock on a folder, which ends with the process that holds it, however that ends."""

    def __init__(self, folder: pathlib.Path, since: str) -> None:
        path = folder / NAME
        try:
            self.file = os.open(path, os.O_RDWR | os.O_CREAT, 0o666)
        except OSError as error:
            raise RecordFailed(f"{path} can't be written: {error.strerror}") from None
        try:
            fcntl.flock(self.file, fcntl.LOCK_EX | fcntl.LOCK_NB)
            os.ftruncate(self.file, 0)
            os.pwrite(self.file, f"{socket.gethostname()} {os.getpid()} {since}\n".encode(), 0)
        except BlockingIOError:
            self.refuse(folder)
        except OSError as error:
            os.close(self.file)
            raise RecordFailed(f"{path} can't be locked: {error.strerror}") from None

    def refuse(self, folder: pathlib.Path) -> None:
        """Says which station has the folder."""
        holder = os.pread(self.file, 400, 0).decode("utf-8", "replace").split()
        os.close(self.file)
        where = f" ({holder[0]}, process {holder[1]}, since {holder[2]})" if len(holder) > 2 else ""
        raise RecordFailed(f"another station{where} tests with {folder}; close it first")

    def release(self) -> None:
        """Gives the folder back."""
        os.close(self.file)
