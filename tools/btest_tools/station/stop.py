"""Ctrl-C, and the signals that ask a program to end, as something to wait for."""

from __future__ import annotations

import os
import select
import signal
from types import FrameType
from typing import Optional

SIGNALS = (signal.SIGINT, signal.SIGTERM, signal.SIGHUP)


class Stop:
    """`file` can be read as soon as the operator has asked to stop. Nothing is cut off by itself,
    so the record and the reset of the pins come to their ends."""

    def __init__(self) -> None:
        self.file, self.writing = os.pipe()
        os.set_blocking(self.file, False)
        os.set_blocking(self.writing, False)
        self.has_to_end = False  # by a signal other than Ctrl-C
        self.before = {number: signal.signal(number, self.ask) for number in SIGNALS}

    def close(self) -> None:
        """Gives the signals back."""
        for number, handler in self.before.items():
            signal.signal(number, handler)
        os.close(self.file)
        os.close(self.writing)

    def ask(self, number: int, _frame: Optional[FrameType]) -> None:
        """Notes that a signal came."""
        self.has_to_end = self.has_to_end or number != signal.SIGINT
        try:
            os.write(self.writing, b"x")
        except BlockingIOError:
            pass  # it is full of them

    @property
    def is_asked(self) -> bool:
        """Whether a signal came."""
        return bool(select.select([self.file], [], [], 0)[0])

    def clear(self) -> None:
        """Forgets the signals that came."""
        try:
            while os.read(self.file, 4096):
                pass
        except BlockingIOError:
            pass
