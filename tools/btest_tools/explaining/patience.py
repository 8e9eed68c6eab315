"""Lines of progress for what takes long."""

from __future__ import annotations

import time

from btest_tools.files import tell

SECONDS = 2.0  # from one line to the next


class Patience:
    """Tells how far something is, not before two seconds and not more often than that."""

    def __init__(self) -> None:
        self.told = time.monotonic()

    def at(self, done: int, whole: int, what: str) -> None:
        """Says that some of the whole is done, if it is time for a line."""
        now = time.monotonic()
        if now - self.told >= SECONDS:
            self.told = now
            tell(f"explaining: {done} of {whole} {what}")
