"""What a station needs of a player: to play a text and to give back the bits."""

from __future__ import annotations

import re
from typing import NamedTuple, Optional, Protocol

STATEMENT = re.compile(
    r"\bS(?P<register>[ID])R\s+(?P<size>\d+)\s+TDI\s*\([^)]*\)"
    r"\s+TDO\s*\((?P<tdo>[^)]*)\)\s+MASK\s*\((?P<mask>[^)]*)\)\s*;"
)


class PlayerFailed(Exception):
    """Why a played text gave no result: for example, there is no player or no cable."""


class Interrupted(Exception):
    """The operator stopped the test."""


class Compared(NamedTuple):
    """A statement of an SVF text that compares, with the line in which it ends."""

    register: str
    size: int
    tdo: int
    mask: int
    line: int

    def differs(self, bits: int) -> int:
        """Returns which of the compared bits are not the expected ones."""
        return (self.tdo ^ bits) & self.mask


def compared(svf: str) -> list[Compared]:
    """Returns the statements of a text that compare."""
    found, line, before = [], 1, 0
    for one in STATEMENT.finditer(svf):
        line, before = line + svf.count("\n", before, one.end()), one.end()
        tdo, mask = (int("".join(one[name].split()), 16) for name in ("tdo", "mask"))
        found.append(Compared(f"S{one['register']}R", int(one["size"]), tdo, mask, line))
    return found


class Player(Protocol):
    """A program that plays SVF texts through a cable. It is started by its first text."""

    version: str

    def play(self, name: str, statements: list[Compared]) -> list[Optional[int]]:
        """Plays a text of the folder. Returns for each of its statements that compare the bits that
        came back, or None if all compared bits are the expected ones."""

    def reset(self) -> None:
        """Brings the TAP controllers to reset, whatever the player is at. What is played from then
        on isn't stopped."""

    def close(self) -> None:
        """Ends the player, which leaves the cable free."""
