"""Faults of a scan chain, and faults that come and go, for a simulated board.

A fault that stands behind `FROM@` or `FROM-TO@` is there from one scan to another. The scans of a
player are counted from 1, those of instructions and of data together.
"""

from __future__ import annotations

import dataclasses
import re
from typing import NamedTuple, Optional

from btest_tools.bitbang import Port
from btest_tools.board import Board
from btest_tools.files import BadInput
from btest_tools.model import KINDS, Model, State, read_faults

CHAIN_KINDS = "chain:PART:VALUE, missing:PART, code:PART:CODE and cable"
TIMED = re.compile(r"(\d+)(?:-(\d+))?@(.*)")
UNDRIVEN = 1  # what a TDI reads that nothing drives (IEEE 1149.1)


class Timed(NamedTuple):
    """A fault that is there from one scan to another, or from the one on if `last` is None."""

    first: int
    last: Optional[int]
    word: str

    def is_there(self, scan: int) -> bool:
        """Returns whether the fault is there in a scan."""
        return self.first <= scan and (self.last is None or scan <= self.last)


class ChainFault(NamedTuple):
    """A fault of the chain at a part: what its way to the next part reads, or another code."""

    kind: str
    part: int
    value: int = UNDRIVEN
    code: tuple[int, ...] = ()


def read_timed(board: Board, text: str) -> list[Timed]:
    """Returns the faults of a text. Each is one that the board can have."""
    found = []
    for word in text.split():
        timed = TIMED.fullmatch(word)
        one = Timed(int(timed[1]), int(timed[2]) if timed[2] else None, timed[3]) if timed else None
        found.append(one or Timed(0, None, word))
        if not chain_fault(board, found[-1].word):
            read_faults(board, found[-1].word)
    always = [one.word for one in found if one.first == 0 and not chain_fault(board, one.word)]
    if always or not found:
        read_faults(board, " ".join(always))
    return found


def chain_fault(board: Board, word: str) -> Optional[ChainFault]:
    """Returns the fault of the chain that a word is, or None if it is a fault of the nets."""
    kind, *rest = word.split(":")
    names = [part.name for part in board.parts]
    if word == "cable":
        return ChainFault("cable", 0)
    if kind not in ("chain", "missing", "code"):
        return None
    if len(rest) != (1 if kind == "missing" else 2):
        raise BadInput(f"fault {word}: no such kind; there are {KINDS}, {CHAIN_KINDS}")
    if rest[0] not in names:
        raise BadInput(f"fault {word}: no part {rest[0]} in {board.chain_name}")
    part = names.index(rest[0])
    if kind == "missing":
        return ChainFault(kind, part)
    if kind == "chain" and rest[1] in ("0", "1"):
        return ChainFault(kind, part, int(rest[1]))
    if kind == "code" and re.fullmatch("[0-9A-Fa-f]{7}[13579BDFbdf]|-", rest[1]):
        bits = "" if rest[1] == "-" else f"{int(rest[1], 16):032b}"
        return ChainFault(kind, part, code=tuple(map(int, reversed(bits))))
    wanted = "0 or 1" if kind == "chain" else "8 hexadecimal digits, the last of them odd, or -"
    raise BadInput(f"fault {word}: the value is {wanted}")


class ChainPort(Port):
    """The test access port of a board whose chain may have faults."""

    def __init__(self, board: Board, text: str) -> None:
        super().__init__(Model(board))
        self.timed = [one for one in read_timed(board, text) if one.word != "good"]
        self.scan = 0
        self.words: list[str] = []
        self.chain: list[ChainFault] = []
        self.settle()

    def settle(self) -> None:
        """Gives the board the faults of this moment."""
        words = [one.word for one in self.timed if one.is_there(self.scan)]
        if words == self.words:
            return
        board, self.words = self.model.board, words
        found = [(word, chain_fault(board, word)) for word in words]
        self.chain = [fault for _, fault in found if fault]
        self.model.set_faults(" ".join(word for word, fault in found if not fault) or "good")
        codes = {fault.part: list(fault.code) for fault in self.chain if fault.kind == "code"}
        for place, (state, part) in enumerate(zip(self.model.states, board.parts)):
            state.part = dataclasses.replace(part, identity=codes.get(place, part.identity))

    @property
    def is_pulled(self) -> bool:
        """Whether the cable is pulled."""
        return any(fault.kind == "cable" for fault in self.chain)

    def capture(self, register: str) -> None:
        """Loads a register, with the faults of this scan."""
        self.scan += 1
        self.settle()
        for state in self.missing():
            state.instruction = "BYPASS"  # it drives nothing
        super().capture(register)

    def missing(self) -> list[State]:
        """Returns the parts that aren't fitted."""
        return [self.model.states[fault.part] for fault in self.chain if fault.kind == "missing"]

    def openings(self) -> list[tuple[int, int]]:
        """Returns the places at which the chain is open, each with what is read there."""
        register = (self.state + "-").split("-")[1]
        return [
            (
                sum(state.size(register) for state in self.model.states[fault.part + 1 :]),
                fault.value,
            )
            for fault in self.chain
            if fault.kind in ("chain", "missing")
        ]

    def shift(self, tdi: int) -> None:
        """Shifts by a bit. What comes out of a part doesn't reach the next where it is open."""
        super().shift(tdi)
        for place, value in self.openings():
            if place:
                self.row[place - 1] = value

    def tdo(self) -> int:
        """Returns the bit at TDO."""
        return dict(self.openings()).get(0, super().tdo())
