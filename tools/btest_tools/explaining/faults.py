"""Single faults as values, and small sets of them."""

from __future__ import annotations

from collections.abc import Iterable
from typing import NamedTuple

from btest_tools.board import Board, part_of
from btest_tools.model import SHORTS, Faults, Short


class Fault(NamedTuple):
    """A fault. `kind` is that of a fault of the model. `names` has its nets or pins, `value` the
    bit of those kinds that have one."""

    kind: str
    names: tuple[str, ...]
    value: int = -1

    def line(self) -> str:
        """Returns the fault as btest writes it, and others in the same way."""
        words = ["short", self.kind.upper()] if self.kind in SHORTS else [self.kind]
        bit = [str(self.value)] if self.value >= 0 else []
        return " ".join([*words, *self.names, *bit])

    def nets(self, board: Board) -> list[str]:
        """Returns the nets that the fault touches."""
        if self.kind in ("open", "swap"):
            return [board.net_of[pin].name for pin in self.names]
        return list(self.names)


Choice = tuple[Fault, ...]


def resistors(board: Board, net: str) -> list[str]:
    """Returns the pins of a net that may be those of its pull resistor: of parts that neither
    drive nor connect."""
    return [pin for pin in board.nets[net].pins if part_of(pin) in board.inert]


def parts_of(board: Board, fault: Fault) -> list[str]:
    """Returns the parts at which a fault may be one of several that are one cause."""
    if fault.kind == "open":
        return [part_of(fault.names[0])]
    pins = resistors(board, fault.names[0]) if fault.kind == "pull" else []
    return list(map(part_of, pins))


def faults_of(choice: Iterable[Fault]) -> Faults:
    """Returns faults as the models take them."""
    faults = Faults()
    for fault in choice:
        if fault.kind in SHORTS:
            faults.shorts.append(Short(fault.kind, fault.names))
        elif fault.kind == "swap":
            faults.swaps.append((fault.names[0], fault.names[1]))
        else:
            by_kind = {"stuck": faults.stuck, "open": faults.opens, "pull": faults.pulls}
            by_kind[fault.kind][fault.names[0]] = fault.value
    return faults


def fault_of(line: str) -> Fault:
    """Returns the fault of a line of `btest diagnose`."""
    kind, *words = line.split(" ")
    if kind == "short":
        return Fault(words[0].lower(), tuple(words[1:]))
    return Fault(kind, (words[0],), int(words[1]))
