"""What the registers of a chain say: where it is open, and which part has another code.

Bits count from TDO: bit 0 left the chain first, from the last part.
"""

from __future__ import annotations

from collections.abc import Iterator, Sequence
from typing import NamedTuple, Optional

from btest_tools.station.player import Compared

CODE = 32  # bits of an identification register


class Link(NamedTuple):
    """A part of the chain: the length of its instruction register, and whether it has a code."""

    name: str
    length: int
    has_code: bool


def open_place(chain: Sequence[Link], statement: Compared, bits: int) -> str:
    """Says up to which part a chain answers, by what its instruction registers loaded."""
    right: list[str] = []
    place = 0
    for part in reversed(chain):
        if statement.differs(bits) >> place & 3:
            break
        right.append(part.name)
        place += part.length
    rest = bits >> place
    width = statement.size - place
    alike = "" if rest not in (0, (1 << width) - 1) else f" and all bits behind are {rest & 1}"
    if not right:
        return (
            f"no part answers as it should{alike}: look at the cable, the supply and TCK, TMS, TDO"
        )
    if len(right) == len(chain):
        return "all parts answer, but the bits behind them are wrong: look at the cable"
    wrong = chain[len(chain) - len(right) - 1].name
    return (
        f"{', '.join(reversed(right))} answer{'s' if len(right) == 1 else ''}, {wrong} doesn't"
        f"{alike}: look at {wrong} and the way from its TDO to TDI of {right[-1]}"
    )


def code_text(bits: int) -> str:
    """Returns what a code says."""
    return (
        f"maker 0x{bits >> 1 & 0x7FF:03X}, part number 0x{bits >> 12 & 0xFFFF:04X}, "
        f"version {bits >> 28}"
    )


def pattern_text(code: str) -> str:
    """Returns what a pattern of 0, 1 and X wants. A field with an X in it is shown in its bits."""

    def field(bits: str, digits: int) -> str:
        if set(bits) == {"X"}:
            return "any"
        return bits if "X" in bits else f"0x{int(bits, 2):0{digits}X}"

    version = field(code[:4], 0).replace("0x", "")
    return (
        f"maker {field(code[20:31], 3)}, part number {field(code[4:20], 4)}, "
        f"version {version if 'X' in version or version == 'any' else int(version, 16)}"
    )


def patterns(chain: Sequence[Link], statement: Compared) -> dict[str, str]:
    """Returns the code that each part should have, with its highest bit first, or '' for none."""
    found, place = {}, 0
    for part in reversed(chain):
        size = CODE if part.has_code else 1
        places = range(place + size - 1, place - 1, -1)
        bits = ("01"[statement.tdo >> at & 1] if statement.mask >> at & 1 else "X" for at in places)
        found[part.name] = "".join(bits) if part.has_code else ""
        place += size
    return found


def codes(chain: Sequence[Link], size: int, bits: int) -> Iterator[tuple[Link, Optional[int]]]:
    """Yields each part with the code that it has, or None if it has none. A code begins with a 1,
    and a part without one gives a 0. What the scan doesn't reach isn't yielded."""
    place = 0
    for part in reversed(chain):
        if place >= size or (bits >> place & 1 and place + CODE > size):
            return
        if bits >> place & 1:
            yield part, bits >> place & 0xFFFFFFFF
            place += CODE
        else:
            yield part, None
            place += 1


def fits(pattern: str, bits: Optional[int]) -> bool:
    """Returns whether a code fits a pattern."""
    if not pattern or bits is None:
        return not pattern and bits is None
    return all(want in ("X", got) for want, got in zip(pattern, f"{bits:032b}"))


def wrong_parts(chain: Sequence[Link], statement: Compared, bits: int) -> list[str]:
    """Says which parts have another code than they should."""
    if bits == (1 << statement.size) - 1:
        return ["all bits of the codes are 1: look at the scan chain"]
    wanted, lines = patterns(chain, statement), []
    for part, code in codes(chain, statement.size, bits):
        pattern = wanted[part.name]
        if not fits(pattern, code):
            has = "has no code" if code is None else f"has {code_text(code)}"
            wants = pattern_text(pattern) if pattern else "no code"
            lines.append(f"wrong part {part.name}: it {has}; it should have {wants}")
    return lines or ["the codes of the parts are not those of the chain file"]
