"""What the readers of netlists share: nets, checked as they come, and the net file made of them."""

from __future__ import annotations

import re
from typing import Dict, Iterator, List, NoReturn, Tuple

LIMIT = 1 << 28  # bytes of a netlist
LONGEST_LINE = 1 << 20
MOST_PINS = 1 << 18  # four times what btest takes
LONGEST_WORD = 255  # bytes of a word of a net file

MENDED = re.compile(rb"[^!-~]|^#")
EMPTY = re.compile(rb"\n+")
PIN = re.compile(rb"(?!#)[!-~]+")


class Refused(Exception):
    """Why a netlist is refused, with the number of the line at fault."""

    def __init__(self, line: int, why: str) -> None:
        super().__init__(f"line {line}: {why}")
        self.line = line
        self.why = why


def refuse(line: int, why: str) -> NoReturn:
    """Refuses the netlist for what is wrong in a line."""
    raise Refused(line, why)


def decoded(name: bytes) -> str:
    """Returns a name as text: UTF-8 if it is, else a character for each byte."""
    try:
        return name.decode("utf-8")
    except UnicodeDecodeError:
        return name.decode("latin-1")


def shown(name: bytes, most: int = 300) -> str:
    """Returns a name as a message shows it: in quotes, on one line, and cut if it is long."""
    text = decoded(name[: 4 * most])
    return repr(text if len(name) <= most else text[:most] + "..")


def numbered_lines(text: bytes) -> Iterator[Tuple[int, bytes]]:
    """Yields each line with its number, from 1, and without its end. Of empty lines that follow
    each other it yields the first."""
    begin, number = 0, 1
    while begin < len(text):
        end = text.find(b"\n", begin)
        empty = EMPTY.match(text, begin) if end == begin else None
        if empty:
            yield number, b""
            begin, number = empty.end(), number + len(empty[0])
            continue
        end = len(text) if end < 0 else end
        if end - begin > LONGEST_LINE:
            refuse(number, f"longer than {LONGEST_LINE} bytes")
        yield number, text[begin:end]
        begin, number = end + 1, number + 1


def last_line(text: bytes) -> int:
    """Returns the number of the last line, 1 for an empty text."""
    return max(1, text.count(b"\n") + (not text.endswith(b"\n")))


class Net:
    """A net of a netlist: its name, the line it begins in, and its pins as words of a net file."""

    def __init__(self, name: bytes, word: str, line: int) -> None:
        self.name = name
        self.word = word
        self.line = line
        self.pins: List[str] = []


class Nets:
    """The nets of a netlist in its order. A net or a pin that a net file can't have is refused."""

    def __init__(self) -> None:
        self._nets: Dict[str, Net] = {}
        self._pins: Dict[bytes, Tuple[Net, int]] = {}

    def __iter__(self) -> Iterator[Net]:
        return iter(self._nets.values())

    def begin(self, name: bytes, line: int) -> Net:
        """Adds a net without pins. Its name must differ from those of all others."""
        if not name:
            refuse(line, "a net without a name")
        if len(name) > LONGEST_WORD:
            refuse(line, f"net {shown(name)}: rename it: longer than {LONGEST_WORD} bytes")
        word = MENDED.sub(b"_", name).decode("ascii")
        other = self._nets.get(word)
        if other and other.name == name:
            refuse(line, f"net {shown(name)} is in line {other.line}, too: a name stands once")
        if other:
            refuse(
                line,
                f"net {shown(name)}: rename it: net {shown(other.name)} in line {other.line} "
                f"is written {word}, too",
            )
        net = self._nets[word] = Net(name, word, line)
        return net

    def add(self, net: Net, part: bytes, pin: bytes, line: int) -> None:
        """Adds a pin to a net. A pin that the net has already counts once."""
        word = part + b"." + pin
        known = self._pins.get(word)
        if known is None:
            self._check(net, part, pin, line)
            self._pins[word] = net, line
            net.pins.append(word.decode("ascii"))
        elif known[0] is not net:
            refuse(
                line,
                f"pin {word.decode('ascii')} is in net {shown(net.name)} and, by line "
                f"{known[1]}, in net {shown(known[0].name)}",
            )

    def _check(self, net: Net, part: bytes, pin: bytes, line: int) -> None:
        word = part + b"." + pin
        is_word = PIN.fullmatch(word) and len(word) <= LONGEST_WORD
        if not is_word or b"." in part or not part or not pin:
            refuse(
                line,
                f"net {shown(net.name)}: not a pin of a net file: part {shown(part)}, "
                f"pin {shown(pin)}",
            )
        if len(self._pins) >= MOST_PINS:
            refuse(line, f"more than {MOST_PINS} pins")

    def has_pin(self, part: bytes, pin: bytes) -> bool:
        """Returns whether some net has the pin."""
        return part + b"." + pin in self._pins

    def text(self) -> str:
        """Returns the net file."""
        return "".join(" ".join(["NET", net.word, *net.pins]) + "\n" for net in self)

    def renamed(self) -> List[str]:
        """Returns a line for each net whose name a net file can't have."""
        return [
            f"net {shown(net.name)} is written {net.word}"
            for net in self
            if net.word.encode("ascii") != net.name
        ]
