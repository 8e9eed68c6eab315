#!/usr/bin/env python3
"""break_lines.py FILE..: breaks long lines of .antt files and long clauses of .rt files.

`rt fmt` doesn't break a long term. This program breaks a line of a .antt file that is longer than
140 columns, and a clause of a .rt file that is longer than 100. It breaks at arrows, operators and
arguments, and fills lines of 100 columns. Only white space changes. Comments, `use` lines and lines
that a must-fail edit names stay. Run `rt fmt` afterwards, which sets the indentation. A term of many
parts may need a second run.
"""
import pathlib
import re
import sys
from typing import Dict, List, NamedTuple, Optional, Set

import build
import must_fail

WIDTH, LONG = 100, 140
OPEN, CLOSE = "([{", ")]}"
QUOTED = sys.maxsize  # the depth of what is in quotes, where no line is broken


class Level(NamedTuple):
    """The words at which a term may be broken: those that begin a line, and those that end one."""

    begin: Set[str]
    end: Set[str]


# From what binds least. A `let` and the type of each argument get a line first.
LEVELS = [
    Level(set(), {"in"}),
    Level({"then", "else"}, set()),
    Level({"→"}, set()),
    Level(set(), {","}),
    Level({"⊎"}, set()),
    Level({"×"}, set()),
    Level({"||"}, set()),
    Level({"&&"}, set()),
    Level({"≡", "≢", "<", "≤", "↔", "=="}, set()),
    Level({"++"}, set()),
    Level({"∙"}, set()),
    Level({"∷"}, set()),
]
SIGNS = set().union(*(level.begin for level in LEVELS))
CLAUSE = re.compile(r"^( *)((?:requires|ensures|invariant|ghost \w+ =)[^{]*\{) (.*) (\}[,;]*)$")


class Room(NamedTuple):
    """How many columns there are for a term: in its first line, and in each later line."""

    first: int
    later: int

    def columns(self, number: int) -> int:
        """Returns the room of line `number`, counted from 0."""
        return self.later if number else self.first

    def within(self, used: int = 0) -> "Room":
        """Returns the room inside brackets, of which `used` columns of the first line are taken."""
        return Room(self.first - used, self.later - 2)


def depths(text: str) -> List[int]:
    """Returns in how many brackets each character is. Brackets in quotes don't count."""
    depth, quoted, found = 0, False, []
    for char in text:
        quoted ^= char == '"'
        if not quoted and char in CLOSE:
            depth -= 1
        found.append(QUOTED if quoted else depth)
        if not quoted and char in OPEN:
            depth += 1
    return found


def is_balanced(text: str) -> bool:
    """Returns whether the text closes exactly the brackets and quotes that it opens."""
    nested = depths(f"{text} ")
    return nested[-1] == 0 == min(nested)


def words_of(text: str) -> List[str]:
    """Returns the words between the blanks that are in no brackets."""
    words = [""]
    for char, depth in zip(text, depths(text)):
        if char == " " and depth == 0:
            words.append("")
        else:
            words[-1] += char
    return [it for it in words if it]


def pieces_at(words: List[str], level: Level) -> List[str]:
    """Returns the pieces of a term between the places where this level breaks it."""
    pieces: List[List[str]] = [[]]
    for word in words:
        if word in level.begin and pieces[-1]:
            pieces.append([])
        pieces[-1].append(word)
        if word in level.end or "," in level.end and word.endswith(","):
            pieces.append([])
    return [" ".join(it) for it in pieces if it]


def filled(pieces: List[str], room: Room, each_alone: bool = False) -> List[str]:
    """Fills lines with pieces, and breaks a piece that is longer than a line."""
    lines: List[str] = []
    for piece in pieces:
        left = room.columns(len(lines) - 1)
        if lines and lines[-1] in SIGNS:
            sign = lines.pop()
            part = broken(piece, Room(left - len(sign) - 1, room.later - 2))
            lines += [f"{sign} {part[0]}", *part[1:]]
        elif lines and not each_alone and len(lines[-1]) + 1 + len(piece) <= left:
            lines[-1] += " " + piece
        else:
            lines += broken(piece, Room(room.columns(len(lines)), room.later - 2))
    return lines


def broken(text: str, room: Room) -> List[str]:
    """Breaks a term into lines."""
    if len(text) <= room.first:
        return [text]
    words = words_of(text)
    if len(words) == 1:
        return inside(text, room)
    for level in LEVELS:
        pieces = pieces_at(words, level)
        if len(pieces) > 1:
            return filled(pieces, room, each_alone="in" in level.end)
    dot = next((at for at, word in enumerate(words) if word.endswith(".")), len(words))
    if words[0] == "λ" and dot + 1 < len(words):
        head, body = " ".join(words[: dot + 1]), " ".join(words[dot + 1 :])
        part = broken(body, Room(room.first - len(head) - 1, room.later))
        return [f"{head} {part[0]}", *part[1:]]
    return filled(words, room)


def inside(word: str, room: Room) -> List[str]:
    """Breaks inside the first brackets of a word, such as `(f x y)` or `record.{..}`."""
    begin = next((at for at, char in enumerate(word) if char in OPEN), None)
    if begin is None:
        return [word]
    nested = depths(word)
    end = next(
        (
            at
            for at in range(begin + 1, len(word))
            if word[at] in CLOSE and nested[at] == nested[begin]
        ),
        None,
    )
    body = word[begin + 1 : end] if end else ""
    if not end or not body.strip():
        return [word]
    front, back = body[: len(body) - len(body.lstrip())], body[len(body.rstrip()) :]
    part = broken(body.strip(), room.within(begin + 1 + len(front)))
    part[0] = word[: begin + 1] + front + part[0]
    part[-1] += back + word[end:]
    return part


def fragment(text: str, room: Room) -> List[str]:
    """Breaks a line that closes or opens brackets of other lines, at the blanks in the fewest brackets."""
    if len(text) <= room.first:
        return [text]
    blanks = {
        at: depth for at, depth in enumerate(depths(text)) if text[at] == " " and depth < QUOTED
    }
    if not blanks:
        return [text]
    cuts = [at for at, depth in blanks.items() if depth == min(blanks.values())]
    pieces = [text[a + 1 : b] for a, b in zip([-1, *cuts], [*cuts, len(text)]) if b > a + 1]
    lines: List[str] = []
    for piece in pieces:
        if lines and len(lines[-1]) + 1 + len(piece) <= room.columns(len(lines) - 1):
            lines[-1] += " " + piece
        else:
            lines += fragment(piece, Room(room.later, room.later)) if piece != text else [piece]
    return lines


def top_equals(text: str) -> Optional[int]:
    """Returns the place of the first ` = ` that is in no brackets."""
    nested = depths(text)
    return next(
        (at for at in range(len(text)) if text.startswith(" = ", at) and nested[at] == 0), None
    )


def lines_of_term(bare: str, room: Room) -> List[str]:
    """Breaks a line of a .antt file, without its indentation."""
    if not is_balanced(bare):
        return fragment(bare, room)
    alone = Room(room.later, room.later)
    if not bare.startswith("let "):
        equals = top_equals(bare)
        if equals is not None:
            head, tail = bare[: equals + 2], bare[equals + 3 :]
            return broken(head, room) + broken(tail, alone)
        words = words_of(bare)
        if ":" in words and "→" in words:
            colon = words.index(":") + 1
            head, tail = " ".join(words[:colon]), " ".join(words[colon:])
            if len(head) > room.first // 2:
                return [head, *broken(tail, alone)]
    return [
        part
        for line in broken(bare, room)
        for part in (fragment(line, alone) if len(line) > LONG - 20 else [line])
    ]


def break_term(line: str) -> List[str]:
    """Breaks a line of a .antt file if it is long."""
    bare = line.lstrip()
    if len(line) <= LONG or bare.startswith(("use ", "pub use ")) or "--" in bare:
        return [line]
    indent = len(line) - len(bare)
    first, *later = lines_of_term(bare, Room(WIDTH - indent, WIDTH - indent - 4))
    return [" " * indent + first, *(" " * (indent + 4) + it for it in later)]


def break_clause(line: str) -> List[str]:
    """Breaks a line of a .rt file if it is a long clause."""
    found = CLAUSE.match(line)
    if len(line) <= WIDTH or not found or not is_balanced(found[3]):
        return [line]
    indent, head, term, end = found[1], found[2], found[3], found[4]
    room = Room(WIDTH - len(indent) - len(head) - 1, WIDTH - len(indent) - 6)
    first, *later = broken(term, Room(min(room.first, len(term) - 1), room.later))
    return [
        f"{indent}{head} {first}",
        *(f"{indent}    {it}" for it in later[:-1]),
        *(f"{indent}    {it} {end}" for it in later[-1:]),
    ]


def kept_by_edits() -> Dict[str, List[str]]:
    """Returns the texts that must-fail edits look for, by the files that they are in."""
    kept: Dict[str, List[str]] = {}
    for edit in pathlib.Path(build.TOP).glob("crates/*/must-fail/*.edit"):
        crate = edit.parent.parent.relative_to(build.TOP)
        for path, old, _ in must_fail.changes(edit.read_text(encoding="utf-8")):
            kept.setdefault(f"{crate}/{path}", []).append(old)
    return kept


def broken_text(path: str, old: str, kept: List[str]) -> str:
    """Returns the text of a file with its long lines broken, but for those that have a kept text."""
    one = break_term if path.endswith(".antt") else break_clause
    lines: List[str] = []
    for line in old.split("\n"):
        lines += [line] if any(text in line for text in kept) else one(line)
    new = "\n".join(lines)
    if new.split() != old.split():
        raise ValueError(f"{path}: the words would change")
    return new


def main() -> None:
    """Breaks the lines of the files that the words name."""
    kept = kept_by_edits()
    for path in sys.argv[1:]:
        with open(path, encoding="utf-8") as file:
            old = file.read()
        new = broken_text(path, old, kept.get(path, []))
        if new != old:
            with open(path, "w", encoding="utf-8") as file:
                file.write(new)


if __name__ == "__main__":
    main()
