"""Reads KiCad's files, which are lists in brackets: what is wanted, and passes over the rest."""

from __future__ import annotations

import re
from typing import Iterator, List, Mapping, Tuple, Union

from btest_tools.netlists.net_file import LONGEST_LINE, last_line, refuse

DEEPEST = 1000  # brackets within each other; KiCad's are about ten deep
MOST_ITEMS = 1 << 20  # words and lists within a list that is yielded

# The names of the lists wanted within a list, each with those wanted within it.
Wanted = Mapping[bytes, "Wanted"]

TOKEN = re.compile(rb'\(\s*([^\s()"]*)|(\))|"([^"\\]*)"|(")|([^\s()"]+)')
OPEN, CLOSE, STRING, QUOTE, WORD = range(1, 6)
SKIPPED = re.compile(rb'\(|\)|"[^"\\]*"|"')
IN_STRING = re.compile(rb'[^"\\]*')
ESCAPES = {b"n": b"\n", b"r": b"\r", b"t": b"\t"}


class Lines:
    """Numbers of lines by offsets, quick where they are asked for nearly in order."""

    def __init__(self, text: bytes) -> None:
        self._text = text
        self._offset = 0
        self._line = 1

    def of(self, offset: int) -> int:
        """Returns the number of the line, from 1, that the byte at the offset is in."""
        # One of the two counts is 0, as its end is before its beginning.
        self._line += self._text.count(b"\n", self._offset, offset)
        self._line -= self._text.count(b"\n", offset, self._offset)
        self._offset = offset
        return self._line


class Item:
    """A list: its name, its other words, the wanted lists within it, and its offset in the text."""

    __slots__ = ("name", "words", "items", "offset")

    def __init__(self, name: bytes, offset: int) -> None:
        self.name = name
        self.words: List[bytes] = []
        self.items: List[Item] = []
        self.offset = offset

    def all(self, name: bytes) -> Iterator[Item]:
        """Yields the lists within it that have a name."""
        return (item for item in self.items if item.name == name)

    def first(self, name: bytes) -> List[bytes]:
        """Returns the words of the first list within it that has a name, or none."""
        return next((item.words for item in self.all(name)), [])

    def word(self, name: bytes) -> bytes:
        """Returns the first word of the first list within it that has a name, or nothing."""
        return next(iter(self.first(name)), b"")


def string_from(text: bytes, begin: int) -> Tuple[bytes, int]:
    """Returns the string after a quotation mark, and the offset behind its end."""
    pieces, at = [], begin
    while True:
        found = IN_STRING.match(text, at)
        assert found
        pieces.append(found[0])
        at = found.end()
        if text[at : at + 1] == b'"':
            return b"".join(pieces), at + 1
        if at - begin > LONGEST_LINE:
            refuse(Lines(text).of(begin), f"a string is longer than {LONGEST_LINE} bytes")
        if at + 1 >= len(text):
            refuse(last_line(text), "a string is not closed: is the file whole?")
        sign = text[at + 1 : at + 2]
        pieces.append(ESCAPES.get(sign, sign))
        at += 2


def skip(text: bytes, begin: int) -> int:
    """Returns the offset behind the bracket that closes the list that is open."""
    depth, at = 1, begin
    while True:
        for found in SKIPPED.finditer(text, at):
            sign = found[0]
            if sign == b"(":
                depth += 1
                if depth > DEEPEST:
                    line = Lines(text).of(found.start())
                    refuse(line, f"brackets are nested more than {DEEPEST} deep")
            elif sign == b")":
                depth -= 1
                if not depth:
                    return found.end()
            elif sign == b'"':
                at = string_from(text, found.end())[1]
                break
        else:
            refuse(last_line(text), "a bracket is not closed: is the file whole?")


class Reader:
    """Reads a text. Lists that are wanted at a depth are yielded, each when its bracket closes."""

    def __init__(self, text: bytes, wanted: Wanted, depth: int) -> None:
        self._text = text
        self._depth = depth
        self._wanted: List[Wanted] = [wanted]
        self._open: List[Item] = []
        self._count = 0

    def items(self) -> Iterator[Item]:
        """Yields the lists."""
        at: Union[int, None] = 0
        while at is not None:
            begin, at = at, None
            for found in TOKEN.finditer(self._text, begin):
                kind = found.lastindex
                if kind == OPEN and found[1] not in self._wanted[-1]:
                    at = skip(self._text, found.end())
                    break
                if kind == QUOTE:
                    word, at = string_from(self._text, found.end())
                    self._take(word)
                    break
                if kind == OPEN:
                    self._enter(found[1], found.start())
                elif kind == CLOSE:
                    item = self._leave(found.start())
                    if len(self._open) == self._depth:
                        self._count = 0
                        yield item
                else:
                    self._take(found[STRING] if kind == STRING else found[WORD])
        if self._open:
            refuse(last_line(self._text), "a bracket is not closed: is the file whole?")

    def _enter(self, name: bytes, offset: int) -> None:
        self._counted(offset)
        self._open.append(Item(name, offset))
        self._wanted.append(self._wanted[-1][name])

    def _leave(self, offset: int) -> Item:
        if not self._open:
            refuse(Lines(self._text).of(offset), "a bracket is closed that was not open")
        item = self._open.pop()
        self._wanted.pop()
        if len(self._open) > self._depth:
            self._open[-1].items.append(item)
        return item

    def _take(self, word: bytes) -> None:
        if len(self._open) > self._depth:
            self._counted(self._open[-1].offset)
            self._open[-1].words.append(word)

    def _counted(self, offset: int) -> None:
        self._count += 1
        if self._count > MOST_ITEMS:
            line = Lines(self._text).of(offset)
            refuse(line, f"more than {MOST_ITEMS} words and brackets in a list")
