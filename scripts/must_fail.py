"""Reads must-fail edits: files of lines `file: ..`, `old: ..` and `new: ..`."""
from typing import Iterator, NamedTuple


class Change(NamedTuple):
    """What an edit changes at one place: a text of a file of its crate, and what takes its place."""

    path: str  # the file, from the crate's folder
    old: str
    new: str


def changes(edit: str) -> Iterator[Change]:
    """Returns the changes of an edit, in order. Raises ValueError for any other text."""
    path, old = "", ""
    for line in edit.splitlines():
        head, _, said = line.partition(": ")
        if head == "file" and not old:
            path = said
        elif head == "old" and path and not old:
            old = said
        elif head == "new" and old:
            yield Change(path, old, said)
            old = ""
        else:
            raise ValueError(f"this line has no place in an edit: {line!r}")
    if old:
        raise ValueError(f"nothing takes the place of {old!r}")
