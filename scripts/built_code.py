"""Says which functions the code of a built library calls.

A library has its code as the compiler lowered it after checking the types, and the prover proves
this code. A call in it has the whole name of the function, as `board_defs::device::Code::len`.
"""
import json
import os
from collections import Counter
from typing import Any, Dict, Iterable, Iterator, Optional, Set

CODE = "toolchain/mir.json"  # of a library
NameSets = Dict[str, Set[str]]


def texts_in(value: Any) -> Iterator[str]:
    """Returns the texts in a value that was read from JSON."""
    left = [value]
    while left:
        now = left.pop()
        if isinstance(now, str):
            yield now
        elif isinstance(now, (dict, list)):
            left += now.values() if isinstance(now, dict) else now


def names_in_code(file: str) -> NameSets:
    """Returns the names in each function of a library's code.

    The answer is empty if there is no such file, or if it doesn't have the form that is known.
    """
    found: NameSets = {}
    try:
        with open(file, encoding="utf-8") as it:
            for name, code in json.load(it):
                paths = (text for text in texts_in(code) if "::" in text)
                found.setdefault(name, set()).update(paths)
    except (OSError, RecursionError, TypeError, ValueError):
        return {}
    return found


class Code:
    """The code of a library, or nothing if the crate isn't built.

    Beside the functions of the sources it has others, which the compiler wrote: for a closure, for
    a function that is passed on by its name, for a derived method. A method of a trait also counts
    among these, since its name in the code depends on the impl. What such a function calls, its
    own callers call, too.
    """

    def __init__(self, library: str, paths: Iterable[str]):
        """Reads the code. `paths` are the sources' functions, but for the methods of traits."""
        self.names = names_in_code(os.path.join(library, CODE))
        counts = Counter(paths)
        self.known = {it for it in self.names if counts[it] == 1}

    def called(self, path: str) -> Optional[Set[str]]:
        """Returns the names in a function and in its closures, or None if they aren't known."""
        return self.reached({path}) if path in self.known else None

    def called_by_methods(self, name: str) -> Optional[Set[str]]:
        """Returns what methods of traits with a name call, or None if there are none."""
        methods = {it for it in self.names if it not in self.known and name in it.split("::")}
        return self.reached(methods) if methods else None

    def reached(self, starts: Set[str]) -> Set[str]:
        """Returns the names in some functions, and in those that the compiler wrote for them."""
        done: Set[str] = set()
        found: Set[str] = set()
        while starts:
            done |= starts
            new = {name for it in starts for name in self.names[it]}
            found |= new
            starts = {it for it in new - done if it in self.names and it not in self.known}
        return found
