#!/usr/bin/env python3
"""Lists the public functions that the program's crates don't call, and says of each whether a
test crate calls it.

usage: uncalled.py [--untested]     with --untested, only those that no test crate calls either

Each line has the crate, the function, and a word:
  untested    no other crate calls it
  tested      only test crates call it
  perhaps     a method whose name another public type has, too: other crates call a method of
              that name, on whichever type

A function is public if `lib.rt` of its crate hands it on, or if its module is public. A method is
public if `lib.rt` hands on its type or if the module of its type is public. Laws, which do nothing,
are left out. The calls of `promises` are listed: they are there to be proved. The calls that
`outer_calls` makes don't count: nothing runs them.

The script reads the sources by regular expressions. It can't see
- of which type a method is called: `x.count()` counts as a call of `count` of every type, and so
  does a method of `std` of that name, so a method with a common name may be missing from the list
  (`TapState::next` is);
- a call inside the function's own crate: a function that only its own crate calls is listed;
- a call by a trait or by a macro, so methods of `impl TRAIT for TYPE` are left out;
- what a call is compared with: `tested` says that a test crate names the function, and not that
  the test would notice a wrong answer."""
import os
import re
import sys
from typing import Dict, Iterator, List, NamedTuple, Optional, Set

import build

TESTS = {
    "call_tests",
    "value_tests",
    "device_bench",
    "device_tests",
    "bench_tests",
    "run_bench",
    "worked_rows",
    "device_rows",
    "log_rows",
    "fault_rows",
    "outer_tests",
}
# Crates of calls that nothing runs.
NEVER_RUN = {"outer_calls"}
IGNORED = re.compile(r'//[^\n]*|b?"(?:\\.|[^"\\])*"|r#".*?"#', re.DOTALL)
IMPL = re.compile(r"^impl(?:<[^{]*?>)? (?:\w+ for )?(\w+)")
FUNCTION = re.compile(r"^(\s*)pub fn (\w+)(?:<[^(]*>)?\((\s*(?:&(?:'\w+ )?)?(?:mut )?self\b)?")


class Function(NamedTuple):
    """A public function, with its type if it is a method or an associated function."""

    crate: str
    owner: Optional[str]
    name: str
    takes_self: bool

    def shown(self) -> str:
        """Returns its name behind that of its type."""
        return f"{self.owner}::{self.name}" if self.owner else self.name


def plain(text: str) -> str:
    """Returns a source without comments and texts; the lines stay."""
    return IGNORED.sub(lambda found: "\n" * found[0].count("\n"), text)


def sources(folder: str) -> Dict[str, str]:
    """Returns the sources of a crate by the names of their modules, without comments and texts."""
    found = {}
    for at, _, names in os.walk(os.path.join(folder, "src")):
        for name in sorted(it for it in names if it.endswith(".rt")):
            with open(os.path.join(at, name), encoding="utf-8") as file:
                found[name[:-3]] = plain(file.read())
    return found


def imported(path: str) -> Set[str]:
    """Returns the names that the path of a `use` ends in."""
    _, brace, listed = path.partition("{")
    return set(re.findall(r"\w+", listed)) if brace else {path.split("::")[-1].strip()}


def handed_on(lib: str) -> Set[str]:
    """Returns the names that `lib.rt` hands on, and its public modules."""
    names: Set[str] = set(re.findall(r"^pub (mod \w+);", lib, re.MULTILINE))
    for path in re.findall(r"^pub use ([^;]*);", lib, re.MULTILINE):
        names |= imported(path)
    return names


def functions_of(crate: str, modules: Dict[str, str]) -> Iterator[Function]:
    """Yields the public functions of a crate."""
    public = handed_on(modules["lib"])
    for module, text in modules.items():
        if module.endswith("law"):
            continue
        owner, is_trait = None, False
        lines = text.split("\n")
        for at, line in enumerate(lines):
            block = IMPL.match(line)
            if block:
                owner, is_trait = block[1], " for " in line
            elif line == "}":
                owner = None
            found = FUNCTION.match(line)
            if not found or is_trait and owner:
                continue
            # the parameters of a long signature begin on the next line
            rest = line[found.end() :] + (lines[at + 1] if at + 1 < len(lines) else "")
            takes_self = bool(found[3] or re.match(r"\s*(?:&(?:'\w+ )?)?(?:mut )?self\b", rest))
            if f"mod {module}" in public or (owner or found[2]) in public:
                yield Function(crate, owner, found[2], takes_self)


def imports_of(text: str) -> Set[str]:
    """Returns the names that a crate imports, each behind the crate that it comes from."""
    found: Set[str] = set()
    for crate, path in re.findall(r"^(?:pub )?use (\w+)::([^;]*);", text, re.MULTILINE):
        found.update(f"{crate}::{name}" for name in imported(path))
    return found


class Calls:
    """What the crates import and call."""

    def __init__(self, texts: Dict[str, str]) -> None:
        self.free = {name: imports_of(text) for name, text in texts.items()}
        self.methods = {name: set(re.findall(r"\.(\w+)\(", text)) for name, text in texts.items()}
        self.pairs = {name: set(re.findall(r"\b(\w+::\w+)", text)) for name, text in texts.items()}

    def callers(self, function: Function) -> Set[str]:
        """Returns the other crates that call a function, as far as its name tells."""
        crates = {name for name in self.free if name != function.crate}
        if function.owner is None:
            path = f"{function.crate}::{function.name}"
            return {name for name in crates if path in self.free[name] | self.pairs[name]}
        by_path = {name for name in crates if function.shown() in self.pairs[name]}
        if not function.takes_self:
            return by_path
        return by_path | {name for name in crates if function.name in self.methods[name]}


def kind_of(function: Function, callers: Set[str], shared: Set[str]) -> Optional[str]:
    """Returns the word for a function, or None if the program calls it."""
    if not callers:
        return "untested"
    if callers <= TESTS:
        return "tested"
    if function.takes_self and function.name in shared:
        return "perhaps"
    return None


def shared_names(functions: List[Function]) -> Set[str]:
    """Returns the names of methods that several public types have."""
    owners: Dict[str, Set[str]] = {}
    for function in functions:
        if function.owner:
            owners.setdefault(function.name, set()).add(function.owner)
    return {name for name, types in owners.items() if len(types) > 1}


def main() -> None:
    """Prints the list."""
    words = sys.argv[1:]
    if words not in ([], ["--untested"]):
        sys.exit(__doc__)
    names = [name for name in build.listed() if name not in NEVER_RUN]
    modules = {name: sources(os.path.join(build.TOP, "crates", name)) for name in names}
    calls = Calls({name: "\n".join(found.values()) for name, found in modules.items()})
    functions = [
        function
        for name, found in modules.items()
        if name not in TESTS and "lib" in found
        for function in functions_of(name, found)
    ]
    shared = shared_names(functions)
    for function in functions:
        kind = kind_of(function, calls.callers(function), shared)
        if kind and (kind == "untested" or not words):
            print(f"{function.crate:16} {function.shown():36} {kind}")


if __name__ == "__main__":
    main()
