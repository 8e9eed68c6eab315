#!/usr/bin/env python3
"""Prints figures of the sources: clauses, what stands twice, lines of proof. They are to move, and no limit of the gate.

    scripts/figures.py [FOLDER]     a checkout, this one where none is named
"""
import collections
import os
import re
import sys

WIDE, RUN = 100, 6
CLAUSE = re.compile(r"^\s+(requires|ensures) ")
NAMED_CLAUSE = re.compile(r"^\s+requires (?:\w+ )?\{")
IMPORT = re.compile(r"^\s*(ghost use|pub use|use|mod|pub mod) ")
STATEMENT = re.compile(r"^ {0,4}(?:pub )?([^\s:]+) : (.+)$")
CLOSED = re.compile(r"^\s*(record|data|abbrev|module|unfoldable)\b")


def files(top, ending, *parts):
    """Yields the lines of the files with this ending in these folders of each crate."""
    for at, folders, names in os.walk(os.path.join(top, "crates")):
        folders[:] = sorted(it for it in folders if it != "out")
        if not set(parts) & set(os.path.relpath(at, top).split(os.sep)):
            continue
        for name in sorted(it for it in names if it.endswith(ending)):
            with open(os.path.join(at, name), encoding="utf-8") as it:
                yield os.path.join(at, name), it.read().splitlines()


def whole(lines):
    """Yields the lines, each with the lines that continue it: those that begin with an arrow."""
    now = ""
    for line in lines:
        if line.lstrip().startswith("→"):
            now += " " + line.strip()
        else:
            yield now
            now = line
    yield now


def statements(lines):
    """Yields the statements of the lemmas of a proof file, without their names."""
    for line in whole(lines):
        found = STATEMENT.match(line)
        if found and not CLOSED.match(line) and "≡" in found[2]:
            yield re.sub(r"\s+", " ", found[2])


def repeated_runs(texts):
    """Returns how many pairs of places share a run of RUN lines or more, without imports and blank lines."""
    places = collections.defaultdict(list)
    for file, lines in texts:
        code = [(n, re.sub(r"\s+", " ", it.strip())) for n, it in enumerate(lines) if it.strip() and not IMPORT.match(it)]
        code = [it for it in code if len(it[1]) > 2]
        for start in range(len(code) - RUN + 1):
            places["\n".join(it[1] for it in code[start:start + RUN])].append((file, start))
    pairs = set()
    for found in places.values():
        for (one, first), (other, second) in zip(found, found[1:]):
            pairs.add((one, other, first - second))
    return len(pairs)


def main():
    top = sys.argv[1] if len(sys.argv) > 1 else os.path.join(os.path.dirname(os.path.abspath(__file__)), "..")
    sources = list(files(top, ".rt", "src"))
    proofs = list(files(top, ".antt", "proofs"))
    specs = list(files(top, ".antt", "specs"))
    clauses = [it for _, lines in sources for it in lines if CLAUSE.match(it)]
    requires = [re.sub(r"requires \w+ \{", "requires {", it.strip()) for it in clauses if NAMED_CLAUSE.match(it)]
    wide = sum(len(it) > WIDE for it in clauses)
    lemmas = collections.Counter(it for _, lines in proofs for it in set(statements(lines)))
    rows = [
        ("lines `requires`", len(requires)),
        ("different ones among them", len(set(requires))),
        ("clauses", len(clauses)),
        (f"clauses over {WIDE} columns, in percent", round(100 * wide / max(len(clauses), 1))),
        ("statements of lemmas that stand in more than one file", sum(it > 1 for it in lemmas.values())),
        (f"pairs of places that share {RUN} lines or more", repeated_runs(sources + proofs + specs)),
        ("lines of source", sum(len(it) for _, it in sources)),
        ("lines of definitions", sum(len(it) for _, it in specs)),
        ("lines of proof", sum(len(it) for _, it in proofs)),
    ]
    for name, figure in rows:
        print(f"{figure:8,}  {name}")


if __name__ == "__main__":
    main()
