#!/usr/bin/env python3
"""take-over.py CHECKED: lets `rt check`, `rt try` and `rt plant` in this checkout stand on the libraries that `rt ci` built in the checkout CHECKED.

Of each crate whose files, and those of all crates below it, are the same in both, the built library is linked into out/ here, with the
stamp that these commands look for. So nothing below a crate is proved again before its first check. It counts for nothing at the gate,
which keeps its own record of what it proved. Run it again as CHECKED gets further. Prints the crates that it took over."""
import os
import shutil
import subprocess
import sys

import build

PARTS = ("src", "specs", "proofs")


def crates_below(top):
    """The crates of a checkout, each with the crates of the checkout that it names."""
    below = {name: build.needs(line) for name, line in build.listed(top).items()}
    return {name: [it for it in needs if it in below] for name, needs in below.items()}


def files_of(folder):
    """The files of a crate that a check reads, by their paths."""
    found = {}
    for part in PARTS:
        for at, _, names in os.walk(f"{folder}/{part}"):
            for name in names:
                path = os.path.join(at, name)
                with open(path, "rb") as file:
                    found[os.path.relpath(path, folder)] = file.read()
    return found


class Sameness:
    """Which crates, with all that stand below them, have the same files in two checkouts."""

    def __init__(self, one, other):
        self.one, self.other, self.below, self.known = one, other, crates_below(one), {}

    def holds(self, name):
        if name not in self.known:
            self.known[name] = all(map(self.holds, self.below[name])) and files_of(f"{self.one}/crates/{name}") == files_of(f"{self.other}/crates/{name}")
        return self.known[name]


def link(old, new):
    try:
        os.link(old, new)
    except OSError:
        shutil.copyfile(old, new)


def main():
    if len(sys.argv) != 2:
        sys.exit(__doc__)
    here = subprocess.run(["git", "rev-parse", "--show-toplevel"], check=True, capture_output=True, text=True).stdout.strip()
    checked = os.path.abspath(sys.argv[1])
    kit = os.path.dirname(subprocess.run(["rt", "doc"], check=True, capture_output=True, text=True).stdout.strip())
    sys.path.insert(0, f"{kit}/bin")
    import rtlib

    os.chdir(here)
    same, known = Sameness(here, checked), {}
    for name in same.below:
        built, taken = f"{checked}/crates/{name}/out/rlib", f"{here}/crates/{name}/out/rlib"
        if not same.holds(name) or not os.path.isfile(f"{built}/{name}.rlib/format"):
            continue
        folder = f"{here}/crates/{name}"
        crate = known.setdefault(folder, rtlib.Crate(folder, here, known, name=name))
        shutil.rmtree(taken, ignore_errors=True)
        shutil.copytree(built, taken, copy_function=link)
        with open(f"{taken}/stamp", "w", encoding="utf-8") as stamp:
            stamp.write(crate.stamp())
        print(name)


if __name__ == "__main__":
    main()
