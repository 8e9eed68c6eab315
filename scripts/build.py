#!/usr/bin/env python3
"""Proves the program and every crate below it, side by side, and leaves the program in its crate's out/.

usage: build.py

The proofs are the gate's own: `rt ci` over a copy of these crates without their must-fail edits. It proves as many crates at once as
there are processors and memory for, and keeps what it proved, so that neither the gate nor a later build proves it again. The first
crate that is not proved ends the build, with what was said of it.
"""
import os
import queue
import re
import shutil
import signal
import subprocess
import sys
import tempfile
import threading
import time

TOP = os.path.realpath(f"{os.path.dirname(os.path.abspath(__file__))}/..")
PROGRAM = "btest"
ENDED = re.compile(r"rt: (\w+)(: its tests)?(?: are)? (proved|NOT PROVED|is kept|passed)\b")
WAITS = re.compile(r"rt: (\w+)(: its tests)?: another run on this machine is proving the same")


def listed(checkout: str = TOP) -> "dict[str, str]":
    """Returns the lines of a checkout's crates.txt, in its order, by the names of the crates."""
    with open(f"{checkout}/crates.txt", encoding="utf-8") as it:
        return {line.split(":")[0].split()[0]: line for line in it if ":" in line and not line.startswith("#")}


def needs(line: str) -> "list[str]":
    """Returns the libraries that a line of crates.txt names, those of the kit among them."""
    return line.partition(":")[2].split()


def needed(top=PROGRAM):
    """Returns the lines of crates.txt for a crate and all crates below it, by their names."""
    lines, found, left = listed(), {}, [top]
    while left:
        name = left.pop()
        if name in lines and name not in found:
            found[name] = lines[name]
            left += needs(lines[name])
    return found


def copy_to(root, crates):
    """Copies what a proof of these crates reads. The empty folder .git says that it is the top of a repository."""
    os.makedirs(f"{root}/.git")
    with open(f"{root}/crates.txt", "w", encoding="utf-8") as it:
        it.writelines(crates.values())
    shutil.copyfile(f"{TOP}/HANDLES", f"{root}/HANDLES")
    for name in crates:
        copy_crate(root, name)


def copy_crate(root, name):
    shutil.copytree(f"{TOP}/crates/{name}", f"{root}/crates/{name}", ignore=shutil.ignore_patterns("out", "must-fail"))


def add_to(root, name, line):
    """Adds a crate to such a copy."""
    with open(f"{root}/crates.txt", "a", encoding="utf-8") as it:
        it.write(line)
    copy_crate(root, name)


def begin(root):
    """Starts the gate over the copy, and returns its process and the queue of the lines that it writes, which ends in None."""
    how = {"stdin": subprocess.DEVNULL, "stdout": subprocess.PIPE, "stderr": subprocess.STDOUT, "errors": "replace"}
    gate = subprocess.Popen(["rt", "ci"], cwd=root, start_new_session=True, **how)
    lines = queue.Queue()

    def read():
        for line in gate.stdout:
            lines.put(line.rstrip("\n"))
        lines.put(None)

    threading.Thread(target=read, daemon=True).start()
    return gate, lines


class Progress:
    """What is told of a run: a line where a crate begins and one where it ends."""

    def __init__(self, root, crates):
        self.root, self.left, self.since = root, set(crates), time.monotonic()
        # When each crate was seen to have begun, and which were told of.
        self.begun, self.told = {}, set()
        # What was said of the crate whose lines are read, and what was said of none.
        self.block, self.rest = None, []

    def tell(self, word, what):
        seconds = int(time.monotonic() - self.since)
        print(f"{seconds // 60:3d}:{seconds % 60:02d}  {word:<7} {what}", flush=True)

    def look(self):
        """Tells of the crates that have begun: a proof makes the crate's out/. One that is kept is over before the second look."""
        for name in sorted(self.left - self.told):
            if name in self.begun:
                self.told.add(name)
                self.tell("begun", name)
            elif os.path.isdir(f"{self.root}/crates/{name}/out"):
                self.begun[name] = time.monotonic()

    def read(self, line):
        """Takes a line of the run, and returns whether all is well."""
        line = line.replace(self.root, TOP)
        ended, waits = ENDED.match(line), WAITS.match(line)
        if line.startswith("== "):
            self.block = []
        if self.block is not None:
            self.block.append(line)
        elif not waits and not (ended and ended[3] in ("is kept", "passed")):
            self.rest.append(line)
        if waits:
            self.tell("waits", f"{waits[1]}{', with its tests' * bool(waits[2])}: another run on this machine is proving the same")
        elif ended and ended[3] == "NOT PROVED":
            print("\n".join(self.block or self.rest), flush=True)
            return False
        elif ended and ended[3] != "passed":
            self.end(*ended.groups())
        elif self.block is None and line.startswith("rt: note: "):
            self.tell("note", line[len("rt: note: ") :])
        return True

    def end(self, name, tests, word):
        self.block = None
        if tests:
            self.tell("proved", f"{name}, with its tests")
        elif name in self.left:
            self.left.remove(name)
            spent = f" in {time.monotonic() - self.begun[name]:.0f} s" if name in self.begun and word == "proved" else ""
            self.tell("kept" if word == "is kept" else word, f"{name}{spent}, {len(self.left)} left")


def follow(gate, lines, progress):
    """Tells how the run goes, and returns whether it passed."""
    while True:
        try:
            line = lines.get(timeout=1)
        except queue.Empty:
            progress.look()
            continue
        if line is None:
            break
        if not progress.read(line):
            return False
    if gate.wait():
        print("\n".join(progress.rest), flush=True)
    return gate.returncode == 0


def leave(made, since):
    """Puts the program where it belongs, whole or not at all, and as old as the sources that it was made of."""
    folder = f"{TOP}/crates/{PROGRAM}/out"
    os.makedirs(folder, exist_ok=True)
    shutil.copyfile(made, f"{folder}/{PROGRAM}.new")
    os.chmod(f"{folder}/{PROGRAM}.new", 0o755)
    os.utime(f"{folder}/{PROGRAM}.new", (since, since))
    os.replace(f"{folder}/{PROGRAM}.new", f"{folder}/{PROGRAM}")


def end(gate):
    """Ends the run with all that it started, as when the build is stopped or a crate failed."""
    if gate.poll() is None:
        os.killpg(gate.pid, signal.SIGTERM)
        gate.wait()


def main():
    if len(sys.argv) > 1:
        print(__doc__, file=sys.stdout if sys.argv[1] in ("-h", "--help") else sys.stderr)
        return 0 if sys.argv[1] in ("-h", "--help") else 2
    crates = needed()
    print(f"Proving {len(crates)} crates, side by side. README.md says how long this takes from nothing; what is proved is kept.")
    with tempfile.TemporaryDirectory(prefix="btest-build-") as room:
        since = time.time()
        copy_to(f"{room}/copy", crates)
        gate, lines = begin(f"{room}/copy")
        try:
            if not follow(gate, lines, Progress(f"{room}/copy", crates)):
                return 1
            leave(f"{room}/copy/crates/{PROGRAM}/out/{PROGRAM}", since)
        finally:
            end(gate)
    return 0


if __name__ == "__main__":
    for each in (signal.SIGTERM, signal.SIGHUP):
        signal.signal(each, lambda number, _: sys.exit(128 + number))
    try:
        sys.exit(main())
    except KeyboardInterrupt:
        sys.exit(130)
