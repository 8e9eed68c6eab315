#!/usr/bin/env python3
"""Prints the functions of a crate by the seconds that the prover takes for each, the slowest first.

usage: profile-crate.py NAME [--test]     proves the crate NAME, or with --test the crate with its tests
       profile-crate.py --log FILE        reads what an earlier run wrote to out/profile-NAME.log

The script copies the crate and the crates below it and lets `rt ci` prove those below, which takes no time for what it has proved
before. Then it proves the crate by one job and notes the time of each line that the prover writes.

The prover writes a line when it has ended with a function. A function's seconds are those since the line before. They also hold
what the prover needed first for this function: definitions, lemmas, and the proofs of private types. A long pause can therefore
belong to a definition that the next functions share. To tell which, prove the function alone: `rt check --only PATH`.
The seconds before the first function are listed as loading: the libraries, and the first function itself. The seconds after the
last one are listed as ending. Seconds are those of the clock, so nothing else may run on the machine meanwhile; the script says
so if something does.
"""
import argparse
import os
import re
import subprocess
import sys
import tempfile
import time

import build

CHECKED = re.compile(r"checked (\S+), (\d+) of (\d+)$")
MOST = 30


class Profile:
    """The seconds of each function, of what comes before the first one, and of what comes after the last."""

    def __init__(self, lines):
        self.functions, self.loading, self.ending, self.is_proved = [], None, None, False
        last = 0.0
        for line in lines:
            seconds, _, text = line.rstrip("\n").partition(" ")
            found = CHECKED.match(text)
            if found and self.loading is None:
                self.loading, last = float(seconds), float(seconds)
            elif found:
                self.functions.append((float(seconds) - last, found[1]))
                last = float(seconds)
            elif text.startswith("logic="):
                self.ending, self.is_proved = float(seconds) - last, text.startswith("logic=proved ")

    def table(self):
        """Returns the lines to print: the slowest functions, and the sums."""
        slowest = sorted(self.functions, reverse=True)
        rows = [f"{seconds:8.1f}  {name}" for seconds, name in slowest[:MOST]]
        rest = sum(seconds for seconds, _ in slowest[MOST:])
        if len(slowest) > MOST:
            rows.append(f"{rest:8.1f}  {len(slowest) - MOST} others")
        return [
            "seconds  function",
            *rows,
            f"{self.loading or 0:8.1f}  loading, with the first function",
            f"{self.ending or 0:8.1f}  ending",
            f"{sum(seconds for seconds, _ in slowest) + (self.loading or 0) + (self.ending or 0):8.1f}  together",
        ]


def prover_words(root, name, tests):
    """Returns the command by which the gate proves the crate, with a line for each function."""
    kit = os.path.dirname(subprocess.run(["rt", "doc"], check=True, capture_output=True, text=True).stdout.strip())
    sys.path.insert(0, f"{kit}/bin")
    import rtlib

    os.chdir(root)
    crate = rtlib.Crate(f"{root}/crates/{name}", root, {}, name=name)
    return [rtlib.RATTLE, "check", *crate.words(["--jobs", "1"], tests=tests, keeps=False), "--progress"]


def prove(words, folder, log):
    """Runs the prover and writes each of its lines to the log, with the seconds since the start before it."""
    since = time.monotonic()
    with open(log, "w", encoding="utf-8") as it:
        run = subprocess.Popen(words, cwd=folder, stdin=subprocess.DEVNULL, stdout=subprocess.PIPE, stderr=subprocess.STDOUT, text=True, errors="replace")
        for line in run.stdout:
            it.write(f"{time.monotonic() - since:.1f} {line}")
    return run.wait()


def profile(name, tests):
    """Profiles a crate and returns the log, and whether the prover ended with a verdict."""
    crates = build.needed(name)
    log = f"{build.TOP}/out/profile-{name}{'-tests' if tests else ''}.log"
    os.makedirs(os.path.dirname(log), exist_ok=True)
    with tempfile.TemporaryDirectory(prefix="btest-profile-") as root:
        below = {it: line for it, line in crates.items() if it != name}
        build.copy_to(root, below)
        if below and subprocess.run(["rt", "ci"], cwd=root, stdout=subprocess.DEVNULL).returncode:
            sys.exit(f"a crate below {name} is not proved")
        build.add_to(root, name, crates[name])
        return log, prove(prover_words(root, name, tests), f"{root}/crates/{name}", log)


def main():
    words = argparse.ArgumentParser(description=__doc__, formatter_class=argparse.RawDescriptionHelpFormatter)
    words.add_argument("name", metavar="NAME", nargs="?", help="a crate, as crates.txt names it")
    words.add_argument("--test", action="store_true", help="with its tests")
    words.add_argument("--log", metavar="FILE", help="a log of an earlier run")
    given = words.parse_args()
    if bool(given.name) == bool(given.log) or given.log and given.test:
        words.error("give the name of a crate, or a log")
    log, status = given.log, 0
    if given.name:
        if os.getloadavg()[0] > 0.5:
            print("Something else is at work on this machine, so the seconds below are too many.", file=sys.stderr)
        log, status = profile(given.name, given.test)
    with open(log, encoding="utf-8") as it:
        found = Profile(it)
    print("\n".join(found.table()))
    if not found.is_proved:
        sys.exit(f"The crate is not proved: {log} says why.")
    return status


if __name__ == "__main__":
    sys.exit(main())
