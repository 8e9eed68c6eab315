#!/usr/bin/env python3
"""Counts what the gate costs, crate by crate, in processor seconds: the proof, the proof with the tests, and the must-fail edits with
their number. Start it beside the gate, or beside `make build`, which take no part in it, and end it when they end:

    scripts/gate-costs.py >costs.md & .ci/run; kill $!               prints the table as lines of Markdown
    scripts/gate-costs.py --write & .ci/run; kill $!                 writes it into docs/PROVING.md, in place of the one there

It looks every second at the processes of the prover that run. Whatever else runs on the machine slows the gate down and changes the
figures, so nothing should. The figures are those of a run from nothing only if the machine had kept nothing before.
The seconds of a crate's edits include one proof of the crate, with which all of them begin.
"""
import glob
import os
import signal
import sys
import time

TICKS = os.sysconf("SC_CLK_TCK")
KINDS = ("proof", "tests", "edits")
BEGIN, END = "<!-- costs -->", "<!-- end of costs -->"
ROOT = os.path.realpath(f"{os.path.dirname(os.path.abspath(__file__))}/..")


def seconds_of(process):
    """Returns the processor seconds of a process, without those that it forked, and when it began."""
    with open(f"/proc/{process}/stat", encoding="utf-8", errors="replace") as it:
        fields = it.read().rpartition(") ")[2].split()
    return sum(int(it) for it in fields[11:13]) / TICKS, fields[19]


def kind_of(words, folder):
    """Returns what a process of the prover proves for the gate, or None where it isn't the gate's."""
    if os.path.basename(folder).startswith("rt-edit-"):
        return "edits"
    # (the last is the copy that scripts/build.py proves)
    if not folder.startswith(f"{ROOT}/crates/") and "/btest-build-" not in folder:
        return None
    return "tests" if "--test" in words else "proof"


def look(seen):
    """Adds what the processes that run have spent so far, and returns their kinds."""
    kinds = set()
    for process in filter(str.isdigit, os.listdir("/proc")):
        try:
            with open(f"/proc/{process}/cmdline", encoding="utf-8", errors="replace") as it:
                words = it.read().split("\0")
            if os.path.basename(words[0]) != "rattle" or "--crate-name" not in words:
                continue
            folder = os.readlink(f"/proc/{process}/cwd")
            kind = kind_of(words, folder)
            if kind:
                spent, began = seconds_of(process)
                seen[process, began] = words[words.index("--crate-name") + 1], kind, spent
                kinds.add(kind)
        except (OSError, ValueError):
            pass
    return kinds


def edits_of(name):
    return len(glob.glob(f"{ROOT}/crates/{name}/must-fail/*.edit"))


def table(seen, minutes):
    """Returns the table, as lines of Markdown. `minutes` has the minutes from the start of the count to the last process of each kind."""
    costs = {}
    for name, kind, spent in seen.values():
        costs.setdefault(name, {}).setdefault(kind, 0)
        costs[name][kind] += spent
    total = lambda name: sum(costs[name].values())
    rows = ["| crate | proof | proof with its tests | edits | number of edits |", "|---|---|---|---|---|"]
    for name in sorted(costs, key=lambda it: -total(it)):
        cells = [f"{costs[name][it]:.0f}" if it in costs[name] else "" for it in KINDS]
        rows.append(f"| `{name}` | {' | '.join(cells)} | {edits_of(name) or ''} |")
    sums = [sum(it.get(kind, 0) for it in costs.values()) / 60 for kind in KINDS]
    number = sum(map(edits_of, costs))
    rows.append(f"| processor minutes, {sum(sums):.0f} together | {' | '.join(f'{it:.0f}' for it in sums)} | {number} |")
    clock = " | ".join(f"{minutes[kind]:.0f}" if kind in minutes else "" for kind in KINDS)
    rows.append(f"| minutes on the clock until the last one ended, with {len(os.sched_getaffinity(0))} processors | {clock} | |")
    return rows


def write_into(path, rows):
    """Puts the table in place of the one that the file has."""
    with open(path, encoding="utf-8") as it:
        text = it.read()
    before, begin, rest = text.partition(f"{BEGIN}\n")
    _, end, after = rest.partition(f"{END}\n")
    if not begin or not end:
        sys.exit(f"{path} has no place for the table: a line {BEGIN} and a line {END}")
    with open(path, "w", encoding="utf-8") as it:
        it.write(before + begin + "\n".join(rows) + "\n" + end + after)


def main():
    if sys.argv[1:] not in ([], ["--write"]):
        sys.exit(__doc__)
    seen, minutes, since = {}, {}, time.monotonic()
    signal.signal(signal.SIGTERM, lambda *_: sys.exit(0))
    try:
        while True:
            for kind in look(seen):
                minutes[kind] = (time.monotonic() - since) / 60
            time.sleep(1)
    except KeyboardInterrupt:
        pass
    finally:
        rows = table(seen, minutes)
        if sys.argv[1:]:
            write_into(f"{ROOT}/docs/PROVING.md", rows)
        else:
            print("\n".join(rows))


if __name__ == "__main__":
    main()
