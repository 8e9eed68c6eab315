#!/usr/bin/env python3
"""Weakens what crates promise, clause by clause, and says which proof refuses each weaker form.

usage: weaken.py CRATE[,CRATE..] [WORD..] [--checked DIR] [--room DIR] [--kept FILE] [--checks N]
                 [--list]
       weaken.py all [WORD..] ..

A clause is an `ensures` of a public function that is no method of a trait, or a field of a record
in specs/. A WORD chooses the forms that have it in their title, as --list prints them: `meet`,
`IsPlanOf.width`, `"meet: (A"`.

The weaker forms of a clause are nothing in its place, and for `A <-> B` also `A -> B` and `B -> A`.
If a proof refuses one of these two, nothing in its place isn't tried: it says even less.

A proof can refuse a form of a function only if it is the proof of a caller. A caller has the name
of the function in its body, and the code of its built library calls the function (built_code.py).
So a call of another type's method with the same name doesn't count. If the code lacks the caller or
the function, the name alone decides.

The script works in a copy, the room, which is among the temporary files if --room doesn't name it.
In most rounds all functions but some callers are stand-ins (stand_ins.py), so a round costs the
proofs of these callers and what each check loads. Such a round weakens many functions, and each of
its callers calls a single one of them. A caller that is proved without all clauses of this function
refuses no form of them. If it is not proved and its proof doesn't name the clause that it misses,
the clauses are tried one by one. Callers in the crate itself come first, then those in the crates
above it, from below. A clause that a caller's proof cites needs no round.

At first one caller of each form is tried. Then all clauses that are left and have other callers in
the crate are dropped at once. The check is of the whole crate, and none of its functions is a
stand-in. An error in a caller's proof may name the clause that is missing. If only one of the
functions that the caller calls lacks a clause of this name, the clause comes back. The crate is
checked again, until no error names such a clause. Then the other callers are tried. Those come
first that were not proved when all clauses were dropped. The others follow, and none is left out: a
caller that was proved may still need a clause, since its own promise lost clauses too.

A field is needed by each declaration that names it after a dot. To find out which record a name is
of, a round writes wrong names in a crate, and the error of a declaration says which record has no
such field. This needs no check of the crates below. First definitions, lemmas and samples are
tried, and at a later step functions whose proofs name a field. A field that a later field of its
record names needs no round.

Between these two steps, all fields that are left are dropped at once, as clauses are. A record
keeps at least one. The error of a declaration or a clause says which record has no such field. The
fields that errors name come back, and the crate is checked again, until no error names a field.
Definitions, lemmas and samples come before this step, since an error in one of them hides what
depends on it. Functions whose proofs name a field come after it, since it leaves few fields to
them.

At last, records without their fields are tried over functions that may use them, as functions are
that state less. The prover's tactics use fields without naming them. So the functions come first
that were not proved when all fields were dropped. The others follow, and none is left out: a
function that was proved may still need a field, since its own promise lost fields too.

A caller that is refused for another reason than a missing name is checked once more with no form.
If it isn't proved then either, it counts for nothing.

The script prints of each form what refuses it, which must-fail edits change the function or the
record, or that nothing refuses it. A form that nothing refuses needs an edit, a sample or a caller,
as those in outer_calls. Whether a named edit breaks the very clause, a reader has to judge. No
proof can need a clause of the crates at the top: promises, whose clauses are what the README says,
and outer_calls, whose clauses are those of the functions that it calls. The exit status is 1 if
there is a form elsewhere that nothing refuses, or one that could not be tried.

With --checked DIR the sources and the built libraries are those of DIR, in which `rt ci` proved
them. Otherwise `rt ci` first proves the crates of this checkout in a copy beside the room, except
what it has proved on this machine before. The room keeps what was checked, so that a later round
takes less.

A run over all crates takes hours. With --kept FILE the script appends each form that a proof
refuses to FILE, and doesn't try the forms that FILE has. So a later run goes on where an earlier
one ended.
"""
import argparse
import concurrent.futures
import os
import sys
import threading
import time
from typing import Dict, Iterator, List, Optional, Set, Tuple

import build
import must_fail
from stand_ins import ROOM, TOPS, Crate, Room, proved, read
from weaken_calls import Callers
from weaken_fields import Namers, Users
from weaken_readers import Outcomes, kept_in, name_of, owner_at
from weaker_forms import Form

STEPS = (
    "likely names",
    "likely calls",
    "clauses at once",
    "declarations",
    "fields at once",
    "names",
    "calls",
    "records",
)
FEW = 1  # callers of a form that are tried in a crate before any others


def edits_of(crate: Crate) -> Iterator[Tuple[str, Set[Tuple[str, str]]]]:
    """Returns the must-fail edits of a crate of this checkout, with what each changes where."""
    folder = f"{build.TOP}/crates/{crate.name}/must-fail"
    for file in sorted(os.listdir(folder)) if os.path.isdir(folder) else []:
        owners = set()
        for path, old, _ in must_fail.changes(read(f"{folder}/{file}")):
            text = crate.texts.get(path, "")
            if old in text:
                owners.add((path, owner_at(path, text, text.count("\n", 0, text.index(old)))))
        yield file[: -len(".edit")], owners


def held(room: Room, form: Form, is_called: bool) -> str:
    """Returns what becomes of a form that nothing refuses."""
    crate = room.crates[form.crate]
    names = [name for name, it in edits_of(crate) if (form.path, form.owner) in it]
    if names:
        return f"held by an edit, if one of these breaks the clause: {', '.join(names)}"
    own = [it for it in crate.functions.get(form.path, ()) if it.title() == form.owner]
    if any(it.is_public and it.body == it.last for it in own) and not is_called:
        return "a law for readers, which no function calls"
    if crate.name in TOPS and own and not is_called:
        return "at the top, where a reader judges the clause"
    why = ": no function calls it" if own and not is_called else ""
    return f"REFUSED BY NOTHING{why}"


class Work:
    """What is to be done at each crate, for several threads."""

    def __init__(self, room: Room, names: List[str], outcomes: Outcomes):
        self.room, self.outcomes, self.lock = room, outcomes, threading.Lock()
        above = {it for it in room.order if room.under[it] & set(names)}
        callers = [it for it in room.order if it in above and it not in names]
        order = [*names, *sorted(callers, key=lambda it: it != "outer_calls")]
        self.steps = [(step, it) for step in STEPS for it in order]
        self.busy: Set[str] = set()

    def next(self) -> Optional[Tuple[str, str]]:
        """Returns the first step at a crate that no other thread is at, if there is one."""
        with self.lock:
            for it in self.steps:
                if it[1] not in self.busy:
                    self.steps.remove(it)
                    self.busy.add(it[1])
                    return it
        return None

    def takes(self, step: str, name: str) -> None:
        """Takes a step at a crate."""
        if step in ("likely names", "declarations"):
            Namers(self.room, name, self.outcomes).settles_declared(step == "likely names")
        elif step == "clauses at once":
            Callers(self.room, name, self.outcomes).drops_all()
        elif step == "fields at once":
            Users(self.room, name, self.outcomes).drops_all()
        elif step == "names":
            Namers(self.room, name, self.outcomes).settles()
        elif step == "records":
            Users(self.room, name, self.outcomes).settles()
        else:
            Callers(self.room, name, self.outcomes).settles(FEW if step == "likely calls" else None)

    def goes_on(self) -> None:
        """Takes steps until none is left."""
        while self.steps:
            now = self.next()
            if not now:
                time.sleep(1)
                continue
            step, name = now
            try:
                self.takes(step, name)
            finally:
                self.busy.discard(name)


def tries(
    room: Room, names: List[str], forms: List[Form], checks: int, kept: str
) -> Dict[Form, str]:
    """Prints the outcome of each form, and returns it."""
    outcomes = Outcomes(forms, kept)
    work = Work(room, names, outcomes)
    with concurrent.futures.ThreadPoolExecutor(checks) as threads:
        for it in [threads.submit(work.goes_on) for _ in range(checks)]:
            it.result()
    left = outcomes.left(forms)
    ends = {it: held(room, it, it in outcomes.called) for it in left}
    outcomes.settle({it: outcomes.untried.get(it, how) for it, how in ends.items()})
    return outcomes.settled


def main() -> int:
    """Tries the forms that the words choose."""
    words = argparse.ArgumentParser(
        description=__doc__, formatter_class=argparse.RawDescriptionHelpFormatter
    )
    words.add_argument("crate", metavar="CRATE", help="a crate, some with commas between, or all")
    words.add_argument("words", metavar="WORD", nargs="*", help="chooses forms")
    words.add_argument("--checked", metavar="DIR", help="a checkout that `rt ci` proved")
    words.add_argument("--room", metavar="DIR", default=ROOM, help="the copy")
    words.add_argument("--kept", metavar="FILE", default="", help="what earlier runs refused")
    words.add_argument("--checks", type=int, default=1, help="that go on at a time (1)")
    words.add_argument("--jobs", type=int, default=1, help="of each check (1)")
    words.add_argument("--list", action="store_true", help="prints the forms and tries none")
    given = words.parse_args()
    checked = given.checked or (build.TOP if given.list else proved())
    if not checked:
        sys.exit("a crate is not proved as it is")
    room = Room(os.path.abspath(given.room), os.path.abspath(checked), given.jobs)
    chosen = room.order if given.crate == "all" else given.crate.split(",")
    names = [it for it in room.order if it in chosen]
    if len(names) < len(set(chosen)):
        words.error(f"{given.crate}: crates.txt has no such crate")
    forms = [form for name in names for form in room.crates[name].forms()]
    if given.words:
        forms = [it for it in forms if any(word in it.title() for word in given.words)]
    earlier = kept_in(given.kept)
    forms = [it for it in forms if name_of(it) not in earlier]
    if given.list:
        print("\n".join(it.title() for it in forms))
        return 0
    found = tries(room, names, forms, given.checks, given.kept)
    return int(any("NOT" in it for it in found.values()))


if __name__ == "__main__":
    sys.exit(main())
