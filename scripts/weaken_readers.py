"""What is known of weaker forms, and how a crate is asked what it says to them."""
import os
import re
import sys
import threading
import time
from typing import Dict, List, Set, Tuple

from stand_ins import Room, read
from weaker_forms import Form, Function, declared, functions_of, heads

Key = Tuple[str, str, str]
MOST = 240  # characters of a message
VERDICT = re.compile(r"^fn (\S+): (.*)$", re.MULTILINE)
FAILED = ("not proved", "no proof", "could not tell")
ERROR = re.compile(
    r"^(?:\./)?(\S+\.(?:rt|antt)):(\d+):\d+: (?!note|warning|help|goal)(.*(?:\n  .*)?)",
    re.MULTILINE,
)
NO_FIELD = re.compile(r"record `(?:[\w.]+\.)?(\w+)` has no field `(\w+)`")
# Of what cites a refused declaration or a stand-in.
CASCADES = ("was not admitted", "has-holes", "not checked")
UNTRIED = "NOT TRIED"
REFUSED = "refused by"


class Outcomes:
    """What is known of each form, for several threads."""

    def __init__(self, forms: List[Form], kept: str = ""):
        self.forms, self.kept, self.lock = forms, kept, threading.Lock()
        self.settled: Dict[Form, str] = {}
        self.called: Set[Form] = set()  # forms of functions that some function calls
        self.untried: Dict[Form, str] = {}  # forms that could not be tried somewhere, and why
        # Of each crate, functions that aren't proved if it lacks all clauses, or all fields (True).
        self.failed: Dict[Tuple[str, bool], Set[Function]] = {}
        # Of each crate, which forms its functions were tried on.
        self.tried: Dict[str, Set[Tuple[Form, Function]]] = {}

    def settle(self, found: Dict[Form, str]) -> None:
        """Notes what refuses which forms, and prints that."""
        with self.lock:
            for form, outcome in found.items():
                if form not in self.settled:
                    self.settled[form] = outcome
                    tell_of(form, outcome)
                    if self.kept and outcome.startswith(REFUSED):
                        keep(self.kept, form, outcome)

    def left(self, forms: List[Form]) -> List[Form]:
        """Returns those of some forms that nothing has refused."""
        with self.lock:
            return [it for it in forms if it not in self.settled]


def keep(path: str, form: Form, outcome: str) -> None:
    """Appends what refuses a form to a file."""
    with open(path, "a", encoding="utf-8") as it:
        it.write("\t".join([*name_of(form), outcome]) + "\n")


def kept_in(path: str) -> Set[Key]:
    """Returns the names of the forms of a file, which may be missing."""
    lines = read(path).splitlines() if os.path.isfile(path) else []
    return {(it[0], it[1], it[2]) for it in (line.split("\t") for line in lines) if len(it) == 4}


def name_of(form: Form) -> Key:
    """Returns a form's crate, file and title."""
    return form.crate, form.path, " ".join(form.title().split())


def tell_of(form: Form, outcome: str) -> None:
    """Prints what became of a form."""
    print(f"{form.crate}: {form.title()}\n    {outcome}", flush=True)


def tell(text: str) -> None:
    """Says how far the run is."""
    sys.stderr.write(f"-- {text}\n")


def owner_at(path: str, text: str, line: int) -> str:
    """Returns the function, the record or the definition at a line of a file."""
    for it in functions_of(path, text) if path.endswith(".rt") else ():
        if it.first <= line <= it.last:
            return it.title()
    return declared(text.split("\n")[: line + 1])


class Reader:
    """A crate that may refuse forms, its own and those of crates below it."""

    def __init__(self, room: Room, name: str, outcomes: Outcomes, is_field: bool):
        self.room, self.crate, self.outcomes = room, room.crates[name], outcomes
        self.copy = f"{room.top}/{name}/crates"  # the folder of the crates that are checked
        reach = {name} | room.under[name]
        forms = [it for it in outcomes.forms if it.crate in reach and it.is_field == is_field]
        self.forms = outcomes.left(forms)
        self.functions = self.crate.witnesses()
        self.proofs = {it: self.crate.proof(it) for it in self.functions}
        self.seen: Dict[str, str] = {}  # texts of files that the last check names

    def sources(self, forms: List[Form]) -> Set[str]:
        """Returns the crates below that forms are of, and those between them and this crate."""
        return self.room.between({it.crate for it in forms} - {self.crate.name}, self.crate.name)

    def checked(self, texts: Dict[str, Dict[str, str]], only: List[str]) -> str:
        """Checks some paths of the crate, or all, with these files of it and of crates below it."""
        for name, files in texts.items():
            self.room.lays_out(self.crate.name, name, files)
        self.seen = {}
        return self.room.check(self.crate.name, set(texts) - {self.crate.name}, only)

    def declaration(self, path: str, at: int) -> Tuple[str, str]:
        """Returns the name and the lines of what is declared at a line of a file of the room."""
        text = self.text_of(path)
        lines = text.split("\n")
        places = heads(lines)
        first = max((it for it in places if it < at), default=0)
        last = min((it for it in places if it >= at), default=len(lines))
        return owner_at(path, text, at - 1), "\n".join(lines[first:last])

    def place(self, path: str) -> str:
        """Returns where a file is that a check names. It names those of crates below in full."""
        return os.path.join(self.copy, self.crate.name, path)

    def text_of(self, path: str) -> str:
        """Returns the text of a file that a check names, or nothing if there is no such file.

        A check can have thousands of errors in a file, so the text is kept until the next check.
        """
        if path not in self.seen:
            file = self.place(path)
            self.seen[path] = read(file) if os.path.isfile(file) else ""
        return self.seen[path]

    def declared_as(self, path: str, name: str) -> str:
        """Returns the declared name of what a file of the room has under a name."""
        imported = re.search(rf"(\w+) as {name}\b", self.text_of(path))
        return imported[1] if imported else name

    def lacking(self, forms: List[Form], text: str, end: str = "") -> Dict[Form, str]:
        """Returns the fields, with some end of their names, that declarations of a check miss."""
        named = {(it.owner, it.clause + end): it for it in forms}
        found: Dict[Form, str] = {}
        for it in ERROR.finditer(text):
            lacks = NO_FIELD.search(it[3])
            form = named.get((self.declared_as(it[1], lacks[1]), lacks[2])) if lacks else None
            if form:
                file = os.path.relpath(self.place(it[1]), self.copy)
                who = self.declaration(it[1], int(it[2]))[0]
                found.setdefault(form, f"{REFUSED} {file} {who}".strip())
        return found

    def verdicts(self, it: Function, text: str) -> List[str]:
        """Returns what a check says of a function and its closures."""
        own = self.crate.name_in_lines(it)
        return [one[2] for one in VERDICT.finditer(text) if own.fullmatch(one[1])]

    def tells(self, tried: int, refused: int, since: float) -> None:
        """Says what a round came to."""
        seconds = time.monotonic() - since
        tell(f"{self.crate.name}: {tried} tried, {refused} refused, {seconds:.0f} s")


def first_error(text: str) -> str:
    """Returns the first error of a check, or else its last words."""
    found = [it for it in ERROR.finditer(text) if CASCADES[1] not in it[3]]
    errors = [" ".join(it[0].split())[:MOST] for it in found]
    return errors[0] if errors else " ".join(text.split())[-MOST:]
