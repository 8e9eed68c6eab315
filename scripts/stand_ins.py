"""A copy of crates in which all functions but some are stand-ins, for checks that give no verdict.

A stand-in has the body `loop {}` and a hole as its proof. So a check of a function relies on the
contracts of its callees. No library has to be proved and built again when a contract changes.
"""
import functools
import os
import re
import shutil
import subprocess
import tempfile
from typing import Any, Dict, Iterator, List, Optional, Set

import build
import weaker_forms
from built_code import Code
from weaker_forms import Form, Function, Record

# Outside the checkout, where `rt ci` refuses a second crates.txt.
ROOM = f"{tempfile.gettempdir()}/btest-weaken{build.TOP.replace('/', '-')}"
PARTS = ("src", "specs", "proofs")
TOPS = ("btest", "promises", "outer_calls")
OWN_PROOF = ("/Invariants.antt", "/Answers.antt", "/Proof.antt")
HOLE = """use Rattle.{place}.Statement as stated

pub {name}_spec : {{M : Type 1}} → stated.statement M
{name}_spec = ?
"""


def read(path: str) -> str:
    """Returns the text of a file."""
    with open(path, encoding="utf-8") as it:
        return it.read()


def write(path: str, text: str) -> None:
    """Writes a file, unless the text is there already."""
    if not os.path.isfile(path) or read(path) != text:
        os.makedirs(os.path.dirname(path), exist_ok=True)
        with open(path, "w", encoding="utf-8") as it:
            it.write(text)


def printed(words: List[str], folder: Optional[str] = None) -> str:
    """Runs a command in a folder and returns what it printed."""
    how: Dict[str, Any] = {"stdout": subprocess.PIPE, "stderr": subprocess.STDOUT}
    done = subprocess.run(words, cwd=folder, check=False, text=True, errors="replace", **how)
    return str(done.stdout)


def proved() -> str:
    """Proves the crates of this checkout in a copy. Returns the copy, or nothing if one fails."""
    top = f"{ROOM}-checked"
    shutil.rmtree(top, ignore_errors=True)
    build.copy_to(top, {name: line for it in TOPS for name, line in build.needed(it).items()})
    return "" if subprocess.run(["rt", "ci"], cwd=top, check=False).returncode else top


def module_of(path: str) -> str:
    """Returns the module of a file of src/, which is empty for the root."""
    name = path[len("src/") : -len(".rt")]
    return "" if name in ("lib", "main") else name


class Crate:
    """A crate of the checkout that is proved."""

    def __init__(self, name: str, folder: str):
        self.name, self.folder = name, folder
        self.texts = {path: read(f"{folder}/{path}") for path in self.files()}
        self.functions: Dict[str, List[Function]] = {}
        self.homes: Dict[str, str] = {}  # of each type, the module that declares it
        self.records: List[Record] = []
        for path, text in self.texts.items():
            if path.startswith("src/"):
                self.functions[path] = list(weaker_forms.functions_of(path, text))
                for it in weaker_forms.TYPE.finditer(text):
                    self.homes[it[1]] = module_of(path)
            else:
                self.records += weaker_forms.records_of(text)

    @functools.cached_property
    def mentions(self) -> Dict[str, Set[str]]:
        """Which others each type and definition with a capital letter mentions."""
        found: Dict[str, Set[str]] = {}
        for text in self.texts.values():
            for name, lines in weaker_forms.declarations(text):
                found.setdefault(name, set()).update(weaker_forms.CAPITALS.findall(lines))
        return found

    def files(self) -> Iterator[str]:
        """Returns the files that a check reads."""
        for part in PARTS:
            for at, _, names in sorted(os.walk(f"{self.folder}/{part}")):
                inside = os.path.relpath(at, self.folder)
                ours = sorted(it for it in names if it.endswith((".rt", ".antt")))
                yield from (f"{inside}/{it}" for it in ours)

    def root(self) -> str:
        """Returns the root file."""
        return "src/lib.rt" if "src/lib.rt" in self.texts else "src/main.rt"

    def forms(self) -> List[Form]:
        """Returns the weaker forms of all that the crate promises."""
        found: List[Form] = []
        for path, text in self.texts.items():
            if path.startswith("src/"):
                found += weaker_forms.forms_of_functions(self.name, path, text)
            elif path.startswith("specs/"):
                found += weaker_forms.forms_of_records(self.name, path, text)
        return found

    def witnesses(self) -> List[Function]:
        """Returns the functions that can be checked alone."""
        found = [it for each in self.functions.values() for it in each]
        alone = [it for it in found if module_of(it.path) or not it.is_of_trait]
        return [it for it in alone if it.is_of_trait or not it.holder or it.holder in self.homes]

    def place(self, it: Function) -> List[str]:
        """Returns the names of the modules and the type that a function is in, and its own."""
        home = self.homes.get(it.holder, module_of(it.path)) if it.holder else module_of(it.path)
        return [name for name in (home, it.holder, it.name) if name]

    def path_of(self, it: Function) -> str:
        """Returns the path of a function, or of the module of a trait's method."""
        place = [module_of(it.path)] if it.is_of_trait else self.place(it)
        return "::".join([self.name, *place])

    def paths(self) -> List[str]:
        """Returns the paths of all functions but the methods of traits."""
        found = [it for each in self.functions.values() for it in each]
        return [self.path_of(it) for it in found if not it.is_of_trait]

    def name_in_lines(self, it: Function) -> "re.Pattern[str]":
        """Returns what a check's lines call a function and its closures."""
        place = "::".join(map(re.escape, [self.name, *self.place(it)[:-1]]))
        of_trait = r"\w*" if it.is_of_trait else ""
        return re.compile(rf"{place}{of_trait}(::\S*)?::{it.name}(::.*)?")

    def body(self, it: Function) -> str:
        """Returns the lines of a function's body."""
        return "\n".join(self.texts[it.path].split("\n")[it.body : it.last])

    def proof(self, it: Function) -> str:
        """Returns what is written of a function's own proof."""
        return "\n".join(self.texts[path] for path in self.proof_files(self.texts, it))

    def proof_files(self, texts: Dict[str, str], it: Function) -> List[str]:
        """Returns the files of a function's own proof, and of those of its closures."""
        folder = f"proofs/{'/'.join(self.place(it))}/"
        return [path for path in texts if path.startswith(folder) and path.endswith(OWN_PROOF)]

    def own_text(self, it: Function) -> str:
        """Returns the lines of a function and of its proof."""
        lines = self.texts[it.path].split("\n")[it.first : it.last]
        return "\n".join([*lines, self.proof(it)])

    def with_stand_ins(self, forms: List[Form], real: List[Function]) -> Dict[str, str]:
        """Returns the files with weaker forms, in which all functions but some are stand-ins."""
        texts = dict(self.texts)
        for path, functions in self.functions.items():
            weak = [it for it in forms if it.path == path and it.crate == self.name]
            kept = {it.title() for it in real if it.path == path}
            texts[path] = weaker_forms.with_bodies(texts[path], functions, weak, kept)
            for it in functions:
                if not it.is_of_trait and it.title() not in kept:
                    self.leaves_open(texts, it)
        return texts

    def leaves_open(self, texts: Dict[str, str], it: Function) -> None:
        """Puts a hole for the proof of a function."""
        for path in self.proof_files(texts, it):
            del texts[path]
        place = self.place(it)
        module = ".".join([self.name, "proofs", *place])
        texts[f"proofs/{'/'.join(place)}/Proof.antt"] = HOLE.format(place=module, name=it.name)


class Room:
    """The copies. Each crate that is checked has its own, with the sources of some crates below."""

    def __init__(self, top: str, checked: str, jobs: int):
        self.top, self.checked, self.jobs = top, checked, jobs
        lines = build.listed(checked)
        self.needs = {name: build.needs(line) for name, line in lines.items()}
        self.under: Dict[str, Set[str]] = {}  # of each crate of the program, all crates below it
        for it in TOPS:
            self.finds_under(it)
        # The crates from below.
        self.order = sorted(self.under, key=lambda name: (len(self.under[name]), name))
        self.crates = {it: Crate(it, f"{checked}/crates/{it}") for it in self.order}
        self.codes: Dict[str, Code] = {}
        self.kit = os.path.dirname(printed(["rt", "doc"]).strip())

    @functools.cached_property
    def of_kit(self) -> Dict[str, Set[str]]:
        """The names of the clauses of all functions of the kit with a name."""
        found: Dict[str, Set[str]] = {}
        for at, _, files in os.walk(f"{self.kit}/rlibs"):
            for file in files:
                if file.endswith(".rt"):
                    for name, names in weaker_forms.clause_names(read(f"{at}/{file}")).items():
                        found.setdefault(name, set()).update(names)
        return found

    def has_in_kit(self, names: List[str], clause: str) -> bool:
        """Returns whether a function of the kit with one of some names has a clause."""
        return any(clause in self.of_kit.get(it, ()) for it in names)

    def code(self, name: str) -> Code:
        """Returns the code of a crate's built library, which is read at the first call."""
        if name not in self.codes:
            library = f"{self.checked}/crates/{name}/out/rlib/{name}.rlib"
            self.codes[name] = Code(library, self.crates[name].paths())
        return self.codes[name]

    def called(self, name: str, it: Function) -> Optional[Set[str]]:
        """Returns the paths in the code of a crate's function, or None if they aren't known."""
        if it.is_of_trait:
            return self.code(name).called_by_methods(it.name)
        return self.code(name).called(self.crates[name].path_of(it))

    def finds_under(self, name: str) -> Set[str]:
        """Finds all crates of the program below a crate, and below each of these."""
        if name in self.needs and name not in self.under:
            lows = [it for it in self.needs[name] if it in self.needs]
            found = {it for low in lows for it in (low, *self.finds_under(low))}
            self.under[name] = found
        return self.under.get(name, set())

    def between(self, low: Set[str], name: str) -> Set[str]:
        """Returns the crates below a crate that are some crates or above one of them."""
        return {it for it in self.under[name] if it in low or self.under[it] & low}

    def lays_out(self, copy: str, name: str, texts: Dict[str, str]) -> None:
        """Gives a crate of a copy these files and no others."""
        top = f"{self.top}/{copy}/crates/{name}"
        for part in PARTS:
            for at, _, files in os.walk(f"{top}/{part}"):
                for file in files:
                    if os.path.relpath(f"{at}/{file}", top) not in texts:
                        os.remove(f"{at}/{file}")
        for path, text in texts.items():
            write(f"{top}/{path}", text)

    def check(self, name: str, sources: Set[str], only: List[str]) -> str:
        """Checks functions of a crate, or all of it, over the sources of some crates below it."""
        kept = f"{self.top}/{name}/kept{'' if sources else '-alone'}"
        root = self.crates[name].root()
        words = [f"{self.kit}/bin/rattle", "check", "--crate-name", name, root]
        words += self.libraries(name, sources)
        words += ["-L", f"dependency={self.kit}/rlibs", "--logic-built", f"{self.kit}/logic_built"]
        words += ["--antt-project", f"{self.kit}/rattle/logic/antt-project.json"]
        words += ["--jobs", str(self.jobs), "--incremental", kept, "--allow-holes"]
        words += [word for it in only for word in ("--only", it)]
        os.makedirs(kept, exist_ok=True)
        text = printed(words, f"{self.top}/{name}/crates/{name}")
        write(f"{self.top}/{name}/last.log", text)
        return text

    def libraries(self, name: str, sources: Set[str]) -> List[str]:
        """Returns the flags for the crates below a crate: some as sources, the others as built."""
        under = self.under[name]
        of_kit = {it for low in (name, *under) for it in self.needs[low]} - set(self.needs)
        words: List[str] = []
        for each in sorted({"core", "std", *of_kit}):
            words += ["--extern", f"{each}={self.kit}/rlibs/{each}.rlib"]
        for low in sorted(under):
            uses = ",".join(["core", "std", *self.needs[low]])
            root = f"{self.top}/{name}/crates/{low}/src/lib.rt"
            built = f"{self.checked}/crates/{low}/out/rlib"
            library = ["--extern", f"{low}={built}/{low}.rlib", "-L", f"dependency={built}"]
            words += ["--lib", f"{low}:{uses}={root}"] if low in sources else library
        return words
