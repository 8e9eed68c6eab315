"""Asks crates whether they need the fields of records."""
import re
import time
from collections import Counter, defaultdict
from typing import Dict, List, Set, Tuple

import weaker_forms
from stand_ins import Crate, Room
from weaken_calls import Witnesses
from weaken_readers import CASCADES, ERROR, Outcomes, Reader
from weaker_forms import Form, Function, Literals, Record

MISNAMED = "_misnamed"
SOME = 24  # functions of a round


class Reach:
    """Which types and definitions the functions of a crate mention, and those behind them."""

    def __init__(self, room: Room, crate: Crate):
        self.crate = crate
        self.all = [room.crates[it] for it in (crate.name, *sorted(room.under[crate.name]))]
        self.mentions: Dict[str, Set[str]] = defaultdict(set)
        for each in self.all:
            for word, words in each.mentions.items():
                self.mentions[word] |= words
        self.found: Dict[Function, Set[str]] = {}

    def of(self, it: Function) -> Set[str]:
        """Returns what a function, its proof and the contracts of what it calls mention."""
        if it not in self.found:
            called = weaker_forms.names_in(self.crate.body(it))
            near = [it.title(), self.crate.own_text(it)]  # a method's title names its struct
            for each in self.all:
                for functions in each.functions.values():
                    used = [one for one in functions if one.is_called_in(called)]
                    near += [line for one in used for clause in one.clauses for line in clause]
            new = {word for text in near for word in weaker_forms.CAPITALS.findall(text)}
            found: Set[str] = set()
            while new:
                found |= new
                new = {word for name in new for word in self.mentions.get(name, ())} - found
            self.found[it] = found
        return self.found[it]


class Namers(Reader):
    """Declarations of a crate that name fields of records, its own and those of crates below it.

    In a round all names of fields that nothing needs so far are wrong, wherever a declaration has
    one after a dot. So the error of a declaration says which record has the field that it names.
    Without this field it would be refused. The next round has the right name there. In the first
    rounds all functions are stand-ins, so that definitions, lemmas and samples are tried, and then
    functions whose proofs name a field.
    """

    def __init__(self, room: Room, name: str, outcomes: Outcomes):
        super().__init__(room, name, outcomes, True)
        self.reach = Reach(room, self.crate)
        self.right: Set[Tuple[str, str, str]] = set()  # names that are right in a declaration

    def settles(self) -> None:
        """Tries functions whose proofs name fields that no definition or lemma needs."""
        done: Set[Function] = set()
        while real := self.naming(done):
            self.settles_over(real)
            done |= set(real)

    def settles_declared(self, is_brief: bool) -> None:
        """Tries the later fields of each record, and then definitions, lemmas and samples."""
        own = [it for it in self.forms if it.crate == self.crate.name]
        later = {it: weaker_forms.needing(self.crate.texts[it.path], it) for it in own}
        self.outcomes.settle(
            {it: f"refused by {it.owner}.{who}" for it, who in later.items() if who}
        )
        self.settles_over([], is_brief)

    def settles_over(self, real: List[Function], is_brief: bool = False) -> None:
        """Tries declarations and functions round by round, until no error is about a name.

        If `is_brief`, it stops at the first round that settles nothing.
        """
        is_new = True
        while is_new and (left := self.outcomes.left(self.forms)):
            since, before = time.monotonic(), len(self.right)
            found = self.reads(left, self.check(left, real))
            self.outcomes.settle(found)
            self.tells(len(left), len(found), since)
            is_new = len(self.right) > before and bool(found or not is_brief)

    def check(self, forms: List[Form], real: List[Function]) -> str:
        """Checks the crate with wrong names of fields, or else some of its functions."""
        texts = self.crate.with_stand_ins([], real)
        names = {it.clause for it in forms}
        for path, text in texts.items():
            if path.endswith(".antt"):
                texts[path] = weaker_forms.with_names(text, names, MISNAMED, self.right_in(path))
        return self.checked({self.crate.name: texts}, sorted(map(self.crate.path_of, real)))

    def right_in(self, path: str) -> Set[Tuple[str, str]]:
        """Returns the names of fields that stay right in a file, with those of declarations."""
        return {(declaration, name) for file, declaration, name in self.right if file == path}

    def reads(self, forms: List[Form], text: str) -> Dict[Form, str]:
        """Returns which of some fields a check misses, and notes the names that are to be right."""
        for it in ERROR.finditer(text):
            if MISNAMED in it[3] or not any(word in it[3] for word in CASCADES):
                who, lines = self.declaration(it[1], int(it[2]))
                names = re.findall(rf"(\w+){MISNAMED}", it[3] if MISNAMED in it[3] else lines)
                self.right |= {(it[1], who, name) for name in names}
        return self.lacking(forms, text, MISNAMED)

    def naming(self, done: Set[Function]) -> List[Function]:
        """Returns functions that aren't done, of which each names a field that no other names."""
        found: List[Function] = []
        owners: Dict[str, Set[str]] = defaultdict(set)
        for form in self.outcomes.left(self.forms):
            owners[form.clause].add(form.owner)
        for clause in sorted(owners):
            word = re.compile(rf"\.{clause}\b")
            named = [it for it in self.functions if it not in done and word.search(self.proofs[it])]
            named = [it for it in named if owners[clause] & self.reach.of(it)]
            if named and len(found) < SOME and not set(named) & set(found):
                found.append(min(named, key=lambda it: len(self.proofs[it])))
        return found


class Users(Witnesses):
    """What functions say to a record without a field that nothing names, if they may use it."""

    def __init__(self, room: Room, name: str, outcomes: Outcomes):
        super().__init__(room, name, outcomes, True)
        self.literals: Literals = defaultdict(list)
        for each in (name, *sorted(room.under[name])):
            for one in room.crates[each].records:
                self.literals[one.fields].append(one)
        reach, owners = Reach(room, self.crate), {it.owner: it.key() for it in self.forms}
        for it in self.functions:
            self.needs[it] = {key for owner, key in owners.items() if owner in reach.of(it)}
        failed = self.failed
        for form in self.forms:
            users = [it for it in self.functions if form.key() in self.needs[it]]
            users.sort(key=lambda it: (it not in failed, len(self.needs[it]), len(self.proofs[it])))
            self.of[form] = users

    def dropped(self) -> List[Form]:
        """Returns the fields that are left, but the last one of a record that would have none."""
        left = self.outcomes.left(self.forms)
        last, counts = {it.key(): it for it in left}, Counter(it.key() for it in left)
        kept = {it for key, it in last.items() if counts[key] == len(self.record(it).fields)}
        return [it for it in left if it not in kept]

    def missed(self, forms: List[Form], text: str) -> Dict[Form, str]:
        """Returns the fields, of those that a check lacks, that declarations name."""
        return self.lacking(forms, text)

    def check_only(self, forms: List[Form], real: List[Function], only: List[str]) -> str:
        """Checks some paths of the crate, or all, without some fields and with some functions."""
        gone: Dict[Record, Set[str]] = defaultdict(set)
        for it in forms:
            gone[self.record(it)].add(it.clause)
        files = self.with_stand_ins(self.sources(forms), [], real)
        for each, texts in files.items():
            for it in forms:
                if it.crate == each:
                    texts[it.path] = weaker_forms.without_line(texts[it.path], it)
            for path, text in texts.items():
                if path.endswith(".antt"):
                    texts[path] = weaker_forms.without_fields(text, gone, self.literals)
        return self.checked(files, only)

    def record(self, form: Form) -> Record:
        """Returns the record that has a field."""
        records = self.room.crates[form.crate].records
        return next(it for it in records if it.name == form.owner)

    def cited(self, witness: Function, text: str, forms: List[Form]) -> List[Form]:
        """Returns those of some fields that a text names."""
        return [it for it in forms if re.search(rf"\.{it.clause}\b", text)]
