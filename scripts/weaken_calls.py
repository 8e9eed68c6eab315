"""Asks crates what their functions say to weaker forms of functions that they call."""
import re
import time
from typing import Dict, Iterator, List, NamedTuple, Optional, Set, Tuple

import weaker_forms
from stand_ins import Crate, Room
from weaken_at_once import AtOnce
from weaken_readers import (
    CASCADES,
    ERROR,
    FAILED,
    REFUSED,
    UNTRIED,
    Key,
    Outcomes,
    first_error,
)
from weaker_forms import Form, Function

LACKS = re.compile(r"(?:has no (?:field (?:named )?)?|unknown field )`([\w-]+)`")
CITED = re.compile(r"\bc\.([\w-]+)\.ensures\b(?:\.(\w+))?")
WORD = re.compile(r"[A-Za-z_]\w\w+")
COMMON = {"result", "self", "now", "new", "old", "entry", "exit", "length", "ensures", "IsTrue"}
UNSURE = 20  # outcomes that are made sure of together


class Trial(NamedTuple):
    """Forms of one function, which are tried together, and a function that may refuse them."""

    forms: Tuple[Form, ...]
    witness: Function

    def key(self) -> Key:
        """Returns what the forms belong to."""
        return self.forms[0].key()


class Witnesses(AtOnce):
    """Functions of a crate that may refuse forms.

    A witness that calls another one would fail with it, so no witness of a round does.

    At first a witness is tried over all clauses of a function, or all fields of a record, that
    nothing has refused. If it is proved without them, it refuses none. If not, and it doesn't say
    which one it misses, it is tried over each of them alone.
    """

    def __init__(self, room: Room, name: str, outcomes: Outcomes, is_field: bool):
        super().__init__(room, name, outcomes, is_field)
        self.names = {it: weaker_forms.names_in(self.crate.body(it)) for it in self.functions}
        self.called = {it: room.called(name, it) for it in self.functions}
        self.inner: Dict[Function, Set[Function]] = {}  # which functions of the crate each calls
        for it in self.functions:
            named = [one for one in self.functions if self.may_call(it, self.crate, one)]
            self.inner[it] = set(named) - {it}
        self.needs: Dict[Function, Set[Key]] = {}  # what each may need that is weakened
        self.of: Dict[Form, List[Function]] = {}  # who may need what a form weakens
        self.tried = outcomes.tried.setdefault(name, set())
        self.apart: Set[Tuple[Key, Function]] = set()  # whose forms a witness is tried on alone
        self.unfit: Set[Function] = set()  # functions that aren't proved over stand-ins
        self.most: Optional[int] = None  # witnesses of a form that are tried, if not all

    def may_call(self, caller: Function, crate: Crate, it: Function) -> bool:
        """Returns whether a function here may call one of this crate, or of a crate below it.

        A caller has the name in its body. If the code of both functions is known, the caller's
        code has to name the other function, too.
        """
        if not it.is_called_in(self.names[caller]):
            return False
        called, path = self.called[caller], crate.path_of(it)
        is_known = not it.is_of_trait and path in self.room.code(crate.name).known
        return called is None or not is_known or path in called

    def check(self, forms: List[Form], real: List[Function]) -> str:
        """Checks functions of the crate, which are no stand-ins."""
        return self.check_only(forms, real, sorted({self.crate.path_of(it) for it in real}))

    def cited(self, witness: Function, text: str, forms: List[Form]) -> List[Form]:
        """Returns those of some forms that a text of a witness's proof cites."""
        raise NotImplementedError

    def key(self, it: Function) -> Key:
        """Returns what a form of a function of this crate belongs to."""
        return self.crate.name, it.path, it.title()

    def round(self, refused: Set[Form]) -> List[Trial]:
        """Returns what can be tried together: no witness may need two of the weakened things."""
        found: List[Trial] = []
        weak: Set[Key] = set()
        called: Set[Key] = set()
        left = self.outcomes.left([it for it in self.forms if it not in refused])
        for form in left:
            keys = {self.key(it.witness) for it in found}
            if form.key() in weak | called | keys:
                continue
            for it in self.of[form][: self.most]:
                trial = self.trial(form, it, left)
                if self.fits(trial, form, [one.witness for one in found], weak):
                    found.append(trial)
                    weak.add(form.key())
                    called |= self.needs[it]
                    break
        return found

    def trial(self, form: Form, witness: Function, left: List[Form]) -> Trial:
        """Returns a form with those of the same function or record that the witness is tried on."""
        same = [it for it in left if it.key() == form.key() and it.label == "nothing"]
        fresh = [it for it in same if (it, witness) not in self.tried]
        is_apart = form not in fresh or (form.key(), witness) in self.apart
        return Trial((form,) if is_apart else tuple(fresh), witness)

    def fits(self, trial: Trial, form: Form, real: List[Function], weak: Set[Key]) -> bool:
        """Returns whether a trial can be made beside others, and is still to be made."""
        it = trial.witness
        is_apart = not any(
            it == one or it in self.inner[one] or one in self.inner[it] for one in real
        )
        is_new = (form, it) not in self.tried and it not in self.unfit
        return is_apart and is_new and not weak & (self.needs[it] | {self.key(it)})

    def refuses(self, witness: Function, text: str) -> str:
        """Returns how a check refused a function, or an empty text."""
        verdicts = self.verdicts(witness, text)
        failed = [it for it in verdicts if it.startswith(FAILED)]
        name = "::".join([self.crate.name, *self.crate.place(witness)])
        limit = ", at a limit of the prover" if all(it == FAILED[2] for it in failed) else ""
        if not verdicts:
            return f"{UNTRIED} by {name}: {first_error(text)}"
        return f"refused by {name}{limit}" if failed else ""

    def misses(self, trial: Trial, text: str) -> Dict[Form, str]:
        """Returns the forms that declarations of a witness's proof miss, and which one does.

        The error of such a declaration names a clause, or it cites the only one that is tried.
        """
        found: Dict[Form, str] = {}
        for who, lines, said in self.errors(trial.witness, text):
            cited = self.cited(trial.witness, lines, list(trial.forms))
            is_cited = len(cited) == 1 and "Unit" in said
            for form in lacked(list(trial.forms), said) or (cited if is_cited else []):
                found[form] = f"{REFUSED} {who}"
        return found

    def errors(self, witness: Function, text: str) -> Iterator[Tuple[str, str, str]]:
        """Returns the declarations of a witness's proof with errors, their lines and the errors."""
        folder = f"proofs/{'/'.join(self.crate.place(witness))}/"
        for it in ERROR.finditer(text):
            if it[1].startswith(folder) and not any(word in it[3] for word in CASCADES):
                name, lines = self.declaration(it[1], int(it[2]))
                yield f"{self.crate.name}/{it[1]} {name}", lines, it[3]

    def tries(self, trials: List[Trial]) -> Dict[Trial, Tuple[str, Dict[Form, str]]]:
        """Returns how each witness refused its forms, and which ones its proof misses.

        If a check says nothing of its functions, each witness is tried alone.
        """
        text = self.check(
            [form for it in trials for form in it.forms], [it.witness for it in trials]
        )
        found = {it: self.refuses(it.witness, text) for it in trials}
        if len(trials) > 1 and all(it.startswith(UNTRIED) for it in found.values()):
            return {it: how for one in trials for it, how in self.tries([one]).items()}
        return {it: (how, self.misses(it, text)) for it, how in found.items()}

    def settles(self, most: Optional[int] = None) -> None:
        """Tries all forms that a function here can refuse, or so many witnesses of each."""
        self.most = most
        self.settles_at_once()
        while self.settles_some():
            pass

    def settles_at_once(self) -> None:
        """Settles what needs no round."""

    def settles_some(self) -> bool:
        """Tries forms until many are to be made sure of. Returns whether any may be left."""
        unsure: Dict[Form, Tuple[Function, str]] = {}
        while trials := self.round(set(unsure)) if len(unsure) < UNSURE else []:
            since = time.monotonic()
            for it, (how, sure) in self.tries(trials).items():
                self.outcomes.settle(self.with_less(sure))
                self.notes(it, how, sure, unsure)
            refused = [it for trial in trials for it in trial.forms if it in unsure]
            left = self.outcomes.left([it for trial in trials for it in trial.forms])
            tried = sum(len(it.forms) for it in trials)
            self.tells(tried, len(refused) + tried - len(left), since)
        return bool(unsure and (self.makes_sure(unsure) or len(unsure) >= UNSURE))

    def notes(
        self,
        trial: Trial,
        how: str,
        sure: Dict[Form, str],
        unsure: Dict[Form, Tuple[Function, str]],
    ) -> None:
        """Notes what a trial has shown, but for the forms that it settled."""
        is_one = len(trial.forms) == 1
        if not how:
            numbers = {(it.key(), it.number) for it in trial.forms if it.label == "nothing"}
            same = [it for it in self.forms if (it.key(), it.number) in numbers]
            self.tried |= {(it, trial.witness) for it in (*trial.forms, *same)}
        elif how.startswith(UNTRIED):
            self.tried |= {(it, trial.witness) for it in trial.forms}
            self.outcomes.untried.update({it: how for it in trial.forms})
        elif is_one and trial.forms[0] not in sure:
            self.tried.add((trial.forms[0], trial.witness))
            unsure[trial.forms[0]] = trial.witness, how
        elif not sure:
            self.apart.add((trial.key(), trial.witness))

    def makes_sure(self, unsure: Dict[Form, Tuple[Function, str]]) -> Set[Function]:
        """Tries witnesses once more, with no form, and returns those that aren't proved either.

        Such a witness failed for another reason than a form.
        """
        witnesses = sorted({it for it, _ in unsure.values()})
        since = time.monotonic()
        text = self.check([], witnesses)
        unfit = {it for it in witnesses if self.refuses(it, text)}
        self.tells(len(witnesses), len(unfit), since)
        fit = {form: how for form, (it, how) in unsure.items() if it not in unfit}
        self.outcomes.settle(self.with_less(fit))
        for form, (it, _) in unsure.items():
            if it in unfit:
                why = "::".join([self.crate.name, *self.crate.place(it)])
                self.outcomes.untried[form] = f"{UNTRIED} by {why}, which fails with no form either"
        self.unfit |= unfit
        return unfit

    def with_less(self, found: Dict[Form, str]) -> Dict[Form, str]:
        """Returns outcomes with those of the forms that say even less."""
        less = {it: form for it in self.forms for form in found if it.says_less(form)}
        return {**found, **{it: f"{found[form]}, as is more" for it, form in less.items()}}


def lacked(forms: List[Form], said: str) -> List[Form]:
    """Returns those of some forms whose clause an error says to be missing."""
    lacks = LACKS.search(said)
    return [it for it in forms if lacks and it.clause == lacks[1]]


class Callers(Witnesses):
    """What the functions of a crate say to weaker forms of functions that they call."""

    def __init__(self, room: Room, name: str, outcomes: Outcomes):
        super().__init__(room, name, outcomes, False)
        owners = {it.key(): self.owner(it) for it in self.forms}
        crates = {key: room.crates[key[0]] for key in owners}
        for it in self.functions:
            others = [key for key, one in owners.items() if one != it]
            called = {key for key in others if self.may_call(it, crates[key], owners[key])}
            self.needs[it] = called
        self.words = {it: set(WORD.findall(self.crate.own_text(it))) for it in self.functions}
        self.below = [room.crates[it] for it in (name, *sorted(room.under[name]))]
        self.of = {it: self.witnesses(it) for it in self.forms}
        outcomes.called |= {it for it, found in self.of.items() if found}

    def check_only(self, forms: List[Form], real: List[Function], only: List[str]) -> str:
        """Checks some paths of the crate, or all, with some functions that are no stand-ins."""
        return self.checked(self.with_stand_ins(self.sources(self.forms), forms, real), only)

    def dropped(self) -> List[Form]:
        """Returns, of each clause that is left and has a caller to try, the least form.

        This form drops the clause, even if only a direction of the clause is left.
        """
        left = [it for it in self.outcomes.left(self.forms) if self.has_more(it)]
        return list(dict.fromkeys(it._replace(label="nothing", left=()) for it in left))

    def has_more(self, form: Form) -> bool:
        """Returns whether a function here may need a form's clause and wasn't tried on it."""
        return any((form, it) not in self.tried for it in self.of[form])

    def missed(self, forms: List[Form], text: str) -> Dict[Form, str]:
        """Returns the forms, of those that a check had at once, that errors of callers name.

        A name says enough if only one function that the caller calls lacks a clause of this name.
        If the caller itself lacks one, the error may be about its own clause.
        """
        left = set(self.outcomes.left(self.forms))
        found: Dict[Form, str] = {}
        for it in self.functions:
            own = self.key(it)
            near = [form for form in forms if form.key() in self.needs[it] | {own}]
            for who, _, said in self.errors(it, text):
                named = lacked(near, said)
                if len(named) == 1 and named[0].key() != own and named[0] in left:
                    found.setdefault(named[0], f"{REFUSED} {who}")
        return found

    def owner(self, form: Form) -> Function:
        """Returns the function that a form weakens."""
        functions = self.room.crates[form.crate].functions[form.path]
        return next(it for it in functions if it.title() == form.owner and it.is_public)

    def settles_at_once(self) -> None:
        """Settles the forms that drop a clause which the proof of a caller cites.

        A citation names a step, and so a function. It must be the only one of this name, here and
        in the kit, that the caller may call and that has a clause of the name.
        """
        forms = {(it.key(), it.clause): it for it in self.forms if it.label == "nothing"}
        found: Dict[Form, str] = {}
        for caller in self.functions:
            who = "::".join([self.crate.name, *self.crate.place(caller)])
            for step, clause in set(CITED.findall(self.proofs[caller])):
                names = self.named(caller, step)
                key = self.callee(caller, names, clause)
                form = forms.get((key, clause)) if key else None
                if form and not self.room.has_in_kit(names, clause):
                    found[form] = f"refused by {who}, which cites c.{step}"
        self.outcomes.settle(found)

    def named(self, caller: Function, step: str) -> List[str]:
        """Returns the words of a step's name that are names in the caller's body."""
        names = self.names[caller]
        return [it for it in step.split("-") if it in names.members | names.plain]

    def callee(self, caller: Function, names: List[str], clause: str) -> Optional[Key]:
        """Returns the function of a name that a caller means, if only one has the clause."""
        found: List[Key] = []
        for each in self.below:
            for functions in each.functions.values():
                for it in [it for it in functions if it.name in names]:
                    ensured = it.ensured()
                    is_meant = clause in ensured and (clause or len(ensured) == 1)
                    if is_meant and it != caller and self.may_call(caller, each, it):
                        found.append((each.name, it.path, it.title()))
        return found[0] if len(found) == 1 else None

    def witnesses(self, form: Form) -> List[Function]:
        """Returns the functions that call a form's function, the likeliest to refuse it first.

        Those come first that failed without all clauses, then those whose proofs cite the clause,
        and then those that share names with it.
        """
        clause = self.owner(form).clauses[form.number]
        words = set(WORD.findall(" ".join(clause))) - COMMON
        found = [it for it in self.functions if form.key() in self.needs[it]]
        cites = {it: form in self.cited(it, self.proofs[it], [form]) for it in found}
        shared = {it: len(words & self.words[it]) for it in found}
        size = {it: len(self.crate.body(it)) for it in found}
        late = {it: it not in self.failed for it in found}
        return sorted(found, key=lambda it: (late[it], not cites[it], -shared[it], size[it]))

    def cited(self, witness: Function, text: str, forms: List[Form]) -> List[Form]:
        """Returns those of some forms whose clause a text of a witness's proof cites."""
        cites = {(word, it[2] or "") for it in CITED.finditer(text) for word in it[1].split("-")}
        own = self.needs[witness]
        name = {it: it.owner.split("::")[-1] for it in forms}
        return [it for it in forms if it.key() in own and (name[it], it.clause) in cites]
