"""The weaker forms of the clauses of functions, and records without a field."""
import re
from typing import Dict, FrozenSet, Iterator, List, NamedTuple, Set, Tuple

FUNCTION = re.compile(r"( *)(pub(?:\(\w+\))? )?(?:unsafe )?fn (\w+)")
CLAUSE = re.compile(r" *(requires|ensures|ghost)\b\*? ?(\w*)")
IMPL = re.compile(r"impl(?:<.*?>)? (\w+)(?:<.*>)? \{")
TRAIT_OF = re.compile(r"impl(?:<.*>)? .* for (?:\w+::)*(\w+)")
TYPE = re.compile(r"^(?:pub(?:\(\w+\))? )?(?:struct|enum) (\w+)", re.MULTILINE)
RECORD = re.compile(r"pub record (\w+)")
FIELD = re.compile(r"  pub (\w+) :")
CAPITALS = re.compile(r"\b[A-Z]\w*")
# A struct's model is read with the struct, since it says what the struct keeps.
DECLARED = re.compile(
    r"^(?:impl(?:<[^>]*>)? Model for )?"
    r"(?:(?:pub(?:\(\w+\))?|abbrev|unfoldable|record|data|struct|enum) )*([A-Z]\w*)"
)
ANY_RECORD = re.compile(r"(?:pub )?record \w")
ANY_FIELD = re.compile(r"^  (?:pub )?(\w+) :", re.MULTILINE)
DEEPEST = 999  # an indent that no line has


class Names(NamedTuple):
    """The names in a text: those after a dot or two colons, and those after no dot."""

    members: Set[str]
    plain: Set[str]


def names_in(text: str) -> Names:
    """Returns the names in a text."""
    members = re.findall(r"(?:(?<!\.)\.|::)(\w+)", text)
    return Names(set(members), set(re.findall(r"(?:(?<![.\w])|(?<=\.\.))\w+", text)))


class Function(NamedTuple):
    """A function with a body, by the lines of its file."""

    path: str  # the file, from the crate's folder
    name: str
    holder: str  # the type of a method
    is_public: bool
    is_of_trait: bool
    clauses: Tuple[Tuple[str, ...], ...]
    first: int  # its line
    body: int  # the line that opens its body
    last: int  # the line that closes it

    def title(self) -> str:
        """Returns the name, with the type of a method."""
        return f"{self.holder}::{self.name}" if self.holder else self.name

    def ensured(self) -> List[str]:
        """Returns the names of its `ensures`, of which one may be empty."""
        found = [CLAUSE.match(it[0]) for it in self.clauses]
        return [it[2] for it in found if it and it[1] == "ensures"]

    def is_called_in(self, names: Names) -> bool:
        """Returns whether the function may be among the names of a body."""
        return self.name in (names.members if self.holder else names.plain)


class Form(NamedTuple):
    """A weaker form of a clause or a record without a field."""

    crate: str
    path: str  # the file, from the crate's folder
    owner: str  # the function, with the type of a method, or the record
    clause: str  # the clause's or the field's name
    number: int  # the clause's place among those of the function
    label: str  # what is left of it
    left: Tuple[str, ...]  # the lines of what is left
    is_field: bool

    def title(self) -> str:
        """Returns the words that name the form, and that a WORD is looked for in."""
        return f"{self.owner}{'.' * bool(self.clause)}{self.clause}: {self.label}"

    def key(self) -> Tuple[str, str, str]:
        """Returns what the form belongs to."""
        return self.crate, self.path, self.owner

    def says_less(self, other: "Form") -> bool:
        """Returns whether this form drops a clause of which the other form keeps half."""
        same = self.key() == other.key() and self.number == other.number
        return same and self.label == "nothing" != other.label


def depths(text: str) -> Iterator[Tuple[int, str, int]]:
    """Returns each place of a text with its character and how many brackets it is inside of."""
    depth = 0
    for at, it in enumerate(text):
        depth -= it in ")]}"
        yield at, it, depth
        depth += it in "([{"


def depth_after(lines: List[str]) -> int:
    """Returns how many brackets are open after some lines."""
    text = "\n".join(lines)
    return sum(it in "([{" for it in text) - sum(it in ")]}" for it in text)


def directions(said: str) -> List[str]:
    """Returns the two directions of a clause that is an equivalence, or nothing."""
    places = [at for at, it, depth in depths(said) if it == "↔" and depth == 0]
    if len(places) != 1:
        return []
    before, after = said[: places[0]].strip(), said[places[0] + 1 :].strip()
    arrows = [at for at, it, depth in depths(before) if it == "→" and depth == 0]
    binders, left = before[: arrows[-1] + 1] if arrows else "", before
    left = before[len(binders) :].strip()
    return [f"{binders} ({left}) → ({after})".strip(), f"{binders} ({after}) → ({left})".strip()]


def body_of(lines: List[str], first: int, indent: str) -> int:
    """Returns the line that opens the body of the function at a line, or 0 if none is opened."""
    for at in range(first, len(lines)):
        line, depth = lines[at], depth_after(lines[first : at + 1])
        opens = line in (f"{indent}{{", f"{indent}{{}}")
        if opens or (line.endswith(" {") and depth == 1):
            return at
        if line.endswith((";", "{}")) and depth == 0:
            break
    return 0


def clauses_of(lines: List[str], indent: str) -> Iterator[Tuple[str, ...]]:
    """Returns the clauses in the lines between a function's head and its body."""
    now: Tuple[str, ...] = ()
    for it in lines:
        if CLAUSE.match(it) and len(it) - len(it.lstrip()) == len(indent) + 4:
            if now:
                yield now
            now = (it,)
        elif now:
            now += (it,)
    if now:
        yield now


def functions_of(path: str, text: str) -> Iterator[Function]:
    """Returns the functions with bodies of a file of src/, but those that are `const`."""
    lines, holder, is_of_trait = text.split("\n"), "", False
    for at, line in enumerate(lines):
        if line.startswith(("impl", "unsafe impl", "trait", "pub trait", "pub(crate) trait")):
            # IMPL also matches `impl From<A> for B<T> {`, so a trait's name comes first.
            of_trait, block = TRAIT_OF.search(line), IMPL.match(line)
            holder, is_of_trait = (of_trait or block or "??")[1], bool(of_trait or not block)
        elif line == "}":
            holder, is_of_trait = "", False
        found = FUNCTION.match(line)
        body = body_of(lines, at, found[1]) if found else 0
        if found and body:
            clauses = tuple(clauses_of(lines[at + 1 : body], found[1]))
            last = body if lines[body].endswith("{}") else lines.index(f"{found[1]}}}", body)
            is_public = found[2] == "pub " and not is_of_trait
            yield Function(path, found[3], holder, is_public, is_of_trait, clauses, at, body, last)


def weaker(clause: Tuple[str, ...]) -> Iterator[Tuple[str, Tuple[str, ...]]]:
    """Returns the weaker forms of an `ensures`: what is left of it, and its lines."""
    text = "\n".join(clause)
    said = text[text.index("{") + 1 : text.rindex("}")].strip()
    for it in directions(said):
        yield it, (f"{text[: text.index('{')]}{{ {it} }}",)
    yield "nothing", ()


def clause_names(text: str) -> Dict[str, Set[str]]:
    """Returns the names of the `ensures` of each function that a text declares, without bodies."""
    found: Dict[str, Set[str]] = {}
    name = ""
    for line in text.split("\n"):
        head = re.match(r"[\w\s()]*\bfn (\w+)", line)
        clause = CLAUSE.match(line)
        if head:
            name = head[1]
            found.setdefault(name, set())
        elif name and clause and clause[1] == "ensures":
            found[name].add(clause[2])
    return found


def forms_of_functions(crate: str, path: str, text: str) -> Iterator[Form]:
    """Returns the weaker forms of the clauses of a file's public functions."""
    for it in functions_of(path, text):
        for number, clause in enumerate(it.clauses if it.is_public else ()):
            kind = CLAUSE.match(clause[0])
            if kind and kind[1] == "ensures":
                for label, left in weaker(clause):
                    yield Form(crate, path, it.title(), kind[2], number, label, left, False)


def with_bodies(text: str, functions: List[Function], forms: List[Form], real: Set[str]) -> str:
    """Returns a file in which only some functions keep their bodies, and some state less."""
    lines = text.split("\n")
    for it in reversed(functions):
        weak = {form.number: form.left for form in forms if form.owner == it.title()}
        if not it.is_of_trait and it.title() not in real and it.body < it.last:
            indent = lines[it.last][:-1]
            lines[it.body + 1 : it.last] = [f"{indent}    loop {{}}"]
        if weak and it.is_public:
            start = it.body - sum(map(len, it.clauses))
            kept = [weak.get(number, clause) for number, clause in enumerate(it.clauses)]
            lines[start : it.body] = [line for clause in kept for line in clause]
    return "\n".join(lines)


def fields(text: str) -> Iterator[Tuple[str, str, int, int]]:
    """Returns the fields of the records of a file, with their records and lines."""
    lines, record = text.split("\n"), ""
    for at, line in enumerate(lines):
        found, field = RECORD.match(line), FIELD.match(line)
        record = found[1] if found else record if line.startswith(" ") else ""
        if record and field:
            end = at + 1
            while lines[end : end + 1] and lines[end].startswith("   "):
                end += 1
            yield record, field[1], at, end


def forms_of_records(crate: str, path: str, text: str) -> Iterator[Form]:
    """Returns the forms of a file of specs/ in which a record lacks a field."""
    for record, field, at, _ in fields(text):
        yield Form(crate, path, record, field, at, "nothing", (), True)


def without_line(text: str, form: Form) -> str:
    """Returns the text of a record's file without the field."""
    for record, field, at, end in fields(text):
        if (record, field) == (form.owner, form.clause):
            lines = text.split("\n")
            return "\n".join(lines[:at] + lines[end:])
    return text


def declarations(text: str) -> Iterator[Tuple[str, str]]:
    """Returns what a file declares under names with a capital letter, with the lines of each.

    The lines have the indent that they would have outside of a module.
    """
    lines = text.split("\n")
    places = heads(lines)
    for first, last in zip(places, [*places[1:], len(lines)]):
        indent = indent_of(lines[first])
        name = DECLARED.match(lines[first][indent:])
        if name:
            yield name[1], "\n".join(line[indent:] for line in lines[first:last])


def with_names(text: str, names: Set[str], end: str, right: Set[Tuple[str, str]]) -> str:
    """Returns a file in which some names have another end wherever they stand after a dot.

    `right` are names that stay as they are in a declaration, whose name comes first.
    """
    word = re.compile(rf"(?<=[\w)\]}}])\.({'|'.join(sorted(names))})(?![\w-])")
    lines, now = text.split("\n"), ""
    places = set(heads(lines))
    for at, line in enumerate(lines):
        now = named_at(line) if at in places else now
        if not line.startswith(("use ", "pub use ")):
            lines[at] = word.sub(lambda it: it[0] + end * ((now, it[1]) not in right), line)
    return "\n".join(lines)


def declared(lines: List[str]) -> str:
    """Returns the name of the last declaration that begins in these lines of a file."""
    places = heads(lines)
    return named_at(lines[places[-1]]) if places else ""


def named_at(head: str) -> str:
    """Returns the name of the declaration that begins at a line."""
    return re.sub(r"^ *(pub |abbrev |unfoldable |record )*", "", head).split(" ")[0]


def indent_of(line: str) -> int:
    """Returns how many spaces a line begins with."""
    return len(line) - len(line.lstrip(" "))


def heads(lines: List[str]) -> List[int]:
    """Returns the lines of a file at which declarations begin, also those inside a module.

    The first line after the head of a module says how far the module's declarations are indented.
    """
    found: List[int] = []
    depth, is_module = 0, False  # the indent of declarations, and whether a module's head goes on
    for at, line in enumerate(lines):
        indent = indent_of(line)
        if line[indent : indent + 1] not in ("", "-", "/", "#", "}", ")"):
            depth = min(depth, indent)
            if indent == depth:
                found.append(at)
                is_module = line.startswith("module ", indent)
        if is_module and line.endswith("where"):
            depth, is_module = DEEPEST, False
    return found


class Record(NamedTuple):
    """A record, and the names of all its fields."""

    name: str
    fields: FrozenSet[str]


Literals = Dict[FrozenSet[str], List[Record]]  # of the fields that a literal gives, which records


def records_of(text: str) -> Iterator[Record]:
    """Returns the records that a file of specs/ or proofs/ declares."""
    for name, lines in declarations(text):
        if ANY_RECORD.match(lines):
            yield Record(name, frozenset(ANY_FIELD.findall(lines)))


def needing(text: str, form: Form) -> str:
    """Returns a later field of the record whose type names the form's field, or an empty text."""
    lines = text.split("\n")
    word = rf"(?<![\w.-]){re.escape(form.clause)}(?![\w-])"
    for record, field, at, end in fields(text):
        if record == form.owner and at > form.number:
            said = re.sub(r"--.*", "", " ".join(lines[at:end])).split(":", 1)[1]
            is_bound = re.search(rf"[(λ][\w\s-]*{word}[\w\s-]*[:.]", said)
            if re.search(word, said) and not is_bound:
                return field
    return ""


def without_fields(text: str, gone: Dict[Record, Set[str]], literals: Literals) -> str:
    """Returns the text with some fields of records taken out of each literal of such a record.

    A literal is of the record that has just the fields that it gives. If several have, it is of
    those that the text names.
    """
    kept, start = "", 0
    for first, last, names, name in parts_of_literals(text):
        same = literals.get(names, [])
        named = [it for it in same if len(same) == 1 or re.search(rf"\b{it.name}\b", text)]
        if first >= start and any(name in gone.get(it, ()) for it in named):
            kept += text[start:first]
            start = last
    return kept + text[start:]


def parts_of_literals(text: str) -> List[Tuple[int, int, FrozenSet[str], str]]:
    """Returns the place of each field in a literal, with all names of the literal and its own."""
    found = []
    for at in [it.end() for it in re.finditer(r"record \{", text)]:
        ends = [0]
        for place, it, depth in depths(text[at:]):
            if depth < 0:
                ends.append(place)
                break
            if it == ";" and depth == 0:
                ends.append(place + 1)
        places = [(at + a, at + b) for a, b in zip(ends, ends[1:])]
        names = [text[a:b].split("=")[0].strip() for a, b in places]
        given = frozenset(it for it in names if it)
        found += [(a, b, given, name) for (a, b), name in zip(places, names) if name]
    return sorted(found, key=lambda it: it[:2])
