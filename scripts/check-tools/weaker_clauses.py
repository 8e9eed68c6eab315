"""What scripts/weaken.py makes of public clauses and of records, what it tries together, and how it reads a check."""
import contextlib
import io
import json
import os
import pathlib
import shutil
import sys
import tempfile

from cases import Skipped, TOOLS, same

sys.path.insert(0, str(TOOLS.parent / 'scripts'))
import built_code       # noqa: E402
import stand_ins        # noqa: E402
import weaken           # noqa: E402
import weaken_calls     # noqa: E402
import weaken_fields    # noqa: E402
import weaken_readers   # noqa: E402
import weaker_forms     # noqa: E402

SOURCE = """impl<'a> Pair<'a> {
    /// Returns whether the two meet.
    pub fn meets(&self, other: &[u32], mut from: usize) -> bool
        requires some { from < length other.now }
        ensures met { (k : ℕ) → k < from → IsTrue result ↔ (Meet self.now k) }
        ensures kept { other.now ≡ other.now }
    {
        true
    }

    fn own(&self) -> bool
        ensures { result ≡ true }
    {
        self.meets(&[], 0)
    }

    pub fn plain(&self) -> bool {
        true
    }
}

impl Other for Pair<'_> {
    fn meets(&self) -> bool {
        true
    }
}
"""
TITLES = [
    'Pair::meets.met: (k : ℕ) → k < from → (IsTrue result) → ((Meet self.now k))',
    'Pair::meets.met: (k : ℕ) → k < from → ((Meet self.now k)) → (IsTrue result)',
    'Pair::meets.met: nothing',
    'Pair::meets.kept: nothing',
]
# The last clause is gone. The function that is tried keeps its body, as does the method of the trait.
LESS = SOURCE.replace('        ensures kept { other.now ≡ other.now }\n', '').replace('        true\n', '        loop {}\n', 2)
LESS = LESS.replace("""bool {
        true
    }
}

impl""", """bool {
        loop {}
    }
}

impl""")
OF_TRAITS = """impl From<Few> for Stop<'_> {
    fn from(few: Few) -> Self {
        Stop::At(few)
    }
}

impl<T: Drop> From<Kept<T>> for Stop<'_> {
    fn from(kept: Kept<T>) -> Self {
        Stop::Kept
    }
}

impl<T: From<Few>> Stop<T> {
    pub fn size(&self) -> usize {
        0
    }
}
"""
RECORD = """-- a pair
pub record IsPair (a b : ℕ) : Type 0 where
  pub first : a ≡ 1
  pub second : (k : ℕ) →
    k ≡ b

pub record Other : Type 0 where
  pub first : ℕ
"""
NEEDED = """pub record IsCut (text : List ℕ) : Type 0 where
  pub front : List ℕ
  pub back : List ℕ -- front
  pub whole : text ≡ front ++ back
  pub each : (back : ℕ) → back ≡ back
"""
LITERALS = """f : IsPair → Other
f c = record { first = g (record { first = 1; third = 2 }); second = c.second }
g c = record {
    first = record { first = 0; second = 1 };
  }
"""
LOW = """pub struct Few {
    size: usize,
}

impl Few {
    pub fn size(&self) -> usize
        ensures most { result ≤ 2 }
        ensures least { 1 ≤ result }
    {
        self.size
    }
}

pub fn twice(a: u32) -> u64
    ensures { result ≡ a + a }
{
    u64::from(a) + u64::from(a)
}
"""
HIGH = """use low::{Few, twice};

fn both(few: &Few) -> u64 {
    twice(few.size() as u32)
}

fn one() -> u64 {
    twice(1)
}

fn other() -> u64 {
    one()
}

fn sizes(few: &Few) -> usize {
    few.size()
}
"""
BROKEN = """pub fn of(
    size: usize,
) -> Pair
    ensures { result
        ≡ record {
          size = size;
        } }
{
    Pair { size }
}
"""
CHECK = """src/lib.rt:3:1: warning: unused
./proofs/other/Proof.antt:3:5: `other_spec` is not admitted: has-holes
proofs/one/Answers.antt:2:8: error: `returns`: expected type `c.k ≡ 2`, but this has type `Unit {0}`
proofs/sizes/Answers.antt:4:8: error: `second`: `record {least : ..}` has no field `most`
proofs/both/Answers.antt:1:8: error: 1 declaration that depends on `first` was not checked
fn high::both: no holes
fn high::one: not proved
fn high::sizes: could not tell
only=3 holes=0
"""
ANSWERS = {
    'one': 'pub returns : goal.returns\nreturns c = sym c.in-twice.ensures\n\nother c = c.of\n',
    'sizes': 'first c = c.size.ensures.least\n\n-- the second\nsecond c = c.size.ensures.most\n',
}
LEMMAS = """f : Other → ℕ
f c = c.first_misnamed + (g c).second_misnamed

g : ℕ
g = h.second_misnamed

h : ℕ
h = f.k
"""
FIELDS_CHECK = """proofs/B.antt:2:7: error: `f`: record `Rattle.high.specs.A.Other` has no field `first_misnamed`
proofs/B.antt:5:1: error: `g`: expected another type
proofs/B.antt:7:1: error: 1 declaration that depends on `f`, which was rejected, was not checked
holes=2
"""
FILES_CHECK = """proofs/B.antt:2:7: error: `f`: record `Other` has no field `first`
proofs/B.antt:5:5: error: `g`: record `IsPair` has no field `second`
"""
FILES_READ = [
    (1, 'refused by high/proofs/B.antt f', 'refused by high/proofs/B.antt g'),
    (1, 'refused by high/proofs/B.antt f', 'refused by high/proofs/B.antt g'),
    (2, 'refused by high/proofs/B.antt e', 'refused by high/proofs/B.antt g'),
]
# The names of `f` that the error doesn't have are tried once more, those of `g` are not.
FIELDS_READ = (
    {'Other.first: nothing': 'refused by high/proofs/B.antt f'},
    [('proofs/B.antt', 'f', 'first'), ('proofs/B.antt', 'g', 'second')],
)
# All fields of both records are left at first. So the second field of one stays, and the only one of the other.
AT_ONCE = ["""./proofs/one/Answers.antt:2:13: error: `returns`: record `Rattle.low.specs.A.IsPair` has no field `first` — the fields
proofs/both/Answers.antt:2:13: error: `returns`: expected type `IsPair`, but this has type `Other`
fn high::one: not proved
""", """proofs/sizes/Answers.antt:2:13: error: `returns`: `second` is not a field of record `Rattle.low.specs.A.IsPair`
fn high::both: no proof: it calls `high::sizes`, which is not proved
fn high::one: no holes
fn high::other: no holes
fn high::sizes: not proved
""", """fn high::both: depends on a hole in `sizes_spec`
fn high::one: no holes
fn high::other: no holes
fn high::sizes: depends on a hole in `sizes_spec`
"""]
# The crates of the checks without all clauses. Of the clause `zero` one direction is left. `half` lacks its own clauses.
LOW_AT_ONCE = LOW.replace('        ensures least', '        ensures zero { IsTrue result ↔ IsZero self }\n        ensures least')
HIGH_AT_ONCE = HIGH + """
pub fn half(few: &Few) -> usize
    ensures most { result ≤ 1 }
    ensures less { result ≤ few.size }
{
    few.size() / 2
}

fn quarter(few: &Few) -> usize {
    half(few) / 2
}

fn eighth(few: &Few) -> usize {
    quarter(few) / 2
}
"""
CALLING = {
    'both': 'returns c = c.size.ensures.most\n\nother c = c.twice.ensures\n',
    'half': 'returns c = record { most = by_search; less = by_search }\n\nfirst c = record { less = by_search }\n',
    'sizes': 'returns c = c.size.ensures.zero c.size.ensures.least\n',
}
CLAUSES_AT_ONCE = ["""proofs/both/Answers.antt:3:11: error: `other`: expected type `c.k ≡ 2`, but this has type `Unit {0}`
proofs/half/Answers.antt:1:13: error: `returns`: record `Prim.Unit` has no field `most` — it has no field that can be named here
proofs/half/Answers.antt:3:11: error: `first`: record `Prim.Unit` has no field `less` — it has no field that can be named here
proofs/sizes/Answers.antt:1:13: error: `returns`: record `Prim.Unit` has no field `least` — it has no field that can be named here
fn high::one: not proved
""", """proofs/sizes/Answers.antt:1:13: error: `returns`: record `{least : ..}` has no field `zero`
fn high::both: no holes
fn high::eighth: no proof: it calls `high::quarter`, which is not proved
fn high::half: not proved
fn high::one: not proved; it stands on `Rattle.high.proofs.one.Answers.returns`, which antt refuses; it calls `low::twice`, which is not proved
fn high::other: no proof: it calls `high::one`, which is not proved
fn high::quarter: no proof: it calls `high::half`, which is not proved
fn high::sizes: not proved
""", """fn high::both: no holes
fn high::eighth: no proof: it calls `high::quarter`, which is not proved
fn high::half: depends on a hole in `half_spec`
fn high::one: depends on a hole in `one_spec`
fn high::other: no holes
fn high::quarter: no proof: `search` did not prove `returns`; it calls `high::half`, which is not proved
fn high::sizes: depends on a hole in `sizes_spec`
""", """fn high::both: no holes
fn high::eighth: no holes
fn high::half: depends on a hole in `half_spec`
fn high::one: depends on a hole in `one_spec`
fn high::other: no holes
fn high::quarter: depends on a hole in `quarter_spec`
fn high::sizes: depends on a hole in `sizes_spec`
"""]
USING = {
    'both': 'returns : IsPair 1 1\nreturns c = c\n',
    'one': 'returns : IsPair 1 1\nreturns c = c.first\n',
    'sizes': 'returns : IsPair 1 1\nreturns c = by_search_of_all c\n',
}
# Modules, one of them in another, and one with a head of several lines.
MODULES = """module _ (a : Other) where
  pub record IsKept (b : ℕ)
      : Type 0 where
    pub kept : a.first_misnamed ≡ b

-- the fields of `a`
  f : ℕ
  f = a.first
    where
      g : ℕ
      g = a.second

  module _ (b : Other) (e : b.first ≡ a.first) where
    h : b.first ≡ a.first
    h = e

  i : ℕ
  i = a.first_misnamed

module _
  (c : Other)
  where
    j : ℕ
    j = c.second_misnamed

k : ℕ
k = 0
"""
MODULES_CHECK = """proofs/B.antt:11:13: error: `g`: record `Other` has no field `second_misnamed`
proofs/B.antt:14:11: error: `h`: record `Other` has no field `first_misnamed`
proofs/B.antt:18:7: error: `i`: expected another type
"""
# An error is of one declaration, and the names in the others stay wrong.
MODULES_READ = (
    {
        'Other.first: nothing': 'refused by high/proofs/B.antt h',
        'Other.second: nothing': 'refused by high/proofs/B.antt f',
    },
    [('proofs/B.antt', 'f', 'second'), ('proofs/B.antt', 'h', 'first'), ('proofs/B.antt', 'i', 'first')],
)
# What a struct keeps is told by its model, which stands apart from it.
KEPT = """pub struct Kept<'a, T: Named> {
    row: &'a [T],
}

impl<'a, T: Named> Model for Kept<'a, T> {
    ghost invariant = { λ a. IsKept a.row.now };
}

impl<'a, T: Named> Kept<'a, T> {
    fn first(&self) -> u32
        ensures { result ≡ 1 }
    {
        1
    }
}
"""
PROOFS = {
    'one': 'returns c = sym c.twice.ensures\n',
    'both': 'returns c = c.in-size.ensures.most\n\nother c = c.size.ensures.of_kit c.twice.result\n',
}
# Two types have a method of the same name.
LOW_OF_TYPES = """pub struct Few {
    size: usize,
}

pub struct Row {
    size: usize,
}

impl Few {
    pub fn new() -> Few
        ensures { result.size ≡ 0 }
    {
        Few { size: 0 }
    }

    pub fn size(&self) -> usize
        ensures most { result ≤ 2 }
    {
        self.size
    }
}

impl Row {
    pub fn size(&self) -> usize
        ensures most { result ≤ 9 }
    {
        self.size
    }
}
"""
HIGH_OF_TYPES = """use low::{Few, Row};

fn of_few(few: &Few) -> usize {
    few.size()
}

fn of_row(row: Option<&Row>) -> usize {
    row.map_or(0, Row::size)
}

fn inside(few: Option<&Few>) -> usize {
    few.map_or(0, |it| it.size())
}

fn of_list(few: &[Few]) -> usize {
    few.size()
}
"""


def calling(*names):
    """The code of a function that calls some functions."""
    return {'params': 0, 'body': ['Seq', *({'Call': [{'Fn': [it, {'types': [{'Int': 8}]}]}, []]} for it in names), 'Return']}


CODE_OF_TYPES = {
    'low': [['low::Few::new', calling()], ['low::Few::size', calling()], ['low::Row::size', calling()]],
    'high': [
        ['high::of_few', calling('low::Few::size')],
        ['high::low++Row++size+FnOnce::call_once', calling('low::Row::size')],
        ['high::of_row', calling('core::option::Option::map_or', 'high::low++Row++size+FnOnce::call_once')],
        ['high::fn::inside::map_or', calling('low::Few::size')],
        ['high::fn::inside::map_or+FnOnce::call_once', calling('high::fn::inside::map_or')],
        ['high::inside', calling('core::option::Option::map_or', 'high::fn::inside::map_or+FnOnce::call_once')],
        ['high::of_list', calling('core::slice::size')],
    ],
}
SIZE_OF_FEW, SIZE_OF_ROW, NEW_FEW = 'Few::size.most: nothing', 'Row::size.most: nothing', 'Few::new: nothing'
# By the names alone, all four functions may call each of the two methods.
BY_NAME = ['inside', 'of_few', 'of_list', 'of_row']
# The code, and who may call the two methods by it.
CODES_OF_TYPES = [
    (CODE_OF_TYPES, ['inside', 'of_few'], ['of_row']),
    # No crate is built, or only one.
    ({}, BY_NAME, BY_NAME),
    ({'high': CODE_OF_TYPES['high']}, BY_NAME, BY_NAME),
    ({'low': CODE_OF_TYPES['low']}, BY_NAME, BY_NAME),
    # A function is missing in the code of its crate, once a caller and once a method.
    ({**CODE_OF_TYPES, 'high': CODE_OF_TYPES['high'][:-1]}, ['inside', 'of_few', 'of_list'], ['of_list', 'of_row']),
    ({**CODE_OF_TYPES, 'low': CODE_OF_TYPES['low'][:-1]}, ['inside', 'of_few'], BY_NAME),
    # The files have another form.
    ({**CODE_OF_TYPES, 'high': {'of_few': []}}, BY_NAME, BY_NAME),
    ({**CODE_OF_TYPES, 'high': [[it] for it in CODE_OF_TYPES['high']]}, BY_NAME, BY_NAME),
    ({**CODE_OF_TYPES, 'high': '[["high::of_few", {'}, BY_NAME, BY_NAME),
]
OWN_TYPES = """pub struct One {}

pub struct Two {}

impl One {
    fn size(&self) -> usize {
        1
    }
}

impl Two {
    fn size(&self) -> usize {
        2
    }

    fn twice(&self) -> usize {
        2 * self.size()
    }
}
"""
CODE_OF_OWN = {'high': [
    ['high::One::size', calling()],
    ['high::Two::size', calling()],
    ['high::Two::twice', calling('high::Two::size')],
]}
# Two modules have a type of the same name, so nobody knows of which one a method is.
METHODS = [
    ['high::a::Pair::size', calling('low::one')],
    ['high::a::PairDisplay::fmt', calling('low::two')],
    ['high::fn::PairDisplay::fmt::map', calling('low::three')],
    ['high::show', calling('high::a::PairDisplay::fmt', 'high::only')],
    ['high::only', calling('low::four')],
]
CALLED_IN_CODE = (
    [None, ['low::two'], ['low::four'], None, None],
    ['low::three', 'low::two'],
    None,
)
PATHS = ['high::a::Pair::size', 'high::a::Pair::size', 'high::show', 'high::only', 'high::tests::holds']


@contextlib.contextmanager
def room(proofs=(), specs='', low=LOW, high=HIGH, code=()):
    """Two crates, one above the other, with some answers of the upper one's functions, records of the lower one and built code."""
    with tempfile.TemporaryDirectory() as top:
        for name, text in (('low', low), ('high', high)):
            folder = pathlib.Path(top) / 'crates' / name / 'src'
            folder.mkdir(parents=True)
            (folder / 'lib.rt').write_text(text, encoding='utf-8')
        for name, text in dict(proofs).items():
            answers = pathlib.Path(top) / 'crates' / 'high' / 'proofs' / name / 'Answers.antt'
            answers.parent.mkdir(parents=True)
            answers.write_text(text, encoding='utf-8')
        if specs:
            (pathlib.Path(top) / 'crates' / 'low' / 'specs').mkdir()
            (pathlib.Path(top) / 'crates' / 'low' / 'specs' / 'A.antt').write_text(specs, encoding='utf-8')
        for name, functions in dict(code).items():
            built = pathlib.Path(top) / 'crates' / name / 'out' / 'rlib' / f'{name}.rlib'
            writes_code(built, functions)
        (pathlib.Path(top) / 'crates.txt').write_text('low:\nhigh: low\n', encoding='utf-8')
        tops, stand_ins.TOPS = stand_ins.TOPS, ('high',)
        kit, stand_ins.printed = stand_ins.printed, lambda *_: '/kit/page'
        try:
            yield stand_ins.Room(f'{top}/room', top, 1)
        finally:
            stand_ins.TOPS, stand_ins.printed = tops, kit


def writes_code(library, functions):
    """Writes the code of a library. A text is written as it is."""
    (library / 'toolchain').mkdir(parents=True)
    text = functions if isinstance(functions, str) else json.dumps(functions)
    (library / built_code.CODE).write_text(text, encoding='utf-8')


def callers_by_code(code):
    """Which functions may call two methods of the same name, and which forms are of functions that some function calls."""
    with room(low=LOW_OF_TYPES, high=HIGH_OF_TYPES, code=code) as made:
        outcomes = weaken_readers.Outcomes(made.crates['low'].forms())
        of = {it.title(): sorted(who.name for who in found) for it, found in weaken_calls.Callers(made, 'high', outcomes).of.items()}
        called = sorted(it.title() for it in outcomes.called)
        return of[SIZE_OF_FEW], of[SIZE_OF_ROW], of[NEW_FEW], called


def cited_by_code(code):
    """What refuses the clauses of two methods of the same name, if a proof cites the clause of one of them."""
    proofs = {'of_few': 'returns c = c.size.ensures.most\n'}
    with room(proofs, low=LOW_OF_TYPES, high=HIGH_OF_TYPES, code=code) as made:
        made.of_kit = {}
        outcomes = weaken_readers.Outcomes(made.crates['low'].forms())
        with contextlib.redirect_stdout(io.StringIO()):
            weaken_calls.Callers(made, 'high', outcomes).settles_at_once()
        return {it.title(): who for it, who in outcomes.settled.items()}


def calls_of_own(code):
    """Whom each function of a crate may call in the crate itself."""
    with room(high=OWN_TYPES, code=code) as made:
        callers = weaken_calls.Callers(made, 'high', weaken_readers.Outcomes([]))
        return {it.title(): sorted(one.title() for one in found) for it, found in callers.inner.items() if found}


def dropped_at_once(tried):
    """Which clauses are dropped at once, if some functions were tried on all of them."""
    with room(low=LOW_OF_TYPES, high=HIGH_OF_TYPES, code=CODE_OF_TYPES) as made:
        callers = weaken_calls.Callers(made, 'high', weaken_readers.Outcomes(made.crates['low'].forms()))
        callers.tried.update((form, it) for form in callers.forms for it in callers.functions if it.name in tried)
        return [it.title() for it in callers.dropped()]


def untold(code):
    """What is said of a form that nothing refuses, by whether some function calls its function."""
    with room(low=LOW_OF_TYPES, high=HIGH_OF_TYPES, code=code) as made:
        forms = made.crates['low'].forms()
        outcomes = weaken_readers.Outcomes(forms)
        weaken_calls.Callers(made, 'high', outcomes)
        return {it.title(): weaken.held(made, it, it in outcomes.called) for it in forms}


def untold_at_top():
    """What is said of the clauses of a crate at the top, which no function calls."""
    with room(low=LOW_OF_TYPES, high=HIGH_OF_TYPES) as made:
        forms = made.crates['low'].forms()
        made.crates['low'].name = 'promises'
        return {weaken.held(made, it, False) for it in forms}


def called_in_code():
    """What is called by functions, by methods of traits, and by those of which the code says nothing."""
    with tempfile.TemporaryDirectory() as top:
        library = pathlib.Path(top) / 'high.rlib'
        writes_code(library, METHODS)
        code = built_code.Code(str(library), PATHS)
        outer = [names and sorted(it for it in names if it.startswith('low')) for names in map(code.called, [*PATHS[1:], 'high::else'])]
        return outer, sorted(code.called_by_methods('fmt')), code.called_by_methods('next')


def code_of_kit():
    """Fails if the code of a library of the kit doesn't say whom a function calls."""
    if not shutil.which('rt'):
        raise Skipped('there is no kit')
    kit = os.path.dirname(stand_ins.printed(['rt', 'doc']).strip())
    new, text = 'itoa::Buffer::new', 'itoa::Buffer::format'
    code = built_code.Code(f'{kit}/rlibs/itoa.rlib', [new, text])
    same((code.known, new in code.called(text), new in code.called_by_methods('default')), ({new, text}, False, True))


def rounds_of_two_crates(refusing):
    """Which functions are tried on which forms, round by round, if some say that they aren't proved."""
    with room() as made:
        callers = weaken_calls.Callers(made, 'high', weaken_readers.Outcomes(made.crates['low'].forms()))
        found, unsure = [], {}
        while trials := callers.round(set(unsure)):
            found.append([f'{it.witness.name} on {[form.title() for form in it.forms]}' for it in trials])
            for it in trials:
                callers.notes(it, 'refused by it' if it.witness.name in refusing else '', {}, unsure)
    return found


def cited_clauses(of_kit):
    """Which forms are refused since a proof cites the clause, if the kit has functions with some names of clauses."""
    with room(PROOFS) as made:
        made.of_kit = of_kit
        outcomes = weaken_readers.Outcomes(made.crates['low'].forms())
        with contextlib.redirect_stdout(io.StringIO()):
            weaken_calls.Callers(made, 'high', outcomes).settles_at_once()
        return {it.title(): who for it, who in outcomes.settled.items()}


def read_check():
    """What is read from the lines of a check."""
    with room() as made:
        forms = made.crates['low'].forms()
        callers = weaken_calls.Callers(made, 'high', weaken_readers.Outcomes(forms))
        folder = pathlib.Path(made.top) / 'high' / 'crates' / 'high' / 'proofs'
        for name, text in ANSWERS.items():
            (folder / name).mkdir(parents=True)
            (folder / name / 'Answers.antt').write_text(text, encoding='utf-8')
        found = {}
        for it in callers.functions:
            tried = tuple(form for form in forms if form.key() in callers.needs[it])
            missed = callers.misses(weaken_calls.Trial(tried, it), CHECK) if tried else {}
            found[it.name] = (callers.refuses(it, CHECK), {form.title(): who for form, who in missed.items()})
        return found


def read_fields(lemmas, text):
    """What is read from a check with wrong names of fields, and which names are right after it."""
    with room() as made:
        forms = list(weaker_forms.forms_of_records('high', 'specs/A.antt', RECORD + '  pub second : ℕ\n'))
        namers = weaken_fields.Namers(made, 'high', weaken_readers.Outcomes(forms))
        folder = pathlib.Path(made.top) / 'high' / 'crates' / 'high' / 'proofs'
        folder.mkdir(parents=True)
        (folder / 'B.antt').write_text(lemmas, encoding='utf-8')
        found = namers.reads(forms, text)
        return {it.title(): who for it, who in found.items()}, sorted(namers.right)


def all_at_once():
    """What refuses fields if all are dropped at once, with what each check has and which witnesses come first before and after."""
    with room(USING, RECORD) as made:
        outcomes = weaken_readers.Outcomes(list(weaker_forms.forms_of_records('low', 'specs/A.antt', RECORD)))
        field, checks, texts = outcomes.forms[1], [], list(AT_ONCE)

        def answer(name, sources, only):
            crates = pathlib.Path(made.top) / name / 'crates'
            fields = weaker_forms.fields((crates / 'low' / 'specs' / 'A.antt').read_text(encoding='utf-8'))
            code = (crates / name / 'src' / 'lib.rt').read_text(encoding='utf-8')
            checks.append((sorted(sources), only, [f'{it[0]}.{it[1]}' for it in fields], code == HIGH, code.count('loop {}')))
            return texts.pop(0)

        made.check = answer
        first = weaken_fields.Users(made, 'high', outcomes)
        with contextlib.redirect_stdout(io.StringIO()), contextlib.redirect_stderr(io.StringIO()):
            first.drops_all()
        orders = [[it.name for it in users.of[field]] for users in (first, weaken_fields.Users(made, 'high', outcomes))]
        return {it.title(): who for it, who in outcomes.settled.items()}, checks, orders


def all_clauses_at_once():
    """What refuses clauses if all are dropped at once, with what each check has and which callers come first before and after."""
    with room(CALLING, '', LOW_AT_ONCE, HIGH_AT_ONCE) as made:
        outcomes = weaken_readers.Outcomes([*made.crates['low'].forms(), *made.crates['high'].forms()])
        most, checks, texts = outcomes.forms[0], [], list(CLAUSES_AT_ONCE)
        earlier = {it: 'refused earlier' for it in [it for it in outcomes.forms if it.clause == 'zero'][1:]}

        def answer(name, sources, only):
            codes = [(pathlib.Path(made.top) / name / 'crates' / it / 'src' / 'lib.rt').read_text(encoding='utf-8') for it in ('low', name)]
            ensured = [sorted(names) for code in codes for names in weaker_forms.clause_names(code).values() if names]
            checks.append((sorted(sources), only, ensured, [code.count('loop {}') for code in codes]))
            return texts.pop(0)

        made.check = answer
        with contextlib.redirect_stdout(io.StringIO()), contextlib.redirect_stderr(io.StringIO()):
            outcomes.settle(earlier)
            first = weaken_calls.Callers(made, 'high', outcomes)
            first.drops_all()
        orders = [[it.name for it in callers.of[most]] for callers in (first, weaken_calls.Callers(made, 'high', outcomes))]
        settled = {it.title(): who for it, who in outcomes.settled.items() if it not in earlier}
        return settled, checks, sorted(it.name for it in first.failed), orders


def missed_below():
    """What refuses a field that a clause of the crate below names."""
    with room(USING, RECORD) as made:
        forms = list(weaker_forms.forms_of_records('low', 'specs/A.antt', RECORD))
        made.lays_out('high', 'low', made.crates['low'].texts)
        text = f'{made.top}/high/crates/low/src/lib.rt:7:9: error: `ensures-most`: record `Other` has no field `first`. A record further'
        found = weaken_fields.Users(made, 'high', weaken_readers.Outcomes(forms)).lacking(forms, text)
        return {it.title(): who for it, who in found.items()}


def missed_by_another_name():
    """What refuses a field of a record that a file imports under another name."""
    with room(USING, RECORD) as made:
        forms = list(weaker_forms.forms_of_records('low', 'specs/A.antt', RECORD))
        lines = 'use Rattle.low.specs.A.{IsPair, Other as Both}\n\nf : Both → ℕ\nf c = c.first\n'
        made.lays_out('high', 'high', {'proofs/B.antt': lines})
        text = 'proofs/B.antt:4:7: error: `f`: record `Both` has no field `first` — the fields'
        found = weaken_fields.Users(made, 'high', weaken_readers.Outcomes(forms)).lacking(forms, text)
        return {it.title(): who for it, who in found.items()}


def reached_by_methods():
    """Whether a method may need what its struct keeps, though the method doesn't mention it."""
    with room(high=KEPT) as made:
        reach = weaken_fields.Reach(made, made.crates['high'])
        return ['IsKept' in reach.of(it) for it in made.crates['high'].witnesses()]


def files_read():
    """How often files are read for two errors in one of them, for two more after that, and for two after another check."""
    with room() as made:
        made.check = lambda *_: ''
        forms = list(weaker_forms.forms_of_records('high', 'specs/A.antt', RECORD))
        namers = weaken_fields.Namers(made, 'high', weaken_readers.Outcomes(forms))
        made.lays_out('high', 'high', {'proofs/B.antt': LEMMAS})
        paths, read = [], weaken_readers.read
        weaken_readers.read = lambda path: paths.append(path) or read(path)
        try:
            found = []
            for again in (False, False, True):
                if again:
                    namers.checked({'high': {'proofs/B.antt': LEMMAS.replace('f ', 'e ')}}, [])
                who = namers.lacking(forms, FILES_CHECK)
                found.append((len(paths), *who.values()))
        finally:
            weaken_readers.read = read
        return found


def kept_forms():
    """Which forms a later run leaves out, if one was refused and one was not."""
    with room() as made, tempfile.TemporaryDirectory() as top:
        first, second = made.crates['low'].forms()[:2]
        file = f'{top}/kept'
        before = weaken_readers.kept_in(file)
        outcomes = weaken_readers.Outcomes([first, second], file)
        with contextlib.redirect_stdout(io.StringIO()):
            outcomes.settle({first: 'refused by high::one', second: 'REFUSED BY NOTHING'})
        return before, weaken_readers.kept_in(file) == {weaken_readers.name_of(first)}


SIZES = ["sizes on ['Few::size.most: nothing', 'Few::size.least: nothing']"]
BOTH = "both on ['Few::size.most: nothing', 'Few::size.least: nothing']"
ONE = "one on ['twice: nothing']"
# If all are proved, no function of a round calls two of the weaker ones.
ROUNDS = [SIZES + [ONE], [BOTH], ["both on ['twice: nothing']"]]
# If one is not, it is tried over each clause alone.
ROUNDS_OF_ONE = [
    SIZES + [ONE],
    ["sizes on ['Few::size.most: nothing']"],
    ["sizes on ['Few::size.least: nothing']"],
    ["both on ['twice: nothing']"],
]
CITED = {
    'twice: nothing': 'refused by high::one, which cites c.twice',
    'Few::size.most: nothing': 'refused by high::both, which cites c.in-size',
}
ALL_AT_ONCE = (
    {'IsPair.first: nothing': 'refused by high/proofs/one/Answers.antt returns'},
    [
        (['low'], [], ['IsPair.second', 'Other.first'], True, 0),
        (['low'], [], ['IsPair.first', 'Other.first'], True, 0),
        (['low'], [], ['IsPair.first', 'Other.first'], False, 1),
    ],
    # `both` isn't proved only since it calls `sizes`.
    [['both', 'one', 'sizes'], ['sizes', 'both', 'one']],
)
ALL_CLAUSES_AT_ONCE = (
    {'Few::size.least: nothing': 'refused by high/proofs/sizes/Answers.antt returns'},
    [
        (['low'], [], [], [2, 0]),
        (['low'], [], [['least']], [2, 0]),
        (['low'], [], [['least']], [2, 3]),
        (['low'], [], [['least']], [2, 4]),
    ],
    # `one` and `quarter` fail though they call stand-ins. `other` and `eighth` only wait for what they call.
    ['half', 'one', 'quarter', 'sizes'],
    # A caller that failed comes before one whose proof cites the clause.
    [['both', 'half', 'sizes'], ['half', 'sizes', 'both']],
)
READ = {
    'both': ('', {}),
    'one': ('refused by high::one', {'twice: nothing': 'refused by high/proofs/one/Answers.antt returns'}),
    'other': ("NOT TRIED by high::other: proofs/one/Answers.antt:2:8: error: `returns`: expected type `c.k ≡ 2`, "
              "but this has type `Unit {0}`", {}),
    'sizes': ('refused by high::sizes, at a limit of the prover',
              {'Few::size.most: nothing': 'refused by high/proofs/sizes/Answers.antt second'}),
}


def check(_program):
    functions = list(weaker_forms.functions_of('src/a.rt', SOURCE))
    forms = list(weaker_forms.forms_of_functions('high', 'src/a.rt', SOURCE))
    yield 'the forms of an equivalence and of another clause', lambda: same([it.title() for it in forms], TITLES)
    found = [(it.title(), it.is_of_trait) for it in weaker_forms.functions_of('src/stop.rt', OF_TRAITS)]
    wanted = [('Stop::from', True), ('Stop::from', True), ('Stop::size', False)]
    yield 'methods of traits that have parameters', lambda: same(found, wanted)
    less = weaker_forms.with_bodies(SOURCE, functions, [forms[-1]], {'Pair::own'})
    yield 'a function that states less, beside stand-ins', lambda: same(less, LESS)
    even_less = [it.title() for it in forms if it.says_less(forms[0])]
    yield 'what says even less than a direction', lambda: same(even_less, ['Pair::meets.met: nothing'])
    fields = list(weaker_forms.forms_of_records('high', 'specs/A.antt', RECORD))
    titles = ['IsPair.first: nothing', 'IsPair.second: nothing', 'Other.first: nothing']
    yield 'the fields of records', lambda: same([it.title() for it in fields], titles)
    left = RECORD.replace('  pub second : (k : ℕ) →\n    k ≡ b\n', '')
    yield 'a record with a field less', lambda: same(weaker_forms.without_line(RECORD, fields[1]), left)
    records = list(weaker_forms.records_of(RECORD))
    names = [(it.name, sorted(it.fields)) for it in records]
    yield 'the records of a file', lambda: same(names, [('IsPair', ['first', 'second']), ('Other', ['first'])])
    literals = {it.fields: [it] for it in records}
    less = LITERALS.replace(' second = c.second }', '}').replace(' second = 1 }', '}')
    gone = {records[0]: {'second'}}
    yield 'literals with a field less', lambda: same(weaker_forms.without_fields(LITERALS, gone, literals), less)
    twins = {frozenset(['first', 'second']): [weaker_forms.Record('Twin', records[0].fields), records[0]]}
    twin = {twins[frozenset(['first', 'second'])][0]: {'second'}}
    yield 'a literal of another record that the text names', lambda: same(weaker_forms.without_fields(LITERALS, twin, twins), LITERALS)
    needed = [weaker_forms.needing(NEEDED, it) for it in weaker_forms.forms_of_records('high', 'specs/A.antt', NEEDED)]
    yield 'fields that a later field names', lambda: same(needed, ['whole', 'whole', '', ''])
    wrong = weaker_forms.with_names(LEMMAS.replace('_misnamed', ''), {'first', 'second'}, '_misnamed', {('k', 'first')})
    yield 'wrong names of fields', lambda: same(wrong, LEMMAS)
    partly = weaker_forms.with_names(LEMMAS.replace('_misnamed', ''), {'first', 'second'}, '_misnamed', {('f', 'first')})
    yield 'wrong names but one', lambda: same(partly, LEMMAS.replace('first_misnamed', 'first'))
    yield 'what a check says of wrong names', lambda: same(read_fields(LEMMAS, FIELDS_CHECK), FIELDS_READ)
    lemmas = MODULES.replace('_misnamed', '')
    right = {(who, name) for who in ('f', 'h', 'module') for name in ('first', 'second')}
    wrong = weaker_forms.with_names(lemmas, {'first', 'second'}, '_misnamed', right)
    yield 'wrong names in modules', lambda: same(wrong, MODULES)
    misnamed = weaker_forms.with_names(lemmas, {'first', 'second'}, '_misnamed', set())
    yield 'what a check says of declarations in modules', lambda: same(read_fields(misnamed, MODULES_CHECK), MODULES_READ)
    inside = [(it.name, sorted(it.fields)) for it in weaker_forms.records_of(lemmas)]
    yield 'a record in a module', lambda: same(inside, [('IsKept', ['kept'])])
    said = [(name, 'IsKept' in lines) for name, lines in weaker_forms.declarations(KEPT)]
    yield 'the model of a struct', lambda: same(said, [('Kept', False), ('Kept', True)])
    yield 'what the struct of a method keeps', lambda: same(reached_by_methods(), [True])
    settled, checks, orders = all_at_once()
    yield 'a field that only an answer names, and errors that are about none', lambda: same(settled, ALL_AT_ONCE[0])
    yield 'records that keep a field, and functions that become stand-ins', lambda: same(checks, ALL_AT_ONCE[1])
    yield 'a function that fails without all fields comes first', lambda: same(orders, ALL_AT_ONCE[2])
    settled, checks, failed, orders = all_clauses_at_once()
    yield 'a clause that an error of a caller names, and errors that name none', lambda: same(settled, ALL_CLAUSES_AT_ONCE[0])
    yield 'clauses that are dropped, and functions that become stand-ins', lambda: same(checks, ALL_CLAUSES_AT_ONCE[1])
    yield 'functions that fail without all clauses', lambda: same(failed, ALL_CLAUSES_AT_ONCE[2])
    yield 'a caller that fails without all clauses comes first', lambda: same(orders, ALL_CLAUSES_AT_ONCE[3])
    missed = {'Other.first: nothing': 'refused by low/src/lib.rt Few::size'}
    yield 'a field that a clause of a crate below names', lambda: same(missed_below(), missed)
    missed = {'Other.first: nothing': 'refused by high/proofs/B.antt f'}
    yield 'a field of a record with another name', lambda: same(missed_by_another_name(), missed)
    yield 'a file is read once for each check', lambda: same(files_read(), FILES_READ)
    ends = [(it.body, it.last) for it in weaker_forms.functions_of('src/pair.rt', BROKEN)]
    yield 'a clause with a line that ends as a head does', lambda: same(ends, [(7, 9)])
    yield 'a refused form is kept, any other is not', lambda: same(kept_forms(), (set(), True))
    names = weaker_forms.names_in('for i in 0..count(a.b, T::new()) {')
    wanted = ({'b', 'new'}, {'for', 'i', 'in', '0', 'count', 'a', 'T', 'new'})
    yield 'the names of a range, a field and a path', lambda: same((names.members, names.plain), wanted)
    yield 'clauses that proofs cite', lambda: same(cited_clauses({}), CITED)
    most = {name: who for name, who in CITED.items() if 'twice' in name}
    yield 'a clause that a function of the kit may have', lambda: same(cited_clauses({'size': {'most'}}), most)
    for number, (code, of_few, of_row) in enumerate(CODES_OF_TYPES):
        wanted = (of_few, of_row, [], sorted([SIZE_OF_FEW, SIZE_OF_ROW]))
        yield f'callers by the code of libraries, {number}', lambda code=code, wanted=wanted: same(callers_by_code(code), wanted)
    wanted = {'Two::twice': ['One::size', 'Two::size']}
    yield 'calls of two methods by their name', lambda: same(calls_of_own({}), wanted)
    by_code = {'Two::twice': ['Two::size']}
    yield 'calls of two methods by the code', lambda: same(calls_of_own(CODE_OF_OWN), by_code)
    yield 'a clause that two methods have', lambda: same(cited_by_code({}), {})
    one = {SIZE_OF_FEW: 'refused by high::of_few, which cites c.size'}
    yield 'a clause of the one method that is called', lambda: same(cited_by_code(CODE_OF_TYPES), one)
    uncalled = {**CODE_OF_TYPES, 'high': [[name, calling()] for name, _ in CODE_OF_TYPES['high']]}
    said = {it: 'REFUSED BY NOTHING: no function calls it' for it in (NEW_FEW, SIZE_OF_FEW, SIZE_OF_ROW)}
    dropped = [dropped_at_once(tried) for tried in ([], ['of_few', 'of_row'], ['of_few', 'of_row', 'inside'])]
    wanted = [[SIZE_OF_FEW, SIZE_OF_ROW], [SIZE_OF_FEW], []]
    yield 'a clause whose callers were all tried is not dropped', lambda: same(dropped, wanted)
    yield 'methods that no function calls', lambda: same(untold(uncalled), said)
    yield 'clauses at the top', lambda: same(untold_at_top(), {'at the top, where a reader judges the clause'})
    yield 'what code calls', lambda: same(called_in_code(), CALLED_IN_CODE)
    yield 'the code of a library of the kit', code_of_kit
    names = weaker_forms.clause_names(SOURCE)
    yield 'the names of clauses', lambda: same(names, {'meets': {'met', 'kept'}, 'own': {''}, 'plain': set()})
    yield 'what is tried together', lambda: same(rounds_of_two_crates(set()), ROUNDS)
    yield 'what is tried after a refusal', lambda: same(rounds_of_two_crates({'sizes'}), ROUNDS_OF_ONE)
    yield 'what a check says of each function', lambda: same(read_check(), READ)
