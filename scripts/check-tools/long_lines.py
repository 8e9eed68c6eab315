"""What scripts/break_lines.py makes of long lines, and that no source has a line that it would break."""
import subprocess
import sys

from cases import TOOLS, same

TOP = TOOLS.parent
sys.path.insert(0, str(TOP / 'scripts'))
import break_lines   # noqa: E402

TYPE = ('pub keeps_all : (board : RawBoard) (earlier passes : List (List Ctl)) (pass : List Ctl) → Reasons board earlier passes '
        '→ Reason board (earlier ++ passes) pass → Reasons board earlier (passes ++ pass ∷ [])')
TERM = 'keeps board = let first = one_of board in let second = other_of board first in together board first second ' + 'x' * 60
CLAUSE = '    ensures kept { OnOk result (map (λ g. g.items) groups.new.items ≡ slice_set (map (λ g. g.items) groups.old.items) 3 []) }'


def broken(path, line, kept=()):
    return break_lines.broken_text(path, line, list(kept)).split('\n')


def examples():
    same(broken('a.antt', TYPE), [
        'pub keeps_all : (board : RawBoard) (earlier passes : List (List Ctl)) (pass : List Ctl)',
        '    → Reasons board earlier passes → Reason board (earlier ++ passes) pass',
        '    → Reasons board earlier (passes ++ pass ∷ [])'])
    same(broken('a.antt', TERM), [
        'keeps board =', '    let first = one_of board in', '    let second = other_of board first in',
        f'    together board first second {"x" * 60}'])
    same(broken('a.rt', CLAUSE), [
        '    ensures kept { OnOk result',
        '        (map (λ g. g.items) groups.new.items',
        '        ≡ slice_set (map (λ g. g.items) groups.old.items) 3 []) }'])


def lines_that_stay():
    for path, line in (('a.antt', '-- ' + 'a word ' * 30), ('a.antt', f'use Rattle.a.specs.A.{{{"name, " * 40}}}'),
                       ('a.antt', TYPE[:130]), ('a.rt', CLAUSE[4:90]), ('a.rt', f'    let text = "{"a" * 120}";')):
        same(broken(path, line), [line])
    same(broken('a.antt', TYPE, ['Reason board (earlier ++ passes) pass']), [TYPE])


def sources():
    names = subprocess.run(['git', 'ls-files', 'crates/*.antt', 'crates/*.rt'], cwd=TOP, check=True, capture_output=True, text=True).stdout.split()
    kept = break_lines.kept_by_edits()
    found = []
    for name in names:
        text = (TOP / name).read_text(encoding='utf-8')
        if break_lines.broken_text(name, text, kept.get(name, [])) != text:
            found.append(name)
    assert not found, f'python3 scripts/break_lines.py {" ".join(found[:5])}, then rt fmt'


def check(program):
    yield 'a type, a term and a clause are broken', examples
    yield 'comments, uses, short lines and lines of edits stay', lines_that_stay
    yield 'no source has a line that is to be broken', sources
