#!/usr/bin/env python3
"""Changes the package tools/btest_tools in small ways and says which changes no test notices.

    python3 -B scripts/mutants.py --btest PROGRAM [--count 200] [--seed 1] [--jobs N] [--keep FILE] [--again] [--seconds S] [MODULE..]

A change is one of: an operator or a comparison is another one, a constant is one more or less, a condition is turned round, `and` is
`or`, a statement is dropped, an order is turned round, an argument or an element is left out. The changes are drawn from a seed, the
same number for each kind as far as there are such. For each, the unit tests are run on a copy of the sources until one fails, those of
the module first. They also notice a change if they take far longer with it, in processor time. With --jobs several changes are tried
side by side. With --keep the answers are kept, and the next run goes on; with --again it tries only what no test has noticed.
"""
import argparse
import ast
import compileall
import concurrent.futures
import copy
import json
import os
import pathlib
import queue
import random
import re
import shutil
import subprocess
import sys
import tempfile
import time

ROOT = pathlib.Path(__file__).resolve().parents[1]
PACKAGE = ROOT / 'tools/btest_tools'
SEEN = ('VERSION', 'docs', 'examples', 'crates', 'scripts')   # what tests read beside tools
# Of the modules the tests that are run first.
FIRST = {'explaining': ['candidates', 'search', 'explaining', 'told', 'rows'], 'pages': ['pages', 'shown', 'whole'],
         'netlists': ['forms', 'layouts', 'netlist_texts', 'places'],
         'station': ['station', 'folders', 'stages', 'records', 'openocd', 'station_commands'],
         'pictures': ['drawn', 'shown'], 'drawing': ['drawn', 'shown'], 'closeups': ['drawn', 'shown', 'told'], 'logs': ['logs', 'signals'],
         'asking': ['asking', 'logs', 'told', 'failing'], 'walks': ['asking', 'failing'], 'failing': ['asking', 'failing'],
         'board': ['board', 'signals', 'model'], 'scans': ['scans', 'signals'], 'model': ['signals', 'model', 'rows'],
         'files': ['files'], 'btest': ['asking', 'told', 'failing'], 'bitbang': ['signals', 'bitbang'],
         'chain_faults': ['signals', 'chain_faults'], 'neighbors': ['told', 'shown', 'drawn', 'pictures'], 'places': ['drawn', 'forms', 'places']}
SECONDS = 60   # of processor time: tests that take longer have noticed the change
WAIT = 900   # seconds, for tests that wait for what never comes
FAILED = re.compile(r'^(?:FAIL|ERROR): .*\btests\.(test_\w+)', re.M)
OTHER = {ast.Add: ast.Sub, ast.Sub: ast.Add, ast.Mult: ast.FloorDiv, ast.FloorDiv: ast.Mult, ast.Div: ast.Mult, ast.Mod: ast.Mult,
         ast.BitAnd: ast.BitOr, ast.BitOr: ast.BitAnd, ast.BitXor: ast.BitAnd, ast.LShift: ast.RShift, ast.RShift: ast.LShift,
         ast.Lt: ast.LtE, ast.LtE: ast.Lt, ast.Gt: ast.GtE, ast.GtE: ast.Gt, ast.Eq: ast.NotEq, ast.NotEq: ast.Eq, ast.Is: ast.IsNot,
         ast.IsNot: ast.Is, ast.In: ast.NotIn, ast.NotIn: ast.In, ast.And: ast.Or, ast.Or: ast.And}


def turned(node):
    """Changes a node in place, in each way that there is: yields the kind, and the node as it is to be."""
    if isinstance(node, (ast.BinOp, ast.AugAssign)) and type(node.op) in OTHER:
        yield 'operator', replaced(node, op=OTHER[type(node.op)]())
    if isinstance(node, ast.BoolOp):
        yield 'operator', replaced(node, op=OTHER[type(node.op)]())
        yield 'left out', replaced(node, values=node.values[:-1]) if len(node.values) > 2 else node.values[0]
    if isinstance(node, ast.Compare) and type(node.ops[0]) in OTHER:
        yield 'comparison', replaced(node, ops=[OTHER[type(node.ops[0])](), *node.ops[1:]])
    if isinstance(node, ast.Constant) and type(node.value) in (int, float):
        yield 'constant', replaced(node, value=node.value + 1)
        yield 'constant', replaced(node, value=node.value - 1)
    if isinstance(node, ast.Constant) and isinstance(node.value, bool):
        yield 'constant', replaced(node, value=not node.value)
    if isinstance(node, (ast.If, ast.IfExp, ast.While)):
        yield 'condition', replaced(node, test=ast.UnaryOp(ast.Not(), node.test))
    if isinstance(node, ast.UnaryOp) and isinstance(node.op, (ast.Not, ast.Invert)):
        yield 'condition', node.operand
    if isinstance(node, (ast.Expr, ast.AugAssign)) and not isinstance(getattr(node, 'value', None), ast.Constant):
        yield 'dropped', ast.Pass()
    if isinstance(node, ast.Continue):
        yield 'dropped', ast.Pass()
    if isinstance(node, ast.Call) and isinstance(node.func, ast.Name) and node.func.id in ('sorted', 'reversed'):
        yield 'order', node.args[0] if node.func.id == 'reversed' else ast.Call(ast.Name('list', ast.Load()), node.args[:1], [])
    if isinstance(node, ast.Call) and isinstance(node.func, ast.Name) and node.func.id in ('min', 'max', 'any', 'all'):
        other = {'min': 'max', 'max': 'min', 'any': 'all', 'all': 'any'}[node.func.id]
        yield 'order', replaced(node, func=ast.Name(other, ast.Load()))
    if isinstance(node, (ast.Tuple, ast.List)) and isinstance(node.ctx, ast.Load) and len(node.elts) > 1:
        yield 'left out', replaced(node, elts=node.elts[:-1])


def replaced(node, **fields):
    node = copy.copy(node)
    for name, value in fields.items():
        setattr(node, name, value)
    return node


def is_code(node):
    """Whether a node may be changed: no annotations, and no words of errors."""
    return not isinstance(node, (ast.AnnAssign, ast.arguments, ast.ImportFrom, ast.Import, ast.JoinedStr))


def places(tree):
    """Yields each node with the node above it, the field and the index that hold it."""
    stack = [tree]
    while stack:
        above = stack.pop()
        for field, value in ast.iter_fields(above):
            if field in ('annotation', 'returns', 'decorator_list', 'type_ignores'):
                continue
            for index, node in enumerate(value) if isinstance(value, list) else [(None, value)]:
                if isinstance(node, ast.AST):
                    if isinstance(node, ast.AnnAssign) and node.value is not None:
                        stack.append(node.value)
                    if is_code(node):
                        stack.append(node)
                        yield node, above, field, index


def changes(path):
    """Yields each change of a module, as its kind, its line and its words. While it is yielded the tree is changed; `take` gives the
    text."""
    tree = ast.parse(path.read_text(encoding='utf-8'))
    for node, above, field, index in list(places(tree)):
        for kind, other in turned(node):
            ast.copy_location(other, node)
            held = getattr(above, field)
            setattr(above, field, held[:index] + [other] + held[index + 1:] if index is not None else other)
            yield kind, getattr(node, 'lineno', 0), (node, other), tree
            setattr(above, field, held)


def take(path, number):
    """What a change is, and the text of the module with it."""
    for at, (_, line, nodes, tree) in enumerate(changes(path)):
        if at == number:
            before, after = (ast.unparse(ast.fix_missing_locations(node))[:60].replace('\n', ' ') for node in nodes)
            return f'{path.relative_to(PACKAGE)}:{line}: {before} -> {after}', ast.unparse(ast.fix_missing_locations(tree))
    raise IndexError(number)


def drawn(modules, count, seed):
    """The changes that are tried, by turns of each kind, each as its module and its number there."""
    kinds = {}
    for path in modules:
        for number, (kind, *_) in enumerate(changes(path)):
            kinds.setdefault(kind, []).append((path, number))
    rng = random.Random(seed)
    for found in kinds.values():
        rng.shuffle(found)
    chosen = []
    while len(chosen) < count and any(kinds.values()):
        chosen += [found.pop() for found in kinds.values() if found]
    return chosen[:count]


def all_tests():
    """The modules of tests."""
    return sorted(one.stem for one in (ROOT / 'tools/tests').glob('test_*.py'))


def tests_of(path):
    """The modules of tests that are most likely to notice a change of a module, and the others."""
    names = all_tests()
    module = path.relative_to(PACKAGE).with_suffix('').parts[0]
    first = [f'test_{name}' for name in FIRST.get(module, []) if f'test_{name}' in names]
    return first, [name for name in names if name not in first]


def notices(folder, path, text, program):
    """What notices a change: a module of tests, or `time`; an empty text if nothing does."""
    copied = folder / 'tools/btest_tools' / path.relative_to(PACKAGE)
    before, times = copied.read_bytes(), copied.stat()
    copied.write_text(text, encoding='utf-8')
    try:
        # In two runs, since to import the tests takes longer than most of them.
        first, others = tests_of(path)
        return failing(folder, first, program) or failing(folder, others, program)
    finally:
        copied.write_bytes(before)
        os.utime(copied, ns=(times.st_atime_ns, times.st_mtime_ns))   # by which Python knows that it is compiled


def failing(folder, names, program):
    """The first module of these tests that fails, `time` if they take too long, or an empty text if they pass."""
    if not names:
        return ''   # without names, unittest looks for tests itself
    words = [sys.executable, '-B', '-m', 'unittest', '-f', '-b', *(f'tests.{name}' for name in names)]
    words = ['sh', '-c', f'ulimit -t {SECONDS}; exec "$@"', 'sh', *words]
    setting = {**os.environ, 'BTEST': program, 'BTEST_SECONDS': str(WAIT), 'PYTHONDONTWRITEBYTECODE': '1'}
    try:
        done = subprocess.run(words, cwd=folder / 'tools', env=setting, capture_output=True, timeout=2 * WAIT)
    except subprocess.TimeoutExpired:
        return 'time'
    said = done.stderr.decode('utf-8', 'replace')
    found = None if 'TimeoutExpired' in said else FAILED.search(said)
    return '' if not done.returncode else found[1] if found else 'time'


def lay_out(folder):
    """A copy of tools, compiled, with what its tests read beside it."""
    shutil.copytree(ROOT / 'tools', folder / 'tools', ignore=shutil.ignore_patterns('.*_cache', '__pycache__'))
    compileall.compile_dir(folder / 'tools', quiet=1)   # so that a run compiles the changed module alone
    for name in SEEN:
        os.symlink(ROOT / name, folder / name)


class Folders:
    """Copies of tools, of which each serves one change at a time."""

    def __init__(self, above, count, program):
        self.program, self.free = program, queue.SimpleQueue()
        for at in range(count):
            folder = above / str(at)
            folder.mkdir()
            lay_out(folder)
            self.free.put(folder)

    def notices(self, path, text):
        """The module of tests that notices a change, or an empty text."""
        folder = self.free.get()
        try:
            return notices(folder, path, text, self.program)
        finally:
            self.free.put(folder)


def main():
    words = argparse.ArgumentParser(description=__doc__.split('\n\n')[0])
    words.add_argument('--btest', metavar='PROGRAM', required=True)
    words.add_argument('--count', type=int, default=200)
    words.add_argument('--seed', default='1')
    words.add_argument('--keep', metavar='FILE', help='keeps the answers, and goes on from those that are there')
    words.add_argument('--jobs', type=int, default=1, help='changes that are tried side by side')
    words.add_argument('--again', action='store_true', help='tries again what no test noticed, and nothing else')
    words.add_argument('--seconds', type=float, default=1e9, help='ends after so long')
    words.add_argument('modules', metavar='MODULE', nargs='*', help='as explaining/rows.py; all if left out')
    chosen, begun = words.parse_args(), time.monotonic()
    modules = [PACKAGE / name for name in chosen.modules] or sorted(PACKAGE.rglob('*.py'))
    keep = pathlib.Path(chosen.keep) if chosen.keep else None
    answers = json.loads(keep.read_text()) if keep and keep.exists() else {}
    with tempfile.TemporaryDirectory() as name, concurrent.futures.ThreadPoolExecutor(chosen.jobs) as pool:
        folders = Folders(pathlib.Path(name).resolve(), chosen.jobs, os.path.abspath(chosen.btest))
        unchanged = pool.submit(folders.notices, PACKAGE / 'board.py', (PACKAGE / 'board.py').read_text(encoding='utf-8'))

        def answer(path, what, text):
            return what, folders.notices(path, text) if time.monotonic() - begun < chosen.seconds else None

        tried = []
        for path, number in drawn(modules, chosen.count, chosen.seed):
            what, text = take(path, number)
            if not answers.get(what) and (what in answers) == chosen.again:
                tried.append(pool.submit(answer, path, what, text))
        for what, by in (one.result() for one in concurrent.futures.as_completed(tried)):
            if by is None:
                continue
            answers[what] = by
            print(f'{by or "NOBODY":16} {what}', flush=True)
            if keep:
                keep.write_text(json.dumps(answers))
        if unchanged.result():
            sys.exit(f'without a change {unchanged.result()} fails, so these answers say nothing')
    missed = [what for what, by in answers.items() if not by]
    print(f'{len(answers)} changes, {len(answers) - len(missed)} noticed, {len(missed)} not', *missed, sep='\n')


if __name__ == '__main__':
    main()
