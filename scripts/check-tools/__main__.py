"""Checks the programs of tools/, and what README.md and docs/ show of them and of btest.

Every module beside this one that has a function `check(program)` is run. `program` is the path of a btest, or None. The function
yields pairs of what is checked and a call without arguments. The call returns where all is well, raises Skipped where it can't be
made on this machine, and any other exception where it fails. Calls are made one after the other, each before the next pair is asked
for, so a temporary folder may stand around the yields:

    def check(program):
        with tempfile.TemporaryDirectory() as folder:
            yield 'an empty log is refused', lambda: cases.refused(cases.tool('failing-nets.py', '/dev/null', folder=folder))

The module `cases` has what checks share.
"""
import argparse
import importlib
import os
import pathlib
import sys
import time

sys.dont_write_bytecode = True
import cases   # noqa: E402

count = dict.fromkeys(('passed', 'failed', 'skipped'), 0)


def tell(outcome, name, why=''):
    count[outcome] += 1
    print(f'{outcome:7} {name}{": " if why else ""}{why}', flush=True)


def judge(name, call):
    try:
        call()
        tell('passed', name)
    except cases.Skipped as why:
        tell('skipped', name, why)
    except AssertionError as why:
        tell('failed', name, why)
    except Exception as error:   # a check that stumbles has failed, and the others go on
        tell('failed', name, f'{type(error).__name__}: {error}')


def run_module(name, program):
    def checks():
        module = importlib.import_module(name)
        if hasattr(module, 'check'):
            for what, call in module.check(program):
                judge(f'{name}: {what}', call)
    try:
        checks()
    except Exception as error:
        tell('failed', name, f'{type(error).__name__}: {error}')


def main():
    words = argparse.ArgumentParser(prog='scripts/check-tools', description=__doc__.split('\n')[0])
    words.add_argument('--btest', metavar='PROGRAM', help='a btest; without it, what needs one is skipped')
    words.add_argument('modules', metavar='MODULE', nargs='*', help='the modules to run; all if left out')
    chosen = words.parse_args()
    if chosen.btest and not os.access(chosen.btest, os.X_OK):
        sys.exit(f'no program: {chosen.btest}')
    begun = time.monotonic()
    here = sorted(path.stem for path in pathlib.Path(__file__).parent.glob('*.py'))
    for name in chosen.modules or here:
        if name not in here:
            sys.exit(f'no module {name}')
        if name != '__main__':
            run_module(name, chosen.btest and os.path.abspath(chosen.btest))
    print(f'check-tools took {time.monotonic() - begun:.0f} s')
    skipped = f', {count["skipped"]} skipped' if count['skipped'] else ''
    print(f'{count["passed"]} passed, {count["failed"]} failed{skipped}')
    sys.exit(1 if count['failed'] else 0)


if __name__ == '__main__':
    main()
