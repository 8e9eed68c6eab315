"""The package tools/btest_tools: its tests, its form, and its types."""
import os
import shutil
import sys

from cases import TOOLS, Skipped, run

LONG = 300   # seconds, on a machine that is busy with other work too
PROGRAMS = sorted(path.name for path in TOOLS.glob('*.py'))


def unit_tests(name, program):
    """Runs a module of tools/tests. Tests that need btest are skipped where there is none."""
    setting = {**os.environ, 'BTEST': program or '', 'PYTHONDONTWRITEBYTECODE': '1'}
    answer = run([sys.executable, '-B', '-m', 'unittest', '-b', f'tests.{name}'], TOOLS, env=setting, timeout=LONG)
    assert answer.returncode == 0, '\n'.join(answer.stderr.splitlines()[-30:])
    if 'skipped' in answer.stderr.splitlines()[-1] and not program:
        raise Skipped('some of it needs a program, and none is given')


def checked(*words):
    """Runs a program of Debian that reads the package."""
    if not shutil.which(words[0]):
        raise Skipped(f'{words[0]} is not there')
    answer = run(words, TOOLS, timeout=LONG)
    assert answer.returncode == 0, '\n'.join((answer.stdout + answer.stderr).splitlines()[-30:])


def check(program):
    for path in sorted((TOOLS / 'tests').glob('test_*.py')):
        yield f'tools/tests/{path.name}', lambda: unit_tests(path.stem, program)
    yield 'black', lambda: checked('black', '-q', '--check', 'btest_tools', 'tests', *PROGRAMS)
    yield 'mypy', lambda: checked('mypy', '--cache-dir', os.devnull, '--scripts-are-modules', 'btest_tools', 'tests', *PROGRAMS)
    yield 'pylint', lambda: checked('pylint', '-j', '4', 'btest_tools', *PROGRAMS)
