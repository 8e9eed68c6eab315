"""What the checks share."""
import contextlib
import difflib
import io
import pathlib
import runpy
import subprocess
import sys

ROOT = pathlib.Path(__file__).resolve().parents[2]
TOOLS = ROOT / 'tools'
EXAMPLES = ROOT / 'examples'
# The files of the demo board, as words of a btest command.
BOARD = [str(EXAMPLES / name) for name in ('controller.chain', 'controller.nets', 'processor.bsd', 'octal-buffer.bsd', 'port.bsd')]
SECONDS = 60   # a run that takes longer has failed

sys.path.insert(0, str(TOOLS))   # so that checks can import the modules of tools/


class Skipped(Exception):
    """Why a check can't be made here."""


def need(program):
    if not program:
        raise Skipped('no program is given')


def run(words, folder=None, **how):
    """Runs a command. What it answers has `returncode`, `stdout` and `stderr`, as texts."""
    how = {'stdin': subprocess.DEVNULL, 'timeout': SECONDS, **how}
    return subprocess.run(list(map(str, words)), cwd=folder, stdout=subprocess.PIPE, stderr=subprocess.PIPE, encoding='latin-1', **how)


def tool(name, *words, folder=None):
    """Runs a program of tools/."""
    return run([sys.executable, '-B', TOOLS / name, *words], folder)


def inside(name, *words):
    """Runs a program of tools/ in this process, which takes a hundredth of the time."""
    out, err, before = io.StringIO(), io.StringIO(), sys.argv
    sys.argv, status = [name, *map(str, words)], 0
    try:
        with contextlib.redirect_stdout(out), contextlib.redirect_stderr(err):
            runpy.run_path(str(TOOLS / name), run_name='__main__')
    except SystemExit as end:
        status = end.code if isinstance(end.code, int) else 1
        if isinstance(end.code, str):
            print(end.code, file=err)
    finally:
        sys.argv = before
    return subprocess.CompletedProcess([name, *words], status, out.getvalue(), err.getvalue())


def btest(program, *words, folder=None):
    """What a command of btest prints, which has to end well."""
    need(program)
    answer = run([program, *words], folder)
    same(answer.returncode, 0, f'status of btest {words[0]}, which says {answer.stderr!r}')
    return answer.stdout


def same(seen, right, what='what came'):
    """Fails where two values differ, with the lines that differ where they are texts."""
    if seen == right:
        return
    if isinstance(seen, str) and isinstance(right, str) and '\n' in seen + right:
        lines = difflib.unified_diff(right.splitlines(), seen.splitlines(), 'wanted', what, lineterm='', n=0)
        raise AssertionError(f'{what} differs\n' + '\n'.join(list(lines)[:20]))
    raise AssertionError(f'{what} is {seen!r}, where {right!r} is wanted')


def refused(answer, line=''):
    """Fails but where a program refused its input: status 1 or 2, nothing on standard output, one line on standard error, with
    `line` in it. argparse prints its usage before the line."""
    assert answer.returncode in (1, 2), f'the status is {answer.returncode}, and it says {answer.stderr!r}'
    same(answer.stdout, '', 'standard output')
    lines = answer.stderr.splitlines()
    if lines and lines[0].startswith('usage: '):
        lines = lines[-1:]
    assert len(lines) == 1 and line in lines[0], f'it says {answer.stderr!r}, where one line with {line!r} is wanted'
