"""What holds of each program of tools/: it tells of itself, and of words and files that are missing."""
import os
import re
import shlex
import stat
import sys
import tempfile

from cases import BOARD, EXAMPLES, TOOLS, inside, need, refused, run, same


def helps(name):
    answer = inside(name, '--help')
    same((answer.returncode, answer.stderr), (0, ''), 'the status')
    assert answer.stdout.startswith(f'usage: {name}'), f'it prints {answer.stdout[:80]!r}'


def stands_in_table(name):
    text = (TOOLS / 'README.md').read_text(encoding='utf-8')
    assert re.search(rf'^\| `{re.escape(name)}[` ]', text, re.M), 'tools/README.md has no row for it'


# Words of which the first file isn't there.
MISSING = [
    ('kicad-nets.py', 'missing'), ('protel-nets.py', 'missing'), ('pads-nets.py', 'missing'), ('telesis-nets.py', 'missing'),
    ('ipc-356-nets.py', 'missing'), ('kicad-pcb-nets.py', 'missing'),
    ('simulated-chain.py', '0', 'good', 'missing', *BOARD[1:]), ('simulated-chain.py', '0', 'good', *BOARD[:4], 'missing'),
]


def bad_output(name, words, program):
    """A full disk and a closed output are one line and status 1; a reader that leaves needs none. There is never a traceback."""
    need(program)
    command = shlex.join(map(str, [sys.executable, '-B', TOOLS / name, '--btest', program, *words]))
    for how, lines in ((f'{command} >/dev/full', 1), (f'{command} >&-', 1), (f'{{ sleep .5; {command}; }} | true', 0), (f'{command} | head -n 1', 0)):
        answer = run(['sh', '-c', how])
        same(answer.stderr.count('\n'), lines, f'the number of lines of {how}, which says {answer.stderr!r}')
        assert lines == 0 or answer.returncode == 1 and 'cannot write standard output' in answer.stderr, f'{how}: it says {answer.stderr!r}'


def check(program):
    with tempfile.TemporaryDirectory() as folder:
        for name in sorted(os.listdir(TOOLS)):
            path = TOOLS / name
            if not path.is_file() or name == 'README.md':
                continue
            yield f'{name} stands in the table', lambda: stands_in_table(name)
            if name.endswith('.py') and path.stat().st_mode & stat.S_IXUSR:
                yield f'{name} --help', lambda: helps(name)
                yield f'{name} without words', lambda: refused(inside(name))
        places = ['--places', EXAMPLES / 'controller.kicad_pcb']
        for name, words in (('failing-nets.py', [*places, EXAMPLES / 'short-and-lifted.log', *BOARD]),
                            ('report.py', [*places, '--log', EXAMPLES / 'short-and-lifted.log', *BOARD])):
            yield f'{name}: output that fails', lambda: bad_output(name, words, program)
        for name, *words in MISSING:
            yield f'{name}: a file is missing', lambda: refused(inside(name, *words), f'{name}: cannot read missing')
            words = [folder if word == 'missing' else word for word in words]
            yield f'{name}: a folder in place of a file', lambda: refused(inside(name, *words), f'{name}: cannot read {folder}')
