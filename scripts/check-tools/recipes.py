"""The recipes of docs/GUIDE.md, tried on files that are hard: odd names, comments, blanks, both kinds of line ends."""
import itertools
import os
import pathlib
import shlex
import subprocess
import tempfile

from cases import BOARD, EXAMPLES, ROOT, SECONDS, need, same
from documents import BLOCK, commands

GUIDE = (ROOT / 'docs/GUIDE.md').read_text(encoding='utf-8')
CHAIN, NETS = 'examples/controller.chain', 'examples/controller.nets'   # the files that the guide's lists read
LIMIT = '67108864'   # the longest text, which the guide's recipe for a longer day has

# Parts that a comment or a SUPPLY or PULL line names have no line. Parts with a line: U1, U2, R\1, J%s, 010.
HARD_CHAIN = """DEVICE U1 DRV -  # J1 is a connector
BYPASS U2 4
# M1 the memory
#Y1
INERT R\\1
LINK J%s 1 2
INERT 010
SUPPLY VCC
PULL TP2 1
"""
HARD_NETS = """# NET A X1.1
NET VCC U1.1 U2.1\t# X2.1 comes later
NET WE# U1.2 J1.1 J1.1 J1.a J1.A M1.7
  NET VCC R\\1.1 J%s.2 VCC.9 10.1
NET 10 10.2 1e1.1 010.3 -n.1 *.1 U$1.x 10.2.2
NET 010 Y1.1 TP2.1 TP2.2 #X3.1
NET 1e1
"""
HARD_PARTS = {'*': 1, '-n': 1, '10': 3, '1e1': 1, 'J1': 2, 'M1': 1, 'TP2': 2, 'U$1': 1, 'VCC': 1, 'Y1': 1}
HARD_COUNTS = '7 10\n6 VCC\n6 WE#\n3 010\n0 1e1\n'
ODD_NAMES = ['2211 0417', '#2', "it's", 'a\\nb', '-e', 'é', 'two\nlines', '%s', '$HOME', '*']
ODD_IDS = ['2211_0417', '_2', "it's", 'a\\nb', '-e', '__', 'two_lines', '%s', '$HOME', '*']
# The longest piece of a day of 12 bytes and three blocks of 172, and the number of blocks in each piece.
CUTS = [(172, [0, 1, 1, 1]), (184, [1, 1, 1]), (355, [1, 2]), (356, [2, 1]), (528, [3])]
# Files that the guide mends: the words by which it tells of them, and what is wrong with them.
MENDED = [('a byte order mark', b'\xef\xbb\xbf%s'), ('the byte 0x1A at the end', b'%s\x1a')]


def block_with(text):
    """The one block of the guide that has a text."""
    found = [block[1] for block in BLOCK.finditer(GUIDE) if text in block[1]]
    assert len(found) == 1, f'{len(found)} blocks of the guide have {text!r}'
    return found[0]


def shell(command, folder, program=None):
    """What a command prints, which has to end well and say nothing else."""
    path = os.environ['PATH']
    if program:
        (folder / 'bin').mkdir(exist_ok=True)
        os.symlink(program, folder / 'bin/btest')
        path = f'{folder}/bin:{path}'
    answer = subprocess.run(['sh', '-c', command], cwd=folder, env={**os.environ, 'PATH': path}, stdin=subprocess.DEVNULL,
                            capture_output=True, timeout=SECONDS, encoding='utf-8')
    same((answer.returncode, answer.stderr), (0, ''), 'how it ends')
    return answer.stdout


def lists(folder, what, ending):
    """What a list of the guide prints for the hard files, whose names have blanks."""
    for name, text in (('my chain', HARD_CHAIN), ('my nets', HARD_NETS)):
        (folder / name).write_bytes(text.replace('\n', ending).encode())
    command = commands(block_with(what))[0][0].replace(' | head -n 3', '')
    return shell(command.replace(CHAIN, "'my chain'").replace(NETS, "'my nets'"), folder)


def lists_parts(folder, ending):
    lines = lists(folder, 'print part, pins[part]', ending).splitlines()
    same(sorted(lines), sorted(f'{part} {count}' for part, count in HARD_PARTS.items()), 'the list')


def joins_logs(folder, program):
    """The logs of boards with odd names become one batch, which btest reads."""
    (folder / 'day').mkdir()
    log = (EXAMPLES / 'good.log').read_bytes()
    for name, (ending, last) in zip(ODD_NAMES, itertools.cycle(itertools.product((b'\n', b'\r\n'), (True, False)))):
        text = log.replace(b'\n', ending)
        (folder / 'day' / f'{name}.log').write_bytes(text if last else text.rstrip())
    shell(block_with('basename'), folder)
    titles = [line for line in (folder / 'day.logs').read_text('ascii').splitlines() if line.startswith('BOARD')]
    same(sorted(titles), sorted(f'BOARD {name}' for name in ODD_IDS), 'the titles')
    need(program)
    printed = shell(f'btest batch 2 day.logs {shlex.join(BOARD)}', folder, program)
    same(printed, ''.join(f'{title}\nPASS\n' for title in titles), 'the answer')


def cuts_a_day(folder, limit, counts, program):
    """A day with a comment in front and with other blanks in its titles is cut, and its pieces are diagnosed."""
    day = '# a comment\n' + (EXAMPLES / 'three-boards.logs').read_text('ascii').replace('BOARD ', 'BOARD\t')
    (folder / 'day.logs').write_text(day, 'ascii')
    recipe = block_with('mkdir pieces')
    assert recipe.count(LIMIT) == 2, 'the recipe names another limit'
    cut, _, loop = recipe.replace(LIMIT, str(limit)).partition('&&\nfor ')
    shell(cut, folder)
    pieces = [path.read_text('ascii') for path in sorted((folder / 'pieces').iterdir())]
    same(''.join(pieces), day, 'what the pieces are together')
    same([piece.count('BOARD') for piece in pieces], counts, 'the number of blocks in each piece')
    need(program)
    files = shlex.join(BOARD)
    whole = shell(f'btest batch 1 day.logs {files}; for {loop.replace("CHAIN NETS BSDL..", files)}', folder, program)
    same((folder / 'day.txt').read_text('ascii'), whole, 'the answer')


def mends(folder, what, wrong, setting):
    """A BSDL text that makers' files have is mended by the command in the guide's table."""
    text = (EXAMPLES / 'driver.bsd').read_bytes()
    (folder / 'old.bsd').write_bytes(wrong % text)
    row, = (line for line in GUIDE.splitlines() if line.startswith(f'| {what} | '))
    shell(f'export LC_ALL={setting}; {row.split("`")[-2]}', folder)
    same((folder / 'part.bsd').read_bytes(), text, 'the mended text')


def tried(program):
    """The trials, each of which is called with a folder of its own."""
    for name, ending in (('LF', '\n'), ('CR LF', '\r\n')):
        yield f'nets by their pins, {name}', lambda folder: same(lists(folder, 'print pins[net], net', ending), HARD_COUNTS, 'the list')
        yield f'parts without a line, {name}', lambda folder: lists_parts(folder, ending)
    yield 'one log a board', lambda folder: joins_logs(folder, program)
    for limit, counts in CUTS:
        yield f'a longer day, in pieces of {limit} bytes', lambda folder: cuts_a_day(folder, limit, counts, program)
    for (what, wrong), setting in itertools.product(MENDED, ('C', 'C.UTF-8')):
        yield f'{what}, {setting}', lambda folder: mends(folder, what, wrong, setting)


def check(program):
    for what, call in tried(program):
        with tempfile.TemporaryDirectory() as folder:
            yield what, lambda: call(pathlib.Path(folder))
