"""Files and streams that aren't plain: the rows of the table of docs/GUIDE.md, each tried."""
import os
import pathlib
import signal
import subprocess

import boards
import program
import refusals
from program import Failure
from sizes import scan

NOBODY = 65534
USAGE = boards.CASES['no words'].err.decode().strip()

# What is tried, commands of the shell that show it, the status, and the line on standard error. They run in a folder with a chain
# file `c` of one part of 4 bits.
ROWS = [
    ('a folder', 'btest chain .', 3, 'cannot read .'),
    ('no file, or a link to none', 'ln -s none l; btest chain l', 3, 'cannot read l'),
    ('a link that leads to itself', 'ln -s l l; btest chain l', 3, 'cannot read l'),
    ('a file that may not be read', 'chmod 0 c; btest chain c', 3, 'cannot read c'),
    ('an empty file', 'btest chain /dev/null', 1, '/dev/null: no part in the chain'),
    ('a file without an end', 'btest chain /dev/zero', 1, '/dev/zero: longer than 4194304 bytes'),
    ('a named pipe; btest waits until another process writes to it', 'mkfifo p; cat c >p & btest chain p', 0, ''),
    ('a pipe', 'cat c | btest chain /dev/stdin', 0, ''),
    ('standard input that is closed', 'btest chain /dev/stdin <&-', 3, 'cannot read /dev/stdin'),
    ('the file that the shell empties to write the output into it', 'btest chain c >c', 1, 'c: no part in the chain'),
    ('a name in UTF-8', 'mv c é; btest chain é', 0, ''),
    ('a name that is not UTF-8', r'btest chain "$(printf "\377")"', 2, USAGE),
    ('an empty name', 'btest chain ""', 2, USAGE),
    ('a name that begins with `-`', 'mv c ./-c; btest chain -c', 2, USAGE),
    ('the same file, named with its folder', 'mv c ./-c; btest chain ./-c', 0, ''),
    ('standard output full', 'btest chain c >/dev/full', 4, 'cannot write'),
    ('standard output closed', 'btest chain c >&-', 4, 'cannot write'),
    ('a pipe whose reader left', '{ sleep 1; btest chain c; echo $? >status; } | true', 4, 'cannot write'),
    ('standard error full', 'btest chain . 2>/dev/full', 3, ''),
    ('standard error closed', 'btest chain . 2>&-', 3, ''),
    ('all streams closed', 'btest chain c <&- >&- 2>&-', 4, ''),
    ('too little memory', 'head -c 4000000 /dev/zero | tr "\\0" "#" >>c; ulimit -v 5000; btest chain c', 5, 'out of memory'),
]

# What is done to the file `c` between its first read and its second, and what comes then. Its 9 KB are two parts.
TWO = boards.lines('BYPASS U1 4', '# ' + 'x' * 9000, 'BYPASS U2 4')
CHANGES = [
    ('a file that becomes shorter while btest reads it; the bytes that btest has already read count', lambda c: os.truncate(c, 0), 1, ''),
    ('a file that grows while btest reads it; the added bytes count, too', lambda c: append(c, b'BYPASS U3 4\n'), 3, ''),
    ('a file that grows beyond its limit while btest reads it', lambda c: append(c, b'#' * 4_194_304), 0, 'c: longer than 4194304 bytes'),
    ('a file that is deleted or replaced while btest reads it; the old file counts', lambda c: c.unlink(), 2, ''),
]


def append(path, text):
    with open(path, 'ab') as file:
        file.write(text)


def chain_test(parts):
    """The test of so many parts of 4 bits."""
    ends = sum(1 << 4 * i for i in range(parts))
    return boards.svf(scan('SIR', 4 * parts, (1 << 4 * parts) - 1, ends, 3 * ends),
                      scan('SDR', parts + 8, 0xA5, 0xA5 << parts, (1 << parts + 8) - 1))


def guide_row(what, status, line, command):
    """The row as it stands in docs/GUIDE.md."""
    shown = '`' + command.replace('|', '\\|') + '`' if command else ''
    said = 'the usage line' if line == USAGE else f'`{line}`' if line else 'none'
    return f'| {what} | {shown} | {status} | {said} |'


def judge(what, right, seen):
    if right != seen:
        raise Failure(f"{what}: {seen}, where {right} is wanted\nto run it again: make stress WITH='files --case \"{what}\"'")


def try_row(folder, row):
    """Runs a row in a folder of its own, as nobody where the user may read everything."""
    what, command, status, line = row
    os.mkdir(folder)
    pathlib.Path(folder, 'c').write_bytes(b'BYPASS U1 4\n')
    os.chmod(folder, 0o777)
    os.chmod(f'{folder}/c', 0o666)
    how = {'user': NOBODY, 'group': NOBODY, 'extra_groups': []} if os.geteuid() == 0 else {}
    if how:
        os.chown(f'{folder}/c', NOBODY, NOBODY)
    ran = subprocess.run(['sh', '-c', command], cwd=folder, capture_output=True, timeout=60, **how)
    told = pathlib.Path(folder, 'status')
    seen = int(told.read_text()) if told.exists() else ran.returncode
    out = chain_test(1) if status == 0 else b''
    judge(what, (status, out, boards.lines(line) if line else b''), (seen, ran.stdout, ran.stderr))
    return what, status, line


def try_change(folder, library, row):
    """Stops the program in front of its second read, changes the file, and lets it go on."""
    what, change, parts, line = row
    os.mkdir(folder)
    chain = pathlib.Path(folder, 'c')
    chain.write_bytes(TWO)
    setting = refusals.refusing(library, 'stop 2', f'{folder}/stopped')
    with subprocess.Popen([program.PROGRAM, 'chain', 'c'], cwd=folder, env=setting, stdout=subprocess.PIPE, stderr=subprocess.PIPE) as process:
        os.waitpid(process.pid, os.WUNTRACED)
        change(chain)
        process.send_signal(signal.SIGCONT)
        out, err = process.communicate(timeout=60)
    right = (1, b'', boards.lines(line)) if line else (0, chain_test(parts), b'')
    judge(what, right, (process.returncode, out, err))
    return what, right[0], line


def stress(folder, options):
    os.makedirs(f'{folder}/bin')
    os.chmod(folder, 0o755)
    os.chmod(os.path.dirname(folder), 0o755)
    # A copy, since nobody may have no way to the program.
    pathlib.Path(folder, 'bin/btest').write_bytes(program.content(program.PROGRAM))
    os.chmod(f'{folder}/bin/btest', 0o755)
    os.environ['PATH'] = f'{folder}/bin:' + os.environ['PATH']
    library = refusals.build(folder)
    guide = pathlib.Path(__file__).parents[2].joinpath('docs/GUIDE.md').read_text(encoding='utf-8')
    rows = [['files and streams', 'status', 'line']]
    for number, row in enumerate(ROWS + CHANGES):
        if options.case in ('', row[0]):
            here = f'{folder}/{number}'
            rows.append(try_row(here, row) if row in ROWS else try_change(here, library, row))
            if guide_row(*rows[-1], '' if row in CHANGES else row[1]) not in guide:
                raise Failure(f'docs/GUIDE.md has no such row: {row[0]}')
    return rows, len(rows) - 1
