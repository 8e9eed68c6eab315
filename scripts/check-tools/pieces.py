"""The pieces into which `btest diagnose` and `btest batch` cut their work. The answer is the same for every number of workers, so no
answer shows how the work is cut. But a run starts a thread for each piece except one. If memory is refused to a piece, a fault in the
blocks of an earlier piece is still the answer, and a fault in its own blocks is not."""
import os
import pathlib
import shutil
import sys
import tempfile

from cases import ROOT, Skipped, need, run, same

sys.path.append(str(ROOT / 'scripts/stress'))
import boards     # noqa: E402
import refusals   # noqa: E402

WORKERS = (1, 2, 3, 7, 64)
# How often a command cuts its work into pieces: a batch is read in pieces, and its logs are judged in pieces.
CUTS = {'diagnose': 1, 'batch': 2}
# Which of two blocks is no log, the text of both, and the line on standard error. Memory is refused to the piece that reads the second.
FAULTS = {'first': (b'BOARD A\n1\nx\nBOARD B\n1\n2\n', 'g line 3: digit not allowed\n'),
          'second': (b'BOARD A\n1\n2\nBOARD B\n1\nx\n', 'out of memory\n')}


def need_kit(program):
    """The compiler of the kit makes what refuses calls."""
    need(program)
    if not shutil.which('rt'):
        raise Skipped('rt is not there')


def refusing(program, words, call, folder):
    """Runs a command in which a call is refused. Returns the status and both streams, and whether there was such a call."""
    refused = folder / 'refused'
    refused.unlink(missing_ok=True)
    setting = refusals.refusing(folder / 'refuse.so', call, refused)
    seen = run([program, *words], folder, env={**os.environ, **setting})
    return (seen.returncode, seen.stdout, seen.stderr), refused.exists()


def write(case, folder):
    for name, text in case.files.items():
        (folder / name).write_bytes(text)


def cuts(program, command, workers, folder):
    """A command starts a thread for each piece except one, each time that it cuts its work. A piece needs no thread of its own."""
    need_kit(program)
    case, threads = boards.CASES[command], CUTS[command] * (workers - 1)
    write(case, folder)
    for number, wanted in ((threads, True), (threads + 1, False)):
        if number:
            answer, seen = refusing(program, [command, workers, *case.words[2:]], f'thread {number}', folder)
            same(answer, (0, case.out.decode('ascii'), ''), 'the answer')
            same(seen, wanted, f'whether thread {number} starts')


def reads_its_blocks(program, text, line, folder):
    """A thread reads the first of two blocks. Meanwhile the program's first thread reads the second block, and is refused memory. The
    fault of the first block comes first, since its own piece has memory."""
    need_kit(program)
    case = boards.CASES['batch']
    write(case, folder)
    (folder / 'g').write_bytes(text)
    answer, seen = refusing(program, ['batch', 2, *case.words[2:]], 'memory-beside 1', folder)
    same((answer[1:], seen), (('', line), True), 'the answer, and whether memory was refused')


def check(program):
    with tempfile.TemporaryDirectory() as name:
        folder = pathlib.Path(name)
        if program and shutil.which('rt'):
            refusals.build(name)
        for command in CUTS:
            for workers in WORKERS:
                yield f'{command}, workers {workers}', lambda: cuts(program, command, workers, folder)
        for block, (text, line) in FAULTS.items():
            yield f'the {block} of two blocks is no log', lambda: reads_its_blocks(program, text, line, folder)
