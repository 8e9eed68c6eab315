"""Each allocation, each opening, each read, each write and each start of a thread refused in turn, in small runs of every command."""
import os
import shutil
import subprocess

import program
from boards import CASES
from program import Failure, run

KINDS = ['memory', 'memory-on', 'open', 'read', 'read-one', 'write', 'write-one', 'thread']


def build(folder):
    """Compiles what refuses calls, with the compiler of the kit."""
    kit = os.path.dirname(os.path.dirname(os.path.realpath(shutil.which('rt') or '')))
    source = os.path.join(os.path.dirname(os.path.abspath(__file__)), 'refuse.c')
    subprocess.run([f'{kit}/toolchain/bin/clang', '--target=x86_64-unknown-linux-gnu', '-shared', '-fPIC', '-O1', '-nostdlib',
                    '-fuse-ld=lld', '-o', f'{folder}/refuse.so', source], check=True)
    return f'{folder}/refuse.so'


def refusing(library, call, made):
    """The setting of a program of which one call is refused: the library in front of the C library, the kind and the number of the
    call, and the file that is made when the call comes."""
    return {'LD_PRELOAD': str(library), 'REFUSE': call, 'REFUSED': str(made)}


def is_allowed(kind, case, answer, is_silent):
    """Whether this may come where a call of the kind is refused."""
    whole = (answer.status, answer.out, answer.err) == (case.status, case.out, case.err)
    nothing = not answer.out and answer.status
    if kind in ('memory', 'memory-on'):
        return whole or nothing == 5 and answer.err == (b'' if is_silent else b'out of memory\n')
    if kind in ('open', 'read'):
        return nothing == 3 and answer.err in [f'cannot read {name}\n'.encode() for name in case.files]
    if kind == 'write' and case.status == 0:
        return answer.status == 4 and case.out.startswith(answer.out) and answer.out != case.out and answer.err == b'cannot write\n'
    if kind == 'write':                   # the line on standard error
        return nothing == case.status and case.err.startswith(answer.err) and answer.err != case.err
    return whole                          # a read or a write of one byte, a thread that doesn't start


def try_case(name, case, kind, only, library, progress):
    """Refuses one call after the other, and returns how many runs ended with each status."""
    counts, is_silent = {}, True
    for number in range(only or 1, only + 1 if only else 1_000_000):
        answer = run(case.words, setting=refusing(library, f'{kind} {number}', '../refused'))
        again = f"\nto run it again: make stress WITH='refusals --case \"{name}\" --kind {kind} --number {number}'"
        if not os.path.exists('../refused'):   # there is no such call any more
            if (answer.status, answer.out, answer.err) != (case.status, case.out, case.err):
                raise Failure(f'{name}, nothing refused: {answer.short()}{again}')
            break
        os.remove('../refused')
        # Want of memory has no line before the words are there, and a line from then on.
        is_silent = is_silent and not answer.err
        if not is_allowed(kind, case, answer, is_silent):
            raise Failure(f'{name}, {kind} {number} refused: {answer.short()}{again}')
        counts[answer.status] = counts.get(answer.status, 0) + 1
        progress.add(1, f'runs, now of {name}')
    return counts


def stress(folder, options):
    """Goes through all cases and kinds, and returns the rows of a table: how many runs ended with each status."""
    program.enter(folder)
    library, progress = build(folder), program.Progress('refused calls')
    rows = [['calls refused', *KINDS]]
    for name, case in CASES.items():
        if options.case in ('', name):
            program.write(case.files)
            row = [name]
            for kind in KINDS:
                counts = try_case(name, case, kind, options.number, library, progress) if options.kind in ('', kind) else {}
                row.append(' '.join(f'{status}:{count}' for status, count in sorted(counts.items())) or '-')
            rows.append(row)
            program.clear()
    return rows, progress.done
