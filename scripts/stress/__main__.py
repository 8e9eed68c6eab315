"""Hostile use of the program: refused memory, failing reads and writes, broken texts, sizes at every limit, odd files and streams, and
stations that are killed."""
import argparse
import os
import shutil
import sys
import tempfile
import time

import broken
import files
import program
import refusals
import sizes
import stations_stress

PARTS = {'refusals': refusals.stress, 'broken': broken.stress, 'sizes': sizes.stress, 'files': files.stress,
         'stations': stations_stress.stress}


def show(rows):
    widths = [max(len(str(cell)) for cell in column) for column in zip(*rows)]
    for row in rows:
        print('| ' + ' | '.join(str(cell).ljust(width) for cell, width in zip(row, widths)) + ' |')


def options():
    words = argparse.ArgumentParser(prog="make stress WITH='..'", description=__doc__, usage='%(prog)s with PART and OPTIONS for the dots')
    words.add_argument('program', help=argparse.SUPPRESS)
    words.add_argument('part', nargs='?', choices=PARTS, help='all if left out')
    words.add_argument('--runs', type=int, default=100_000, help='how many broken cases')
    words.add_argument('--seed', type=int, default=1, help='from which they are made')
    words.add_argument('--jobs', type=int, default=min(4, os.cpu_count()), help='how many of them run side by side')
    words.add_argument('--case', default='', help='one case alone: the number of a broken one, or a name of the other parts')
    words.add_argument('--kind', default='', choices=['', *refusals.KINDS], help='of a refused call')
    words.add_argument('--number', type=int, default=0, help='of a refused call')
    return words.parse_args()


def main():
    chosen, begun = options(), time.monotonic()
    program.PROGRAM = os.path.abspath(chosen.program)
    folder, tables = tempfile.mkdtemp(), []
    try:
        for part in [chosen.part] if chosen.part else PARTS:
            start = time.monotonic()
            print(f'{part}:', flush=True)
            rows, runs = PARTS[part](f'{folder}/{part}', chosen)
            tables.append((f'{part}: {runs:,} runs in {time.monotonic() - start:.0f} s', rows))
    except program.Failure as failure:
        print(f'FAILED: {failure}')
        sys.exit(1)
    finally:
        os.chdir('/')
        shutil.rmtree(folder)
    for name, rows in tables:
        print(f'\n{name}\n')
        show(rows)
    print(f'\nAll as it should be, in {time.monotonic() - begun:.0f} s.')


if __name__ == '__main__':
    main()
