#!/usr/bin/env python3
"""Puts faults on simulated boards and counts how often tools/btest_tools/explaining finds them: a table for docs/RELIABILITY.md.

    python3 -B scripts/measure-explaining.py --btest PROGRAM [--count 100] [--seed 4] [--keep FILE] [--seconds S] [ROW..]
    python3 -B scripts/measure-explaining.py --btest PROGRAM --before FOLDER ..
    python3 -B scripts/measure-explaining.py --btest PROGRAM --times

Each row has its own boards, from a seed. Each fault of a set shows: without it the log is another one. A set is found if a set that is
told ties the same nets together. Then both give the same bits at each of these nets. "itself" counts the boards on which the very
faults are told. Each set that is told is put into btest_tools.model, which shares no code with the search, and has to give the log bit
for bit. With --before the old program that searched for no sets is judged, too. With --times the time for a large board is measured.
"""
import argparse
import itertools
import json
import pathlib
import random
import resource
import subprocess
import sys
import tempfile
import time

sys.dont_write_bytecode = True
ROOT = pathlib.Path(__file__).resolve().parents[1]
sys.path[:0] = [str(ROOT / 'tools'), str(ROOT / 'scripts')]
import measured_boards   # noqa: E402
from measured_before import Before   # noqa: E402
from tests import seeded_boards   # noqa: E402
from btest_tools.board import read_board   # noqa: E402
from btest_tools.btest import Btest   # noqa: E402
from btest_tools.explaining.faults import Fault, faults_of   # noqa: E402
from btest_tools.explaining.rows import rows_of   # noqa: E402
from btest_tools.explaining.sets import explain   # noqa: E402
from btest_tools.explaining.weights import EQUALS   # noqa: E402
from btest_tools.model import Model, play   # noqa: E402
from btest_tools.scans import LogRow, Test   # noqa: E402


class Bench:
    """A board under its test."""

    def __init__(self, program, files, folder):
        self.folder, self.files = folder, [f'{folder}/{name}' for name in files]
        names = self.files
        for name, text in zip(names, files.values()):
            pathlib.Path(name).write_text(text, encoding='ascii')
        self.board = read_board(names[0], names[1], names[2:])
        self.svf = Btest(program).run('svf', *names)
        self.test, self.model = Test(self.svf), Model(self.board)
        out = {line.split()[1] for line in Btest(program).run('cover', *names).splitlines()[1:]}
        self.covered = [net for name, net in self.board.nets.items() if name not in out]
        self.drivers = {net.name: [d.pin for d in net.drivers if d.pin not in out] for net in self.covered}
        self.readers = {net.name: [r.pin for r in net.readers if r.pin not in out] for net in self.covered}
        self.points = [net for net in self.covered if len(self.drivers[net.name]) == 1 and net.pull is None]
        self.buses = [net for net in self.covered if len(self.drivers[net.name]) > 1 and net.pull is None]
        self.pulled = [net for net in self.covered if net.pull is not None]

        expected = [LogRow(want, 0) for _, want in self.test.wanted()]
        self.good = rows_of(self.board, [(self.test, expected)])

    def rows(self, faults):
        """The log of the board with faults, by the model that works scan by scan."""
        self.model.put_faults(faults_of(faults))
        came = play(self.model, self.svf)
        return [LogRow(want, (want ^ got) & one.mask) for (one, want), got in zip(self.test.wanted(), came)]

    def decided(self, faults):
        """The log, or None where the model chooses a bit. It chooses none where no net has two drivers and what nothing decides isn't
        compared; only exchanged pins, and open pins beside a short, can bring that about."""
        rows, kinds = self.rows(faults), {fault.kind for fault in faults}
        if 'swap' not in kinds and not ('open' in kinds and kinds & {'and', 'or', 'dom'}):
            return rows
        self.model.free = 1
        others, self.model.free = self.rows(faults), 0
        return rows if rows == others else None

    def seen(self, faults):
        """What the test shows of faults, by the quick model: for each cell the rows in which it differs."""
        model = faults_of(faults)
        return {(one.net, one.probe.pin, one.rows) for one in self.good.mismatches(self.good.touched(model), model)}

    def is_seen(self, faults):
        """Whether the log changes where any of the faults is taken away."""
        whole = self.seen(faults)
        return all(self.seen([one for one in faults if one is not fault]) != whole for fault in faults)


def names(rng, nets, count):
    return tuple(net.name for net in rng.sample(nets, count))


def opened(rng, pins):
    return Fault('open', (rng.choice(pins),), rng.randrange(2))


# Rows: each gives the faults of a board, or None where the board can't have such

def three_shorted(rng, bench):
    return [Fault(rng.choice(['and', 'or']), names(rng, bench.covered, 3))]


def short_and_open(rng, bench):
    nets = names(rng, bench.covered, 2)
    return [Fault(rng.choice(['and', 'or', 'dom']), nets), opened(rng, bench.drivers[nets[0]] + bench.readers[nets[0]])]


def bus_short_open_driver(rng, bench):
    net = rng.choice(bench.buses)
    other = rng.choice([one for one in bench.covered if one is not net])
    return [Fault(rng.choice(['and', 'or']), (net.name, other.name)), opened(rng, bench.drivers[net.name])]


def stuck_and_open(rng, bench):
    net, value = rng.choice(bench.covered), rng.randrange(2)
    return [Fault('stuck', (net.name,), value), Fault('open', (rng.choice(bench.readers[net.name]),), 1 - value)]


def two_open_drivers(rng, bench):
    pins = rng.sample(bench.drivers[rng.choice(bench.buses).name], 2)
    return [Fault('open', (pin,), rng.randrange(2)) for pin in pins]


def opens_at_part(count):
    def faults(rng, bench):
        by_part = {}
        for net in bench.covered:
            for pin in bench.readers[net.name]:
                if pin not in bench.drivers[net.name]:
                    by_part.setdefault(pin.split('.')[0], []).append(pin)
        pins = rng.choice([pins for pins in by_part.values() if len(pins) >= count])
        return [Fault('open', (pin,), 0) for pin in rng.sample(pins, count)]
    return faults


def two_shorts(rng, bench):
    nets = names(rng, bench.covered, 4)
    return [Fault(rng.choice(['and', 'or', 'dom']), nets[:2]), Fault(rng.choice(['and', 'or', 'dom']), nets[2:])]


def short_and_stuck(rng, bench):
    nets = names(rng, bench.covered, 3)
    return [Fault('and', nets[:2]), Fault('stuck', nets[2:], 0)]


def exchanged(rng, bench):
    one, other = rng.sample(bench.points, 2)
    return [Fault('swap', (bench.drivers[one.name][0], bench.drivers[other.name][0]))]


def exchanged_at_part(rng, bench):
    """Two pins of one part that read."""
    part = rng.choice(bench.board.parts).name
    pins = [pin for net in bench.covered for pin in bench.readers[net.name] if pin.split('.')[0] == part]
    return [Fault('swap', tuple(rng.sample(pins, 2)))]


def missing_pull(rng, bench):
    return [Fault('pull', (rng.choice(bench.pulled).name,), 0)]


def missing_pack(rng, bench):
    pack = [net.name for net in bench.pulled if any(pin.startswith('RN1.') for pin in net.pins)]
    return [Fault('pull', (name,), 0) for name in pack]


def apart(count):
    """Single faults, each on its own nets."""
    def faults(rng, bench):
        nets, found = list(bench.covered), []
        rng.shuffle(nets)
        for _ in range(count):
            kind = rng.choice(['stuck', 'open', 'short'])
            one = nets.pop()
            if kind == 'stuck':
                found.append(Fault('stuck', (one.name,), rng.randrange(2)))
            elif kind == 'open':
                found.append(opened(rng, bench.drivers[one.name] + bench.readers[one.name]))
            else:
                found.append(Fault(rng.choice(['and', 'or', 'dom']), (one.name, nets.pop().name)))
        return found
    return faults


ROWS = {
    'short of three nets, AND or OR': three_shorted,
    'short, and an open pin on one of its nets': short_and_open,
    'short of a bus net, and an open driver of the bus': bus_short_open_driver,
    'stuck net with an open pin on it': stuck_and_open,
    'two open drivers of one bus net': two_open_drivers,
    '3 open receivers at one part that read 0': opens_at_part(3),
    '4 open receivers at one part that read 0': opens_at_part(4),
    '6 open receivers at one part that read 0': opens_at_part(6),
    '8 open receivers at one part that read 0': opens_at_part(8),
    'two shorts at once': two_shorts,
    'short with AND, and a net stuck at 0': short_and_stuck,
    'two nets exchanged': exchanged,
    'two receivers of one part exchanged': exchanged_at_part,
    'a pull resistor that is missing': missing_pull,
    'a resistor pack that is missing': missing_pack,
    'two single faults, each on its own nets': apart(2),
    'three single faults, each on its own nets': apart(3),
}


def is_told(explanation, faults, board):
    """Whether a set is, net by net, among the choices of an explanation."""
    for component in explanation.components:
        mine = {canonical(fault) for fault in faults if set(fault.nets(board)) <= set(component.nets)}
        if mine not in [set(map(canonical, choice)) for choice in component.choices]:
            return False
    return True


def is_class(explanation, faults, board):
    """Whether an explanation ties the nets of a set together as the set does, and has no other nets. Then both give the same bits at
    all cells of each of its components, so no reading of the log tells them apart there."""
    return are_class([set(component.nets) for component in explanation.components], faults, board)


def are_class(nets, faults, board):
    """Whether sets of nets that are tied together are those of a set of faults."""
    of_faults = [set(fault.nets(board)) for fault in faults]
    return all(any(mine <= one for one in nets) for mine in of_faults) and all(
        one == set().union(*(mine for mine in of_faults if mine <= one)) and is_tied(one, of_faults) for one in nets)


def is_tied(nets, of_faults):
    """Whether faults tie all of some nets together."""
    reached = {min(nets)}
    while True:
        more = reached.union(*(mine for mine in of_faults if mine & reached))
        if more == reached:
            return reached >= nets
        reached = more


def is_right(bench, told, faults, rows):
    """Whether faults, each on nets of its own, give the log and tie the nets of a set together as the set does."""
    nets = [set(fault.nets(bench.board)) for fault in told]
    are_apart = sum(map(len, nets)) == len(set().union(*nets))
    return are_apart and are_class(nets, faults, bench.board) and bench.rows(told) == rows


def canonical(fault):
    """A fault with the names whose order tells nothing in one order."""
    if fault.kind == 'dom':
        return fault._replace(names=(fault.names[0], *sorted(fault.names[1:])))
    return fault._replace(names=tuple(sorted(fault.names)))


def rank_of(explained, faults, board, judge_one=is_class):
    """The rank of the first explanation that is the set by a judgement, or 0."""
    for rank, explanations in enumerate(explained.ranks, 1):
        if any(judge_one(one, faults, board) for one in printed(explanations)):
            return rank
    return 0


def printed(explanations):
    """The sets of a rank that are printed: the first, and after its other readings as many as there is room for."""
    room = EQUALS + 1 - len(explanations[0].readings)
    return explanations[:1 + max(0, room)]


COUNTS = ('boards', 'first', 'first three', 'itself', 'sound nets first', 'told', 'wrong', 'seconds at most')


def judge(bench, faults, rows, tally, before):
    """Explains a board with these faults. `before` is the old program, or None."""
    tally['boards'] += 1
    if before:
        tally['before'] += any(is_right(bench, told, faults, rows) for told in before.told(bench, rows))
    begun = time.process_time()
    explained = explain(bench.board, [(bench.test, rows)])
    tally['seconds at most'] = max(tally['seconds at most'], time.process_time() - begun)
    rank, sound = rank_of(explained, faults, bench.board), set()
    tally['first'] += rank == 1
    tally['first three'] += rank > 0
    tally['itself'] += rank_of(explained, faults, bench.board, is_told) > 0
    touched = {net for fault in faults for net in fault.nets(bench.board)}
    for at, explanation in enumerate(itertools.chain(*explained.ranks)):
        for reading in explanation.readings:
            told = [fault for choice in reading.choices for fault in choice]
            tally['told'] += 1
            if bench.rows(told) != rows:
                tally['wrong'] += 1
        if at == 0:
            sound = {name for component in explanation.components for name in component.nets} - touched
            tally['sound nets first'] += bool(sound)
    return rank, sorted(sound)


def find_faults(bench, row, name):
    """Faults of a row that a board can have and its test can see, with the log, or None."""
    rng = random.Random(f'{name} {row}')
    try:
        for faults in (ROWS[row](rng, bench) for _ in range(5)):
            rows = faults and bench.is_seen(faults) and bench.decided(faults)
            if rows:
                return faults, rows
    except (ValueError, IndexError):   # the board can't have such faults
        pass
    return None


def try_board(chosen, number, tallies, before):
    """Puts the faults of each row that still needs a board on the next one."""
    made, name = seeded_boards if number % 4 == 0 else measured_boards, f'{chosen.seed}-{number}'
    with tempfile.TemporaryDirectory() as folder:
        bench = Bench(chosen.btest, made.made(name), folder)
        for row in (row for row, tally in tallies.items() if tally['boards'] < chosen.count):
            found = find_faults(bench, row, name)
            rank, sound = judge(bench, *found, tallies[row], before) if found else (1, [])
            if chosen.verbose and (rank != 1 or sound):
                faults = [fault.line() for fault in found[0]]
                print(f'{row}: {made.__name__} {name}: rank {rank} of {faults}; sound {sound}', file=sys.stderr, flush=True)


# How long it takes on a large board

def stuck_nets(count):
    def faults(rng, bench):
        return [Fault('stuck', (name,), rng.randrange(2)) for name in names(rng, bench.covered, count)]
    return faults


def open_at_five_parts(rng, bench):
    parts = [part.name for part in rng.sample(bench.board.parts, 5)]
    pins = [pin for net in bench.covered for pin in bench.readers[net.name] if pin not in bench.drivers[net.name]]
    return [Fault('open', (pin,), 0) for pin in rng.sample([pin for pin in pins if pin.split('.')[0] in parts], 300)]


LARGE = {
    '90 nets that are stuck': stuck_nets(90),
    '300 nets that are stuck': stuck_nets(300),
    '300 open receivers of five parts': open_at_five_parts,
}


def print_times(program):
    """Prints the processor time of failing-nets.py, and of btest which it calls, for logs of a large board."""
    with tempfile.TemporaryDirectory() as folder:
        bench = Bench(program, measured_boards.made('large', 28, 56), folder)
        print(f'{len(bench.board.nets)} nets, {sum(1 for _ in bench.test.wanted())} rows')
        for what, faults in LARGE.items():
            rows, log = bench.rows(faults(random.Random(what), bench)), pathlib.Path(folder) / 'log'
            log.write_text(''.join(f'{row.got:0{(bench.test.size + 3) // 4}X}\n' for row in rows), encoding='ascii')
            begun = resource.getrusage(resource.RUSAGE_CHILDREN)
            words = [sys.executable, '-B', ROOT / 'tools/failing-nets.py', '--btest', program, log, *bench.files]
            subprocess.run(words, check=True, stdout=subprocess.DEVNULL)
            ended = resource.getrusage(resource.RUSAGE_CHILDREN)
            print(f'{what}: {ended.ru_utime + ended.ru_stime - begun.ru_utime - begun.ru_stime:.1f} s')


def options():
    words = argparse.ArgumentParser(description=__doc__.split('\n\n')[0])
    words.add_argument('--btest', metavar='PROGRAM', required=True)
    words.add_argument('--count', type=int, default=100, help='boards a row (100)')
    words.add_argument('--seed', default='4', help='4; the search was written with boards of the seeds 1 to 3')
    words.add_argument('--keep', metavar='FILE', help='keeps the counts after each board, and goes on from those that are there')
    words.add_argument('--seconds', type=float, default=1e9, help='ends after so long; with --keep the next run goes on')
    words.add_argument('--before', metavar='FOLDER', help='judges FOLDER/tools/failing-nets.py, too, which has no package beside it')
    words.add_argument('--times', action='store_true', help='prints instead how long failing-nets.py takes on a board of 1,600 nets')
    words.add_argument('--verbose', action='store_true', help='tells of each set that is not first')
    words.add_argument('rows', metavar='ROW', nargs='*', help='a part of the name of a row; all rows if left out')
    return words.parse_args()


def main():
    chosen, begun = options(), time.monotonic()
    if chosen.times:
        print_times(chosen.btest)
        return
    keep = pathlib.Path(chosen.keep) if chosen.keep else None
    before, counts = (Before(chosen.before, chosen.btest), (*COUNTS, 'before')) if chosen.before else (None, COUNTS)
    rows = [row for row in ROWS if not chosen.rows or any(word in row for word in chosen.rows)]
    number, tallies = 0, {row: dict.fromkeys(counts, 0) for row in rows}
    if keep and keep.exists():
        number, tallies = json.loads(keep.read_text())
    while time.monotonic() - begun < chosen.seconds and any(tally['boards'] < chosen.count for tally in tallies.values()):
        number += 1
        try_board(chosen, number, tallies, before)
        if keep:
            keep.write_text(json.dumps([number, tallies]))
    print('| what is wrong with the board | ' + ' | '.join(counts) + ' |\n|---' + '|---:' * len(counts) + '|')
    for row, tally in tallies.items():
        print(f'| {row} | ' + ' | '.join(f'{value:.2f}' if isinstance(value, float) else str(value) for value in tally.values()) + ' |')


if __name__ == '__main__':
    main()
