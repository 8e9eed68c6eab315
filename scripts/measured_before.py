"""Judges the conclusion of the failing-nets.py that was there before the package btest_tools, for scripts/measure-explaining.py.

That program names single faults and nets that read alike, in lines of its own form. They are read as sets of faults, so that both
programs are judged alike.
"""
import importlib.util
import itertools
import pathlib
import re
import sys

from btest_tools.explaining.faults import Fault, fault_of


class Before:
    """The old program, from a folder with its sources."""

    def __init__(self, folder, program):
        folder = pathlib.Path(folder) / 'tools'
        sys.path.insert(0, str(folder))   # it imports a module that is beside it
        spec = importlib.util.spec_from_file_location('failing_nets_before', folder / 'failing-nets.py')
        self.module = importlib.util.module_from_spec(spec)
        spec.loader.exec_module(self.module)
        sys.path.remove(str(folder))
        self.program = program

    def told(self, bench, rows):
        """Returns the sets of faults that the conclusion on a log tells. Of faults on the same nets one is taken for all."""
        log, width = pathlib.Path(bench.folder) / 'before.log', (bench.test.size + 3) // 4
        log.write_text(''.join(f'{row.got:0{width}X}\n' for row in rows), encoding='ascii')
        _, faults, found = self.module.look(self.program, str(log), bench.files)
        if not found or len(found) > self.module.MOST:
            return []
        return list(sets_of(list(self.module.reading(faults, found)), faults, bench.board))


def sets_of(lines, faults, board):
    """Yields the sets that the lines of a conclusion tell, where single faults explain the log and where they don't."""
    if faults:
        yield from ([fault] for fault in one_for_all(faults, board))
        for line in lines[1:]:
            pair = re.fullmatch(r'So do two at once: (.+) with (.+)\. Measure between the two nets\.', line)
            yield [fault_of(one) for one in pair.groups()] if pair else [short_of(line)]
        return
    groups = [list(choices_of(line.strip(), board)) for line in lines if line.startswith('  ')]
    yield from (list(itertools.chain(*chosen)) for chosen in itertools.product(*groups))


def choices_of(line, board):
    """Yields what a line names for a group of nets: nothing where it names no cause."""
    if line.startswith('likely a short of '):
        short = short_of(line)
        yield [short]
        stuck = re.search(r'each of them is stuck at ([01])', line)
        if stuck:
            yield [Fault('stuck', (net,), int(stuck[1])) for net in short.names]
    elif ': no single fault gives its bits' not in line:
        named = line if line.startswith('short ') else line.partition(': ')[2]
        yield from ([fault] for fault in one_for_all(named.split(', '), board))


def short_of(line):
    """Returns the short that a line names: the first of its nets wins, or a level does."""
    found = re.search(r'a short of (.+?)(?:: they read what|(?: in which ([01]) wins))', line)
    return Fault({None: 'dom', '0': 'and', '1': 'or'}[found[2]], tuple(found[1].split(', ')))


def one_for_all(lines, board):
    """Returns the faults of some lines, the first of those with the same nets. The program btest says of each that it gives all bits."""
    faults = {}
    for fault in map(fault_of, lines):
        faults.setdefault(frozenset(fault.nets(board)), fault)
    return list(faults.values())
