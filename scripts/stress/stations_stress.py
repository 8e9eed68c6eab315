"""A station of tools/ that is killed at random moments, and one whose record has many attempts. Needs OpenOCD."""
import contextlib
import hashlib
import json
import os
import pathlib
import random
import re
import resource
import shutil
import signal
import sqlite3
import subprocess
import sys
import threading
import time
import zlib

ROOT = pathlib.Path(__file__).resolve().parents[2]
sys.path[:0] = [str(ROOT / 'tools'), str(ROOT / 'scripts/check-tools')]
import program   # noqa: E402
from cases import EXAMPLES, run   # noqa: E402
from stations import Line, Slow, is_in_reset   # noqa: E402  # the folder and the simulated board of the checks
from btest_tools.chain_faults import ChainPort   # noqa: E402
from btest_tools.station.record import Record, create   # noqa: E402

KILLS, INTERRUPTS, ATTEMPTS = 200, 25, 100_000
TOLD = re.compile(r'^(PASS|FAIL)(?: \([^)]*\))?  (\S+)  ', re.M)
FAULTS = ('good', 'and:D0:D1', 'good', 'open:U1.5:0', '12-14@stuck:D2:1')
SECONDS = 2.0   # of the processor, that show and day may take
LONGEST = 600   # seconds on a busy machine


def read_all(stream, told):
    told.append(stream.read())


def run_killed(line, number, rng):
    """Starts a station that tests board after board, and kills it. Returns what it told, as pairs of a serial number and a verdict."""
    line.plug(*(rng.choice(FAULTS) for _ in range(40)))
    words = list(map(str, line.command('test', line.folder)))
    with subprocess.Popen(words, stdin=subprocess.PIPE, stdout=subprocess.PIPE, stderr=subprocess.DEVNULL, encoding='utf-8') as process:
        process.stdin.write(''.join(f'K{number}-{board}\n' for board in range(40)))
        process.stdin.flush()
        told = []
        reader = threading.Thread(target=read_all, args=(process.stdout, told))
        reader.start()
        time.sleep(rng.uniform(0.3, 2.2))
        process.kill()
        reader.join()
    return [(serial, verdict) for verdict, serial in TOLD.findall(told[0])]


def kills(folder, chosen):
    rng, told, cut = random.Random(chosen.seed), [], 0
    os.mkdir(folder)
    line = Line(program.PROGRAM, folder)
    line.prepare()
    for number in range(KILLS):
        told += run_killed(line, number, rng)
        with Record(line.folder / 'record.sqlite') as record:
            if not record.is_whole():
                raise program.Failure(f'the record is damaged after kill {number}')
            found = {(one.serial, one.verdict) for one in record.attempts()}
        missing = set(told) - found
        if missing:
            raise program.Failure(f'told and not in the record after kill {number}: {sorted(missing)}')
    with Record(line.folder / 'record.sqlite') as record:
        verdicts = [one.verdict for one in record.attempts()]
    cut = verdicts.count('CUT')
    return ('killed', KILLS, f'{len(told)} attempts told, none missing; {len(verdicts)} in the record, {cut} of them cut short')


def interrupts(folder, chosen):
    """Ctrl-C at random moments of a test: the pins are in reset, and the record has the end of each attempt."""
    rng, stopped = random.Random(chosen.seed), 0
    os.mkdir(folder)
    line = Line(program.PROGRAM, folder)
    line.prepare()
    for number in range(chosen.number or INTERRUPTS):
        line.plug(rng.choice(FAULTS[:4]), kind=rng.choice((ChainPort, Slow)))
        words = list(map(str, line.command('test', line.folder, f'I{number}')))
        with subprocess.Popen(words, stdin=subprocess.DEVNULL, stdout=subprocess.PIPE, stderr=subprocess.PIPE, encoding='utf-8') as process:
            while not line.attempts() or line.attempts()[-1].serial != f'I{number}':   # before that there is no attempt
                time.sleep(0.01)
            time.sleep(rng.uniform(0, 1.5))
            process.send_signal(signal.SIGINT)
            out, err = process.communicate(timeout=60)
        verdict = line.attempts()[-1].verdict
        if err or verdict == 'CUT' or (process.returncode == 130) != (verdict == 'STOPPED'):
            raise program.Failure(f'interrupt {number}: {verdict}, status {process.returncode}: {out}{err}')
        if verdict == 'STOPPED' and 'the pins are in reset' not in out:
            raise program.Failure(f'interrupt {number}: {out}')
        is_in_reset(line.boards[0])
        stopped += verdict == 'STOPPED'
    return ('interrupted', number + 1, f'{stopped} attempts stopped, the others had come to their ends; the pins in reset after each')


def fill(path, test, days):
    """A record of many attempts, spread over some days, of which one in twenty failed."""
    path.unlink()
    create(path)
    texts = [(EXAMPLES / f'{name}.log').read_bytes() for name in ('good', 'shorted')]
    marks = [hashlib.sha256(text).hexdigest() for text in texts]
    lines = json.dumps(['likely one cause', '  D0, D1: short AND D0 D1'])
    finding = (json.dumps(['short AND D0 D1']), lines, zlib.compress(b'D0\nD1\n' * 20))
    attempts, endings, logs, findings = [], [], [], []
    for number in range(1, ATTEMPTS + 1):
        day = time.strftime('%Y-%m-%d', time.gmtime(1_700_000_000 + 86_400 * ((number - 1) * days // ATTEMPTS)))
        fails = number % 20 == 7
        attempts.append((number, f'S{number:06}', f'{day}T08:00:00Z', f'{day}T08:00:00+00:00', day, test, 'btest', 'here'))
        endings.append((number, f'{day}T08:00:01Z', 'player', 'board', 'FAIL' if fails else 'PASS', '2 of 2' * fails, ''))
        logs.append((number, 0, 'board', marks[fails]))
        findings += [(number, *finding)] * fails
    with contextlib.closing(sqlite3.connect(path)) as database, database:
        for table, rows in (('attempt', attempts), ('ending', endings), ('log_text', zip(marks, map(zlib.compress, texts))), ('log', logs),
                            ('finding', findings)):
            rows = list(rows)
            database.executemany(f'INSERT INTO {table} VALUES ({", ".join("?" * len(rows[0]))})', rows)


def timed(line, name, *words):
    """The processor time of a command of the station."""
    before = resource.getrusage(resource.RUSAGE_CHILDREN)
    answer = run(line.command(*words), line.room, timeout=LONGEST)
    after = resource.getrusage(resource.RUSAGE_CHILDREN)
    if answer.returncode:
        raise program.Failure(f'{name}: {answer.stderr}')
    took = after.ru_utime + after.ru_stime - before.ru_utime - before.ru_stime
    return f'{took:.2f} s{f", more than {SECONDS:g} s" if took > SECONDS else ""}'


def many(folder, _chosen):
    """Processor times of show and of day, with all attempts on a hundred days and on one."""
    os.mkdir(folder)
    line = Line(program.PROGRAM, folder)
    line.prepare()
    test = line.station('prepare', '--check', line.folder).stdout.split('test ')[1].split(',')[0]
    for days in (100, 1):
        fill(line.folder / 'record.sqlite', test, days)
        for name, words in (('show', ('show', line.folder)), ('show of one board', ('show', line.folder, 'S000107')),
                            ('day, which writes its pages', ('day', line.folder)), ('day, with its pages there', ('day', line.folder)),
                            ('csv', ('csv', line.folder))):
            yield (f'{ATTEMPTS:,} attempts on {days} days', name, timed(line, name, *words))


def stress(folder, chosen):
    """Rows of a table, and how many runs there were."""
    if not shutil.which('openocd'):
        return [('skipped', '', 'OpenOCD is not there')], 0
    os.mkdir(folder)
    rows = []
    for name, part in (('kills', kills), ('interrupts', interrupts)):
        if chosen.case in ('', name):
            rows.append(part(f'{folder}/{name}', chosen))
    if chosen.case in ('', 'many'):
        rows += many(f'{folder}/many', chosen)
    return rows, len(rows)
