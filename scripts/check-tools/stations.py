"""The station of tools/, with OpenOCD and simulated boards. What needs OpenOCD is skipped where it isn't there."""
import contextlib
import csv
import io
import os
import pathlib
import pty
import re
import resource
import shlex
import shutil
import signal
import socket
import sqlite3
import subprocess
import sys
import tempfile
import threading
import time

from cases import BOARD, EXAMPLES, SECONDS, TOOLS, Skipped, btest, inside, need, run, same

from btest_tools.bitbang import answer_player
from btest_tools.board import read_board
from btest_tools.chain_faults import ChainPort
from btest_tools.files import BadInput
from btest_tools.scans import compared_scans, log_rows
from btest_tools.station.record import Beginning, Ending, Log, Record, create

STATION = [sys.executable, '-B', TOOLS / 'station.py']
CABLE = 'adapter driver remote_bitbang\nremote_bitbang host 127.0.0.1\nremote_bitbang port {port}\n'
PRINTABLE = ''.join(map(chr, range(32, 127)))


class Slow(ChainPort):
    """A board that answers slowly, so that there is time to stop its test."""

    def capture(self, register):
        time.sleep(0.03)
        super().capture(register)


class Hung(ChainPort):
    """A board behind a cable that doesn't answer for a while."""

    def capture(self, register):
        time.sleep(2 if self.scan == 5 else 0)
        super().capture(register)


class Frozen(ChainPort):
    """A board behind an adapter that stops answering until it is let go."""
    go = threading.Event()

    def capture(self, register):
        if self.scan > 4:
            self.go.wait(3 * SECONDS)
        super().capture(register)


class Line:
    """A folder of the demo board, and a simulated board behind its cable. Each player finds the next of `boards`, and the last of them
    again."""

    def __init__(self, program, room):
        self.room, self.folder, self.program = pathlib.Path(room), pathlib.Path(room) / 'folder', program
        self.board = read_board(*BOARD[:2], BOARD[2:])
        self.boards = []
        self.server = socket.create_server(('127.0.0.1', 0))
        threading.Thread(target=self.serve, daemon=True).start()

    def serve(self):
        while True:
            client, _ = self.server.accept()
            port = self.boards.pop(0) if len(self.boards) > 1 else self.boards[0]
            with client, contextlib.suppress(BadInput, OSError):
                answer_player(client, port)

    def plug(self, *faults, kind=ChainPort):
        self.boards[:] = [kind(self.board, fault) for fault in faults]

    def command(self, *words):
        """The words of a command of the station, with the program where it is one that calls it."""
        program = ['--btest', self.program] if words[0] in ('prepare', 'test', 'day') else []
        return [*STATION, words[0], *program, *words[1:]]

    def station(self, *words):
        """What a command of the station answers."""
        here = os.getcwd()
        os.chdir(self.room)
        try:
            return inside('station.py', *self.command(*words)[len(STATION):])
        finally:
            os.chdir(here)

    def typed(self, text, *words):
        """What a command of the station answers to what is typed or scanned."""
        return subprocess.run(list(map(str, self.command(*words))), cwd=self.room, timeout=SECONDS, input=text, capture_output=True,
                              encoding='utf-8', check=False)

    def prepare(self, folder='folder', port=None, more=()):
        """Makes a folder of the demo board, with more words if there are any. Returns what is said, or None if the folder is there."""
        if (self.room / folder).exists():
            return None
        need(self.program)
        (self.room / 'cable.cfg').write_text(CABLE.format(port=port or self.server.getsockname()[1]))
        words = ['--chain', BOARD[0], '--nets', BOARD[1], '--cable', 'cable.cfg', *more, *BOARD[2:]]
        answer = self.station('prepare', folder, *words)
        same((answer.returncode, answer.stderr), (0, ''), 'the end of prepare')
        return answer.stdout

    def test(self, fault, serial, kind=ChainPort):
        """What the station says of a board with a fault."""
        if not shutil.which('openocd'):
            raise Skipped('OpenOCD is not there')
        self.prepare()
        self.plug(fault, kind=kind)
        return self.station('test', self.folder, '--', serial)

    def attempts(self, folder=None):
        with Record((folder or self.folder) / 'record.sqlite') as record:
            return list(record.attempts())


def judged(line, fault, serial, status, verdict, *words):
    """A board gets a verdict and a status, which are told and are in the record."""
    answer = line.test(fault, serial)
    same((answer.returncode, answer.stderr), (status, ''), f'the end, with {answer.stdout!r}')
    last = line.attempts()[-1]
    same((last.serial, last.verdict), (serial, verdict), 'the record')
    for word in (verdict, serial, *words):
        assert word in answer.stdout, f'it says {answer.stdout!r}, and not {word!r}'
    large = answer.stdout.splitlines()[1]
    same(large[:6], '######' if verdict in ('PASS', 'FAIL', 'CHAIN', 'PART') else '  ####', 'the large letters')


def has_log(line, fault, serial, name):
    """The log of an attempt is a stored one, in the bits that are compared, and btest reads it."""
    line.test(fault, serial)
    answer = line.station('log', line.folder, serial)
    same(answer.returncode, 0, 'the status of log')
    masks = [scan.mask for scan in compared_scans((line.folder / 'board.svf').read_text())]
    rows = [list(log_rows(text.encode().splitlines())) for text in (answer.stdout, (EXAMPLES / name).read_text())]
    same(*[[row & mask for row, mask in zip(log, masks)] + [len(log)] for log in rows], f'the rows of {name}')
    (line.room / 'its.log').write_text(answer.stdout)
    same(btest(line.program, 'diagnose', '1', line.room / 'its.log', *BOARD), btest(line.program, 'diagnose', '1', EXAMPLES / name, *BOARD))


# The folder


def is_made(line):
    line.prepare()
    files = {'chain.svf': ('chain', BOARD[0], *BOARD[2:]), 'ident.svf': ('ident', BOARD[0], *BOARD[2:]), 'board.svf': ('svf', *BOARD),
             'walk.svf': ('walk', *BOARD), 'cover.txt': ('cover', *BOARD)}
    for name, words in files.items():
        same((line.folder / name).read_text(), btest(line.program, *words), name)
    answer = run(['sha256sum', '--quiet', '-c', 'fingerprints.sha256'], line.folder)
    same((answer.returncode, answer.stdout), (0, ''), 'what sha256sum says')
    answer = line.station('prepare', '--check', line.folder)
    assert answer.returncode == 0 and ' is whole: test ' in answer.stdout, f'it says {answer.stdout!r}'


def is_kept(line):
    """Nothing is made where a folder is, and none where btest refuses."""
    line.prepare()
    words = ['--nets', BOARD[1], '--cable', 'cable.cfg', *BOARD[2:]]
    answer = line.station('prepare', line.folder, '--chain', BOARD[0], *words)
    same((answer.returncode, 'is there already' in answer.stderr), (1, True), f'what is said: {answer.stderr!r}')
    before = sorted(os.listdir(line.room))
    chain = EXAMPLES / 'part-twice.chain'
    answer = line.station('prepare', 'other', '--chain', chain, *words)
    same((answer.returncode, answer.stderr), (1, f'station.py: {chain} line 4: part twice\n'), 'what is said')
    same(sorted(os.listdir(line.room)), before, 'the files')


def is_not_whole(line, change, word):
    """A changed folder is told of, and no board is tested with it."""
    line.prepare()
    copy = line.room / 'copy'
    shutil.rmtree(copy, ignore_errors=True)
    shutil.copytree(line.folder, copy)
    change(copy)
    for words in (('prepare', '--check', copy), ('test', copy, 'A1')):
        answer = line.station(*words)
        assert answer.returncode == 6 and word in answer.stderr and answer.stderr.count('\n') == 1, f'it says {answer.stderr!r}'


def change_file(folder):
    (folder / 'board/controller.chain').chmod(0o644)
    with open(folder / 'board/controller.chain', 'a') as file:
        file.write('PULL D0 1\n')


def without_codes(line):
    """A chain with a part that has no description is tested without its codes."""
    line.prepare()
    names = ['driver.chain', os.devnull, 'driver.bsd']
    files = [os.path.join(EXAMPLES, name) for name in names]
    answer = line.station('prepare', 'bypass', '--chain', files[0], '--nets', files[1], '--cable', 'cable.cfg', files[2])
    assert answer.returncode == 0 and 'no identification codes' in answer.stdout, f'it says {answer.stdout + answer.stderr!r}'
    assert not (line.room / 'bypass/ident.svf').exists()


# Serial numbers


def every_sign(line):
    """Every printable character, in two serial numbers, and some beyond ASCII, comes back as it was given."""
    serials = [PRINTABLE[1:65], PRINTABLE[65:] + ' é µ 板', '-1', '--help', "$(touch x) [exit] {a} \\\"';"]
    for serial in serials:
        same(line.test('good', serial).returncode, 0, f'the status of {serial!r}')
    same([one.serial for one in line.attempts()[-len(serials):]], serials, 'the record')
    answer = line.station('show', line.folder)
    for serial, told in zip(serials, answer.stdout.splitlines()[-len(serials):]):
        assert told.endswith(f'PASS     {serial}'), told
    rows = list(csv.DictReader(io.StringIO(line.station('csv', line.folder).stdout, newline='')))
    same([row['serial'] for row in rows[-len(serials):]], serials, 'the table')
    line.test('and:D0:D1', 'shorted')
    told, row = line.station('show', line.folder).stdout.splitlines()[-1], line.station('csv', line.folder).stdout.splitlines()[-1]
    for text in (told, row):
        assert 'D0, D1: short AND D0 D1; next: measure between U1.1 (D0) and U1.2 (D1)' in text, text
    same(line.station('log', line.folder, '--', serials[0]).returncode, 0, 'the status of log')


def no_serial(line, serial):
    """What is no serial number is refused, and no attempt."""
    line.prepare()
    before = len(line.attempts())
    answer = line.station('test', line.folder, '--', serial)
    assert answer.returncode == 2 and answer.stderr.startswith('station.py: a serial number has '), f'it says {answer.stderr!r}'
    same(len(line.attempts()), before, 'the attempts')


def one_after_another(line):
    """Without a serial number boards are tested one after another, each as it is plugged in."""
    line.test('good', 'first')
    line.plug('good', 'and:D0:D1', 'code:U1:-', 'good')
    answer = line.typed('B 1\r\nB 2\n\tB\nB 3\n\nB 4', 'test', line.folder)
    same(answer.returncode, 0, 'the status')
    found = [(one.serial, one.verdict) for one in line.attempts()[-4:]]
    same(found, [('B 1', 'PASS'), ('B 2', 'FAIL'), ('B 3', 'PART'), ('B 4', 'PASS')], 'the record')
    same(len(answer.stderr.splitlines()), 2, f'the lines that refuse a serial number, {answer.stderr!r}')


# What goes wrong at a bench


def no_cable(line):
    line.prepare()
    if not shutil.which('openocd'):
        raise Skipped('OpenOCD is not there')
    with socket.create_server(('127.0.0.1', 0)) as closed:
        port = closed.getsockname()[1]
    line.prepare('unplugged', port)
    (line.room / 'cable.cfg').unlink()
    answer = line.station('test', 'unplugged', 'A1')
    same((answer.returncode, answer.stderr), (5, ''), 'the end')
    assert 'STOP' not in answer.stdout and 'Failed to connect' in answer.stdout, f'it says {answer.stdout!r}'
    same(line.attempts(line.room / 'unplugged')[-1].verdict, 'PLAYER', 'the record')


def no_player(line):
    line.prepare()
    answer = line.station('test', line.folder, 'A1', '--openocd', 'no-such-player')
    same(answer.returncode, 5, 'the status')
    assert 'cannot run no-such-player' in answer.stdout, f'it says {answer.stdout!r}'
    answer = run([*STATION, 'test', line.folder, 'A1', '--btest', 'no-such-btest'])
    same((answer.returncode, 'no-such-btest' in answer.stderr), (5, True), f'the end without btest, {answer.stderr!r}')


def start(line, serial, kind=Slow):
    """A station that tests a board."""
    if not shutil.which('openocd'):
        raise Skipped('OpenOCD is not there')
    line.prepare()
    line.plug('good', kind=kind)
    words = line.command('test', line.folder, serial)
    return subprocess.Popen(list(map(str, words)), stdin=subprocess.DEVNULL, stdout=subprocess.PIPE, stderr=subprocess.PIPE,
                            encoding='utf-8', start_new_session=True)


def wait_for_scan(line, number):
    end = time.monotonic() + SECONDS
    while line.boards[0].scan < number and time.monotonic() < end:
        time.sleep(0.005)


def stop(line, scan):
    """Ctrl-C in a scan of a test leaves the pins in reset, and a record that says so."""
    with start(line, f'stopped in {scan}') as process:
        wait_for_scan(line, scan)
        os.killpg(process.pid, signal.SIGINT)
        out, err = process.communicate(timeout=SECONDS)
    same((process.returncode, err), (130, ''), f'the end, with {out!r}')
    last = line.attempts()[-1]
    same((last.serial, last.verdict), (f'stopped in {scan}', 'STOPPED'), 'the record')
    assert last.says == 'stopped by the operator; the pins are in reset', last.says
    is_in_reset(line.boards[0])


def stop_frozen(line):
    """Ctrl-C ends a test soon also if the adapter doesn't answer, and says that the pins may not be in reset."""
    Frozen.go.clear()
    try:
        with start(line, 'frozen', Frozen) as process:
            wait_for_scan(line, 5)
            time.sleep(0.5)
            os.killpg(process.pid, signal.SIGINT)
            out, err = process.communicate(timeout=SECONDS)
    finally:
        Frozen.go.set()
    same((process.returncode, err), (130, ''), f'the end, with {out!r}')
    assert 'stopped by the operator\nthe pins may not be in reset' in out, out
    same(line.attempts()[-1].verdict, 'STOPPED', 'the record')


def stop_in_pipe(line):
    """Ctrl-C behind the pipe of a simulated chain stops the test, and the simulated chain goes on until that has ended."""
    line.test('good', 'before')
    with socket.create_server(('127.0.0.1', 0)) as server:
        port = server.getsockname()[1]
    line.prepare('piped', port)
    words = ' '.join(shlex.quote(str(one)) for one in [sys.executable, '-B', TOOLS / 'simulated-chain.py', port, '5@stuck:D0:1', *BOARD])
    station = ' '.join(shlex.quote(str(one)) for one in line.command('test', 'piped', 'P1'))
    command = f'{words} | {{ read -r line && exec {station}; }}'
    with subprocess.Popen(['sh', '-c', command], cwd=line.room, stdout=subprocess.PIPE, stderr=subprocess.PIPE, encoding='utf-8',
                          start_new_session=True) as process:
        end = time.monotonic() + SECONDS
        while not line.attempts(line.room / 'piped') and time.monotonic() < end:
            time.sleep(0.01)
        os.killpg(process.pid, signal.SIGINT)
        out, err = process.communicate(timeout=SECONDS)
    assert 'STOPPED  P1' in out and 'the pins are in reset' in out and not err, f'{out!r}, {err!r}'   # the shell ends by the signal


def is_in_reset(port):
    same(port.state, 'reset', 'the state of the TAP controllers')
    same({state.instruction for state in port.model.states} & {'EXTEST', 'SAMPLE'}, set(), 'the instructions')


def no_answer(line):
    """A player that doesn't answer is ended, and another one brings the pins to reset."""
    line.test('good', 'before')
    line.plug('good', kind=Hung)
    answer = line.station('test', line.folder, 'hung', '--limit', '0.5')
    same((answer.returncode, answer.stderr), (5, ''), 'the end')
    assert "OpenOCD didn't answer in 0.5 s\nthe pins are in reset\n" in answer.stdout, answer.stdout
    is_in_reset(line.boards[0])


def is_colored(line):
    """On a terminal, and there alone, the letters have a color."""
    line.test('good', 'plain')
    assert '\033' not in line.test('good', 'plain').stdout, 'there is a color'
    ours, theirs = pty.openpty()
    words = list(map(str, line.command('test', line.folder, 'colored')))
    with subprocess.Popen(words, stdin=subprocess.DEVNULL, stdout=theirs, stderr=subprocess.DEVNULL) as process:
        os.close(theirs)
        said = b''
        with contextlib.suppress(OSError):   # which ends a terminal
            while piece := os.read(ours, 4096):
                said += piece
    os.close(ours)
    same((process.returncode, b'\033[1;32m####' in said), (0, True), 'the status, and a green letter')


ENTITY = '''entity RING is
generic (PHYSICAL_PIN_MAP : string := "P");
port (TDI, TMS, TCK : in bit; TDO : out bit; I : in bit_vector(1 to 25); O : out bit_vector(1 to 25));
use STD_1149_1_1994.all;
attribute PIN_MAP of RING : entity is PHYSICAL_PIN_MAP;
constant P : PIN_MAP_STRING := "TDI:T1, TDO:T2, TMS:T3, TCK:T4, I:({inputs}), O:({outputs})";
attribute TAP_SCAN_IN of TDI : signal is true;
attribute TAP_SCAN_OUT of TDO : signal is true;
attribute TAP_SCAN_MODE of TMS : signal is true;
attribute TAP_SCAN_CLOCK of TCK : signal is (10.0e6, BOTH);
attribute INSTRUCTION_LENGTH of RING : entity is 3;
attribute INSTRUCTION_OPCODE of RING : entity is "BYPASS (111), EXTEST (000), SAMPLE (010)";
attribute INSTRUCTION_CAPTURE of RING : entity is "001";
attribute BOUNDARY_LENGTH of RING : entity is 50;
attribute BOUNDARY_REGISTER of RING : entity is {cells};
end RING;
'''


def hundred_nets(line):
    """A board of 100 nets takes less than two seconds of processor time, the player's own time with it."""
    line.test('good', 'before')
    cells = [f'"{at} (BC_1, I({at + 1}), input, X)' for at in range(25)] + [f'"{at + 25} (BC_1, O({at + 1}), output2, X)' for at in range(25)]
    pins = {'inputs': ','.join(f'I{at}' for at in range(25)), 'outputs': ','.join(f'O{at}' for at in range(25))}
    (line.room / 'ring.bsd').write_text(ENTITY.format(cells=',"&\n'.join(cells) + '"', **pins))
    (line.room / 'ring.chain').write_text(''.join(f'DEVICE U{at} RING -\n' for at in range(4)))
    nets = [f'NET N{part}_{at} U{part}.O{at} U{(part + 1) % 4}.I{at}\n' for part in range(4) for at in range(25)]
    (line.room / 'ring.nets').write_text(''.join(nets))
    files = [str(line.room / name) for name in ('ring.chain', 'ring.nets', 'ring.bsd')]
    (line.room / 'cable.cfg').write_text(CABLE.format(port=line.server.getsockname()[1]))
    answer = line.station('prepare', 'ring', '--chain', files[0], '--nets', files[1], '--cable', 'cable.cfg', files[2])
    assert answer.returncode == 0 and 'NETS 100 COVERED 100' in answer.stdout, f'{answer}'
    board = read_board(*files[:2], files[2:])
    for fault, status in (('good', 0), ('and:N0_0:N2_7', 1)):
        line.boards[:] = [ChainPort(board, fault)]
        before = resource.getrusage(resource.RUSAGE_CHILDREN)
        same(line.typed('', 'test', 'ring', 'A1').returncode, status, 'the status')
        after = resource.getrusage(resource.RUSAGE_CHILDREN)
        took = after.ru_utime + after.ru_stime - before.ru_utime - before.ru_stime
        assert took < 2, f'it takes {took:.2f} s'


def stop_at_prompt(line):
    line.prepare()
    words = list(map(str, line.command('test', line.folder)))
    with subprocess.Popen(words, stdin=subprocess.PIPE, stdout=subprocess.PIPE, stderr=subprocess.PIPE, encoding='utf-8') as process:
        process.stdout.read(len('\nserial number: '))
        process.send_signal(signal.SIGINT)
        process.wait(SECONDS)
        same((process.returncode, process.stderr.read()), (0, ''), 'the end')


def kill(line, scan):
    """A station that is killed leaves an attempt without an end; its player comes to the end of its text, and the next test runs."""
    with start(line, f'killed in {scan}') as process:
        wait_for_scan(line, scan)
        process.kill()
        process.communicate(timeout=SECONDS)
    same(line.attempts()[-1].verdict, 'CUT', 'the verdict in the record')
    end = time.monotonic() + SECONDS
    while line.boards[0].state != 'reset' and time.monotonic() < end:   # the player leaves
        time.sleep(0.05)
    is_in_reset(line.boards[0])
    judged(line, 'good', 'after', 0, 'PASS')


def second_station(line):
    """A second station on a folder is told so, and the first goes on."""
    with start(line, 'first') as process:
        wait_for_scan(line, 2)
        answer = line.station('test', line.folder, 'second')
        process.communicate(timeout=SECONDS)
    same(process.returncode, 0, 'the status of the first')
    assert answer.returncode == 7 and f'process {process.pid}' in answer.stderr and answer.stderr.count('\n') == 1, answer.stderr
    same(line.attempts()[-1].serial, 'first', 'the record')


def clock_back(line):
    """A clock that went back is told of, and the attempts stay in their order."""
    line.prepare()
    copy = line.room / 'future'
    shutil.copytree(line.folder, copy)
    with Record(copy / 'record.sqlite') as record:
        row = Beginning('A1', '2099-01-01T00:00:00Z', '2099-01-01T00:00:00+00:00', 'test', 'btest', 'here')
        number = record.begin(row)
    line.plug('good')
    answer = line.station('test', copy, 'A2')
    assert answer.stderr == f'the clock went back: attempt {number} is of 2099-01-01T00:00:00+00:00\n', answer.stderr
    same([one.serial for one in line.attempts(copy)[-2:]], ['A1', 'A2'], 'the order')


def confined(line, script, *words):
    """Runs a command in a mount namespace of its own, behind a script that changes what `$1`, a copy of the folder, can hold."""
    if run(['unshare', '-rm', 'true']).returncode if shutil.which('unshare') else True:
        raise Skipped('no mount namespace can be made here')
    line.prepare()
    line.plug('good')
    copy = line.room / 'mounted'
    copy.mkdir(exist_ok=True)
    command = [str(word).replace('FOLDER', str(copy)) for word in line.command(*words)]
    return run(['unshare', '-rm', 'sh', '-ec', f'{script}; shift 2; exec "$@"', 'sh', copy, line.folder, *command])


def full_disk(line):
    """On a full disk no verdict is told, and the record is whole."""
    fill = 'mount -t tmpfs -o size=400k none "$1"; cp -r "$2"/. "$1"; dd if=/dev/zero of="$1"/fill bs=4096 2>/dev/null || true'
    answer = confined(line, fill, 'test', 'FOLDER', 'A1')
    assert answer.returncode == 7 and answer.stdout == '' and answer.stderr.count('\n') == 1, f'{answer}'
    assert "can't be written" in answer.stderr and 'full' in answer.stderr.lower() + 'no space', f'{answer}'


def unwritable(line):
    """A folder that can't be written is told of before a pin moves, and its record can be read."""
    mount = 'mount --bind "$2" "$1"; mount -o remount,bind,ro "$1"'
    answer = confined(line, mount, 'test', 'FOLDER', 'A1')
    assert answer.returncode == 7 and answer.stdout == '' and answer.stderr.count('\n') == 1, f'{answer}'
    same(line.boards[0].scan, 0, 'the scans')
    same(confined(line, mount, 'show', 'FOLDER').returncode, 0, 'the status of show')
    answer = confined(line, mount, 'day', 'FOLDER')
    assert answer.returncode in (1, 7) and answer.stderr.count('\n') == 1, f'{answer}'


def no_output(line):
    """Where standard output is full, the attempt is in the record, and the status is not that of a pass."""
    line.test('good', 'before')
    with open('/dev/full', 'w') as full:
        words = list(map(str, line.command('test', line.folder, 'full')))
        answer = subprocess.run(words, stdout=full, stderr=subprocess.PIPE, timeout=SECONDS, check=False, stdin=subprocess.DEVNULL)
    assert answer.returncode == 7 and answer.stderr.count(b'\n') == 1, f'{answer}'
    same((line.attempts()[-1].serial, line.attempts()[-1].verdict), ('full', 'PASS'), 'the record')


# The record


def is_never_changed(line):
    line.test('good', 'kept')
    database = sqlite3.connect(line.folder / 'record.sqlite')
    for statement in ('DELETE FROM attempt', "UPDATE ending SET verdict = 'PASS'", 'DELETE FROM log', 'UPDATE log_text SET packed = 0'):
        try:
            database.execute(statement)
        except sqlite3.Error as error:
            same(str(error), 'nothing in the record is changed', statement)
        else:
            raise AssertionError(f'{statement} was done')
    database.close()


def other_test(line):
    """A log that another test made is not judged, and is a row of the day's page."""
    line.test('and:D0:D1', 'other')
    copy = line.room / 'revised'
    shutil.copytree(line.folder, copy, dirs_exist_ok=True)
    with Record(copy / 'record.sqlite') as record:
        old = next(one for one in record.attempts() if one.serial == 'other')
        logs = record.logs(old.number)
        number = record.begin(Beginning('of another', old.utc, old.local, '0' * 64, old.btest, old.station))
        record.end(number, Ending(old.ended_utc, old.player, old.stage, old.verdict, old.runs, old.says), logs)
    answer = line.station('log', copy, 'of another')
    assert answer.returncode == 1 and 'was made by another test' in answer.stderr, f'it says {answer.stderr!r}'
    answer = line.station('day', copy)
    same(answer.returncode, 0, f'the status of day, which says {answer.stderr!r}')
    page = pathlib.Path(line.room / answer.stdout.strip()).read_text()
    assert re.search('of another</a></td>.*was made by another test', page), 'no row says so'


def take_attempt(line):
    """failing-nets.py and report.py take an attempt in place of files, and say the same as with them."""
    line.test('and:D0:D1', 'taken')
    number = line.attempts()[-1].number
    for name, words in (('its.log', ()), ('its-walk.log', ('--stage', 'walk'))):
        (line.room / name).write_text(line.station('log', line.folder, 'taken', *words).stdout)
    files = [line.folder / 'board' / os.path.basename(name) for name in BOARD]
    by_files = inside('failing-nets.py', '--btest', line.program, '--with-walk', line.room / 'its-walk.log', line.room / 'its.log', *files)
    for words in (('--serial', 'taken'), ('--attempt', number)):
        answer = inside('failing-nets.py', '--btest', line.program, '--station', line.folder, *words)
        same((answer.returncode, answer.stderr), (0, ''), 'the end')
        same(answer.stdout, by_files.stdout, 'what is said of the attempt')
    answer = inside('report.py', '--btest', line.program, '--station', line.folder, '--attempt', number)
    assert answer.returncode == 0 and f'<h1>taken, attempt {number}</h1>' in answer.stdout, answer.stderr
    with Record(line.folder / 'record.sqlite') as record:
        other = record.begin(Beginning('untaken', '', '', '0' * 64, '', ''))
        record.end(other, Ending('', '', 'board', 'FAIL', '', ''), record.logs(number))
    for name in ('failing-nets.py', 'report.py'):
        answer = inside(name, '--btest', line.program, '--station', line.folder, '--attempt', other)
        assert answer.returncode == 1 and 'was made by another test' in answer.stderr, answer.stderr
        answer = inside(name, '--station', line.folder, '--attempt', number, *BOARD[:2])
        assert answer.returncode == 2 and 'takes the place of the files' in answer.stderr, answer.stderr


MADE = [   # by hand: what eleven boards did, and their verdicts in turn
    ('E1', 'PASS'), ('E2', 'PASS'), ('E3', 'FAIL'), ('E3', 'PASS'), ('E4', 'CHAIN'), ('E5', 'PASS'), ('E6', 'PASS'), ('E7', 'PART'),
    ('E7', 'FAIL'), ('E8', 'PASS'), ('E9', 'PLAYER'), ('E9', 'PASS'), ('E10', 'PASS'), ('E11', 'STOPPED'), ('E3', 'PASS'),
]


def made_record(line, folder, attempts):
    """A copy of a folder with a record of some attempts, each a serial number and a verdict. A failure has the log of a short."""
    copy = line.room / f'{folder} of a day'
    shutil.copytree(line.room / folder, copy)
    (copy / 'record.sqlite').unlink()
    test = line.station('prepare', '--check', copy.with_name(folder)).stdout.split('test ')[1].split(',')[0]
    create(copy / 'record.sqlite')
    with Record(copy / 'record.sqlite') as record:
        for serial, verdict in attempts:
            number = record.begin(Beginning(serial, '2026-05-04T08:00:00Z', '2026-05-04T10:00:00+02:00', test, 'btest', 'here'))
            rows = (EXAMPLES / 'shorted.log').read_text() if verdict == 'FAIL' else ''
            ending = Ending('2026-05-04T08:00:01Z', 'player', 'board', verdict, '', 'the words')
            if verdict != 'CUT':
                record.end(number, ending, [Log('board', rows)] if rows else [])
    return copy


def day_of(line, folder):
    """The page of the day of a made record, and those of its boards."""
    answer = line.station('day', folder, '2026-05-04')
    same((answer.returncode, answer.stderr), (0, ''), 'the end')
    path = line.room / answer.stdout.strip()
    return path.read_text(), {one.name: one.read_text() for one in path.with_suffix('').iterdir()}


def made_day(line):
    """The yield of eleven boards, counted by hand: ten were judged, seven passed at once and one after repair, two did not pass."""
    line.prepare()
    copy = made_record(line, 'folder', [*MADE, ('E11', 'CUT')])
    page, boards = day_of(line, copy)
    for row in ('boards tested</td><td>11<', 'at the first attempt</td><td>7 (70.0 %)<', 'after repair</td><td>1 (10.0 %)<',
                'not passed</td><td>2 (20.0 %)<', 'not in the shares</td><td>1<', '<td>2</td><td>short AND D0 D1</td>',
                '<td>D0</td><td>2</td>'):
        assert row in page, f'the page has no {row}'
    links = dict(re.findall(r'<td><a href="?2026-05-04/([^" >]*)"?>(E[0-9]+)</a>', page))
    same(len(links), 11, 'the links of the table')
    for link, serial in links.items():
        name, _, anchor = link.partition('#')
        row = f'<tr id={anchor}><td>{serial}<' if anchor else f'<h1>Board {serial}</h1>'
        assert row in boards[name], f'{link} leads to no {row}'
    same(sorted(boards), ['11.html', '14.html', '3.html', '5.html', '8.html', 'passed-1.html'], 'the pages of boards')
    assert 'short AND D0 D1' in boards['3.html'], 'no page explains E3'
    for name, text in boards.items():
        assert re.search(r'test [0-9a-f]{64}<br>\nbtest btest<br>\nplayer', text), f'{name} has no fingerprint of the test'


def kept_pages(line):
    """A page is written anew if a board has another attempt, and else it is left alone."""
    line.prepare('again')
    copy = made_record(line, 'again', [('A', 'PASS'), ('B', 'FAIL'), ('C', 'FAIL')])
    before = day_of(line, copy)
    folder = copy / 'days/2026-05-04'
    for path in folder.iterdir():
        os.utime(path, (1, 1))
    same(day_of(line, copy), before, 'the pages')
    same({path.stat().st_mtime for path in folder.iterdir()}, {1}, 'the times of the pages')
    (folder / '3.html').write_text('cut off')
    with Record(copy / 'record.sqlite') as record:
        first = record.attempt(1)
        for serial, verdict in (('A', 'CHAIN'), ('B', 'PASS')):
            number = record.begin(Beginning(serial, *first[2:4], *first[9:11], 'here'))
            record.end(number, Ending('2026-05-04T08:00:01Z', 'player', 'board', verdict, '', ''), [])
    _, boards = day_of(line, copy)
    same(sorted(boards), ['1.html', '2.html', '3.html'], 'the pages')   # none of boards that passed is left
    same(boards['3.html'], before[1]['3.html'], 'the page that was cut off')
    assert 'PASS: attempt 5' in boards['2.html'], 'the page of B has no word of its second attempt'


def places_in_folder(line):
    """A folder that knows where the pins are tells neighbors, and its pages have pictures."""
    file = EXAMPLES / 'controller.kicad_pcb'
    said = line.prepare('placed', more=['--places', file])
    assert re.search(r'^([0-9]+) of [0-9]+ pins have a place$', said, re.M), f'it says {said!r}'
    assert ' board/controller.kicad_pcb\n' in (line.room / 'placed/fingerprints.sha256').read_text()
    copy = made_record(line, 'placed', [('A', 'FAIL'), ('A', 'FAIL')])
    _, boards = day_of(line, copy)
    same(boards['1.html'].count('<title>measure between U1.1 and U1.2</title>'), 2, 'the pictures of two attempts')
    assert 'U1.1 and U1.2 are neighbors (D0 and D1)' in boards['1.html'], 'no neighbors'
    names = re.findall(r' id="([^"]*)"', boards['1.html'])
    same(len(names), len(set(names)), 'the names within a page')
    here = inside('failing-nets.py', '--btest', line.program, '--station', copy, '--attempt', 1)
    there = inside('failing-nets.py', '--btest', line.program, '--places', file, EXAMPLES / 'shorted.log', *BOARD)
    same(here.stdout, there.stdout, 'what failing-nets.py says of the attempt')
    page = inside('report.py', '--btest', line.program, '--station', copy, '--attempt', 1)
    assert '<title>measure between U1.1 and U1.2</title>' in page.stdout, 'report.py has no picture'


def places_at_station(line):
    """The page of a board that the station tested has the picture that was made then."""
    line.test('good', 'before')
    line.prepare('pictured', more=['--places', EXAMPLES / 'controller.ipc'])
    line.plug('and:D0:D1')
    same(line.station('test', 'pictured', 'P1').returncode, 1, 'the status')
    answer = line.station('day', 'pictured')
    page = (line.room / answer.stdout.strip()).with_suffix('') / '1.html'
    assert '<title>measure between U1.1 and U1.2</title>' in page.read_text(), 'the page has no picture'


def not_judged(line):
    """A fault that comes and goes is told so in both tables, and a failure of another test is in no table of faults."""
    line.prepare('told')
    copy = made_record(line, 'told', [('A', 'FAIL')])
    with Record(copy / 'record.sqlite') as record:
        first = record.attempt(1)
        for serial, verdict, runs, test in (('B', 'FAIL', '1 of 2', first.test), ('C', 'FAIL', '2 of 2', '0' * 64), ('C', 'PASS', '', first.test)):
            number = record.begin(Beginning(serial, *first[2:4], test, 'btest', 'here'))
            record.end(number, Ending('2026-05-04T08:00:01Z', 'player', 'board', verdict, runs, ''), record.logs(1) if runs else [])
    page, boards = day_of(line, copy)
    assert '<td>1</td><td>short AND D0 D1 (1 of 2)</td>' in page and '<td>1</td><td>short AND D0 D1</td>' in page, page
    assert '<span class=bad>FAIL (1 of 2)</span>' in page and 'no single fault' not in page, page
    assert re.search('>C</a></td>.*not judged: attempt 3 was made by another test', page), page
    assert 'not judged: attempt 3 was made by another test' in boards['3.html'], boards['3.html']


def refused_places(line):
    """A file without places, or of another board, is refused, and no folder is made."""
    line.prepare()
    (line.room / 'other.ipc').write_text('P  JOB other\n317N1               R7    -1          A01X+010000Y+010000X0600Y0600R000S0\n999\n')
    words = ['--chain', BOARD[0], '--nets', BOARD[1], '--cable', 'cable.cfg', *BOARD[2:]]
    for name, line_of in ((EXAMPLES / 'controller-kicad.net', 'controller-kicad.net'), ('other.ipc', 'other.ipc has no place of a pin of '),
                          ('missing', 'cannot read missing')):
        answer = line.station('prepare', 'no-places', '--places', name, *words)
        same((answer.returncode, answer.stderr.count('\n')), (1, 1), f'the end, with {answer.stderr!r}')
        assert line_of in answer.stderr and not (line.room / 'no-places').exists(), f'it says {answer.stderr!r}'


def unread_log(line):
    """A log that can't be read is a row of the day's page and stops nothing."""
    line.test('and:D0:D1', 'unread')
    copy = line.room / 'damaged'
    shutil.copytree(line.folder, copy)
    database = sqlite3.connect(copy / 'record.sqlite')
    with database:
        database.execute('DROP TRIGGER log_text_UPDATE')
        database.execute("UPDATE log_text SET packed = x'00' WHERE length(packed) > 0")
    database.close()
    answer = line.station('day', copy)
    same(answer.returncode, 0, f'the status, with {answer.stderr!r}')
    page = (line.room / answer.stdout.strip()).read_text()
    assert re.search('unread</a></td>.*can&#x27;t be read', page), 'no row says so'


# All of it


def check_bench(line):
    """A call for each way in which the test of a board ends."""
    yield 'a good board passes', lambda: judged(line, 'good', 'A 1', 0, 'PASS')
    yield 'a short fails twice', lambda: judged(line, 'and:D0:D1', 'A 2', 1, 'FAIL', '2 of 2', 'short AND D0 D1')
    yield 'a fault in one run alone', lambda: judged(line, '12-14@stuck:D2:1', 'A 3', 1, 'FAIL', '(1 of 2)', 'comes and goes')
    yield 'two runs that differ', lambda: judged(
        line, '6-27@stuck:D2:1 28@stuck:D3:1', 'A 4', 1, 'FAIL', '(2 of 2, ', ' bits differ)')
    yield 'several nets in a short', lambda: judged(line, 'or:D0:D1:A1', 'A 5', 1, 'FAIL', 'short OR D0 D1 A1')
    yield 'a chain that is open behind a part', lambda: judged(line, 'chain:U3:0', 'A 6', 3, 'CHAIN', 'U3', 'TDI of U4')
    yield 'a chain that is open behind the last part', lambda: judged(line, 'chain:U4:1', 'A 7', 3, 'CHAIN', 'no part answers')
    yield 'a part that is missing', lambda: judged(line, 'missing:U2', 'A 8', 3, 'CHAIN', "U2 doesn't")
    yield 'a part with another code', lambda: judged(
        line, 'code:U1:1012301F', 'A 9', 4, 'PART', 'wrong part U1: it has maker 0x00F, part number 0x0123, version 1; it should have '
        'maker 0x00B, part number 0x0123, version 1')
    yield 'a part that has no code', lambda: judged(line, 'code:U1:-', 'A 10', 4, 'PART', 'U1: it has no code')
    yield 'a chain that breaks in the test', lambda: judged(line, '20@chain:U2:1', 'A 11', 3, 'CHAIN', 'broke during the test')
    yield 'a chain that breaks while the codes are read', lambda: judged(
        line, '3@chain:U3:1', 'A 15', 3, 'CHAIN', 'broke during the test', 'U3')
    yield 'a cable that is pulled in the test', lambda: judged(line, '12@cable', 'A 12', 5, 'PLAYER', 'may not be in reset')
    yield 'no cable', lambda: no_cable(line)
    yield 'no player, and no btest', lambda: no_player(line)
    yield 'the log of a good board', lambda: has_log(line, 'good', 'A 13', 'good.log')
    yield 'the log of a short', lambda: has_log(line, 'and:D0:D1', 'A 14', 'shorted.log')
    for scan in (1, 3, 12, 22):
        yield f'Ctrl-C in scan {scan}', lambda: stop(line, scan)
    yield 'Ctrl-C and an adapter that does not answer', lambda: stop_frozen(line)
    yield 'Ctrl-C behind the pipe of a simulated chain', lambda: stop_in_pipe(line)
    yield 'a player that does not answer', lambda: no_answer(line)
    yield 'the color of the letters', lambda: is_colored(line)
    yield 'the time of a board of 100 nets', lambda: hundred_nets(line)
    yield 'Ctrl-C at the question for a serial number', lambda: stop_at_prompt(line)
    yield 'a station that is killed', lambda: kill(line, 14)
    yield 'two stations on one folder', lambda: second_station(line)
    yield 'a clock that went back', lambda: clock_back(line)
    yield 'a full disk', lambda: full_disk(line)
    yield 'a folder that cannot be written', lambda: unwritable(line)
    yield 'standard output is full', lambda: no_output(line)


def check(program):
    with tempfile.TemporaryDirectory() as room:
        line = Line(program, room)
        yield 'a folder is made', lambda: is_made(line)
        yield 'a folder is kept', lambda: is_kept(line)
        yield 'a file that was changed', lambda: is_not_whole(line, change_file, 'controller.chain was changed')
        yield 'a file that is missing', lambda: is_not_whole(line, lambda folder: (folder / 'walk.svf').unlink(), 'walk.svf is missing')
        yield 'a record that is missing', lambda: is_not_whole(line, lambda folder: (folder / 'record.sqlite').unlink(), 'is missing')
        yield 'a part without a description', lambda: without_codes(line)
        yield from check_bench(line)
        yield 'serial numbers of every character', lambda: every_sign(line)
        for name, serial in (('no character', ''), ('a blank', ' '), ('65 characters', 'x' * 65), ('a tab', 'a\tb'), ('no text', '\udcff')):
            yield f'a serial number of {name}', lambda: no_serial(line, serial)
        yield 'boards one after another', lambda: one_after_another(line)
        yield 'nothing in the record is changed', lambda: is_never_changed(line)
        yield 'a log of another test', lambda: other_test(line)
        yield 'an attempt in place of files', lambda: take_attempt(line)
        yield 'a log that cannot be read', lambda: unread_log(line)
        yield 'the yield of a day', lambda: made_day(line)
        yield 'pages that are kept', lambda: kept_pages(line)
        yield 'what is told of a day', lambda: not_judged(line)
        yield 'a folder with places', lambda: places_in_folder(line)
        yield 'the picture of a board at the station', lambda: places_at_station(line)
        yield 'places that are refused', lambda: refused_places(line)
