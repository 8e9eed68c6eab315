"""The simulated chain, tools/simulated-chain.py, played by OpenOCD with tools/log.tcl where it is there, and by a player of its own."""
import os
import pathlib
import shlex
import shutil
import socket
import subprocess
import sys
import tempfile
import time

from cases import BOARD, EXAMPLES, ROOT, SECONDS, TOOLS, Skipped, btest, refused, run, same, tool

from btest_tools import scans
from btest_tools.board import read_board
from btest_tools.model import Model, play

CHAIN = 'simulated-chain.py'
SETTING = 'adapter driver remote_bitbang\nremote_bitbang host 127.0.0.1\nremote_bitbang port {port}\n'
LOG = 'set CHAIN chain.svf; set SVF {svf}; set LOG {log}'


class Served:
    """A simulated board that waits for a player, with the port that it said in its first line."""

    def __init__(self, fault, board=None):
        words = [sys.executable, '-B', TOOLS / CHAIN, '0', fault, *(board or BOARD)]
        self.process = subprocess.Popen(words, stdout=subprocess.PIPE, stderr=subprocess.PIPE, stdin=subprocess.DEVNULL, encoding='ascii')
        self.line = self.process.stdout.readline()
        assert self.line.startswith('listening on port '), f'its first line is {self.line!r}: {self.process.stderr.read()}'
        self.port = int(self.line.split()[-1])

    def __enter__(self):
        return self

    def __exit__(self, *_):
        self.process.kill()
        self.process.communicate()

    def end(self):
        """Waits for its end, which has to be well and without a word."""
        out, err = self.process.communicate(timeout=SECONDS)
        same((self.process.returncode, out, err), (0, '', ''), 'its end')


def signs(svf):
    """The clocks of an SVF text as remote_bitbang has them, with an R in front of each shift clock. TCK ends low."""
    def clock(tms, tdi=0, read=''):
        return f'{tms << 1 | tdi}{read}{4 | tms << 1 | tdi}'
    for scan in scans.scans(svf):
        if scan is None:
            yield from [clock(1)] * 5 + [clock(0)]
            continue
        yield from map(clock, (1, 0, 0) if scan.register == 'dr' else (1, 1, 0, 0))
        yield from (clock(int(place == scan.size - 1), scan.tdi >> place & 1, 'R') for place in range(scan.size))
        yield from map(clock, (1, 0))
    yield '0'


def receive(port, text):
    """What a player that sends this text gets."""
    with socket.create_connection(('127.0.0.1', port), SECONDS) as server:
        server.sendall(text.encode('ascii'))
        server.shutdown(socket.SHUT_WR)
        return ''.join(iter(lambda: server.recv(65536).decode('ascii'), ''))


def play_clocks(program, fault):
    """Clock by clock the board answers as the model does scan by scan."""
    svf = btest(program, 'svf', *BOARD)
    with Served(fault) as served:
        bits = receive(served.port, ''.join(signs(svf)))
        served.end()
    rows = []
    for scan in filter(None, scans.scans(svf)):
        row, bits = bits[:scan.size], bits[scan.size:]
        if scan.register == 'dr' and scan.tdo is not None:
            rows.append(int(row[::-1], 2))
    model = Model(read_board(*BOARD[:2], BOARD[2:]))
    model.set_faults(fault)
    same(rows, play(model, svf), 'the rows')


def take_port():
    with Served('good') as served:
        refused(tool(CHAIN, served.port, 'good', *BOARD), f'simulated-chain.py: port {served.port} is taken')


def wait_for_none():
    answer = tool(CHAIN, '--wait', '0.2', 0, 'good', *BOARD)
    assert answer.stdout.startswith('listening on port ') and answer.stdout.count('\n') == 1, f'it prints {answer.stdout!r}'
    same((answer.returncode, answer.stderr), (1, 'simulated-chain.py: no player came in 0.2 s\n'), 'its end')


def end_with_reader():
    """Where the command that was to start a player ends without one, the simulated chain ends too."""
    words = ' '.join(shlex.quote(str(word)) for word in (sys.executable, '-B', TOOLS / CHAIN, 0, 'good', *BOARD))
    begun = time.monotonic()
    answer = run(['sh', '-c', f'{words} | {{ read -r line; false; }}'])
    same((answer.returncode, answer.stderr), (1, f'{CHAIN}: what was to start a player has ended without one\n'), 'its end')
    assert time.monotonic() - begun < SECONDS / 2, 'it waited'


class OpenOcd:
    """A folder with the demo board's tests, in which OpenOCD plays them."""

    def __init__(self, program, folder):
        if not shutil.which('openocd'):
            raise Skipped('OpenOCD is not there')
        self.folder = pathlib.Path(folder)
        for name, words in (('chain', ('chain', BOARD[0], *BOARD[2:])), ('ident', ('ident', BOARD[0], *BOARD[2:])),
                            ('svf', ('svf', *BOARD)), ('walk', ('walk', *BOARD))):
            (self.folder / f'{name}.svf').write_text(btest(program, *words))

    def play(self, fault, setting, board=None, **names):
        """The status of OpenOCD with log.tcl, and what it said."""
        with Served(fault, board) as served:
            (self.folder / 'simulated.cfg').write_text(SETTING.format(port=served.port))
            answer = run(['openocd', '-f', 'simulated.cfg', '-c', setting, '-f', TOOLS / 'log.tcl'], self.folder,
                         env={**os.environ, **names})
        return answer.returncode, answer.stdout + answer.stderr

    def write_log(self, fault, svf, name):
        """The log of a board with a fault is a stored one, in the bits that are compared."""
        status, said = self.play(fault, LOG.format(svf=svf, log='board.log'))
        assert status == (fault != 'good') and 'board.log is written' in said, f'status {status}: {said}'
        masks = [scan.mask for scan in scans.compared_scans((self.folder / svf).read_text())]
        rows = [(self.folder / 'board.log').read_text().split(), (EXAMPLES / name).read_text().split()]
        same(*[[int(row, 16) & mask for row, mask in zip(log, masks)] + [len(log)] for log in rows], f'the rows of {name}')

    def take_names(self):
        """Names of files with signs of Tcl, by the environment."""
        log = self.folder / 'board [exit] $x {\\ ".log'
        status, said = self.play('good', '', CHAIN='chain.svf', IDENT='ident.svf', SVF='svf.svf', LOG=log.name)
        assert status == 0 and log.exists(), f'status {status}: {said}'

    def refuse(self, setting, line, board=None, fault='good'):
        """A log that can't be written is not there, nor is an old one."""
        (self.folder / 'board.log').write_text('an old one\n')
        status, said = self.play(fault, setting, board)
        assert status != 0 and line in said and '; there is no log' in said, f'status {status}: {said}'
        assert 'set LOG board.log' not in setting or not (self.folder / 'board.log').exists(), 'the old log stands there'


    def shell_status(self, fault, *, svf='svf.svf', path=None, cable=True, serial='2211 [x] $y'):
        """The status of the lines of shell that the guide has, and whether there is a log. `path` names the programs that are there."""
        text = (ROOT / 'docs/GUIDE.md').read_text(encoding='utf-8')
        script = text.partition('$ cat play.sh\n')[2].partition('\n$ ')[0]
        assert script.count('exit') == 6, 'the guide has no such lines'
        (self.folder / 'play.sh').write_text(script + '\n')
        for name, place in (('tools', TOOLS), ('board.svf', self.folder / svf)):
            (self.folder / name).unlink(missing_ok=True)
            (self.folder / name).symlink_to(place)
        (self.folder / f'{serial}.log').write_text('an old one\n')
        with Served(fault) as served:
            (self.folder / 'simulated.cfg').write_text(SETTING.format(port=served.port if cable else 1))
            words = ['/bin/sh', 'play.sh', 'simulated.cfg', serial]
            status = run(words, self.folder, env={**os.environ, **({'PATH': str(path)} if path else {})}).returncode
        return status, (self.folder / f'{serial}.log').exists()


def bare_path(folder):
    """A folder of programs that has nothing but rm."""
    path = pathlib.Path(folder) / 'bare'
    path.mkdir(exist_ok=True)
    if not (path / 'rm').exists():
        (path / 'rm').symlink_to(shutil.which('rm'))
    return path


def check_openocd(program, folder):
    """A call for each check with OpenOCD, with the folder made when it is wanted."""
    def ocd():
        return OpenOcd(program, folder)
    chain = [EXAMPLES / 'driver.chain', os.devnull, EXAMPLES / 'driver.bsd']
    yield 'OpenOCD gets the log of a good board', lambda: ocd().write_log('good', 'svf.svf', 'good.log')
    yield 'OpenOCD gets the log of a short', lambda: ocd().write_log('and:D0:D1', 'svf.svf', 'shorted.log')
    yield 'OpenOCD gets the log of a walking test', lambda: ocd().write_log('or:D0:D1:A1', 'walk.svf', 'three-shorted.log')
    yield 'a chain that is not sound leaves no log', lambda: ocd().refuse(
        LOG.format(svf='svf.svf', log='board.log'), "chain.svf failed, so the scan chain isn't sound", chain)
    yield 'a part with another code leaves no log', lambda: ocd().refuse(
        'set IDENT ident.svf; ' + LOG.format(svf='svf.svf', log='board.log'), 'ident.svf failed', fault='code:U1:1012301F')
    yield 'a chain that breaks in the test leaves no log', lambda: ocd().refuse(
        LOG.format(svf='svf.svf', log='board.log'), "chain.svf failed after the test", fault='12@chain:U2:1')
    yield 'names with blanks and signs of Tcl', lambda: ocd().take_names()
    for fault, status in (('good', 0), ('and:D0:D1', 1), ('chain:U3:0', 3), ('missing:U2', 3), ('12@chain:U2:1', 3), ('code:U1:1012301F', 4)):
        yield f'the status in a shell with {fault}', lambda: same(ocd().shell_status(fault), (status, status < 2), 'the status and the log')
    yield 'the status in a shell without a cable', lambda: same(ocd().shell_status('good', cable=False), (5, False))
    yield 'the status in a shell without a test', lambda: same(ocd().shell_status('good', svf='missing.svf'), (5, False))
    yield 'the status in a shell without OpenOCD', lambda: same(ocd().shell_status('good', path=bare_path(folder)), (5, False))
    yield 'an SVF text that is missing leaves no log', lambda: ocd().refuse(
        LOG.format(svf='missing.svf', log='board.log'), "missing.svf can't be read")
    yield 'a log that has no name', lambda: ocd().refuse('set CHAIN chain.svf; set SVF svf.svf', "LOG isn't set")
    yield 'a log in a folder that is missing', lambda: ocd().refuse(
        LOG.format(svf='svf.svf', log='missing/board.log'), "missing/board.log can't be written")
    yield 'a log on a full disk', lambda: ocd().refuse(LOG.format(svf='svf.svf', log='/dev/full'), "/dev/full can't be written")


def check(program):
    for fault in ('good', 'and:D0:D1', 'open:U1.5:0 stuck:IRQ:1 dom:D2:D3'):
        yield f'the board {fault} over a socket', lambda: play_clocks(program, fault)
    yield 'a port that is taken', take_port
    yield 'no player comes', wait_for_none
    yield 'the command that was to start a player fails', end_with_reader
    for fault, line in (('stuck:D9:0', 'no net D9'), ('and:D0:A1R', 'LINK lines join A1R to A1'), ('xor:D0:D1', 'no such kind'),
                        ('chain:U9:1', 'no part U9'), ('code:U1:12', '8 hexadecimal digits'), ('5@stuck:D9:0', 'no net D9')):
        yield f'the fault {fault} is refused', lambda: refused(tool(CHAIN, 0, fault, *BOARD), line)
    yield 'a port that is no number', lambda: refused(tool(CHAIN, 99999, 'good', *BOARD), 'no number from 0 to 65535')
    yield 'a BSDL text that is missing', lambda: refused(tool(CHAIN, 0, 'good', *BOARD[:4]), 'line 4: entity not given')
    with tempfile.TemporaryDirectory() as folder:
        yield from check_openocd(program, folder)
