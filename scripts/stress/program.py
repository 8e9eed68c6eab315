"""Runs the program, and says what it answered."""
import os
import signal
import time
from typing import NamedTuple

PROGRAM = ''    # its path, set once at the beginning
SECONDS = 900   # a run that takes longer has failed


class Answer(NamedTuple):
    status: int      # below 0: the signal that ended it
    out: bytes
    err: bytes
    seconds: float   # of processor time
    memory: int      # the most that was resident, in KiB

    def short(self):
        return f'status {self.status}, {len(self.out)} bytes out, standard error {self.err[:200]!r}'


class Failure(Exception):
    """What was seen that may not be."""


def wait(process):
    """Waits for a process, and ends it where it takes too long."""
    def end(*_):
        os.kill(process, signal.SIGKILL)
    signal.signal(signal.SIGALRM, end)
    signal.setitimer(signal.ITIMER_REAL, SECONDS)
    _, status, usage = os.wait4(process, 0)
    signal.setitimer(signal.ITIMER_REAL, 0)
    return os.waitstatus_to_exitcode(status), usage.ru_utime + usage.ru_stime, usage.ru_maxrss


def start(words, setting=None, before=()):
    """Runs the program in the current folder; what it prints goes to the files out and err beside it. `setting` is added to its
    environment, and `before` are words of a command that runs it. Returns its status, its time and its memory."""
    # New files, since some file systems write an old one to the disk when it is made empty.
    for name in ('../out', '../err'):
        if os.path.exists(name):
            os.remove(name)
    made = os.O_WRONLY | os.O_CREAT | os.O_EXCL
    files = [(os.POSIX_SPAWN_OPEN, 0, '/dev/null', os.O_RDONLY, 0), (os.POSIX_SPAWN_OPEN, 1, '../out', made, 0o600),
             (os.POSIX_SPAWN_OPEN, 2, '../err', made, 0o600)]
    command = [*before, PROGRAM, *words]
    process = os.posix_spawnp(command[0], command, {'PATH': os.environ['PATH'], **(setting or {})}, file_actions=files)
    return wait(process)


def run(words, **how):
    status, seconds, memory = start(words, **how)
    return Answer(status, content('../out'), content('../err'), seconds, memory)


def content(name):
    with open(name, 'rb') as file:
        return file.read()


def write(files):
    for name, text in files.items():
        with open(name, 'wb') as file:
            file.write(text)


def clear():
    for name in os.listdir('.'):
        os.remove(name)


def enter(folder):
    """Makes a folder for cases in `folder` and goes there."""
    os.makedirs(f'{folder}/case')
    os.chdir(f'{folder}/case')


class Progress:
    """Says every few seconds how far it is."""

    def __init__(self, what):
        self.what, self.done, self.begun = what, 0, time.monotonic()
        self.told = self.begun

    def add(self, count, what):
        now = time.monotonic()
        self.done += count
        if now - self.told >= 5:
            print(f'  {self.what}: {self.done:,} {what}, after {now - self.begun:.0f} s', flush=True)
            self.told = now
