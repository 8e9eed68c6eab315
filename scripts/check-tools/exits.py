"""How btest ends, as a shell sees it: standard output, standard error and the exit status, each in full.

A gate runs the program once on each compiler's build, on the files of README.md. This tries the rest: every exit status, files, words
and streams that fail. It takes the given program and the one that the kit's own compiler made of the same sources, if that is beside
it.
"""
import os
import pathlib
import shutil
import subprocess
import tempfile

from cases import ROOT, SECONDS, need, same

HERE = ROOT / 'crates/btest'
SVF = 'btest svf board.chain board.nets driver.bsd receiver.bsd'
USAGE = 'usage: btest chain, device, cover, svf, diagnose, make, ident, walk, groups or batch\n'
TWO_DRIVERS = r"printf 'DEVICE U1 DRV -\nDEVICE U2 DRV -\n' >board.chain; printf 'NET N U1.1 U2.1\n' >board.nets; "
# A log of 60,000,000 bytes, which are a comment, and an address space that holds the program many times and the log not once.
LARGE = r"head -c 60000000 /dev/zero | tr '\0' '#' >large; ulimit -v 40000; "
COUNTS = 'DEVICES 2 NETS 72 COVERED 72 PASSES 2 SCANS 19 BYTES 2373\n'
# The head has 59 bytes, each of the two SIR statements 418, an SDR statement 5,003, and the tail 13. Each of the 255 passes has another
# SDR statement of 5,003 bytes, and 13 of 14,988 bytes, which compare.
MOST_COUNTS = 'DEVICES 255 NETS 8168 COVERED 8168 PASSES 255 SCANS 3573 BYTES 50966896\n'

# 70 more BSDL texts, which no part names.
MANY = r'for i in $(seq 10 79); do sed "s/DRV/D$i/g" driver.bsd >more$i.bsd; done; '
LONG_CHAIN = 'for i in $(seq 255); do echo "BYPASS U$i 255"; done >long; '
# A pipe is read to its end once: a second opening would wait for a second writer.
PIPE = 'mkfifo pipe; cat board.chain >pipe & '

# What is tried, the commands, the exit status, standard output and standard error. They run in a folder with the files of README.md,
# of which driver.bsd is longer than one read of a file takes.
ROWS = [
    ('the test of a board', SVF, 0, (HERE / 'stdout').read_text(), ''),
    ('what the test of a board reaches', SVF.replace('svf', 'cover', 1), 0, 'NETS 2 COVERED 2\n', ''),
    ('a generated board', 'btest make 2', 0, COUNTS, ''),
    ('the largest generated board', 'btest make 255', 0, MOST_COUNTS, ''),
    ('a text without a byte', SVF.replace('svf', 'batch 1 /dev/null', 1), 0, '', ''),
    ('two drivers that are always on', TWO_DRIVERS + 'btest svf board.chain board.nets driver.bsd', 1, '',
     'board.nets line 1 word 4: two drivers always on\n'),
    ('no words', 'btest', 2, '', USAGE),
    ('words that are no command', 'btest svf board.chain', 2, '', USAGE),
    ('a command with a blank behind it', SVF.replace('svf', "'svf '"), 2, '', USAGE),
    ('a command with a blank before it', SVF.replace('svf', "' svf'"), 2, '', USAGE),
    ('a name with blanks at its ends', "cp board.chain ' board.chain '; " + SVF.replace('board.chain', "' board.chain '"), 0,
     (HERE / 'stdout').read_text(), ''),
    ('a name that lacks a blank', "cp board.chain ' part.chain'; " + SVF.replace('board.chain', 'part.chain'), 3, '',
     'cannot read part.chain\n'),
    ('a name with a blank too many', SVF.replace('board.chain', "' board.chain'"), 3, '', 'cannot read  board.chain\n'),
    # The parts need the last two words.
    ('75 words', MANY + SVF.replace('driver', 'more*.bsd driver'), 0, (HERE / 'stdout').read_text(), ''),
    ('a name of 4,000 bytes', SVF.replace('board.chain', './' * 1994 + 'board.chain'), 0, (HERE / 'stdout').read_text(), ''),
    ('a file that can be read only once', PIPE + SVF.replace('board.chain', 'pipe'), 0, (HERE / 'stdout').read_text(), ''),
    ('a word that is not UTF-8', r'btest chain "$(printf "\377")"', 2, '', USAGE),
    ('a file that is not there', 'rm receiver.bsd; ' + SVF, 3, '', 'cannot read receiver.bsd\n'),
    ('a folder in place of a file', 'btest chain .', 3, '', 'cannot read .\n'),
    ('a full standard output', SVF + ' >/dev/full', 4, '', 'cannot write\n'),
    ('a closed standard output', SVF + ' >&-', 4, '', 'cannot write\n'),
    ('too little memory', LARGE + SVF.replace('svf', 'groups large', 1), 5, '', 'out of memory\n'),
    ('as little memory, and no log', LARGE + 'btest make 2', 0, COUNTS, ''),
    ('a chain of 255 parts, and as little memory', LONG_CHAIN + 'ulimit -v 40000; btest chain long >text', 0, '', ''),
    ('a closed standard error', 'btest chain . 2>&-', 3, '', ''),
]


def ends(program, command, status, out, err):
    """Runs the commands in a folder of their own, where `btest` is the program."""
    need(program)
    with tempfile.TemporaryDirectory() as room:
        folder = pathlib.Path(room, 'files')
        shutil.copytree(HERE / 'data', folder)
        os.mkdir(f'{room}/bin')
        os.symlink(program, f'{room}/bin/btest')
        setting = {**os.environ, 'PATH': f'{room}/bin:{os.environ["PATH"]}'}
        answer = subprocess.run(['sh', '-c', command], cwd=folder, env=setting, stdin=subprocess.DEVNULL, capture_output=True, timeout=SECONDS)
    same(answer.stdout.decode(), out, 'standard output')
    same(answer.stderr.decode(), err, 'standard error')
    same(answer.returncode, status, 'the exit status')


def check(program):
    builds = {'': program}
    other = f'{program}.by-rattle'
    if program and os.path.exists(other):
        builds[", built by the kit's own compiler"] = other
    for ending, build in builds.items():
        for what, *row in ROWS:
            yield what + ending, lambda: ends(build, *row)
