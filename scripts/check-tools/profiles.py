"""What scripts/profile-crate.py makes of the lines of the prover."""
import subprocess
import sys
import tempfile

from cases import TOOLS, same

SCRIPT = TOOLS.parent / 'scripts' / 'profile-crate.py'
PROVED = [
    '0.9 note: a note', '12.5 checked a::f, 1 of 3', '12.9 so far: 1 of 3 functions checked', '13.0 checked a::g, 2 of 3',
    '33.0 checked a::h, 3 of 3', '34.0 fn a::f: proved', '34.5 logic=proved functions=3', '34.6 ',
]
# The function that the prover ended with first counts as loading. What comes after the last function is the ending.
TABLE = """seconds  function
    20.0  a::h
     0.5  a::g
    12.5  loading, with the first function
     1.5  ending
    34.5  together
"""


def prints(lines, status, printed, told):
    with tempfile.NamedTemporaryFile('w', suffix='.log') as log:
        log.write('\n'.join(lines) + '\n')
        log.flush()
        done = subprocess.run([sys.executable, '-B', SCRIPT, '--log', log.name], capture_output=True, text=True)
        same((done.returncode, done.stdout, done.stderr), (status, printed, told.format(log=log.name)), 'the profile')


def check(_program):
    yield 'a crate that is proved', lambda: prints(PROVED, 0, TABLE, '')
    refused = [line.replace('logic=proved', 'logic=not-proved') for line in PROVED]
    yield 'a crate that is not proved', lambda: prints(refused, 1, TABLE, 'The crate is not proved: {log} says why.\n')
    nothing = 'seconds  function\n' + ''.join(f'     0.0  {it}\n' for it in ('loading, with the first function', 'ending', 'together'))
    yield 'a run that was cut off', lambda: prints([], 1, nothing, 'The crate is not proved: {log} says why.\n')
