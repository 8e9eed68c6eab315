"""What docs/GUIDE.md says of line ends, byte order marks, misspelled packages, several chains, differential pairs, AC-coupled nets and pull
resistors, tried with btest."""
import codecs
import pathlib
import re
import tempfile

from cases import BOARD, EXAMPLES, ROOT, btest, need, refused, run, same

from btest_tools.board import read_board
from btest_tools.model import Model, play

GUIDE = (ROOT / 'docs/GUIDE.md').read_text(encoding='utf-8')
NAMES = [pathlib.Path(name).name for name in BOARD]
COMMANDS = {   # the commands that read the demo board, each with the file of the examples that it reads besides
    'svf': '', 'cover': '', 'diagnose 2': 'shorted.log', 'groups': 'three-shorted.log', 'batch 2': 'three-boards.logs',
}
# A part with a differential output and input, and a single-ended output and input.
PAIRS = """entity PAIRS is
generic (PHYSICAL_PIN_MAP : string := "P");
port (TDI, TMS, TCK : in bit; TDO : out bit; TXP, TXN, S : out bit; RXP, RXN, R : in bit);
use STD_1149_1_1994.all;
attribute PORT_GROUPING of PAIRS : entity is "DIFFERENTIAL_VOLTAGE ((TXP,TXN),(RXP,RXN))";
attribute PIN_MAP of PAIRS : entity is PHYSICAL_PIN_MAP;
constant P : PIN_MAP_STRING := "TDI:1, TDO:2, TMS:3, TCK:4, TXP:5, TXN:6, RXP:7, RXN:8, S:9, R:10";
attribute TAP_SCAN_IN of TDI : signal is true;
attribute TAP_SCAN_OUT of TDO : signal is true;
attribute TAP_SCAN_MODE of TMS : signal is true;
attribute TAP_SCAN_CLOCK of TCK : signal is (10.0e6, BOTH);
attribute INSTRUCTION_LENGTH of PAIRS : entity is 2;
attribute INSTRUCTION_OPCODE of PAIRS : entity is "BYPASS (11), EXTEST (00), SAMPLE (10)";
attribute INSTRUCTION_CAPTURE of PAIRS : entity is "01";
attribute BOUNDARY_LENGTH of PAIRS : entity is 4;
attribute BOUNDARY_REGISTER of PAIRS : entity is "3 (BC_1, TXP, output2, X)," &
"2 (BC_1, RXP, input, X), 1 (BC_1, S, output2, X), 0 (BC_1, R, input, X)";
end PAIRS;
"""
BOTH = 'DEVICE U1 PAIRS -\nDEVICE U2 PAIRS -\n'
PAIR = 'NET P U1.5 U2.7\nNET N U1.6 U2.8\n'
COUPLED = 'NET A U1.9 C1.1\nNET B C1.2 U2.10\n'
BETWEEN = 'NET A U1.9 U2.10\n'
COVERED = [   # what is tried, a chain file, a net file, and what `btest cover` prints
    ('a differential pair', BOTH, PAIR, 'NETS 2 COVERED 1\nNET N DARK\n'),
    ('an AC-coupled net', BOTH + 'INERT C1\n', COUPLED, 'NETS 2 COVERED 0\nNET A NORECEIVER\nNET B NODRIVER\n'),
    ('an AC-coupled net that a LINK line joins', BOTH + 'LINK C1 1 2\n', COUPLED, 'NETS 1 COVERED 1\n'),
    ('a net between two chains', 'DEVICE U1 PAIRS -\n', BETWEEN, 'NETS 1 COVERED 0\nNET A DARK\n'),
    ('a net between two chains that are joined', BOTH, BETWEEN, 'NETS 1 COVERED 1\n'),
]


def words_of(command):
    """The words of a command on the demo board, with the names of its files alone."""
    return [*command.split(), *filter(None, [COMMANDS[command]]), *NAMES]


def reads_both_ends(program, command, folder):
    """A command answers the same for files whose lines end with CR LF."""
    right = btest(program, *words_of(command), folder=EXAMPLES)
    for name in filter(None, [COMMANDS[command], *NAMES]):
        (folder / name).write_bytes((EXAMPLES / name).read_bytes().replace(b'\n', b'\r\n'))
    same(btest(program, *words_of(command), folder=folder), right, 'the answer')


def refuses_mark(program, command, marked, line, folder):
    """A command refuses a file with a byte order mark, by the line of the guide's table."""
    need(program)
    assert f'`NAME line 1: {line}`' in GUIDE, 'the guide has another line'
    for name in filter(None, [COMMANDS[command], *NAMES]):
        mark = codecs.BOM_UTF8 if name == marked else b''
        (folder / name).write_bytes(mark + (EXAMPLES / name).read_bytes())
    refused(run([program, *words_of(command)], folder), f'{marked} line 1: {line}')


def refuses_package(program, folder):
    need(program)
    chain = pathlib.Path(BOARD[0]).read_text('ascii')
    assert 'OCTBUF DW_PACKAGE' in chain
    (folder / 'chain').write_text(chain.replace('OCTBUF DW_PACKAGE', 'OCTBUF DWPACKAGE'), 'ascii')
    refused(run([program, 'svf', folder / 'chain', *BOARD[1:]]), 'octal-buffer.bsd: rule V1 item 15')


def covers(program, chain, nets, printed, folder):
    for name, text in (('chain', chain), ('nets', nets), ('pairs.bsd', PAIRS)):
        (folder / name).write_text(text, 'ascii')
    same(btest(program, 'cover', 'chain', 'nets', 'pairs.bsd', folder=folder), printed, 'the list')


def judges_pulls(program, folder):
    """A wrong pull fails on the net with open drains alone, and passes on those with three-state and push-pull drivers."""
    chain = pathlib.Path(BOARD[0]).read_text('ascii') + ''.join(f'PULL {net} 1\n' for net in ('D0', 'D1', 'D2', 'D3', 'A1'))
    (folder / 'chain').write_text(chain, 'ascii')
    board = read_board(str(folder / 'chain'), BOARD[1], BOARD[2:])
    svf = btest(program, 'svf', folder / 'chain', *BOARD[1:])
    wanted = [(int(tdo, 16), int(mask, 16)) for tdo, mask in re.findall(r'^SDR .*TDO \((\w+)\) MASK \((\w+)\)', svf, re.M)]
    seen = []
    for net in ('D0', 'D1', 'D2', 'D3', 'A1', 'IRQ'):
        model = Model(board)
        model.set_faults(f'pull:{net}:0')
        if any((bits ^ tdo) & mask for bits, (tdo, mask) in zip(play(model, svf), wanted)):
            seen.append(net)
    same(seen, ['IRQ'], 'the nets on which a wrong pull is seen')


def tried(program):
    """The trials, each of which is called with a folder of its own."""
    for command in COMMANDS:
        yield f'{command}: lines that end with CR LF', lambda folder: reads_both_ends(program, command, folder)
    for command, marked, line in (
        ('svf', NAMES[0], 'no statement'), ('svf', NAMES[1], 'no statement'), ('svf', NAMES[2], 'byte not allowed'),
        ('diagnose 2', 'shorted.log', 'wrong length'), ('groups', 'three-shorted.log', 'wrong length'),
        ('batch 2', 'three-boards.logs', 'no board yet'),
    ):
        yield f'a byte order mark in {marked}', lambda folder: refuses_mark(program, command, marked, line, folder)
    yield 'a misspelled package', lambda folder: refuses_package(program, folder)
    for what, *row in COVERED:
        yield what, lambda folder: covers(program, *row, folder)
    yield 'a wrong pull', lambda folder: judges_pulls(program, folder)


def check(program):
    for what, call in tried(program):
        with tempfile.TemporaryDirectory() as folder:
            yield what, lambda: call(pathlib.Path(folder))
