"""The programs that make a net file of a netlist."""
import os
import pathlib
import subprocess
import sys
import tempfile

from cases import EXAMPLES, TOOLS, inside, refused, run, same, tool

# Each program with the demo board in its form, and with a form of nets: NAME is the name of a net, NODE its nodes.
FORMS = {
    'kicad-nets.py': ('controller-kicad.net', '(export (nets {nets}))', '(net (name "{name}") {nodes})', '(node (ref "{part}") (pin "{pin}"))'),
    'protel-nets.py': ('controller-protel.net', '[\nU1\nF\nV\n]\n{nets}', '(\n{name}\n{nodes}\n)\n', '{part}-{pin}\n'),
    'pads-nets.py': ('controller-pads.asc', '*PADS-PCB*\n*NET*\n{nets}*END*\n', '*SIGNAL* {name}\n{nodes}\n', '{part}.{pin} '),
    'telesis-nets.py': ('controller-telesis.net', '$NETS\n{nets}$END\n', "'{name}' ; {nodes}\n", "'{part}'.'{pin}' "),
}

LONG = 'N' * 256
# What each form can say: nets with their pins, and what comes of them: the net file with what is told on standard error, or the end
# of the line of a refusal.
ALIKE = [
    ('plain names', [('A', 'U1.1 U2.2'), ('B', 'U1.2')], 'NET A U1.1 U2.2\nNET B U1.2\n', ''),
    ('signs in names', [('/bus/D[0]+', 'U1.A1'), ('~RESET{n}', 'U-1.2')], 'NET /bus/D[0]+ U1.A1\nNET ~RESET{n} U-1.2\n', ''),
    ('a # within a name', [('WE#', 'U1.1')], 'NET WE# U1.1\n', ''),
    ('a # in front', [('#WE', 'U1.1')], 'NET _WE U1.1\n', "net '#WE' is written _WE\n"),
    ('a blank in a name', [('my net', 'U1.1')], 'NET my_net U1.1\n', "net 'my net' is written my_net\n"),
    ('a letter that is not in ASCII', [('\xb5C', 'U1.1')], 'NET _C U1.1\n', "net '\xb5C' is written _C\n"),
    ('a pin that stands twice', [('A', 'U1.1 U2.1 U1.1')], 'NET A U1.1 U2.1\n', ''),
    ('two names that become one', [('A B', 'U1.1'), ('A_B', 'U1.2')], None, "net 'A_B': rename it"),
    ('a name of 255 bytes', [(LONG[1:], 'U1.1')], f'NET {LONG[1:]} U1.1\n', ''),
    ('a name of 256 bytes', [('A', 'U1.1'), (LONG, 'U1.2')], None, 'rename it'),
    ('a node of 256 bytes', [('A', f'U1.{LONG[4:]} U1.{LONG[3:]}')], None, f"part 'U1', pin '{LONG[3:]}'"),
    ('a # in front of a part', [('A', 'U1.1'), ('B', '#U1.1')], None, "net 'B': not a pin of a net file: part '#U1', pin '1'"),
    ('a node without a pin', [('A', 'U1.')], None, "net 'A': not a pin"),
    ('a node without a part', [('A', '.1')], None, "net 'A': not a pin"),
    ('a letter in a part that is not in ASCII', [('A', '\xb51.1')], None, "net 'A': not a pin"),
    ('no net at all', [], None, 'no nets: is this a'),
    ('a name that stands twice', [('A', 'U1.1'), ('B', 'U1.2'), ('A', 'U1.3')], None, "net 'A' is in line"),
    ('a pin in two nets', [('A', 'U1.1'), ('B', 'U1.2 U1.1')], None, "pin U1.1 is in net 'B' and, by line"),
    ('a letter of two bytes, the second like a blank', [('D\xc3\xa0', 'U1.1')], 'NET D__ U1.1\n', "net 'D\xe0' is written D__\n"),
]

# What is said in one form alone: the program, what, the text, and what comes of it as above.
ALONE = [
    ('kicad-nets.py', 'a part with a dot', '(export (nets (net (name A) (node (ref U.1) (pin 1)))))', None, "part 'U.1'"),
    ('kicad-nets.py', 'quotes and brackets in a name', r'(export (nets (net (name "A\"(1") (node (ref U1) (pin 1)))))', 'NET A"(1 U1.1\n', ''),
    ('kicad-nets.py', 'a file that is cut off', '(export (nets (net (name A) (node (ref U1) (pin 1)))', None, 'a bracket is not closed'),
    ('kicad-nets.py', 'a bracket too many', '(export (nets (net (name A))))) ', None, 'a bracket is closed'),
    ('kicad-nets.py', 'a net without a name', '(export (nets (net (node (ref U1) (pin 1)))))', None, 'line 1: a net without a name'),
    ('kicad-nets.py', 'a node without a pin', '(export (nets (net (name A) (node (ref U1)))))', None, "part 'U1', pin ''"),
    ('protel-nets.py', 'two nodes on one line', '(\nA\nU1-1 U2-1\nU3-1\n)\n', 'NET A U1.1 U2.1 U3.1\n', ''),
    ('protel-nets.py', 'nodes of Protel 2', 'PROTEL NETLIST 2.0\n(\nA\nU1-1 PROC-D0 I/O\nU-2-1 R-1 PASSIVE\n)\n', 'NET A U1.1 U-2.1\n', ''),
    ('protel-nets.py', 'a bracket that is not at the beginning of its line', '  (\nA\nU1-1\n  )\n(\nB\nU1-2)\n', 'NET A U1.1\nNET B U1.2\n', ''),
    ('protel-nets.py', 'a block in one line with the next', '(A\nU1-1)(B\nU1-2)\n', 'NET A U1.1\nNET B U1.2\n', ''),
    ('protel-nets.py', 'brackets in names', '[\nU1\nF(1)\nV[2]\n]\n(\nD(0)\nU1-A(1)\n)\n', 'NET D(0) U1.A(1)\n', ''),
    ('protel-nets.py', 'a file that is cut off', '(\nA\nU1-1\n)\n(\nB\nU1-2\n', None, 'line 7: the bracket in line 5 is not closed'),
    ('protel-nets.py', 'a part that is cut off', '[\nU1\n(\nA\nU1-1\n)\n', None, 'line 3: the bracket in line 1 is not closed'),
    ('protel-nets.py', 'a word that is no node', '(\nA\nU1-1 and\n)\n', None, "part '', pin 'and'"),
    ('protel-nets.py', 'part types with blanks, and pins of the kind IO',
     'PROTEL NETLIST 2.0\n(\nA\nC1-2 0.1 uF-2 PASSIVE\nU1-1 PROC-D0 IO\nU2-1 PROC-OE OPEN COLLECTOR\n)\n', 'NET A C1.2 U1.1 U2.1\n', ''),
    ('protel-nets.py', 'the same without a head', '(\nA\nC1-2 0.1 uF-2 PASSIVE\nU1-1 PROC-D0 IO\n)\n', 'NET A C1.2 U1.1\n', ''),
    ('protel-nets.py', 'a bracket in the type of a part', '[\nR1\nF\n10K [1%\n]\n(\nA\nR1-1\n)\n', 'NET A R1.1\n', ''),
    ('protel-nets.py', 'other brackets in the texts of a part', '  [\r\nR1\r\nF (0603\r\n]10K 1%]\r\n)(\r\n ]\r\n(\r\nA\r\nR1-1\r\n)\r\n', 'NET A R1.1\n', ''),
    ('protel-nets.py', 'a bracket in the type of a part that begins beside its bracket', '[R1\nF\n10K [1%\n]\n(\nA\nR1-1\n)\n', None,
     "line 3: a bracket has no other in its line: '10K [1%'"),
    ('protel-nets.py', 'a part that is cut off in its type', '[\nR1\nF\n10K [1%', None, 'line 4: the bracket in line 1 is not closed: is the file whole?'),
    ('protel-nets.py', 'a part whose end is lost', '[\nR1\nF\n10K [1%\n[\nR2\nF\nV\n]\n(\nA\nR1-1\n)\n', None,
     "line 5: the bracket in line 1 is not closed before '['"),
    ('protel-nets.py', 'a net whose beginning is lost', '[\nR1\nF\nV\n]\nA\nR1-1\n)\n', None, "line 8: a bracket has no other in its line: ')'"),
    ('protel-nets.py', 'a net of Protel 2 whose first line is a pin', 'PROTEL NETLIST 2.0\n[\nDESIGNATOR\nC1\nPARTTYPE\n0.1 uF\n]\n(\n'
     'C1-2 0.1 uF-2 PASSIVE\nU1-1 PROC-D0 IO\n)\n', None, "line 9: a net without a name: its first line is the pin 'C1-2'"),
    ('protel-nets.py', 'a net with an empty line for its name', '(\n\nU1-1\nU2-1\n)\n', None, 'line 2: a net without a name'),
    ('protel-nets.py', 'a net whose first line is a pin', '[\nU1\nF\nV\n]\n(\nU1-1\nU2-1\n)\n', None, "line 7: a net without a name: its first line is the pin 'U1-1'"),
    ('protel-nets.py', 'a net that has the name of a pin', '[\nU1\nF\nV\n]\n(\nU1-1\nU1-1\nU2-1\n)\n', 'NET U1-1 U1.1 U2.1\n', ''),
    ('protel-nets.py', 'a net of nothing', '(\n)\n', None, 'line 2: a net without a name'),
    ('pads-nets.py', 'a comma behind a pin', '*NET*\n*SIGNAL* A\nU1.3, R1.1\n*END*\n', None, "line 3: a comma in a pin: 'U1.3,'"),
    ('protel-nets.py', 'lines that end as in Windows', '(\r\nA\r\nU1-1\r\n)\r\n', 'NET A U1.1\n', ''),
    ('pads-nets.py', 'the head of PowerPCB, widths and a remark', '!PADS-POWERPCB-V9.5-MILS-CP1252! X\r\n*PART*  ITEMS\r\nU1 P@F\r\n*NET*  NETS\r\n'
     '*REMARK* U9.9\r\n*SIGNAL* A 12 0 0 -2\r\nU1.1\r\n U2.1\r\n*MISC*  PARAMETERS\r\nU3.1\r\n*END*  OF FILE\r\nU4.1\r\n', 'NET A U1.1 U2.1\n', ''),
    ('pads-nets.py', 'a pin with a dot', '*PADS2000*\n*NET*\n*SIGNAL* A\nU1.A.1\n*END*\n', 'NET A U1.A.1\n', ''),
    ('pads-nets.py', 'a signal that stands twice', '*NET*\n*SIGNAL* A 1\nU1.1\n*SIGNAL* A 2\nU1.2\n*END*\n', None, "line 4: net 'A' is in line 2, too"),
    ('pads-nets.py', 'a pin before the first signal', '*NET*\nU1.1\n*SIGNAL* A\n*END*\n', None, 'before the first *SIGNAL*'),
    ('pads-nets.py', 'a signal without a name', '*NET*\n*SIGNAL*\nU1.1\n*END*\n', None, 'line 2: a net without a name'),
    ('pads-nets.py', 'a file that is cut off', '*PADS-PCB*\n*NET*\n*SIGNAL* A\nU1.1\n', None, 'no *END*'),
    ('telesis-nets.py', 'a line that goes on', '$PACKAGES\nF ! V ; U1,\nU2\n$NETS\nA;U1.1 U2.1 ,  \r\n  U3.1,\n\tU4.1\n$A_PROPERTIES\nP 1 ; A\n$END\n',
     'NET A U1.1 U2.1 U3.1 U4.1\n', ''),
    ('telesis-nets.py', 'commas between pins', '$NETS\nA ; U1.1, U2.1\n$END\n', 'NET A U1.1 U2.1\n', ''),
    ('telesis-nets.py', 'quotes', "$NETS\n'A;B,!' ; 'U1.1' U2.'A1' 'U3'.1\n'a''b' ; U1.2\nab ; U1.3\n$S-1 ; U1.4\n$END\n",
     "NET A;B,! U1.1 U2.A1 U3.1\nNET a'b U1.2\nNET ab U1.3\nNET $S-1 U1.4\n", ''),
    ('telesis-nets.py', 'a dot within the quotes of a part', "$NETS\nA ; 'U.1'.2\n$END\n", None, "part 'U.1'"),
    ('telesis-nets.py', 'a quote that is not closed', "$NETS\n'A ; U1.1\n$END\n", None, 'not a net'),
    ('telesis-nets.py', 'a line without a semicolon', '$NETS\nA ; U1.1\nU1.2\n$END\n', None, "not a net: 'U1.2'"),
    ('telesis-nets.py', 'a file that is cut off', '$NETS\nA ; U1.1\n', None, 'no $END'),
    ('telesis-nets.py', 'a line that goes on and is cut off', '$NETS\nA ; U1.1,\n$END\n', None, '$END'),
]


def written(program, nets):
    """Nets in the form of a program."""
    _, file, net, node = FORMS[program]
    lines = []
    for name, pins in nets:
        pairs = [word.partition('.')[::2] for word in pins.split()]
        lines.append(net.format(name=name, nodes=''.join(node.format(part=part, pin=pin) for part, pin in pairs)))
    return file.format(nets=''.join(lines))


def compare(program, text, right, told, folder):
    with open(f'{folder}/netlist', 'w', encoding='latin-1', newline='') as file:
        file.write(text)
    answer = inside(program, f'{folder}/netlist')
    if right is None:
        refused(answer, told)
    else:
        same((answer.returncode, answer.stdout), (0, right), 'what it prints')
        same(answer.stderr, told, 'what it tells')


def compare_demo(program):
    """The net file of the demo board is that in examples/, but for its comments."""
    answer = tool(program, EXAMPLES / FORMS[program][0])
    lines = (EXAMPLES / 'controller.nets').read_text().splitlines(keepends=True)
    same(answer.stdout, ''.join(line for line in lines if line.startswith('NET ')), 'the net file')
    same((answer.returncode, answer.stderr), (0, ''), 'the status')


def compare_places(program, file):
    """The forms that have places give the same nets, in the order of their pins."""
    answer = tool(program, EXAMPLES / file)
    lines = [(EXAMPLES / 'controller.nets').read_text().splitlines(), answer.stdout.splitlines()]
    wanted, seen = (sorted([words[1], *sorted(words[2:])] for words in map(str.split, text) if words[:1] == ['NET']) for text in lines)
    same(seen, wanted, 'the nets')
    same((answer.returncode, answer.stderr), (0, ''), 'the status')


def write_file(program, file, folder):
    """With -o the net file is that of standard output. Where it can't be written, there is one line and no file."""
    printed = tool(program, EXAMPLES / file).stdout
    path = pathlib.Path(folder) / 'out.nets'
    answer = tool(program, '-o', path, EXAMPLES / file)
    same((answer.returncode, answer.stdout, answer.stderr), (0, '', ''), 'the status')
    same(path.read_text(), printed, 'the file')
    refused(tool(program, '-o', path, '/dev/null'), 'line 1')
    same(path.read_text(), printed, 'the file after a netlist that is refused')
    path.unlink()
    refused(tool(program, '-o', pathlib.Path(folder) / 'none/out.nets', EXAMPLES / file), 'cannot write')
    refused(tool(program, '-o', '/dev/full', EXAMPLES / file), 'cannot write /dev/full')


def bad_output(program, file):
    """A full disk, a closed output and a reader that leaves: one line, and no traceback."""
    command = f'{sys.executable} -B {TOOLS / program} {EXAMPLES / file}'
    for how in (f'{command} >/dev/full', f'{command} >&-', f'{{ sleep .5; {command}; }} | true'):
        answer = run(['sh', '-c', how])
        assert answer.stderr.count('\n') == 1 and 'cannot write' in answer.stderr, f'{how}: it says {answer.stderr!r}'


PLACES = {'ipc-356-nets.py': 'controller.ipc', 'kicad-pcb-nets.py': 'controller.kicad_pcb'}
# Large netlists: what they begin with, a net, a pin of it, the end of a net, what is passed over, and what they end with.
LARGE = {
    'kicad-nets.py': ('(export (nets', '(net (name N{net})', '(node (ref U{net}) (pin {pin}))', ')\n', '(x "passed over" (y))\n', '))'),
    'protel-nets.py': ('', '(\nN{net}\n', 'U{net}-{pin}\n', ')\n', 'passed over\n', ''),
    'pads-nets.py': ('*PADS-PCB*\n*NET*\n', '*SIGNAL* N{net}\n', 'U{net}.{pin} ', '\n', '*REMARK* passed over\n', '*END*\n'),
    'telesis-nets.py': ('$NETS\n', 'N{net} ;', ' U{net}.{pin}', '\n', '\t\t\t\n', '$END\n'),
    'ipc-356-nets.py': ('', '', '327N{net:<13}   U{net:<5}-{pin:<4}      A01X+001000Y+001000X0600Y0000R000S1\n', '', 'C  passed over\n', '999\n'),
    'kicad-pcb-nets.py': ('(kicad_pcb', '(footprint X (at 0 0) (fp_text reference U{net})\n',
                          '(pad {pin} smd rect (at 1 1) (size 1 1) (layers F.Cu) (net N{net}))\n', ')\n', '(zone (x "passed over"))\n', ')'),
}
PINS = 20   # of a net


def write_large(program, path, size, nets):
    """Writes a netlist with so many nets, and then as much as makes it so many bytes long."""
    begin, net, pin, end, filler, last = LARGE[program]
    with open(path, 'w', encoding='ascii') as file:
        file.write(begin)
        for at in range(nets):
            file.write(net.format(net=at) + ''.join(pin.format(net=at, pin=number) for number in range(PINS)) + end)
        while file.tell() < size:
            file.write(filler * 10_000)
        file.write(last)


def measured(program, path):
    """What a program prints of a netlist, and the most memory that it took, in bytes."""
    with tempfile.TemporaryFile() as out:
        process = subprocess.Popen([sys.executable, '-B', TOOLS / program, path], stdout=out)
        _, status, usage = os.wait4(process.pid, 0)
        process.returncode = os.waitstatus_to_exitcode(status)
        out.seek(0)
        return process.returncode, out.read(), usage.ru_maxrss * 1024


def take_large(program, folder, size=8_000_000, nets=2_500):
    """A large netlist is read, and takes at most ten times as much memory as it is long."""
    path = pathlib.Path(folder) / 'large'
    write_large(program, path, size, nets)
    status, printed, memory = measured(program, path)
    same((status, printed.count(b'\n'), printed.count(b' U')), (0, nets, nets * PINS), 'the nets')
    assert memory <= 10 * path.stat().st_size, f'it took {memory:,} bytes'


def leave(program, folder):
    """A reader that takes a line and leaves: that line, and one line on standard error."""
    path = pathlib.Path(folder) / 'large'
    write_large(program, path, 0, 2_000)
    for word in '', '1':   # a write that Python doesn't buffer may take a part alone
        setting = {**os.environ, 'PYTHONUNBUFFERED': word}
        answer = run(['sh', '-c', f'{sys.executable} -B {TOOLS / program} {path} | head -n 1'], env=setting)
        same((answer.stdout.count('\n'), answer.stdout[:10]), (1, 'NET N0 U0.'), 'what is printed')
        same(answer.stderr, f'{program}: cannot write standard output: its reader left\n', 'standard error')


def check(_program):
    with tempfile.TemporaryDirectory() as folder:
        for program, file in PLACES.items():
            yield f'{program} prints the nets of the demo board', lambda: compare_places(program, file)
        for program, file in (('pads-nets.py', 'controller-pads.asc'), ('ipc-356-nets.py', 'controller.ipc')):
            yield f'{program} writes a file', lambda: write_file(program, file, folder)
            yield f'{program}: output that fails', lambda: bad_output(program, file)
        for program in LARGE:
            yield f'{program}: a large netlist', lambda: take_large(program, folder)
            yield f'{program}: a reader that leaves after a line', lambda: leave(program, folder)
        for program in FORMS:
            yield f'{program} prints the nets of the demo board', lambda: compare_demo(program)
            for what, nets, right, told in ALIKE:
                yield f'{program}: {what}', lambda: compare(program, written(program, nets), right, told, folder)
        for program, what, text, right, told in ALONE:
            yield f'{program}: {what}', lambda: compare(program, text, right, told, folder)
