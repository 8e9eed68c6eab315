"""Cases from a seed: small boards of any devices, and then their texts and words broken."""
import random
import re

import boards
import program
from boards import device, lines

COMMANDS = ['chain', 'device', 'cover', 'svf', 'diagnose', 'make', 'ident', 'walk', 'groups', 'batch']

# The devices of the small boards and one more, each with its pins: `!` is behind one that drives always.
BUF3 = boards.BUFFER.replace(b'buf2', b'buf3').replace(b'tck : in bit', b'tck, trst, ce : in bit').replace(
    b'tdo:11', b'tdo:11, trst:12, ce:13').replace(
    b'  attribute port_grouping', b'  attribute tap_scan_reset of trst : signal is true;\n'
    b'  attribute compliance_patterns of buf3 : entity is "(ce, a(1)) (0x, 11)";\n  attribute port_grouping')
DEVICES = {'DRV': (boards.DRV, ['1!', '2!']), 'CODED': (boards.CODED, ['1!', '2!']), 'LATER': (boards.LATER, ['1!', '2!']),
           'RCV': (boards.RCV, '12'), 'ONE': (boards.ONE, '1'), 'TRI': (boards.TRI, '1'), 'BUS': (boards.BUS, '1'), 'OD': (boards.OD, '1'),
           'TWO': (boards.TWO, '1234'), 'BUF2': (boards.BUFFER, '12345'), 'BUF3': (BUF3, '12345')}

BAD_WORDS = [b'', b'0', b'1', b'2', b'254', b'255', b'256', b'002', b'0255', b'65535', b'65536', b'999999999', b'1000000000', b'4294967296',
             b'18446744073709551616', b'-', b'--', b'#', b'.', b'U1.', b'.1', b'U1.1', b'U1.1.1', b'*', b'"', b'&', b'(', b')', b';', b':',
             b',', b'X', b'Z', b'x1', b'end', b'entity', b'package', b'port', b'is', b'in', b'out', b'inout', b'buffer', b'linkage',
             b'input', b'output2', b'output3', b'bidir', b'control', b'internal', b'observe_only', b'clock', b'PULL0', b'11', b'00', b'01',
             b'10', b'XX', b'TDI', b'Q', b'Q(1)', b'BOARD', b'NET', b'DEVICE', b'BYPASS', b'INERT', b'SUPPLY', b'PULL', b'LINK', b'\x00',
             b'\t', b'\x0b', b'\x0c', b'\r', b'\n', b'\x1a', b'\x7f', b'\x80', b'\xff', b'\xef\xbb\xbf', b'\xc3\xa9', b'1e', b'1.e5',
             b'1.5e+3', b'A' * 255, b'A' * 256]
TOKEN = re.compile(rb'[A-Za-z0-9_.]+|[^A-Za-z0-9_.\s]')


def made_cells(rng, mode, bit, number, controls):
    """Entries for a port bit, the first for the cell of this number, and whether they drive it always. `controls` are the disable
    values of the control cells."""
    drives, reads = mode in ('out', 'inout', 'buffer') and rng.randrange(8), mode in ('in', 'inout') and rng.randrange(8)
    safe, control, entries = rng.choice('01X'), rng.randrange(len(controls) or 1), []
    is_always = drives and not (controls and rng.randrange(4)) and rng.randrange(2)
    if is_always:
        entries = [f'(BC_1, {bit}, output2, {safe})']
    elif drives and controls and rng.randrange(4):
        function = 'bidir' if mode == 'inout' and rng.randrange(2) else 'output3'
        reads = reads and function == 'output3'
        entries = [f'(BC_1, {bit}, {function}, {safe}, {control}, {controls[control]}, Z)']
    elif drives:
        entries = [f'(BC_1, {bit}, output2, {safe}, {number}, {rng.choice("01")}, WEAK1)']
    if reads or not rng.randrange(20):
        entries.append(f'(BC_1, {bit}, {rng.choice(["input", "input", "clock", "observe_only"])}, X)')
    return entries, is_always


def made_device(rng, name):
    """The text of a device with a few ports of any mode, mostly as the rules want them, and its pins: `!` is behind one that drives
    always."""
    controls = [rng.choice('01') for _ in range(rng.randrange(4))]
    entries = [f'(BC_1, *, {rng.choice(["control", "controlr"])}, {rng.choice("01X")})' for _ in controls]
    ports, places, pins = [], [], []
    for port in [f'P{i}' for i in range(rng.randint(1, 4))]:
        mode, width = rng.choice(['in', 'in', 'in', 'out', 'out', 'inout', 'inout', 'buffer', 'linkage' if not rng.randrange(3) else 'in']), rng.choice([0, 0, 1, 2, 3])
        left, right, way = rng.choice([(0, width - 1, 'to'), (width - 1, 0, 'downto')])
        ports.append(f'{port} : {mode} ' + (f'bit_vector({left} {way} {right})' if width else 'bit'))
        names = []
        for bit in [f'{port}({i})' for i in (range(left, right + 1) if way == 'to' else range(left, right - 1, -1))] if width else [port]:
            cells, is_always = made_cells(rng, mode, bit, len(entries), controls)
            entries += cells
            names.append(f'{len(pins) + 1}')
            pins.append(names[-1] + '!' * bool(is_always))
        if rng.randrange(60):
            places.append(f'{port}:({",".join(names)})' if width else f'{port}:{names[0]}')
    if not entries or not rng.randrange(4):
        entries.append('(BC_1, *, internal, 1)')
    more = rng.choice([f'attribute IDCODE_REGISTER of {name} : entity is "XXXX{rng.getrandbits(27):027b}1";\n', '', ''])
    text = device(name, '; '.join(ports), ', '.join(places), [f'{i} {entry}' for i, entry in enumerate(entries)], more)
    if not places:
        text = text.replace(b'TCK:T4, ', b'TCK:T4')
    if not rng.randrange(4):
        text = text.replace(b'1149_1_1994', b'1149_1_2001').replace(b'EXTEST (00), SAMPLE (10)', b'EXTEST (01), SAMPLE (10), PRELOAD (X0)')
    return text, pins


def made_board(rng):
    """The files of a board of a few devices. Its nets join pins by chance, mostly not two that drive always."""
    devices = {f'M{i}': made_device(rng, f'M{i}') for i in range(1, 4)} if rng.randrange(2) else DEVICES
    parts = [(f'U{i}', rng.choice(list(devices))) for i in range(1, rng.choice([3, 3, 4, 5, 6, 8]))]
    chain = [f'DEVICE {part} {entity} -' for part, entity in parts]
    resistors = rng.choice([[], [], ['R1'], ['R1', 'R2']])
    pins = [f'{part}.{pin}' for part, entity in parts for pin in devices[entity][1]] + [f'{part}.{pin}' for part in resistors for pin in '12']
    rng.shuffle(pins)
    nets = [[] for _ in range(1 + len(pins) * rng.choice([2, 3]) // 6)]
    for pin in pins:
        net = rng.choice(nets)
        if pin[-1] == '!' and any(other[-1] == '!' for other in net) and rng.randrange(20):
            nets.append([pin])
        else:
            net.append(pin)
    chain += [rng.choice([f'INERT {part}', f'LINK {part} 1 2', f'LINK {part} 2 1']) for part in resistors if rng.randrange(8)]
    texts = [f'NET N{i} ' + ' '.join(net).replace('!', '') for i, net in enumerate(nets, 1)]
    for line in ('BYPASS B1 4', 'BYPASS B2 2', 'INERT R3', 'LINK R1 1 2', f'SUPPLY N{rng.randint(1, 9)}', f'PULL N{rng.randint(1, 3)} 1',
                 f'PULL N{rng.randint(1, 5)} 0', 'NET N1 U1.T1'):
        if not rng.randrange(12):
            where = texts if line.startswith('NET') else chain
            where.insert(rng.randint(0, len(where)), line)
    used = sorted({entity for _, entity in parts})
    return {'c': lines(*chain), 'n': lines(*texts), **{entity: devices[entity][0] for entity in used}}


def made_log(rng, command, files):
    """A log as the board may give it: the bits that its test expects, some of them changed as a fault changes them."""
    program.clear()
    program.write(files)
    text = program.run(['walk' if command == 'groups' else 'svf', *files]).out.decode()
    found = re.findall(r'SDR (\d+)\s+TDI \([^)]*\)\s+TDO \(([^)]*)\)\s+MASK \(([^)]*)\)', text)
    rows, masks = [int(tdo, 16) for _, tdo, _ in found], [int(mask, 16) for _, _, mask in found]
    for _ in range(rng.choice([0, 1, 1, 1, 2, 3]) if rows else 0):
        compared = [bit for bit in range(int(found[0][0])) if rng.choice(masks) >> bit & 1] or [0]
        one, other, only = rng.choice(compared), rng.choice(compared), rng.randrange(len(rows))
        way = 3 if command == 'groups' and rng.randrange(2) else rng.randrange(7)
        for at, row in enumerate(rows):
            first, second = row >> one & 1, row >> other & 1
            first, second = [(0, second), (1, second), (first & second, first & second), (first | second, first | second),
                             (second, second), (first ^ (at == only), second), (first, second)][way]
            rows[at] = row & ~(1 << one | 1 << other) | first << one | second << other
    texts = [f'{row:0{(int(length) + 3) // 4}X}' for row, (length, _, _) in zip(rows, found)]
    if command == 'batch':
        texts = [line for board in range(rng.randrange(4)) for line in (f'BOARD {board}', *texts)]
    return lines(*texts)


def change_token(rng, text):
    """Takes a token out, doubles it, exchanges it with another, or puts another in its place."""
    found = [match.span() for match in TOKEN.finditer(text)] or [(0, 0)]
    (start, end), (other, stop) = sorted([rng.choice(found), rng.choice(found)])
    way = rng.randrange(6)
    if way == 0:
        return text[:start] + text[end:]
    if way == 1:
        return text[:end] + b' ' + text[start:]
    if way == 2 and end <= other:
        return text[:start] + text[other:stop] + text[end:other] + text[start:end] + text[stop:]
    if way == 3:
        return text[:start] + text[other:stop] + text[end:]
    return text[:start] + rng.choice(BAD_WORDS) + text[end:]


def change_number(rng, text):
    """Makes a number one more or one less."""
    found = [match.span() for match in re.finditer(rb'\d+', text)]
    if not found:
        return text
    start, end = rng.choice(found)
    return text[:start] + str(max(0, int(text[start:end]) + rng.choice([-1, 1]))).encode() + text[end:]


def change_line(rng, text):
    """Takes a line out, doubles it, moves it, or repeats it as often as there may be parts, or once more."""
    items = text.splitlines(True) or [b'']
    at, to, way = rng.randrange(len(items)), rng.randrange(len(items)), rng.randrange(8)
    if way < 2:
        del items[at]
    elif way < 4:
        items.insert(to, items[at])
    elif way < 7:
        items.insert(to, items.pop(at))
    else:
        items[at:at + 1] = [re.sub(rb'\b([UNB])\d*\b', rb'\g<1>%d' % i, items[at]) for i in range(rng.choice([253, 254, 255, 256]))]
    return b''.join(items)


def change_bytes(rng, text):
    """Turns a bit, takes bytes out or in, or cuts the text off."""
    at, way = rng.randrange(len(text) + 1), rng.randrange(5)
    if way == 0 and at < len(text):
        return text[:at] + bytes([text[at] ^ 1 << rng.randrange(8)]) + text[at + 1:]
    if way == 1:
        return text[:at] + bytes([rng.randrange(256)]) + text[at:]
    if way == 2:
        return text[:at] + text[at + rng.randrange(1, 20):]
    if way == 3:
        return text[:at]
    return text[:at] + rng.choice([b'"', b'--', b'#', b'\r\n', b'\n', b' ', b'\t', b'\x00', b'(' * 2000, b',' * 3000]) + text[at:]


def change_text(rng, text):
    """Another text, or the text with other ends of lines, in other letters, twice, or as long as may be, or one longer."""
    way = rng.randrange(8)
    if way == 6 and not rng.randrange(20):
        return text + b' ' * (4_194_304 - len(text) + rng.randrange(2))
    if way == 7 and not rng.randrange(20):
        return b',' * (1_048_576 + rng.randrange(2))
    return [b'', text.replace(b'\n', b'\r\n'), text.swapcase(), text + text, text.replace(b' ', b' -- \xff\n'), rng.choice(
        [DEVICES['BUF3'][0], *boards.THREE.values(), b'package body X is', b'\n\n\n']), text + b'\x1a', text + b'package X is'][way]


def change_words(rng, words):
    """Takes a word out, doubles it, exchanges words, or puts another in its place or beside it."""
    way, at = rng.randrange(10), rng.randrange(len(words) + 1)
    if way < 2:
        return words[:at] + words[at + 1:]
    if way == 2:
        return words[:at] + words[at - 1:]
    if way == 3:
        return words + [words[-1]] * rng.choice([1, 253, 254, 255, 256])
    if way == 4:
        return rng.sample(words, len(words))
    word = rng.choice(['', '-', '--', '-h', '--help', 'help', '--version', 'chain', 'nothing', '0', '1', '64', '65', '00000000000000000007',
                       '000000000000000000007', '18446744073709551617', '+1', '1 ', 'é', '\udcff', 'A' * 5000, 'svf', '.', '/dev/null', '1e1'])
    return words[:at] + [word] + words[at + (way < 8):]


def made_case(seed, number):
    """The words and the files of a case. Where it has a log, the program makes the test that the log is of, in the current folder."""
    rng = random.Random(f'{seed} {number}')
    command = rng.choice(COMMANDS)
    files = made_board(rng) if rng.randrange(3) else {name: text for name, text in boards.CASES[command].files.items() if name != 'g'}
    if command == 'make':
        words, files = ['make', str(rng.choice([0, 1, 2, 3, 7, 256] if rng.randrange(100) else [254, 255]))], {}
    elif command == 'device':
        name = rng.choice(sorted(DEVICES))
        files = {name: DEVICES[name][0] if rng.randrange(2) else made_device(rng, name)[0]}
        words = ['device', name]
    elif command in ('diagnose', 'groups', 'batch'):
        files = {'g': made_log(rng, command, files), **files}
        words = [command, *([] if command == 'groups' else [str(rng.choice([1, 2, 3, 64]))]), *files]
    else:
        words = [command, *(name for name in files if name != 'n' or command not in ('chain', 'ident'))]
    changes = [change_token, change_token, change_number, change_number, change_line, change_line, change_bytes, change_text]
    for _ in range(rng.choice([0, 0, 1, 1, 1, 2, 3])):
        if files:
            name = rng.choice(sorted(files))
            files[name] = rng.choice(changes)(rng, files[name])
    if not rng.randrange(10):
        words = change_words(rng, words)
    return words, files
