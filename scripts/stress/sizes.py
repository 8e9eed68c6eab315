"""Each size at its limit and one past it, and texts that are as long or as deep as may be, with little stack. What is printed is
worked out here, from docs/GUIDE.md."""
import filecmp
import multiprocessing
import os
import re
from functools import partial
from typing import Callable, NamedTuple

import boards
import program
from boards import device, lines, svf
from program import Failure

TEXT, LOG = 4_194_304, 67_108_864   # the most bytes of a text and of a log
STACK = 256                         # KiB of stack for every run


class Size(NamedTuple):
    name: str
    words: list
    make: Callable            # gives the files and what is printed
    line: str = ''            # what stands on standard error, where the files are refused
    sizes: dict = {}          # files that are then made longer, by a comment at their end


def scan(kind, length, tdi, tdo=0, mask=0):
    """A scan as docs/GUIDE.md and the standard have it: long ones with 64 digits in a line."""
    fields = [('TDI', tdi)] + ([('TDO', tdo), ('MASK', mask)] if mask else [])
    digits = [(name, f'{value:0{(length + 3) // 4}X}') for name, value in fields]
    text = f'{kind} {length} ' + ' '.join(f'{name} ({text})' for name, text in digits) + ';'
    if len(text) <= 80:
        return text
    cut = ['\n'.join([f'{name} ({text[:64]}', *(text[at:at + 64] for at in range(64, len(text), 64))]) + ')' for name, text in digits]
    return f'{kind} {length}\n' + '\n'.join(cut) + ';'


def numbers(first, last):
    return ','.join(map(str, range(first, last + 1)))


def padded(name, size):
    """Makes a file longer by a comment, of bytes that take no room on the disk."""
    with open(name, 'ab') as file:
        file.write(b'#' if name in 'cng' else b'--')
    os.truncate(name, size)


# What the sizes are tried on. Each gives files and what is printed.

def pairs(count):
    """A chain of `count` devices, each with a text of its own, that drive and receive in turn."""
    texts = {f'd{i}': (boards.DRV if i % 2 else boards.RCV).replace(b'DRV', b'E%d' % i).replace(b'RCV', b'E%d' % i)
             for i in range(1, count + 1)}
    nets = [f'NET N{i}_{pin} U{i}.{pin} U{i + 1}.{pin}' for i in range(1, count, 2) for pin in (1, 2)]
    chain = [f'DEVICE U{i} E{i} -' for i in range(1, count + 1)]
    return {'c': lines(*chain), 'n': lines(*nets), **texts}, lines(f'NETS {len(nets)} COVERED {len(nets)}')


def listing(name, ports, cells):
    return lines(f'ENTITY {name}', 'PACKAGE P', 'IR 2 SAMPLE 10 IDCODE -', 'PORT TDI IN T1', 'PORT TMS IN T3', 'PORT TCK IN T4',
                 'PORT TDO OUT T2', *ports, *cells)


LISTING = listing('DRV', ['PORT Q OUT 1 2'], ['CELL 0 OUTPUT2 Q(1) X', 'CELL 1 OUTPUT2 Q(2) X'])


def together(many, count):
    """The same so many times, or with numbers from 0 where it has a place for them."""
    return b''.join(many % i for i in range(count)) if b'%' in many else many * count


def changed(old, new, many, count):
    """The text of a driver with one place changed: in `new` the many things stand at the %s."""
    return {'drv': boards.DRV.replace(old, new.replace(b'%s', together(many, count)), 1)}, LISTING


def tokens(count):
    """The text of a driver, with commas in an attribute that is read over."""
    word = rb'"[^"\n]*"|[A-Za-z]\w*|\d+(?:\.\d+)?(?:[eE]\d+)?|[!-~]'
    there = len(re.findall(word, boards.DRV)) + len(re.findall(word, b'attribute FOO;'))
    return changed(b'end DRV', b'attribute FOO %s;\nend DRV', b',', count - there)


def outputs(pins, cells):
    """A device that has so many outputs, and other cells behind those of the outputs."""
    entries = [f'{i} (BC_1, Q({i + 1}), output2, X)' for i in range(pins)] + [f'{i} (BC_1, *, internal, 0)' for i in range(pins, cells)]
    text = device('BIG', f'Q : out bit_vector(1 to {pins})', f'Q:({numbers(1, pins)})', entries).replace(b'"&\n"', b'')
    return text, listing('BIG', ['PORT Q OUT ' + numbers(1, pins).replace(',', ' ')], [
        *(f'CELL {i} OUTPUT2 Q({i + 1}) X' for i in range(pins)), *(f'CELL {i} INTERNAL * 0' for i in range(pins, cells))])


def big(pins, cells):
    text, shown = outputs(pins, cells)
    return {'big': text}, shown


def boundary_bits(first, second, command):
    """Two devices with so many cells."""
    files = {'c': lines('DEVICE U1 A -', 'DEVICE U2 B -'), 'n': lines('NET N U1.1'),
             'a': outputs(1, first)[0].replace(b'BIG', b'A'), 'b': outputs(1, second)[0].replace(b'BIG', b'B')}
    if command == 'cover':
        return files, lines('NETS 1 COVERED 0', 'NET N NORECEIVER')
    return files, svf(scan('SIR', 4, 10, 5, 15), scan('SDR', first + second, 0), scan('SIR', 4, 0, 5, 15))


def nets(count):
    numbered = range(1, count + 1)
    files = {'c': lines('DEVICE U1 BIG -'), 'n': lines(*(f'NET N{i} U1.{i}' for i in numbered)), 'big': outputs(20_000, 20_000)[0]}
    return files, lines(f'NETS {count} COVERED 0', *(f'NET N{i} NORECEIVER' for i in numbered))


def pins(count):
    words = ' '.join(f'R.{i}' for i in range(count))
    return {'c': lines('BYPASS U1 2'), 'n': lines('NET N ' + words)}, lines('NETS 1 COVERED 0', 'NET N DARK')


def parts(count, length):
    files = {'c': lines(*(f'BYPASS U{i} {length}' for i in range(count)))}
    size = count * length
    ends = sum(1 << length * i for i in range(count))
    return files, svf(scan('SIR', size, (1 << size) - 1, ends, 3 * ends),
                      scan('SDR', count + 8, 0xA5, 0xA5 << count, (1 << count + 8) - 1))


def alike(count, cells):
    """So many parts of one text."""
    return {'c': lines(*(f'DEVICE U{i} BIG -' for i in range(count))), 'big': outputs(cells, cells)[0]}, parts(count, 2)[1]


class Ring:
    """Two devices, each of which drives so many inputs of the other."""

    def __init__(self, half):
        entries = [f'{i} (BC_1, Q({i + 1}), output2, X)' for i in range(half)]
        entries += [f'{i + half} (BC_1, D({i + 1}), input, X)' for i in range(half)]
        text = device('RING', f'Q : out bit_vector(1 to {half}); D : in bit_vector(1 to {half})',
                      f'Q:({numbers(1, half)}), D:({numbers(half + 1, 2 * half)})', entries)
        names = [f'NET N{i} U1.{i} U2.{i + half}' for i in range(1, half + 1)]
        names += [f'NET N{i + half} U2.{i} U1.{i + half}' for i in range(1, half + 1)]
        self.files = {'c': lines('DEVICE U1 RING -', 'DEVICE U2 RING -'), 'n': lines(*names), 'ring': text}
        self.half, self.nets, self.bits, self.width = half, 2 * half, 4 * half, (2 * half + 1).bit_length()

    def row(self, bits, at):
        """A row that has these bits of the nets, the first net's lowest, in the cells of the drivers or the receivers."""
        low, high = bits & (1 << self.half) - 1, bits >> self.half
        return low << 2 * self.half + at | high << at if at == 0 else low << self.half | high << 3 * self.half

    def codes(self):
        """Bit j of the codes of all nets, for each j."""
        text = [f'{code:0{self.width}b}' for code in range(self.nets, 0, -1)]
        return [int(''.join(column), 2) for column in zip(*text)][::-1]

    def test(self, rows):
        """The SVF text that drives these bits of the nets, row by row."""
        mask = self.row((1 << self.nets) - 1, 1)
        scans = [scan('SIR', 4, 10, 5, 15), scan('SDR', self.bits, 0), scan('SIR', 4, 0, 5, 15)]
        for at, bits in enumerate([*rows, 0]):
            scans.append(scan('SDR', self.bits, self.row(bits, 0), *((self.row(rows[at - 1], 1), mask) if at else ())))
        return svf(*scans)

    def log(self, rows, stuck=0):
        """The log of a board on which these nets are stuck at 0."""
        return lines(*(f'{self.row(bits & ~stuck, 1):0{self.bits // 4}X}' for bits in rows))


def ring(half, what):
    made = Ring(half)
    walking = [1 << at for at in range(made.nets)] if what in ('walk', 'groups') else []
    first = lines('FAIL 3', 'stuck N1 0', 'open U1.1 0', f'open U2.{half + 1} 0')
    if what == 'cover':
        return made.files, lines(f'NETS {made.nets} COVERED {made.nets}')
    if what in ('svf', 'walk'):
        return made.files, made.test(walking or made.codes())
    if what == 'groups':
        return {'g': made.log(walking), **made.files}, lines('GROUPS 0')
    if what == 'diagnose':
        return {'g': made.log(made.codes(), 1), **made.files}, first
    blocks = lines('BOARD A') + made.log(made.codes()) + lines('BOARD B') + made.log(made.codes(), 1)
    return {'g': blocks * (LOG // len(blocks)), **made.files}, (lines('BOARD A', 'PASS', 'BOARD B') + first) * (LOG // len(blocks))


def joined(count):
    """So many resistors in a row between a driver and a receiver."""
    chain = ['DEVICE U1 DRV -', 'DEVICE U2 RCV -'] + [f'LINK R{i} 1 2' for i in range(count)]
    names = ['NET N U1.1 R0.1'] + [f'NET N{i} R{i - 1}.2 R{i}.1' for i in range(1, count)] + [f'NET L R{count - 1}.2 U2.1']
    return {'c': lines(*chain), 'n': lines(*names), 'drv': boards.DRV, 'rcv': boards.RCV}, lines('NETS 1 COVERED 1')


def repeated(name, front, many, count, out, back=b''):
    """The small board of a driver and a receiver, with one text that holds many of the same."""
    return {**boards.PAIR, name: front + together(many, count) + back}, out


SHORT = svf('SIR 4 TDI (F) TDO (1) MASK (3);', 'SDR 9 TDI (0A5) TDO (14A) MASK (1FF);')   # the chain test of a part of 4 bits
CHAIN, DEVICE, COVER, DIAGNOSE = ['chain', 'c'], ['device', 'drv'], ['cover', *boards.BOARD], ['diagnose', '2', 'g', *boards.BOARD]
RING, AB = ['c', 'n', 'ring'], ['c', 'n', 'a', 'b']
ALL = ['c', 'n', *(f'd{i}' for i in range(1, 256))]


def pair_log():
    return boards.CASES['diagnose'].files, boards.CASES['diagnose'].out


def word(length):
    name = 'N' * length
    return {**boards.PAIR, 'n': lines(f'NET {name} U1.1')}, lines('NETS 1 COVERED 0', f'NET {name} NORECEIVER')


SIZES = [
    Size('257 texts of 4,194,304 bytes', ['cover', *ALL], partial(pairs, 255), '', {name: TEXT for name in ALL}),
    Size('one byte more in the last', ['cover', *ALL], partial(pairs, 255), 'd255: longer than 4194304 bytes',
         {name: TEXT + (name == 'd255') for name in ALL}),
    Size('255 BSDL texts', ['cover', *ALL], partial(pairs, 255)),
    Size('256 BSDL texts', ['cover', *ALL, 'd1'], partial(pairs, 255), 'usage'),
    Size('a log of 67,108,864 bytes', DIAGNOSE, pair_log, '', {'g': LOG}),
    Size('a log of 67,108,865 bytes', DIAGNOSE, pair_log, 'g: longer than 67108864 bytes', {'g': LOG + 1}),
    Size('1,048,576 tokens', DEVICE, partial(tokens, 1_048_576)),
    Size('1,048,577 tokens', DEVICE, partial(tokens, 1_048_577), 'drv line 19: too many tokens'),
    Size('65,535 cells and port bits', ['device', 'big'], partial(big, 65_531, 65_535)),
    Size('65,536 port bits', ['device', 'big'], partial(big, 65_532, 65_535), 'big: rule V2 item 5'),
    Size('65,536 cells', ['device', 'big'], partial(big, 65_531, 65_536), 'big: rule V1 item 9'),
    Size('65,535 boundary bits, cover', ['cover', *AB], partial(boundary_bits, 32_768, 32_767, 'cover')),
    Size('65,535 boundary bits, svf', ['svf', *AB], partial(boundary_bits, 32_768, 32_767, 'svf')),
    Size('65,536 boundary bits', ['svf', *AB], partial(boundary_bits, 32_768, 32_768, 'svf'), 'limit: boundary bits'),
    Size('16,382 nets', ['cover', 'c', 'n', 'big'], partial(nets, 16_382)),
    Size('16,383 nets', ['cover', 'c', 'n', 'big'], partial(nets, 16_383), 'limit: nets'),
    Size('65,535 pins', ['cover', 'c', 'n'], partial(pins, 65_535)),
    Size('65,536 pins', ['cover', 'c', 'n'], partial(pins, 65_536), 'limit: pins'),
    Size('255 parts of 255 bits', CHAIN, partial(parts, 255, 255)),
    Size('256 parts', CHAIN, partial(parts, 256, 255), 'limit: chain parts'),
    Size('a part of 256 bits', CHAIN, partial(parts, 255, 256), 'c line 1: number not allowed'),
    Size('255 parts of one text of 5,000 cells', ['chain', 'c', 'big'], partial(alike, 255, 5000)),
    Size('a name of 255 bytes', COVER, partial(word, 255)),
    Size('a name of 256 bytes', COVER, partial(word, 256), 'n line 1: word not allowed'),
    Size('64 workers', ['diagnose', '64', 'g', *boards.BOARD], pair_log),
    Size('65 workers', ['diagnose', '65', 'g', *boards.BOARD], pair_log, 'usage'),
    Size('a number of 20 digits', ['diagnose', '00000000000000000002', 'g', *boards.BOARD], pair_log),
    Size('a number of 21 digits', ['diagnose', '000000000000000000002', 'g', *boards.BOARD], pair_log, 'usage'),
    Size('make 255', ['make', '255'], lambda: ({}, lines('DEVICES 255 NETS 8168 COVERED 8168 PASSES 255 SCANS 3573 BYTES 50966896'))),
    Size('make 256', ['make', '256'], lambda: ({}, b''), 'usage'),

    Size('16,382 covered nets, cover', ['cover', *RING], partial(ring, 8191, 'cover')),
    Size('16,382 covered nets, svf', ['svf', *RING], partial(ring, 8191, 'svf')),
    Size('16,382 covered nets, diagnose', ['diagnose', '4', 'g', *RING], partial(ring, 8191, 'diagnose')),
    Size('1,024 nets, walk', ['walk', *RING], partial(ring, 512, 'walk')),
    Size('11,584 nets, groups of a log of 64 MiB', ['groups', 'g', *RING], partial(ring, 5792, 'groups'), '', {'g': LOG}),
    Size('boards in a batch of 64 MiB', ['batch', '4', 'g', *RING], partial(ring, 64, 'batch')),
    Size('titles alone in a batch of 64 MiB', ['batch', '4', 'g', *boards.BOARD], partial(repeated, 'g', b'', b'BOARD A\n', LOG // 8, b''), 'g board 1: 0 rows of 2'),
    Size('32,766 resistors between two pins', COVER, partial(joined, 32_766)),

    Size('1,000,000 parentheses, each in the last', DEVICE, partial(changed, b'end DRV', b'attribute FOO %s;\nend DRV', b'(', 1_000_000)),
    Size('500,000 joined strings', DEVICE, partial(changed, b'entity is "01"', b'entity is "01"%s', b' & ""', 500_000)),
    Size('1,300,000 codes of an opcode', DEVICE, partial(changed, b'BYPASS (11)', b'BYPASS (11%s)', b',11', 1_300_000)),
    Size('300,000 opcodes', DEVICE, partial(changed, b'BYPASS (11)', b'BYPASS (11)%s', b',I%d(01)', 300_000)),
    Size('150,000 entries of one cell', DEVICE, partial(changed, b'"0 (', b'"%s0 (', b'0 (B, Q(1), output2, X),', 150_000), 'drv: rule V12 item 0'),
    Size('200,000 use items', DEVICE, partial(changed, b'use ', b'%suse ', b'use A.all; ', 200_000)),
    Size('400,000 ports', DEVICE, partial(changed, b'TDO : out', b'%sTDO : out', b'P%d,', 400_000), 'drv: rule V2 item 65536'),
    Size('a line of 4,194,304 bytes without a blank', CHAIN, partial(repeated, 'c', b'', b'x', TEXT, b''), 'c line 1: no statement'),
    Size('a comment of 4,194,304 bytes', CHAIN, partial(repeated, 'c', b'BYPASS U1 4 #', b'x', TEXT - 13, SHORT)),
    Size('4,194,293 empty lines', CHAIN, partial(repeated, 'c', b'', b'\n', TEXT - 11, SHORT, b'BYPASS U1 4')),
    Size('a net of 1,048,574 words', COVER, partial(repeated, 'n', b'NET N U1.1', b' R.1', 1_048_573, lines('NETS 1 COVERED 0', 'NET N DARK'))),
    Size('699,050 lines of one net', COVER, partial(repeated, 'n', b'', b'NET N\n', 699_050, lines('NETS 1 COVERED 0', 'NET N NODRIVER'))),
    Size('200,000 inert parts', COVER, partial(repeated, 'c', boards.PAIR['c'], b'INERT R%d\n', 200_000, lines('NETS 2 COVERED 2'))),
    Size('a row of 67,108,864 digits', DIAGNOSE, partial(repeated, 'g', b'', b'0', LOG, b''), 'g line 1: wrong length'),
    Size('67,108,860 empty lines of a log', DIAGNOSE, partial(repeated, 'g', b'0\n2\n', b'\n', LOG - 4, boards.CASES['diagnose'].out)),
]


def make(size):
    """Writes the files of a size, in a process of its own, so that what they take of memory is not counted."""
    files, out = size.make()
    program.write(files)
    with open('../want', 'wb') as file:
        file.write(b'' if size.line else out)


def try_size(size):
    maker = multiprocessing.get_context('fork').Process(target=make, args=(size,))
    maker.start()
    maker.join()
    for name, length in size.sizes.items():
        padded(name, length)
    status, seconds, memory = program.start(size.words, before=('sh', '-c', f'ulimit -s {STACK}; exec "$0" "$@"'))
    err = program.content('../err')
    want = boards.CASES['no words'].err if size.line == 'usage' else lines(size.line) if size.line else b''
    right = (2 if size.line == 'usage' else 1 if size.line else 0, want)
    if (status, err) != right or not filecmp.cmp('../out', '../want', False):
        raise Failure(f'{size.name}: status {status}, {os.path.getsize("../out"):,} bytes out, standard error {err[:200]!r}\n'
                      f"to run it again: make stress WITH='sizes --case \"{size.name}\"'")
    program.clear()
    return [size.name, size.words[0], size.line or f'done, {os.path.getsize("../out"):,} bytes', f'{seconds:.2f}', f'{memory / 1024:.0f}']


def stress(folder, options):
    program.enter(folder)
    rows = [['size', 'command', 'answer', 'seconds', 'MiB']]
    for size in SIZES:
        if options.case in ('', size.name):
            rows.append(try_size(size))
            print('  ' + ', '.join(rows[-1]), flush=True)
    return rows, len(rows) - 1
