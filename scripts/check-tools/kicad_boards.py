"""Boards of KiCad that no one here made: Debian's packages kicad-demos and kicad-templates. Their pins and nets are those that KiCad
itself reads, if its module pcbnew is there, and those that a second, simpler reader counts. KiCad's own netlists by IPC-D-356 are read
back to the same pins and nets."""
import json
import pathlib
import re
import subprocess
import tempfile

from cases import SECONDS, Skipped, same

BOARDS = ('/usr/share/kicad/demos', '/usr/share/kicad/template')
PYTHON = '/usr/bin/python3'   # that which has pcbnew
# Prints for each board where its corner is, and the pins with copper that KiCad finds: part, number, net, the center of the copper, the
# sides of the copper, the center of the pad and its angle. KiCad's netlists are files beside it.
DUMP = '''
import json, pcbnew, sys
def pins(board):
    for part in board.GetFootprints():
        for pad in part.Pads():
            if pad.GetNumber() and pad.GetAttribute() != pcbnew.PAD_ATTRIB_NPTH:
                spot, center = pad.ShapePos(), pad.GetPosition()
                yield (part.GetReference(), pad.GetNumber(), pad.GetNetname(), spot.x / 1e6, spot.y / 1e6, pad.IsOnLayer(pcbnew.F_Cu),
                       pad.IsOnLayer(pcbnew.B_Cu), center.x / 1e6, center.y / 1e6, pad.GetOrientation() / 10)
boards = {}
for at, name in enumerate(sys.argv[2:]):
    board = pcbnew.LoadBoard(name)
    netlist, corner = f'{sys.argv[1]}.{at}', board.GetDesignSettings().GetAuxOrigin()
    pcbnew.IPC356D_WRITER(board).Write(netlist)
    boards[name] = {'pins': list(pins(board)), 'corner': (corner.x / 1e6, corner.y / 1e6), 'netlist': netlist}
json.dump(boards, open(sys.argv[1], 'w'))
'''
# The words of a board that a count needs, in their order. KiCad 6 writes all names in quotation marks.
WORD = re.compile(r'\(footprint |\(fp_text reference "((?:[^"\\]|\\.)*)"|\(pad "((?:[^"\\]|\\.)*)" (\w+)|\(net \d+ "((?:[^"\\]|\\.)+)"\)')


def read(path):
    from btest_tools.netlists import kicad_pcb
    return kicad_pcb.read(path.read_bytes())


def nets_of(nets):
    """The pins of each net that has some."""
    return {net.name.decode(): sorted(net.pins) for net in nets if net.pins}


def count(text):
    """The pins of each net, as a second reader finds them."""
    nets, part, pad = {}, '', ''
    for found in WORD.finditer(text):
        reference, number, kind, net = found.groups()
        if reference is not None:
            part = reference
        elif number is not None:
            pad = number if kind != 'np_thru_hole' else ''
        elif net is not None and pad:
            nets.setdefault(net.replace('\\"', '"'), set()).add(f'{part}.{pad}')
            pad = ''
        elif net is None:
            pad = ''
    return {net: sorted(pins) for net, pins in nets.items()}


def compare_count(path):
    same(nets_of(read(path)[0]), count(path.read_text(encoding='utf-8')), 'the nets')


def dump(paths, folder):
    """What KiCad reads of the boards, by their names."""
    try:
        found = subprocess.run([PYTHON, '-c', 'import pcbnew'], stdout=subprocess.DEVNULL, stderr=subprocess.DEVNULL, timeout=SECONDS)
    except OSError:
        found = None
    if not found or found.returncode:
        raise Skipped("KiCad's module pcbnew is not there")
    name = pathlib.Path(folder) / 'boards.json'
    words = [PYTHON, '-c', DUMP, name, *paths]
    subprocess.run(words, check=True, stdout=subprocess.DEVNULL, stderr=subprocess.DEVNULL, timeout=5 * SECONDS)
    return json.loads(name.read_text())


def compare_kicad(path, pads):
    """Nets, places and sides are those of KiCad, to a thousandth of a millimeter."""
    nets, places = read(path)
    wanted, spots = {}, set()
    for part, number, net, x, y, top, bottom, *_ in pads:
        if top or bottom:
            spots.add((f'{part}.{number}', round(x, 3), round(y, 3), side_of(top, bottom)))
            if net:
                wanted.setdefault(net, set()).add(f'{part}.{number}')
    same(nets_of(nets), {net: sorted(pins) for net, pins in wanted.items()}, 'the nets')
    same(len(places.pins), len({pin for pin, *_ in spots}), 'the number of pins with a place')
    for pin, x, y, side in spots:
        assert any(place.side == side and abs(place.x - x) < 2e-3 and abs(place.y - y) < 2e-3 for place in places.of(pin)), \
            f'{pin} is not at {x}, {y} on {side}'


def side_of(top, bottom):
    return 'both' if top and bottom else 'top' if top else 'bottom'


def compare_netlist(netlist, pads, corner):
    """The netlist by IPC-D-356 has the nets of the board, and its pads where they are, to the fineness of its numbers. It cuts names of
    parts and pins, and is refused if two pins of different nets become one so."""
    from btest_tools.netlists import ipc356
    from btest_tools.netlists.net_file import Refused
    wanted, spots, names = {}, [], {}
    for part, number, net, _x, _y, top, bottom, x, y, angle in pads:
        if top or bottom:
            pin = f'{part[:6].strip()}.{number[:4].strip()}'
            spots.append((pin, x - corner[0], y - corner[1], side_of(top, bottom), angle))
            if net:
                wanted.setdefault(net, set()).add(pin)
                names.setdefault(pin, set()).add(net)
    twice = [pin for pin, nets in names.items() if len(nets) > 1]
    try:
        nets, places = ipc356.read(pathlib.Path(netlist).read_bytes())
    except Refused as why:
        assert any(f'pin {pin} is in net' in str(why) for pin in twice), f'it is refused: {why}'
        return
    same(twice, [], 'the pins in two nets')
    same(sorted(sorted(net.pins) for net in nets if net.pins), sorted(map(sorted, wanted.values())), 'the nets')
    for pin, x, y, side, angle in spots:
        turns = [place.angle - angle for place in places.of(pin)
                 if place.side == side and abs(place.x - x) < 2e-3 and abs(place.y - y) < 2e-3]
        assert any(abs((turn + 90) % 180 - 90) < 1 for turn in turns), f'{pin} is not at {x}, {y} on {side}, turned by {angle}'


def check(_program):
    paths = sorted(path for folder in BOARDS for path in pathlib.Path(folder).glob('*/*.kicad_pcb'))
    if not paths:
        def skip():
            raise Skipped('the package kicad-demos is not there')
        yield 'boards of kicad-demos', skip
        return
    for path in paths:
        yield f'{path.name}: the nets of a second reader', lambda: compare_count(path)
    with tempfile.TemporaryDirectory() as folder:
        boards = {}

        def load():
            boards.update(dump(paths, folder))
        yield 'KiCad reads the boards', load
        for path in paths if boards else ():
            board = boards[str(path)]
            yield f'{path.name}: nets and places of KiCad', lambda: compare_kicad(path, board['pins'])
            yield f"{path.name}: KiCad's netlist by IPC-D-356", lambda: compare_netlist(board['netlist'], board['pins'], board['corner'])
