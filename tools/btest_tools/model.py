"""A model of a board with boundary scan: what its registers capture, with faults of your choice.

    model = Model(read_board(CHAIN, NETS, [BSDL, ..]))
    model.set_faults("and:D0:D1 open:U1.5:0")     # or "good"
    rows = play(model, svf)                       # the rows of the response log

Faults behave as docs/MODEL.md says under "What a net has at one moment". What is free there is
chosen here: a pin that drives reads its net, a cell without a net reads 0, and so does a net that
nothing drives or pulls or that has two drivers; `model.free` may be set to 1.
"""

from __future__ import annotations

from collections.abc import Iterator, Mapping, Sequence
from dataclasses import dataclass, field

from btest_tools.board import DRIVING, READING, Board, Part
from btest_tools.files import BadInput
from btest_tools.scans import Scan, scans

KINDS = (
    "good, stuck:NET:VALUE, open:PART.PIN:VALUE, pull:NET:VALUE, swap:PART.PIN:PART.PIN, "
    "and:NET:NET.., or:NET:NET.. and dom:NET:NET.."
)
SHORTS = ("and", "or", "dom")
BOUNDARY = ("EXTEST", "SAMPLE", "PRELOAD")


@dataclass(frozen=True)
class Short:
    """A short of two nets or more. The first net of the kind `dom` is the one that wins."""

    kind: str
    nets: tuple[str, ...]


@dataclass
class Faults:
    """What is wrong with a board. Nets are in it by their names, pins as U1.5."""

    stuck: dict[str, int] = field(default_factory=dict)
    opens: dict[str, int] = field(default_factory=dict)
    pulls: dict[str, int] = field(default_factory=dict)
    swaps: list[tuple[str, str]] = field(default_factory=list)  # pins that are exchanged
    shorts: list[Short] = field(default_factory=list)


# Faults as texts


def read_faults(board: Board, text: str) -> Faults:
    """Returns the faults of a text, separated by blanks. The text `good` has none."""
    words, faults = text.split(), Faults()
    if not words:
        raise BadInput(f"no fault is named; there are {KINDS}")
    if "good" in words and len(words) > 1:
        raise BadInput("fault good: it stands alone")
    for word in words if words != ["good"] else []:
        add_fault(board, faults, word)
    check_once(faults)
    return faults


def add_fault(board: Board, faults: Faults, word: str) -> None:
    """Reads one fault."""
    kind, _, rest = word.partition(":")
    name, _, value = rest.rpartition(":")
    if kind in SHORTS:
        faults.shorts.append(read_short(board, word, kind, rest))
    elif kind == "swap":
        faults.swaps.append((pin_of(board, word, name), pin_of(board, word, value)))
    elif kind not in ("stuck", "open", "pull"):
        raise BadInput(f"fault {word}: no such kind; there are {KINDS}")
    elif value not in ("0", "1"):
        raise BadInput(f"fault {word}: the value is 0 or 1")
    elif kind == "open":
        add_once(word, faults.opens, pin_of(board, word, name), int(value))
    elif kind == "stuck":
        add_once(word, faults.stuck, net_of(board, word, name), int(value))
    elif board.nets[net_of(board, word, name)].pull is None:
        raise BadInput(f"fault {word}: no PULL line names the net")
    else:
        add_once(word, faults.pulls, name, int(value))


def check_once(faults: Faults) -> None:
    """Refuses a net that is in two shorts, or in a short and stuck, and a pin that is exchanged
    twice or with itself."""
    shorted = [net for short in faults.shorts for net in short.nets]
    for net in shorted:
        if shorted.count(net) > 1 or net in faults.stuck:
            raise BadInput(f"net {net} is in two faults")
    pins = [pin for pair in faults.swaps for pin in pair]
    for pin in pins:
        if pins.count(pin) > 1:
            raise BadInput(f"pin {pin} is exchanged twice")


def add_once(word: str, faulty: dict[str, int], name: str, value: int) -> None:
    """Adds a fault of a net or pin that has none of its kind."""
    if name in faulty:
        raise BadInput(f"fault {word}: {name} has such a fault already")
    faulty[name] = value


def net_of(board: Board, word: str, name: str) -> str:
    """Returns the net that a fault names."""
    if name not in board.names:
        raise BadInput(f"fault {word}: no net {name} in {board.nets_name}")
    root = board.names[name]
    if root != name:
        joined = f"LINK lines join {name} to {root}, which is the name of both"
        raise BadInput(f"fault {word}: {joined}")
    return name


def pin_of(board: Board, word: str, name: str) -> str:
    """Returns the pin that a fault names."""
    part, dot, pin = name.partition(".")
    name = part + dot + pin.upper()
    places = (known.pins.get(entry.place) for known in board.parts for entry in known.entries)
    if name not in places:
        raise BadInput(f"fault {word}: {name} is no pin with a boundary cell")
    if name not in board.net_of:
        raise BadInput(f"fault {word}: {name} stands in no net")
    return name


def read_short(board: Board, word: str, kind: str, text: str) -> Short:
    """Returns the short that a fault is."""
    pieces = text.split(":")
    nets = next(cuts(board, pieces), pieces)  # names that aren't there are refused below
    for name in nets:
        net = board.nets[net_of(board, word, name)]
        if net.is_supply or not net.drivers and net.pull is None:
            why = f"the files don't say what {name} carries"
            raise BadInput(f"fault {word}: {why}; a net that is shorted with it may be stuck")
    if len(set(nets)) < max(2, len(nets)):
        raise BadInput(f"fault {word}: a short has two nets or more, which differ")
    return Short(kind, tuple(nets))


def cuts(board: Board, pieces: list[str]) -> Iterator[list[str]]:
    """Yields the lists of nets that give these pieces: a name may hold the sign between them."""
    if not pieces:
        yield []
    for end in range(1, len(pieces) + 1):
        if ":".join(pieces[:end]) in board.names:
            for rest in cuts(board, pieces[end:]):
                yield [":".join(pieces[:end]), *rest]


# What the board does


class State:
    """The registers of a part."""

    def __init__(self, part: Part) -> None:
        self.part = part
        entries = [(entry, part.pins.get(entry.place, "")) for entry in part.entries]
        self.reading = [(entry.cell, pin) for entry, pin in entries if entry.function in READING]
        self.driving = [(entry, pin) for entry, pin in entries if entry.function in DRIVING]
        self.latches = [0] * part.cells
        self.instruction = ""
        self.reset()

    def reset(self) -> None:
        """Selects what Test-Logic-Reset does."""
        self.instruction = "IDCODE" if self.part.identity else "BYPASS"

    def size(self, register: str) -> int:
        """Returns how many bits are between TDI and TDO."""
        if register == "ir":
            return self.part.length
        if self.instruction in BOUNDARY:
            return len(self.latches)
        return len(self.part.identity) if self.instruction == "IDCODE" else 1

    def captured(self, register: str, levels: Levels) -> list[int]:
        """Returns the bits that a register loads, that nearest TDO first."""
        if register == "ir":
            return [1, 0] + [0] * (self.part.length - 2)
        if self.instruction not in BOUNDARY:
            return self.part.identity if self.instruction == "IDCODE" else [0]
        row = [0] * len(self.latches)
        opens, nets, bits = levels.opens, levels.nets, levels.bits
        for cell, pin in self.reading:
            row[cell] = opens[pin] if pin in opens else bits.get(nets.get(pin, ""), levels.free)
        return row

    def update(self, register: str, row: list[int]) -> None:
        """Takes what was shifted."""
        if register == "ir":
            code = "".join(map(str, reversed(row)))
            self.instruction = self.part.codes.get(code, "BYPASS")
        elif self.instruction in BOUNDARY:
            self.latches = row

    def live(self) -> Iterator[tuple[str, int]]:
        """Yields the pins that drive, each with its bit."""
        for entry, pin in self.driving if self.instruction == "EXTEST" else []:
            if entry.control < 0 or self.latches[entry.control] != entry.disable:
                yield pin, self.latches[entry.cell]


@dataclass
class Levels:
    """What each net has at one moment: `bits`. `nets` has the net of each pin, with pins
    exchanged. A pin's cell captures the constant of an open pin, else what its net has."""

    nets: Mapping[str, str]
    opens: Mapping[str, int]
    bits: dict[str, int]
    free: int  # what a pin reads that nothing decides


class Model:
    """A board with its registers and its faults. `fights` has the nets that had two drivers,
    `free` is what a pin reads that nothing decides."""

    def __init__(self, board: Board) -> None:
        self.board = board
        self.states = [State(part) for part in board.parts]
        self.fights: set[str] = set()
        self.free = 0
        self.faults = Faults()
        self.nets: dict[str, str] = {}
        nets = board.nets.values()
        self.pulls = {net.name: net.pull for net in nets if net.pull is not None}
        self.put_faults(Faults())

    def set_faults(self, text: str) -> None:
        """Gives the board the faults of a text, or with `good` none."""
        self.put_faults(read_faults(self.board, text))

    def put_faults(self, faults: Faults) -> None:
        """Gives the board faults in place of those that it has."""
        self.faults = faults
        self.nets = {pin: net.name for pin, net in self.board.net_of.items()}
        for one, other in faults.swaps:
            self.nets[one], self.nets[other] = self.nets[other], self.nets[one]

    def settle(self) -> Levels:
        """Returns the level of each net."""
        live: dict[str, list[tuple[str, int]]] = {}  # of each net its live drivers
        for pin, bit in (driver for state in self.states for driver in state.live()):
            if pin in self.nets:
                live.setdefault(self.nets[pin], []).append((pin, bit))
        self.fights.update(net for net, drivers in live.items() if len(drivers) > 1)
        opens = self.faults.opens
        fed: dict[str, int] = {}
        broken: dict[str, int] = {}
        for net, [(pin, bit), *others] in live.items():
            if not others:
                (broken if pin in opens else fed)[net] = opens.get(pin, bit)
        pulls = {**self.pulls, **self.faults.pulls}
        held = {net: bit for net, bit in pulls.items() if net not in live or net in broken}
        bits = {**broken, **held, **fed}
        for short in self.faults.shorts:
            bits.update(dict.fromkeys(short.nets, shorted_bit(short, fed, held, self.free)))
        bits.update(self.faults.stuck)
        return Levels(self.nets, opens, bits, self.free)

    def reset(self) -> None:
        """Puts the parts in Test-Logic-Reset."""
        for state in self.states:
            state.reset()

    def capture(self, register: str) -> list[int]:
        """Returns the bits that the registers of the chain load, `ir` or `dr`, that nearest TDO
        first."""
        levels = self.settle()
        loaded = (state.captured(register, levels) for state in reversed(self.states))
        return [bit for bits in loaded for bit in bits]

    def update(self, register: str, row: list[int]) -> None:
        """Gives the parts what was shifted."""
        place = 0
        for state in reversed(self.states):
            size = state.size(register)
            state.update(register, row[place : place + size])
            place += size


def shorted_bit(short: Short, fed: Mapping[str, int], held: Mapping[str, int], free: int) -> int:
    """Returns the one bit of the nets of a short: of those that are driven, else of those that
    are pulled, else the bit of what nothing decides."""
    source = fed if any(net in fed for net in short.nets) else held
    bits = [source[net] for net in short.nets if net in source] or [free]
    if short.kind == "dom" and short.nets[0] in source:
        return source[short.nets[0]]
    return max(bits) if short.kind == "or" else min(bits)


# Playing a test


def number_of(bits: Sequence[int]) -> int:
    """Returns the number with these bits, the lowest first."""
    return int("".join(map(str, reversed(bits))) or "0", 2)


def play_scan(model: Model, scan: Scan) -> int:
    """Captures, shifts and updates. Returns the bits that came out."""
    row = model.capture(scan.register)
    held = len(row)
    row += map(int, reversed(f"{scan.tdi:0{scan.size}b}"))
    model.update(scan.register, row[scan.size : scan.size + held])
    return number_of(row[: scan.size])


def play(model: Model, svf: str) -> list[int]:
    """Plays an SVF text, and returns what came back in each SDR that compares."""
    rows = []
    for scan in scans(svf):
        if scan is None:
            model.reset()
            continue
        came = play_scan(model, scan)
        if scan.register == "dr" and scan.tdo is not None:
            rows.append(came)
    return rows
