"""A board as its chain file, its net file and its BSDL texts describe it.

    board = read_board(CHAIN, NETS, [BSDL, ..])
    board.nets["D0"].readers     # the cells that read the net, each with its place in a row

btest checks these files by all of its rules. Here a file is refused only if nothing can be made
of it.
"""

from __future__ import annotations

import re
from collections.abc import Iterator, Sequence
from dataclasses import dataclass, field
from typing import NamedTuple, NoReturn, Optional

from btest_tools.files import BadInput, Text, read

DRIVING = ("OUTPUT2", "OUTPUT3", "BIDIR")
READING = ("INPUT", "CLOCK", "BIDIR", "OBSERVE_ONLY")
# How many words each statement of a chain file has.
WORDS = {"DEVICE": 3, "BYPASS": 2, "INERT": 1, "SUPPLY": 1, "PULL": 2, "LINK": 3}


class Entry(NamedTuple):
    """An entry of a boundary register. Without a control cell `control` is -1. `receives` says
    whether the entry makes its pin a receiver."""

    cell: int
    place: str
    function: str
    control: int
    disable: int
    receives: bool


class Reader(NamedTuple):
    """A cell that reads a net. `place` is its place in a row, from the bit nearest TDO."""

    pin: str
    place: int


class Driver(NamedTuple):
    """A pin that can drive a net, with the places of its data cell and its control cell. The pin
    always drives if `control` is -1. Otherwise it is off while the control cell holds `disable`."""

    pin: str
    place: int
    control: int
    disable: int


@dataclass
class Part:
    """A part of the chain. Without a BSDL text it has no entries, and `cells` is 0."""

    name: str
    length: int  # of the instruction register
    entity: str = ""
    cells: int = 0
    identity: list[int] = field(default_factory=list)  # the bit nearest TDO first
    codes: dict[str, str] = field(default_factory=dict)
    entries: list[Entry] = field(default_factory=list)
    pins: dict[str, str] = field(default_factory=dict)  # of each port bit its pin, as U1.5


@dataclass
class Net:
    """A net, together with all that LINK lines join to it."""

    name: str
    joined: list[str] = field(default_factory=list)  # its names
    links: list[str] = field(default_factory=list)  # the series parts
    pins: list[str] = field(default_factory=list)
    readers: list[Reader] = field(default_factory=list)
    drivers: list[Driver] = field(default_factory=list)
    pull: Optional[int] = None
    is_supply: bool = False


@dataclass
class Board:
    """A board. `nets` is in the order of the net file, `parts` from TDI to TDO."""

    chain_name: str
    nets_name: str
    parts: list[Part]
    nets: dict[str, Net]
    net_of: dict[str, Net]  # by the pins
    names: dict[str, str]  # of each name of the net file the name of the net that LINK lines make
    size: int  # how many bits a row has under EXTEST
    inert: set[str]  # the parts of the INERT lines

    def entities(self) -> dict[str, str]:
        """Returns the entity of each part of the chain, or an empty name."""
        return {part.name: part.entity for part in self.parts}


def part_of(pin: str) -> str:
    """Returns the part of a pin that is written as U1.5."""
    return pin.partition(".")[0]


def statements(file: Text) -> Iterator[tuple[int, list[str]]]:
    """Yields the lines of a chain or net file that have words, each with its number."""
    for number, line in enumerate(file.text.split("\n"), 1):
        words = re.sub(r"(^|[ \t\r])#.*", "", line).split()
        if words:
            yield number, words


def number_of(where: str, word: str, allowed: Sequence[int]) -> int:
    """Returns the number that a word is."""
    if not re.fullmatch("[0-9]{1,3}", word) or int(word) not in allowed:
        raise BadInput(f"{where}: number not allowed")
    return int(word)


class Entity:
    """What is taken from a BSDL text."""

    def __init__(self, bsdl: Text) -> None:
        self.file = bsdl.name
        text = re.sub(r'("[^"\n]*")|--.*', lambda found: found[1] or "", bsdl.text).upper()
        name = re.search(r"\bENTITY\s+(\w+)", text)
        self.text = re.sub(r"\s", "", text).replace('"&"', "")
        self.value: dict[str, str] = dict(
            re.findall(r'ATTRIBUTE(\w+?)OF\w+:ENTITYIS"?([^";]*)"?;', self.text)
        )
        self.name = name[1] if name else self.wrong("entity")
        # A list of ports is looked for only where it begins, since lists may be long.
        inward = re.findall(r"(?<![\w,])([\w,]+):IN(?:OUT)?BIT", self.text)
        self.inward = set(",".join(inward).split(","))  # the ports of mode in or inout

    def wrong(self, what: str) -> NoReturn:
        """Refuses the text."""
        raise BadInput(
            f"{self.file}: no {what} that the model can use; "
            "`btest device` says what is wrong with a BSDL text"
        )

    def part(self, name: str, package: str) -> Part:
        """Returns a part that the text describes, in a package."""
        try:
            part = Part(name, int(self.value["INSTRUCTION_LENGTH"]), self.name)
            part.cells = int(self.value["BOUNDARY_LENGTH"])
            if not 1 < part.length < 256 or not 0 < part.cells < 65536:
                self.wrong("length of a register")
            code = self.value.get("IDCODE_REGISTER", "")
            part.identity = [int(bit == "1") for bit in reversed(code)]
            self.read_codes(part)
            self.read_entries(part)
        except KeyError as missing:
            self.wrong(missing.args[0])
        except ValueError:
            self.wrong("number")
        part.pins = {place: f"{name}.{pin}" for place, pin in self.pins(package)}
        return part

    def read_codes(self, part: Part) -> None:
        """Gives the part its instruction codes."""
        uses = "".join(re.findall(r"USE\w+", self.text))
        if "1149_1_2001" not in uses + self.value.get("COMPONENT_CONFORMANCE", ""):
            part.codes["0" * part.length] = "EXTEST"  # also if it isn't listed
        for name, codes in re.findall(r"(\w+)\(([01X,]+)\)", self.value["INSTRUCTION_OPCODE"]):
            part.codes.update((code.replace("X", "0"), name) for code in codes.split(","))

    def read_entries(self, part: Part) -> None:
        """Gives the part its boundary register."""
        entry = r"(\d+)\(\w+,([^,]*),(\w+),[01X](?:,(\d+),([01]),\w+)?\)"
        found = re.findall(entry, self.value["BOUNDARY_REGISTER"])
        for cell, place, function, control, disable in found:
            receives = function in READING[:3] and place.partition("(")[0] in self.inward
            numbers = int(cell), int(control or -1), int(disable or 0)
            if max(numbers[:2]) >= part.cells:
                self.wrong("boundary register")
            part.entries.append(Entry(numbers[0], place, function, *numbers[1:], receives))

    def pins(self, package: str) -> Iterator[tuple[str, str]]:
        """Yields each port bit with its pin."""
        if package == "-":
            named = re.search(r'PHYSICAL_PIN_MAP:STRING:="(\w+)"', self.text)
            package = named[1] if named else self.wrong("default package")
        name = re.escape(package)
        found = re.search(rf'CONSTANT{name}:PIN_MAP_STRING:="([^"]*)"', self.text)
        vectors = self.vectors()
        ports = found[1] if found else self.wrong(f"package {package}")
        for port, one, several in re.findall(r"(\w+):(?:(\w+)|\(([^)]*)\))", ports):
            places = (f"{port}({bit})" for bit in vectors.get(port, ()))
            yield from zip(places if port in vectors else [port], (one or several).split(","))

    def vectors(self) -> dict[str, range]:
        """Returns the indexes of each port that is a vector, in the order of its bits."""
        vectors: dict[str, range] = {}
        port = r"(?<![\w,])([\w,]+):\w+?BIT_VECTOR\((\d+)(TO|DOWNTO)(\d+)\)"
        for names, left, way, right in re.findall(port, self.text):
            step = 1 if way == "TO" else -1
            bits = range(int(left), int(right) + step, step)
            vectors.update(dict.fromkeys(names.split(","), bits))
        return vectors


class Files:
    """The chain file and the net file while a board is made of them."""

    def __init__(self, chain: Text, nets: Text, bsdls: Sequence[Text]) -> None:
        self.chain, self.nets = chain, nets
        self.entities = {entity.name: entity for entity in map(Entity, bsdls)}
        self.pins: dict[str, str] = {}  # of each pin the name of its net
        self.root_of: dict[str, str] = {}
        self.links: list[tuple[str, str]] = []  # the series parts, each with a pin
        self.named: list[tuple[str, list[str]]] = []  # the words of the PULL and SUPPLY lines
        self.parts: list[Part] = []
        self.inert: set[str] = set()
        self.read_nets()
        self.order = {name: place for place, name in enumerate(self.root_of)}
        for number, words in statements(chain):
            self.read_statement(f"{chain.name} line {number}", words)

    def read_nets(self) -> None:
        """Reads the net file."""
        for number, words in statements(self.nets):
            if words[0] != "NET" or len(words) < 2:
                raise BadInput(f"{self.nets.name} line {number}: no statement")
            self.root_of[words[1]] = words[1]
            for word in words[2:]:
                part, dot, pin = word.partition(".")
                if not (part and dot and pin):
                    raise BadInput(f"{self.nets.name} line {number}: word not allowed")
                self.pins.setdefault(f"{part}.{pin.upper()}", words[1])

    def read_statement(self, where: str, statement: list[str]) -> None:
        """Reads a line of the chain file."""
        kind, *words = statement
        if len(words) != WORDS.get(kind):
            raise BadInput(f"{where}: no statement")
        if kind == "DEVICE":
            if words[1].upper() not in self.entities:
                raise BadInput(f"{where}: entity not given")
            self.parts.append(self.entities[words[1].upper()].part(words[0], words[2].upper()))
        elif kind == "BYPASS":
            self.parts.append(Part(words[0], number_of(where, words[1], range(2, 256))))
        elif kind == "LINK":
            self.link(where, *words)
        elif kind == "INERT":
            self.inert.add(words[0])
        else:
            self.named.append((where, words))

    def root(self, name: str) -> str:
        """Returns the name of the net that LINK lines make of a net."""
        while self.root_of[name] != name:
            name = self.root_of[name]
        return name

    def link(self, where: str, part: str, one: str, other: str) -> None:
        """Joins the nets of two pins. The first of them in the net file gives its name."""
        pins = [f"{part}.{pin.upper()}" for pin in (one, other)]
        for pin in pins:
            if pin not in self.pins:
                raise BadInput(f"{where}: link pin {pin} not in a net")
        first, second = sorted(
            (self.root(self.pins[pin]) for pin in pins), key=self.order.__getitem__
        )
        self.root_of[second] = first
        self.links.append((part, pins[0]))

    def board(self) -> Board:
        """Returns the board."""
        names = {name: self.root(name) for name in self.root_of}
        nets: dict[str, Net] = {}
        for name, root in names.items():
            nets.setdefault(root, Net(root)).joined.append(name)
        net_of = {pin: nets[names[name]] for pin, name in self.pins.items()}
        size = sum(part.cells or 1 for part in self.parts)
        board = Board(
            self.chain.name, self.nets.name, self.parts, nets, net_of, names, size, self.inert
        )
        for part, pin in self.links:
            net_of[pin].links.append(part)
        self.name_nets(board)
        wire(board)
        return board

    def name_nets(self, board: Board) -> None:
        """Applies the PULL and SUPPLY lines."""
        for where, (name, *value) in self.named:
            if name not in board.names:
                raise BadInput(f"{where}: {'pulled' if value else 'supply'} net not there")
            net = board.nets[board.names[name]]
            if value:
                net.pull = number_of(where, value[0], range(2))
            else:
                net.is_supply = True


def wire(board: Board) -> None:
    """Gives each net its pins, readers and drivers, in the order of the net file."""
    cells: dict[str, list[tuple[int, Entry]]] = {}
    begin = 0
    for part in reversed(board.parts):  # the part nearest TDO has the first bits of a row
        for entry in sorted(part.entries):
            cells.setdefault(part.pins.get(entry.place, ""), []).append((begin, entry))
        begin += part.cells or 1
    for pin, net in board.net_of.items():
        net.pins.append(pin)
        for begin, entry in cells.get(pin, ()):
            if entry.receives:
                net.readers.append(Reader(pin, begin + entry.cell))
            if entry.function in DRIVING:
                control = begin + entry.control if entry.control >= 0 else -1
                net.drivers.append(Driver(pin, begin + entry.cell, control, entry.disable))


def read_board(chain: str, nets: str, bsdls: Sequence[str]) -> Board:
    """Reads the files of a btest command."""
    return Files(read(chain), read(nets), [read(name) for name in bsdls]).board()
