"""Boards from a seed, with what a real board has: buses, open drains, series parts, parts without a
description, several packages."""

from __future__ import annotations

import random
from typing import Union

HEAD = """entity {name} is
generic (PHYSICAL_PIN_MAP : string := "P");   -- "Q" has its pins the other way round
port (TDI, TMS, TCK : in bit; TDO : out bit; I : in bit_vector({inputs} downto 1); O : out bit_vector(0 to {outputs});
      B : inout bit_vector(1 to {bus}); OD : out bit; INT : in bit);
use STD_1149_1_1994.all;
attribute PIN_MAP of {name} : entity is PHYSICAL_PIN_MAP;
constant P : PIN_MAP_STRING := "{tap}, {map}";
constant Q : PIN_MAP_STRING := "{tap}, {other}";
attribute TAP_SCAN_IN of TDI : signal is true;
attribute TAP_SCAN_OUT of TDO : signal is true;
attribute TAP_SCAN_MODE of TMS : signal is true;
attribute TAP_SCAN_CLOCK of TCK : signal is (10.0e6, BOTH);
attribute INSTRUCTION_LENGTH of {name} : entity is 3;
attribute INSTRUCTION_OPCODE of {name} : entity is "BYPASS (111), EXTEST (000), SAMPLE (010)";
attribute INSTRUCTION_CAPTURE of {name} : entity is "001";
attribute BOUNDARY_LENGTH of {name} : entity is {length};
attribute BOUNDARY_REGISTER of {name} : entity is
{entries};
end {name};
"""


class Kind:
    """A device: inputs, outputs in groups of a control cell, of which the last may always drive,
    and pins of a bus with one control cell."""

    def __init__(self, name: str, rng: random.Random) -> None:
        self.name, self.inputs, self.outputs = name, rng.randint(2, 8), rng.randint(1, 8)
        self.bus = rng.randint(1, 4)
        self.group, self.always = rng.randint(1, 4), rng.randrange(3) == 0
        self.count = self.inputs + self.outputs + 1 + self.bus + 2

    def pins(self, package: str) -> list[list[str]]:
        """Returns the pins of the inputs, of the outputs, of the bus, of the open drain and of
        INT."""
        names = [str(at) for at in range(1, self.count + 1)]
        if package == "Q":
            names.reverse()
        cuts = [0, self.inputs, self.outputs + 1, self.bus, 1, 1]
        return [names[sum(cuts[:at]) : sum(cuts[: at + 1])] for at in range(1, 6)]

    def map(self, package: str) -> str:
        """Returns the pin map of a package."""
        inputs, outputs, bus, drain, interrupt = (",".join(names) for names in self.pins(package))
        return f"I:({inputs}), O:({outputs}), B:({bus}), OD:{drain}, INT:{interrupt}"

    def text(self, rng: random.Random) -> str:
        """Returns the BSDL text."""
        groups = [at // self.group for at in range(self.outputs + 1)]
        entries = [f"(BC_1, *, control, {level})" for level in "1" * (groups[-1] + 2)]
        cells = [
            f'(BC_1, I({at}), {rng.choice(["input", "clock"])}, X)'
            for at in range(1, self.inputs + 1)
        ]
        cells += [f"(BC_1, O({at}), output3, X, {group}, 1, Z)" for at, group in enumerate(groups)]
        if self.always:
            cells[-1] = f"(BC_1, O({self.outputs}), output2, X)"
        cells += [
            f"(BC_7, B({at}), bidir, X, {groups[-1] + 1}, 1, Z)" for at in range(1, self.bus + 1)
        ] + ["(BC_1, INT, input, X)"]
        rng.shuffle(cells)
        entries += cells + [f"(BC_1, OD, output2, 1, {len(entries) + len(cells)}, 1, WEAK1)"]
        numbered = [f'"{at} {entry}' for at, entry in enumerate(entries)]
        rng.shuffle(numbered)
        return HEAD.format(
            name=self.name,
            inputs=self.inputs,
            outputs=self.outputs,
            bus=self.bus,
            length=len(entries),
            tap="TDI:T1, TDO:T2, TMS:T3, TCK:T4",
            map=self.map("P"),
            other=self.map("Q"),
            entries=',"&\n'.join(numbered) + '"',
        )


def nets_of(rng: random.Random, parts: list[tuple[str, Kind, str]]) -> list[list[str]]:
    """Returns lists of pins: each output with inputs, a bus that several parts share, and an
    interrupt of open drains."""
    pins = [(part, kind.pins(package)) for part, kind, package in parts]
    inputs = [f"{part}.{pin}" for part, names in pins for pin in names[0]]
    rng.shuffle(inputs)
    nets = [
        [f"{part}.{pin}"] + [inputs.pop() for _ in range(rng.randint(1, 3)) if inputs]
        for part, names in pins
        for pin in names[1]
    ]
    for line in range(4):
        nets.append([f"{part}.{names[2][line]}" for part, names in pins if line < len(names[2])])
    nets.append([f"{part}.{names[at][0]}" for part, names in pins for at in (3, 4)])
    return [net for net in nets if net]


def made(seed: Union[int, str]) -> dict[str, str]:
    """Returns the files of a board, as texts by their names: the chain file, the net file, and the
    BSDL texts."""
    rng = random.Random(seed)
    kinds = [Kind(f"KIND{at}", rng) for at in range(3)]
    parts = [(f"U{at}", rng.choice(kinds), rng.choice("PQ")) for at in range(1, rng.randint(3, 7))]
    chain = [
        f'DEVICE {part} {kind.name} {package if package == "Q" else "-"}'
        for part, kind, package in parts
    ]
    if rng.randrange(2):
        chain.insert(rng.randint(0, len(chain)), "BYPASS X1 5")
    nets, lines = nets_of(rng, parts), []
    for at, pins in enumerate(nets, 1):
        if len(pins) > 1 and rng.randrange(6) == 0:  # a series part in it
            cut = rng.randint(1, len(pins) - 1)
            lines += [
                f'NET N{at} {" ".join(pins[:cut])} R{at}.1',
                f'NET N{at}B R{at}.2 {" ".join(pins[cut:])}',
            ]
            chain.append(f"LINK R{at} 1 2")
        else:
            lines.append(
                f'NET N{at} {" ".join(pins)}' + (f" M1.{at}" if rng.randrange(12) == 0 else "")
            )
    if rng.randrange(4):
        chain.append(f"PULL N{len(nets)} 1")
    rng.shuffle(lines)
    files = {"chain": "\n".join(chain) + "\n", "nets": "\n".join(lines) + "\n"}
    fitted = dict.fromkeys(kind for _, kind, _ in parts)
    return {**files, **{kind.name: kind.text(rng) for kind in fitted}}
