"""Boards from a seed for scripts/measure-explaining.py: larger than those of the checks, and made otherwise.

Each part has outputs in groups with a control cell each, inputs, pins on a bus that all parts share, and open drains. Outputs lead to
one to three inputs of any parts. The open drains are pulled up by the resistor packs RN1, RN2 and so on, which are on the supply VCC.
"""
import random

BSDL = '''entity {name} is
generic (PHYSICAL_PIN_MAP : string := "P");
port (TDI, TMS, TCK : in bit; TDO : out bit; O : out bit_vector(1 to {outputs}); I : in bit_vector(1 to {inputs});
      B : inout bit_vector(1 to {bus}); OD : inout bit_vector(1 to {drains}); VCC : linkage bit);
use STD_1149_1_1994.all;
attribute PIN_MAP of {name} : entity is PHYSICAL_PIN_MAP;
constant P : PIN_MAP_STRING := "TDI:T1, TDO:T2, TMS:T3, TCK:T4, VCC:V1, {map}";
attribute TAP_SCAN_IN of TDI : signal is true;
attribute TAP_SCAN_OUT of TDO : signal is true;
attribute TAP_SCAN_MODE of TMS : signal is true;
attribute TAP_SCAN_CLOCK of TCK : signal is (10.0e6, BOTH);
attribute INSTRUCTION_LENGTH of {name} : entity is 2;
attribute INSTRUCTION_OPCODE of {name} : entity is "BYPASS (11), EXTEST (00), SAMPLE (10)";
attribute INSTRUCTION_CAPTURE of {name} : entity is "01";
attribute BOUNDARY_LENGTH of {name} : entity is {length};
attribute BOUNDARY_REGISTER of {name} : entity is
{entries};
end {name};
'''


class Kind:
    """A device. Its pins have the numbers of a package with the kinds of pins in blocks."""

    def __init__(self, name, rng, outputs):
        self.name = name
        self.sizes = {'O': outputs, 'I': outputs * rng.randint(1, 2), 'B': rng.choice([4, 8, 16]), 'OD': rng.randint(1, 3)}
        self.group = rng.choice([4, 8, 16])
        self.pins, number = {}, 1
        for port in rng.sample(sorted(self.sizes), 4):
            self.pins[port] = [str(number + at) for at in range(self.sizes[port])]
            number += self.sizes[port]

    def text(self):
        entries, control = [], {}
        for at in range(self.sizes['O']):
            group = at // self.group
            if group not in control:
                control[group] = len(entries)
                entries.append('(BC_2, *, control, 1)')
            entries.append(f'(BC_1, O({at + 1}), output3, X, {control[group]}, 1, Z)')
        entries += [f'(BC_4, I({at + 1}), input, X)' for at in range(self.sizes['I'])]
        entries.append('(BC_2, *, control, 1)')
        last = len(entries) - 1
        entries += [f'(BC_7, B({at + 1}), bidir, X, {last}, 1, Z)' for at in range(self.sizes['B'])]
        for at in range(self.sizes['OD']):
            entries.append(f'(BC_1, OD({at + 1}), output2, 1, {len(entries)}, 1, WEAK1)')
            entries.append(f'(BC_4, OD({at + 1}), input, X)')
        numbered = ',"&\n'.join(f'"{at} {entry}' for at, entry in enumerate(entries)) + '"'
        ports = ', '.join(f'{port}:({",".join(names)})' for port, names in self.pins.items())
        return BSDL.format(name=self.name, outputs=self.sizes['O'], inputs=self.sizes['I'], bus=self.sizes['B'],
                           drains=self.sizes['OD'], map=ports, length=len(entries), entries=numbered)


def made(seed, parts=None, outputs=None):
    """The files of a board, as texts by their names."""
    rng = random.Random(f'measured {seed}')
    kinds = [Kind(f'M{at}', rng, outputs or rng.choice([12, 20, 28])) for at in range(2)]
    fitted = [(f'U{at}', rng.choice(kinds)) for at in range(1, (parts or rng.randint(4, 8)) + 1)]
    inputs = [f'{part}.{pin}' for part, kind in fitted for pin in kind.pins['I']]
    rng.shuffle(inputs)
    nets = [[f'{part}.{pin}'] for part, kind in fitted for pin in kind.pins['O']]
    for net in rng.sample(nets, len(nets)):
        net += [inputs.pop() for _ in range(rng.choice([1, 1, 1, 2, 3])) if inputs]
    lines = [f'NET S{at} {" ".join(pins)}' for at, pins in enumerate(nets, 1)]
    for line in range(max(kind.sizes['B'] for _, kind in fitted)):
        pins = [f'{part}.{kind.pins["B"][line]}' for part, kind in fitted if line < kind.sizes['B']]
        lines.append(f'NET BUS{line} {" ".join(pins)}')
    chain = [f'DEVICE {part} {kind.name} -' for part, kind in fitted]
    pulled = [pins for pins in drains(rng, fitted) if len(pins) > 1]
    packs = {}
    for at, pins in enumerate(pulled):
        pack = packs.setdefault(at // 4, f'RN{at // 4 + 1}')
        lines.append(f'NET IRQ{at} {" ".join(pins)} {pack}.{at % 4 + 2}')
        chain.append(f'PULL IRQ{at} 1')
    chain += [f'INERT {pack}' for pack in packs.values()] + ['SUPPLY VCC']
    lines.append('NET VCC ' + ' '.join([f'{part}.V1' for part, _ in fitted] + [f'{pack}.1' for pack in packs.values()]))
    rng.shuffle(lines)
    files = {'chain': '\n'.join(chain) + '\n', 'nets': '\n'.join(lines) + '\n'}
    return files | {kind.name: kind.text() for kind in {kind for _, kind in fitted}}


def drains(rng, fitted):
    """Nets of open drains, each of two parts or three."""
    pins = [f'{part}.{pin}' for part, kind in fitted for pin in kind.pins['OD']]
    rng.shuffle(pins)
    while pins:
        size = rng.choice([2, 3])
        yield pins[:size]
        pins = pins[size:]
