#!/usr/bin/env python3
"""Writes boards whose nets have several drivers each, in shapes that differ in which drivers share a control.

    shapes.py FOLDER [SHAPE..]

Each board is one part, whose pins can all drive and be read. For a shape NAME there are the files NAME.chain, NAME.nets and NAME.bsd.
The files are the same at each run.
"""
import random
import sys

TEXT = """entity {name} is
generic (PHYSICAL_PIN_MAP : string := "P");
port (TDI, TMS, TCK : in bit; TDO : out bit; IO : inout bit_vector(1 to {pins}));
use STD_1149_1_1994.all;
attribute PIN_MAP of {name} : entity is PHYSICAL_PIN_MAP;
constant P : PIN_MAP_STRING := "TDI:T1, TDO:T2, TMS:T3, TCK:T4, IO:(" &
{numbers} & ")";
attribute TAP_SCAN_IN of TDI : signal is true;
attribute TAP_SCAN_OUT of TDO : signal is true;
attribute TAP_SCAN_MODE of TMS : signal is true;
attribute TAP_SCAN_CLOCK of TCK : signal is (10.0e6, BOTH);
attribute INSTRUCTION_LENGTH of {name} : entity is 2;
attribute INSTRUCTION_OPCODE of {name} : entity is "BYPASS (11), EXTEST (00), SAMPLE (10)";
attribute INSTRUCTION_CAPTURE of {name} : entity is "01";
attribute BOUNDARY_LENGTH of {name} : entity is {cells};
attribute BOUNDARY_REGISTER of {name} : entity is
{entries};
end {name};
"""


def drawn(nets, drivers, controls):
    """The drivers of a net draw different controls."""
    return lambda draw: [draw.sample(range(controls), drivers) for _ in range(nets)]


def own(nets, drivers):
    """Each driver has a control of its own."""
    return lambda draw: [[net * drivers + pin for pin in range(drivers)] for net in range(nets)]


def linked(nets):
    """Each net shares a control with the next one."""
    return lambda draw: [[net, net + 1] for net in range(nets)]


def woven(nets):
    """Each net shares a control with the next one and has one of its own, and one net more is driven by all that are shared."""
    return lambda draw: [list(range(nets))] + [[net, (net + 1) % nets, nets + net] for net in range(nets)]


SHAPES = {
    "eight": drawn(16000, 4, 8),
    "sixty-four": drawn(16000, 4, 64),
    "many": drawn(1000, 4, 512),
    "own": own(8000, 4),
    "quarter": drawn(4000, 16, 64),
    "linked": linked(16000),
    "woven": woven(10000),
    "pairs": drawn(4000, 6, 64),
    "added": drawn(1000, 2, 160),
}


def entries(nets):
    """The cells: first the controls, then one for each pin, net by net."""
    controls = 1 + max(control for drivers in nets for control in drivers)
    cells = ["%d (BC_1, *, control, 1)" % cell for cell in range(controls)]
    for control in (control for drivers in nets for control in drivers):
        pin = len(cells) - controls + 1
        cells.append("%d (BC_7, IO(%d), bidir, X, %d, 1, Z)" % (len(cells), pin, control))
    return cells


def write(folder, name, nets):
    cells = entries(nets)
    entity = name.upper().replace("-", "_")
    pins = sum(len(drivers) for drivers in nets)
    numbers = ["%d" % pin for pin in range(1, pins + 1)]
    with open("%s/%s.bsd" % (folder, name), "w") as text:
        text.write(TEXT.format(
            name=entity, pins=pins, cells=len(cells),
            numbers=",\" &\n".join('"' + ",".join(numbers[k:k + 500]) for k in range(0, pins, 500)) + '"',
            entries=" &\n".join('"%s%s"' % (cell, "," if k + 1 < len(cells) else "") for k, cell in enumerate(cells))))
    with open("%s/%s.chain" % (folder, name), "w") as text:
        text.write("DEVICE U1 %s -\n" % entity)
    with open("%s/%s.nets" % (folder, name), "w") as text:
        pin = 1
        for number, drivers in enumerate(nets, 1):
            text.write("NET N%d%s\n" % (number, "".join(" U1.%d" % (pin + k) for k in range(len(drivers)))))
            pin += len(drivers)


def main():
    folder, names = sys.argv[1], sys.argv[2:] or list(SHAPES)
    for name in names:
        write(folder, name, SHAPES[name](random.Random(name)))


main()
