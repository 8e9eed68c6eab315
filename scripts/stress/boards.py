"""Small devices and boards, and what the program answers for them: worked out by hand from docs/GUIDE.md, never taken from a run."""
from typing import NamedTuple


class Case(NamedTuple):
    """A command line, the files that it names, and the answer."""
    words: list
    files: dict
    out: bytes = b''
    status: int = 0
    err: bytes = b''


def device(name, ports, pins, entries, more=''):
    """The BSDL text of a device with two instruction bits."""
    cells = 1 + max(int(entry.split()[0]) for entry in entries)
    boundary = ',"&\n"'.join(entries)
    return f'''entity {name} is
generic (PHYSICAL_PIN_MAP : string := "P");
port (TDI, TMS, TCK : in bit; TDO : out bit; {ports});
use STD_1149_1_1994.all;
attribute PIN_MAP of {name} : entity is PHYSICAL_PIN_MAP;
constant P : PIN_MAP_STRING := "TDI:T1, TDO:T2, TMS:T3, TCK:T4, {pins}";
attribute TAP_SCAN_IN of TDI : signal is true;
attribute TAP_SCAN_OUT of TDO : signal is true;
attribute TAP_SCAN_MODE of TMS : signal is true;
attribute TAP_SCAN_CLOCK of TCK : signal is (10.0e6, BOTH);
attribute INSTRUCTION_LENGTH of {name} : entity is 2;
attribute INSTRUCTION_OPCODE of {name} : entity is "BYPASS (11), EXTEST (00), SAMPLE (10)";
attribute INSTRUCTION_CAPTURE of {name} : entity is "01";
attribute BOUNDARY_LENGTH of {name} : entity is {cells};
{more}attribute BOUNDARY_REGISTER of {name} : entity is
"{boundary}";
end {name};
'''.encode()


def lines(*items):
    return ''.join(item + '\n' for item in items).encode()


def svf(*scans):
    head = ('TRST OFF;', 'ENDIR IDLE;', 'ENDDR IDLE;', 'STATE RESET;', 'STATE IDLE;')
    return lines(*head, *scans, 'STATE RESET;')


DRV = device('DRV', 'Q : out bit_vector(1 to 2)', 'Q:(1,2)', ['0 (BC_1, Q(1), output2, X)', '1 (BC_1, Q(2), output2, X)'])
RCV = device('RCV', 'D : in bit_vector(1 to 2)', 'D:(1,2)', ['0 (BC_1, D(1), input, X)', '1 (BC_1, D(2), input, X)'])
ONE = device('ONE', 'D : in bit', 'D:1', ['0 (BC_1, D, input, X)'])
TRI = device('TRI', 'Q : out bit', 'Q:1', ['0 (BC_1, Q, output3, X, 1, 1, Z)', '1 (BC_1, *, control, 1)'])
BUS = device('BUS', 'B : inout bit', 'B:1', ['0 (BC_7, B, bidir, X, 1, 1, Z)', '1 (BC_1, *, control, 1)'])
OD = device('OD', 'Q : out bit', 'Q:1', ['0 (BC_1, Q, output2, 1, 0, 1, WEAK1)'])
TWO = device('TWO', 'Q : out bit_vector(1 to 4)', 'Q:(1,2,3,4)', [
    '0 (BC_1, Q(1), output3, X, 4, 1, Z)', '1 (BC_1, Q(2), output3, X, 4, 1, Z)', '2 (BC_1, Q(3), output3, X, 5, 1, Z)',
    '3 (BC_1, Q(4), output3, X, 5, 1, Z)', '4 (BC_1, *, control, 1)', '5 (BC_1, *, control, 1)'])
CODED = device('CODED', 'Q : out bit_vector(1 to 2)', 'Q:(1,2)', ['0 (BC_1, Q(1), output2, X)', '1 (BC_1, Q(2), output2, X)'],
               'attribute IDCODE_REGISTER of CODED : entity is "XXXX0001001000110100" & "000000000111";\n')
LATER = DRV.replace(b'DRV', b'LATER').replace(b'1149_1_1994', b'1149_1_2001').replace(
    b'EXTEST (00), SAMPLE (10)', b'EXTEST (01), SAMPLE (10), PRELOAD (00)').replace(
    b'end LATER', b'attribute COMPONENT_CONFORMANCE of LATER : entity is "STD_1149_1_2001";\nend LATER')
BUFFER = b'''-- two-bit three-state buffer
entity buf2 is
  generic (physical_pin_map : string := "dw");
  port (oe_n : in bit;
        a : in bit_vector(1 downto 0);
        y : out bit_vector(1 downto 0);
        gnd, vcc : linkage bit;
        tdi, tms, tck : in bit; tdo : out bit);
  use std_1149_1_1990.all;
  attribute pin_map of buf2 : entity is physical_pin_map;
  constant dw : pin_map_string := "oe_n:1, a:(2,3), y:(4,5), " &
    "gnd:6, vcc:7, tdi:8, tms:9, tck:10, tdo:11";
  constant fk : pin_map_string := "oe_n:A1, a:(A2,A3), y:(B1,B2), " &
    "gnd:C1, vcc:C2, tdi:D1, tms:D2, tck:D3, tdo:D4";
  attribute tap_scan_clock of tck : signal is (20.0e6, BOTH);
  attribute tap_scan_in of tdi : signal is true;
  attribute tap_scan_out of tdo : signal is true;
  attribute tap_scan_mode of tms : signal is true;
  attribute port_grouping of buf2 : entity is "none";
  attribute design_warning of buf2 : entity is "read this; it is read over";
  attribute boundary_length of buf2 : entity is 5;
  attribute boundary_register of buf2 : entity is
    "4 (bc_1, oe_n, input, x), 4 (bc_1, *, control, 1), " &
    "3 (bc_1, a(1), input, x), 2 (bc_1, a(0), input, x), " &
    "1 (bc_1, y(1), output3, x, 4, 1, z), " &
    "0 (bc_1, y(0), output3, x, 4, 1, z)";
  attribute instruction_length of buf2 : entity is 2;
  attribute instruction_opcode of buf2 : entity is
    "extest (00), sample (10), bypass (11, 01)";
  attribute instruction_capture of buf2 : entity is "01";
end buf2;
'''

PAIR = {'c': lines('DEVICE U1 DRV -', 'DEVICE U2 RCV -'), 'n': lines('NET N1 U1.1 U2.1', 'NET N2 U1.2 U2.2'), 'drv': DRV, 'rcv': RCV}
THREE = {'c': lines('DEVICE U1 DRV -', 'DEVICE U2 DRV -', 'DEVICE U3 RCV -', 'DEVICE U4 RCV -'),
         'n': lines('NET N1 U1.1 U3.1', 'NET N2 U1.2 U3.2', 'NET N3 U2.1 U4.1'), 'drv': DRV, 'rcv': RCV}
BOARD = ['c', 'n', 'drv', 'rcv']

# One case of each command, and two that are refused. Each shows the command at work; together they go through every file and stream.
CASES = {
    'chain': Case(['chain', 'c'], {'c': lines('BYPASS U1 4', 'BYPASS U2 2')},
                  svf('SIR 6 TDI (3F) TDO (05) MASK (0F);', 'SDR 10 TDI (0A5) TDO (294) MASK (3FF);')),
    'device': Case(['device', 'buf2'], {'buf2': BUFFER}, lines(
        'ENTITY BUF2', 'PACKAGE DW', 'IR 2 SAMPLE 10 IDCODE -', 'PORT OE_N IN 1', 'PORT A IN 2 3', 'PORT Y OUT 4 5',
        'PORT GND LINKAGE 6', 'PORT VCC LINKAGE 7', 'PORT TDI IN 8', 'PORT TMS IN 9', 'PORT TCK IN 10', 'PORT TDO OUT 11',
        'CELL 0 OUTPUT3 Y(0) X 4 1', 'CELL 1 OUTPUT3 Y(1) X 4 1', 'CELL 2 INPUT A(0) X', 'CELL 3 INPUT A(1) X',
        'CELL 4 INPUT OE_N X', 'CELL 4 CONTROL * 1')),
    'cover': Case(['cover', 'c', 'n', 'two', 'rcv'], {
        'c': lines('DEVICE U1 TWO -', 'DEVICE U2 RCV -', 'DEVICE U3 RCV -'),
        'n': lines('NET A U1.1 U2.1', 'NET X U1.2 U1.3 U2.2', 'NET B U1.4 U3.1'), 'two': TWO, 'rcv': RCV},
        lines('NETS 3 COVERED 3', 'PAIR A B')),
    'svf': Case(['svf', *BOARD], PAIR, svf(
        'SIR 4 TDI (A) TDO (5) MASK (F);', 'SDR 4 TDI (0);', 'SIR 4 TDI (0) TDO (5) MASK (F);', 'SDR 4 TDI (4);',
        'SDR 4 TDI (8) TDO (1) MASK (3);', 'SDR 4 TDI (0) TDO (2) MASK (3);')),
    'diagnose': Case(['diagnose', '4', 'g', *BOARD], {'g': lines('0', '2'), **PAIR},
                     lines('FAIL 3', 'stuck N1 0', 'open U1.1 0', 'open U2.1 0')),
    'make': Case(['make', '2'], {}, lines('DEVICES 2 NETS 72 COVERED 72 PASSES 2 SCANS 19 BYTES 2373')),
    'ident': Case(['ident', 'c', 'coded', 'rcv'], {'c': lines('DEVICE U1 CODED -', 'DEVICE U2 RCV -'), 'coded': CODED, 'rcv': RCV},
                  svf('SDR 33 TDI (000000000) TDO (00246800E) MASK (01FFFFFFF);')),
    'walk': Case(['walk', *BOARD], THREE, svf(
        'SIR 8 TDI (AA) TDO (55) MASK (FF);', 'SDR 8 TDI (00);', 'SIR 8 TDI (00) TDO (55) MASK (FF);', 'SDR 8 TDI (40);',
        'SDR 8 TDI (80) TDO (04) MASK (0D);', 'SDR 8 TDI (10) TDO (08) MASK (0D);', 'SDR 8 TDI (00) TDO (01) MASK (0D);')),
    'groups': Case(['groups', 'g', *BOARD], {'g': lines('05', '08', '05'), **THREE},
                   lines('GROUPS 1', 'GROUP 2', 'NET N1', 'NET N3')),
    'batch': Case(['batch', '4', 'g', *BOARD], {'g': lines('BOARD A', '1', '2', 'BOARD B', '0', '2'), **PAIR},
                  lines('BOARD A', 'PASS', 'BOARD B', 'FAIL 3', 'stuck N1 0', 'open U1.1 0', 'open U2.1 0')),
    'svf, refused': Case(['svf', 'c', 'n', 'drv'], {**PAIR, 'c': lines('DEVICE U1 DRV -', 'DEVICE U2 DRV -')},
                         status=1, err=lines('n line 1 word 4: two drivers always on')),
    'no words': Case([], {}, status=2, err=lines(
        'usage: btest chain, device, cover, svf, diagnose, make, ident, walk, groups or batch')),
}
