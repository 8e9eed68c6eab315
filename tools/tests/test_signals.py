"""Parts as BSDL texts describe them, their registers, and a board behind its port. What comes was
worked out by hand from IEEE 1149.1 and docs/MODEL.md."""

from __future__ import annotations

import contextlib
import io
import os
import signal
import socket
import tempfile
import unittest
from types import SimpleNamespace
from typing import cast
from unittest import mock

from tests.support import DEMO, read_files

from btest_tools import bitbang
from btest_tools.bitbang import Port, ends_with_reader, player, serve
from btest_tools.board import Board, Driver, Entity, Entry, Net, Part, Reader, wire
from btest_tools.chain_faults import ChainPort, chain_fault
from btest_tools.explaining.rows import Columns, rows_of
from btest_tools.files import BadInput, Text
from btest_tools.logs import Failing, driven_in, facts, table
from btest_tools.model import Levels, Model, State
from btest_tools.scans import LogRow, Pass, Test

BSDL = """entity DEV is
generic (PHYSICAL_PIN_MAP : string := "P"); -- "Q" is another
port (TDI, TMS, TCK : in bit; TDO : out bit; A : in bit; B : inout bit_vector(3 downto 2);
      C : out bit_vector(0 to 1));
use STD_1149_1_1994.all;
constant P : PIN_MAP_STRING := "TDI:T1, TDO:T2, TMS:T3, TCK:T4, A:1, B:(2,3), C:(4,5)";
constant Q : PIN_MAP_STRING := "A:9, B:(8,7)";
attribute INSTRUCTION_LENGTH of DEV : entity is 2;
attribute INSTRUCTION_OPCODE of DEV : entity is "BYPASS (11), EXTEST (01), SAMPLE (1X)";
attribute IDCODE_REGISTER of DEV : entity is "0001" & "0010";
attribute BOUNDARY_LENGTH of DEV : entity is 6;
attribute BOUNDARY_REGISTER of DEV : entity is "0 (BC_1, *, control, 1), " &
  "1 (BC_1, A, input, X), 2 (BC_7, B(3), bidir, X, 0, 1, Z), 3 (BC_1, B(2), observe_only, X), " &
  "4 (BC_1, C(0), output3, X, 0, 0, Z), 5 (BC_1, C(1), output2, 1)";
end DEV;
"""


def part_of(text: str = BSDL, package: str = "-") -> Part:
    """Returns the part U1 that a text describes."""
    return Entity(Text("dev", text)).part("U1", package)


class Described(unittest.TestCase):
    """A part of a BSDL text."""

    def test_entries(self) -> None:
        self.assertEqual(
            part_of().entries,
            [
                Entry(0, "*", "CONTROL", -1, 0, False),
                Entry(1, "A", "INPUT", -1, 0, True),
                Entry(2, "B(3)", "BIDIR", 0, 1, True),
                Entry(3, "B(2)", "OBSERVE_ONLY", -1, 0, False),
                Entry(4, "C(0)", "OUTPUT3", 0, 0, False),
                Entry(5, "C(1)", "OUTPUT2", -1, 0, False),
            ],
        )
        self.assertEqual(
            part_of(BSDL.replace("A, input", "A, clock")).entries[1][2:], ("CLOCK", -1, 0, True)
        )

    def test_pins(self) -> None:
        bits = {"A": "1", "B(3)": "2", "B(2)": "3", "C(0)": "4", "C(1)": "5"}
        tap = {"TDI": "T1", "TDO": "T2", "TMS": "T3", "TCK": "T4"}
        self.assertEqual(part_of().pins, {bit: f"U1.{pin}" for bit, pin in {**tap, **bits}.items()})
        self.assertEqual(part_of(package="P").pins, part_of().pins)
        other = {"A": "U1.9", "B(3)": "U1.8", "B(2)": "U1.7"}
        self.assertEqual(part_of(package="Q").pins, other)

    def test_codes(self) -> None:
        # Up to the standard of 1994, EXTEST has the code of zeros, too. X is any bit.
        named = {"11": "BYPASS", "01": "EXTEST", "10": "SAMPLE"}
        self.assertEqual(part_of().codes, {"00": "EXTEST", **named})
        conforms = (
            'attribute COMPONENT_CONFORMANCE of DEV : entity is "STD_1149_1_2001";\nattribute'
        )
        for text in (BSDL.replace("1_1994", "1_2001"), BSDL.replace("attribute", conforms, 1)):
            self.assertEqual(part_of(text).codes, named)
        self.assertEqual(part_of(BSDL.replace("1X", "1X, 00")).codes["00"], "SAMPLE")

    def test_identity(self) -> None:
        # The highest bit of the code is first in the text, and the lowest is nearest TDO.
        self.assertEqual(part_of().identity, [0, 1, 0, 0, 1, 0, 0, 0])
        self.assertEqual(part_of(BSDL.replace("IDCODE_REGISTER", "OTHER")).identity, [])

    def test_lengths(self) -> None:
        what = "length of a register"
        for name, good, bad in (
            ("INSTRUCTION_LENGTH", (2, 255), (0, 1, 256)),
            ("BOUNDARY_LENGTH", (6, 65535), (0, 65536)),
        ):
            old = f"{name} of DEV : entity is {2 if name[0] == 'I' else 6};"
            for length in good:
                text = BSDL.replace(old, f"{name} of DEV : entity is {length};")
                self.assertIn(length, (part_of(text).length, part_of(text).cells))
            for length in bad:
                text = BSDL.replace(old, f"{name} of DEV : entity is {length};")
                with self.assertRaisesRegex(BadInput, f"^dev: no {what} that"):
                    part_of(text)

    def test_cells_beyond_the_register(self) -> None:
        for old, new in (("5 (BC_1", "6 (BC_1"), ("X, 0, 1, Z", "X, 6, 1, Z")):
            with self.assertRaisesRegex(BadInput, "^dev: no boundary register that"):
                part_of(BSDL.replace(old, new))

    def test_a_number_that_is_none(self) -> None:
        with self.assertRaisesRegex(BadInput, "^dev: no number that"):
            part_of(BSDL.replace("entity is 2;", "entity is two;"))

    def test_which_cells_drive_and_read(self) -> None:
        board = cast(Board, SimpleNamespace(parts=[part_of()], net_of={}))
        nets = {f"U1.{pin}": Net(f"N{pin}") for pin in range(1, 6)}
        board.net_of.update(nets)
        wire(board)
        drivers = {pin: net.drivers for pin, net in nets.items() if net.drivers}
        wanted = {
            "U1.2": [Driver("U1.2", 2, 0, 1)],
            "U1.4": [Driver("U1.4", 4, 0, 0)],
            "U1.5": [Driver("U1.5", 5, -1, 0)],
        }
        self.assertEqual(drivers, wanted)
        readers = {pin: net.readers for pin, net in nets.items() if net.readers}
        self.assertEqual(readers, {"U1.1": [Reader("U1.1", 1)], "U1.2": [Reader("U1.2", 2)]})
        self.assertEqual([net.pins for net in nets.values()], [[f"U1.{at}"] for at in range(1, 6)])


class Registers(unittest.TestCase):
    """What a part has between TDI and TDO."""

    def setUp(self) -> None:
        self.state = State(part_of())
        self.levels = Levels({"U1.1": "N", "U1.2": "M"}, {"U1.3": 1}, {"N": 1, "M": 0}, 0)

    def test_instructions(self) -> None:
        self.assertEqual(self.state.instruction, "IDCODE")
        for name, size in (
            ("IDCODE", 8),
            ("BYPASS", 1),
            ("EXTEST", 6),
            ("SAMPLE", 6),
            ("PRELOAD", 6),
            ("HIGHZ", 1),
        ):
            self.state.instruction = name
            self.assertEqual((self.state.size("dr"), self.state.size("ir")), (size, 2), name)
            self.assertEqual(len(self.state.captured("dr", self.levels)), size)
        self.assertEqual(self.state.captured("ir", self.levels), [1, 0])
        self.state.reset()
        self.assertEqual(self.state.instruction, "IDCODE")

    def test_what_is_captured(self) -> None:
        # Cells 1 to 3 read: N has 1, M 0, and the pin of cell 3 is open with 1.
        self.state.instruction = "EXTEST"
        self.assertEqual(self.state.captured("dr", self.levels), [0, 1, 0, 1, 0, 0])
        levels = Levels({}, {}, {}, 1)
        self.assertEqual(self.state.captured("dr", levels), [0, 1, 1, 1, 0, 0])
        self.state.instruction = "BYPASS"
        self.assertEqual(self.state.captured("dr", self.levels), [0])
        self.state.instruction = "IDCODE"
        self.assertEqual(self.state.captured("dr", self.levels), [0, 1, 0, 0, 1, 0, 0, 0])

    def test_what_is_taken(self) -> None:
        # The bit nearest TDO is first in a row, and last in a code.
        for row, name in (([1, 1], "BYPASS"), ([1, 0], "EXTEST"), ([0, 1], "SAMPLE")):
            self.state.update("ir", row)
            self.assertEqual(self.state.instruction, name)
        self.state.part.codes.pop("00")
        self.state.update("ir", [0, 0])
        self.assertEqual(self.state.instruction, "BYPASS")
        self.state.update("dr", [1] * 6)
        self.assertEqual(self.state.latches, [0] * 6)
        self.state.update("ir", [0, 1])
        self.state.update("dr", [1] * 6)
        self.assertEqual(self.state.latches, [1] * 6)

    def test_who_drives(self) -> None:
        # B(3) is off while the control cell holds 1, and C(0) while it holds 0. C(1) always drives.
        self.state.instruction = "EXTEST"
        for latches, live in (
            ([0, 0, 1, 0, 1, 0], [("U1.2", 1), ("U1.5", 0)]),
            ([1, 0, 1, 0, 1, 1], [("U1.4", 1), ("U1.5", 1)]),
        ):
            self.state.latches = latches
            self.assertEqual(list(self.state.live()), live)
        self.state.instruction = "SAMPLE"
        self.assertEqual(list(self.state.live()), [])


class Passes(unittest.TestCase):
    """The passes of a test."""

    def test_what_is_in_the_latches(self) -> None:
        # Before the first scan they hold 0.
        test = Test("SDR 6 TDI (01) TDO (02) MASK (03);\nSDR 6 TDI (04) TDO (05) MASK (03);")
        self.assertEqual(test.passes, [Pass(3, [2, 5], [0, 1])])
        text = "SIR 2 TDI (1) TDO (1) MASK (3);\nSTATE RESET;\n"
        row = "SDR 6 TDI (0{0}) TDO (0{0}) MASK (3F);\n"
        rows = "".join(map(row.format, "123"))
        test = Test(f"{text}SDR 6 TDI (09);\nSDR 6 TDI (0A);\n{rows}SDR 6 TDI (0B);\n{text}{rows}")
        wanted = [Pass(63, [1, 2, 3], [10, 1, 2]), Pass(63, [1, 2, 3], [11, 1, 2])]
        self.assertEqual(test.passes, wanted)
        self.assertEqual(list(test.wanted())[3], (test.passes[1], 1))

    def test_who_drives_in_a_pass(self) -> None:
        # The control cell is at place 1. It holds 1, 0 in the first pass and 0, 0 in the second.
        row = "SDR 2 TDI ({}) TDO (0) MASK (1);\n".format
        test = Test(f"SDR 2 TDI (2);\n{row(0)}{row(0)}SDR 2 TDI (0);\n{row(0)}{row(0)}")
        self.assertEqual([one.shifted for one in test.passes], [[2, 0], [0, 0]])
        net = Net("A", drivers=[Driver("P", 0, 1, 0), Driver("Q", 0, 1, 1), Driver("R", 0, -1, 0)])
        self.assertEqual(test.drivers(net), [["P", "Q", "R"], ["Q", "R"]])
        test.passes[0].shifted = [2, 2]
        self.assertEqual(test.drivers(net), [["P", "R"], ["Q", "R"]])

    def test_what_is_expected(self) -> None:
        # The first pass compares neither cell, the second the second one alone.
        test = Test("")
        test.passes = [Pass(0b001, [1, 0], [0, 0]), Pass(0b100, [0b100, 0b011], [0, 0])]
        net = Net("A", readers=[Reader("P", 1), Reader("Q", 2)])
        self.assertEqual(test.expected(net), "10")
        self.assertEqual(test.expected(Net("B", readers=net.readers[:1])), "")

    def test_columns_of_short_rows(self) -> None:
        self.assertEqual(Columns([1, 0, 1, 0], [0], 1)[0], 0b0101)
        columns = Columns([0b01, 0b10, 0b10], [1, 0], 2)
        self.assertEqual((columns[0], columns[1]), (0b001, 0b110))

    def test_rows_of_a_model(self) -> None:
        board = read_files()
        test = Test("")
        test.size = board.size
        reader = board.nets["D0"].readers[0]
        test.passes = [Pass(1 << reader.place, [1 << reader.place, 0], [0, 0])]
        rows = rows_of(
            board, [(test, [LogRow(1 << reader.place, 0), LogRow(0, 1 << reader.place)])]
        )
        wire_of = rows.wires["D0"]
        self.assertEqual((wire_of.mask, wire_of.expected, wire_of.differs), (0b11, 0b01, 0b10))
        self.assertEqual([probe.pin for probe in wire_of.probes], [reader.pin])
        self.assertEqual(rows.all, 0b11)


class Told(unittest.TestCase):
    """What is told of a net, whose cells and passes are made up."""

    def net(self, *reads: list[object], drivers: object = None) -> Failing:
        """Returns a net of which the cells U1.1, U2.1 and so on read bits in each pass."""
        readers = [(f"U{at}.1", one) for at, one in enumerate(reads, 1)]
        passes = len(reads[0])
        return Failing(Net("A"), "10", readers, drivers or [["U9.1"]] * passes)  # type: ignore[arg-type]

    def test_reads(self) -> None:
        one = self.net(["10", "11", None, "01"], ["10", "10", None, None])
        self.assertEqual(one.reads, ["10", "", None, "01"])
        self.assertEqual((one.pins, one.wrong), (["U1.1", "U2.1"], ["U1.1"]))

    def test_likeness(self) -> None:
        one = self.net(["10", None, "01"])
        for reads, alike in (
            (["10", "11", "01"], True),
            (["10", None, None], True),
            (["10", None, "11"], False),
            ([None, "01", None], False),
        ):
            self.assertEqual(one.is_like(self.net(cast(list[object], reads))), alike, reads)

    def test_constants(self) -> None:
        for reads, line in (
            ((["00", None], ["00", "00"]), "reads 0 at all receivers in every row"),
            ((["11", "11"],), "reads 1 at all receivers in every row"),
            ((["00", "11"],), None),
            ((["01", "01"],), None),
        ):
            lines = list(facts(self.net(*cast(list[list[object]], reads)), [], False))
            self.assertEqual(lines[0] if len(lines) > 1 else None, line)

    def test_one_pin_alone(self) -> None:
        alone = "U1.1 alone differs, the other receivers are right"
        self.assertIn(alone, list(facts(self.net(["00"], ["10"]), [], False)))
        self.assertNotIn(alone, list(facts(self.net(["01"], ["01"]), [], False)))
        self.assertNotIn(alone, list(facts(self.net(["01"]), [], False)))

    def test_drivers(self) -> None:
        # In the second pass the net isn't read.
        drivers = [["U9.1"], ["U8.1"], ["U9.1", "U7.1"]]
        one = self.net(["10", None, "10"], drivers=drivers)
        self.assertEqual(list(driven_in(one)), [("U9.1", [1, 3]), ("U7.1", [3])])

    def test_columns(self) -> None:
        one = self.net(["10", "11", "10", None])
        self.assertEqual([column.passes for column in one.columns()], [[1, 3, 4], [2]])
        many = self.net([f"{at:04b}" for at in range(13)])
        self.assertEqual([len(many.columns(most)) for most in (11, 12, 13)], [11, 12, 13])
        self.assertEqual(len(many.columns()), 12)

    def test_tables(self) -> None:
        # A pin of ten letters has 13 columns and a cell of seven bits 29: three cells make it 100.
        reads = [f"{at:07b}" for at in range(4)]
        one = Failing(Net("A"), "1010101", [("U12345.123", reads)], [[]] * 4)
        for room, widths in ((100, (3, 1)), (99, (2, 2)), (10, (1, 1, 1, 1))):
            lines = list(table(one, room))
            self.assertEqual([line.count("pass") for line in lines[::2]], list(widths))
        self.assertEqual(list(table(one)), list(table(one, 100)))
        head = "  pin          pass 1: expected / got       pass 2                       pass 3"
        self.assertEqual(list(table(one))[0], head)


class Clocked(unittest.TestCase):
    """The port of a board, clock by clock."""

    def test_latches_move_as_the_clock_falls(self) -> None:
        model = mock.Mock(fights=set(), **{"capture.return_value": [1, 0]})
        port = Port(model)
        for tms in (0, 1, 0, 0, 1, 1):  # to Update-DR, with a bit shifted
            port.pins(1, tms, 1)
            port.pins(0, tms, 1)
        self.assertEqual(port.state, "update-dr")
        model.update.assert_called_once_with("dr", port.row)
        port.pins(0, 0, 0)
        model.update.assert_called_once()
        port = Port(model)
        port.state, port.clock = "update-dr", 1
        port.pins(1, 0, 0)
        model.update.assert_called_once()
        port.state = "reset"
        port.pins(1, 1, 0)
        model.reset.assert_not_called()
        port.pins(0, 1, 0)
        model.reset.assert_called_once()

    def test_nets_with_two_drivers_are_told_once(self) -> None:
        model = mock.Mock(fights={"C"})
        with contextlib.redirect_stderr(io.StringIO()) as err:
            port = Port(model)
            model.capture.side_effect = lambda register: model.fights.update("BA") or [0]
            port.capture("dr")
            port.capture("dr")
        self.assertEqual(err.getvalue(), "two drivers on A\ntwo drivers on B\n")
        self.assertEqual(port.row, [0])

    def test_a_pipe_whose_reader_may_end(self) -> None:
        self.addCleanup(mock.patch.stopall)
        system = mock.patch.object(bitbang, "sys").start()
        reading, writing = os.pipe()
        with os.fdopen(writing, "w") as system.stdout, socket.create_server(
            ("127.0.0.1", 0)
        ) as server:
            self.assertTrue(ends_with_reader())
            os.close(reading)
            with self.assertRaisesRegex(BadInput, "ended without one$"):
                player(server, 20)
        with tempfile.TemporaryFile("w") as system.stdout:
            self.assertFalse(ends_with_reader())
        system.stdout = None
        self.assertFalse(ends_with_reader())

    def test_ctrl_c_is_for_the_player(self) -> None:
        for is_piped in (True, False):
            with mock.patch.object(bitbang, "ends_with_reader", return_value=is_piped):
                with mock.patch.object(bitbang, "put") as put:
                    with mock.patch("btest_tools.bitbang.signal.signal") as handler:
                        serve(0, 1, [])
            self.assertEqual(
                handler.call_args_list, [mock.call(signal.SIGINT, signal.SIG_IGN)] * is_piped
            )
            self.assertRegex(put.call_args[0][0], r"^listening on port \d+\n$")


class Chains(unittest.TestCase):
    """Chains with faults. The demo board has U1, U2, U3 and U4, which is at TDO."""

    def test_cables(self) -> None:
        board = read_files()
        for fault, is_pulled in (
            ("good", False),
            ("cable", True),
            ("cable chain:U3:0", True),
            ("chain:U3:0", False),
            ("1@cable", False),
        ):
            port = ChainPort(board, fault)
            self.assertEqual(port.is_pulled, is_pulled, fault)
            port.capture("ir")
            self.assertEqual(port.is_pulled, is_pulled or "@" in fault)

    def test_places_at_which_it_is_open(self) -> None:
        board = read_files()
        for fault, openings in (
            ("chain:U4:0", [(0, 0)]),
            ("chain:U3:1", [(3, 1)]),
            ("missing:U2", [(6, 1)]),
            ("chain:U1:0 chain:U4:1", [(14, 0), (0, 1)]),
            ("code:U1:-", []),
            ("cable", []),
        ):
            port = ChainPort(board, fault)
            port.state = "shift-ir"
            self.assertEqual(port.openings(), openings, fault)

    def test_bits_at_an_open_place(self) -> None:
        port = ChainPort(read_files(), "chain:U3:0")
        port.state, port.row = "shift-ir", [1] * 18
        port.shift(1)
        self.assertEqual(port.row, [1, 1, 0] + [1] * 15)
        self.assertEqual(port.tdo(), 1)
        port = ChainPort(read_files(), "chain:U4:0")
        port.state, port.row = "shift-ir", [1] * 18
        port.shift(1)
        self.assertEqual((port.row, port.tdo()), ([1] * 18, 0))

    def test_a_part_that_is_missing_drives_nothing(self) -> None:
        port = ChainPort(read_files(), "missing:U2")
        for state in port.model.states:
            state.instruction = "EXTEST"
        with contextlib.redirect_stderr(io.StringIO()):
            port.capture("dr")
        told = [state.instruction for state in port.model.states]
        self.assertEqual(told, ["EXTEST", "BYPASS", "EXTEST", "EXTEST"])

    def test_faults_that_come_and_go(self) -> None:
        port = ChainPort(read_files(), "2-2@stuck:D0:0 2@code:U1:- good")
        identity = port.model.states[0].part.identity
        for stuck, code in (({}, identity), ({"D0": 0}, []), ({}, [])):
            port.capture("ir")
            self.assertEqual(port.model.faults.stuck, stuck)
            self.assertEqual(port.model.states[0].part.identity, code)
        self.assertEqual(port.scan, 3)

    def test_refusals(self) -> None:
        board = read_files()
        for word, line in (
            ("chain:U1", "no such kind; there are good, "),
            ("missing:U1:1", "no such kind"),
            ("chain:U9:1", f"no part U9 in {DEMO[0]}"),
            ("chain:U1:2", "the value is 0 or 1"),
            ("chain:U1:-", "the value is 0 or 1"),
            ("code:U1:0", "the value is 8 hexadecimal digits, the last of them odd, or -"),
            ("code:U1:12345678", "the value is 8 hexadecimal digits"),
        ):
            with self.assertRaises(BadInput) as why:
                chain_fault(board, word)
            self.assertTrue(str(why.exception).startswith(f"fault {word}: {line}"), why.exception)
        code = chain_fault(board, "code:U2:0000000B")
        assert code
        self.assertEqual((code.kind, code.part, sum(code.code)), ("code", 1, 3))
        self.assertEqual(code.code[:4], (1, 1, 0, 1))
        one = chain_fault(board, "missing:U3")
        self.assertEqual(one and (one.part, one.value), (2, 1))

    def test_models_keep_the_free_bit(self) -> None:
        model = Model(read_files())
        self.assertEqual((model.free, model.fights), (0, set()))


if __name__ == "__main__":
    unittest.main()
