"""The model of a board: what is refused, and what nets have by docs/MODEL.md, "What a net has at
one moment"."""

from __future__ import annotations

import itertools
import unittest
from collections.abc import Iterator, Sequence

from tests.support import DEMO, EXAMPLES, NETS, PROGRAM, Bed, Folder, need, read_files, small_board

from btest_tools.board import wire
from btest_tools.btest import Btest
from btest_tools.files import BadInput
from btest_tools.model import Model, Short, play, read_faults
from btest_tools.scans import compared_scans, log_text

COVERED = ("D0", "D1", "D2", "D3", "A1", "IRQ")  # the covered nets of the demo board
UNTESTED = "U2.9"
REFUSED = [
    ("", "no fault is named"),
    ("good stuck:D0:0", "stands alone"),
    ("D0", "no such kind"),
    ("short:D0:D1", "no such kind"),
    ("stuck:D0", "the value is 0 or 1"),
    ("stuck:D0:2", "the value is 0 or 1"),
    ("stuck:D9:0", "no net D9 in"),
    ("stuck:A1R:0", "LINK lines join A1R to A1"),
    ("stuck:D0:0 stuck:D0:1", "has such a fault already"),
    ("and:D0", "two nets or more"),
    ("or:D0:D0", "two nets or more"),
    ("and:D0:D9", "no net D9 in"),
    ("dom:D0:A1R", "LINK lines join A1R to A1"),
    ("or:D0:GND", "the files don't say what GND carries"),
    ("dom:D0:CLK", "the files don't say what CLK carries"),
    ("and:D0:D1 or:D1:D2", "D1 is in two faults"),
    ("and:D0:D1 stuck:D1:0", "D1 is in two faults"),
    ("open:U1.99:0", "U1.99 is no pin with a boundary cell"),
    ("open:U1.12:0", "U1.12 is no pin with a boundary cell"),
    ("open:R1.1:0", "R1.1 is no pin with a boundary cell"),
    ("open:U2.3:0 open:U2.10:0", "U2.10 stands in no net"),
    ("pull:D0:0", "no PULL line"),
    ("swap:U1.1", "is no pin with a boundary cell"),
    ("swap:U1.1:U1.99", "U1.99 is no pin with a boundary cell"),
    ("swap:U1.1:U1.2 swap:U1.2:U1.3", "pin U1.2 is exchanged twice"),
    ("swap:U1.1:U1.1", "pin U1.1 is exchanged twice"),
]
DRIVES = {"D0": "U1.1", "D1": "U1.2", "D2": "U1.3", "D3": "U1.4", "A1": "U1.5"}  # in pass 1
# What nets read in the three rows of pass 1: the codes 1 to 6, the lowest bit in the first row.
CODES = {"D0": "100", "D1": "010", "D2": "110", "D3": "001", "A1": "101", "IRQ": "011"}
READS = [  # faults, and what some nets read in pass 1
    ("good", CODES),
    ("stuck:D0:0", {"D0": "000", "D1": "010"}),
    ("stuck:D0:1", {"D0": "111"}),
    ("and:D0:D1", {"D0": "000", "D1": "000", "D2": "110"}),
    ("or:D0:D1", {"D0": "110", "D1": "110"}),
    ("dom:D0:D1", {"D0": "100", "D1": "100"}),
    ("dom:D1:D0", {"D0": "010", "D1": "010"}),
    ("and:D2:A1:IRQ", {"D2": "000", "A1": "000", "IRQ": "000"}),
    ("or:D1:D3:A1", {"D1": "111", "D3": "111", "A1": "111"}),
    ("dom:D3:D1:D0", {"D3": "001", "D1": "001", "D0": "001"}),
    # The driver is open: its net reads the pull, or the pin's constant if there is no pull.
    ("open:U1.5:1", {"A1": "111"}),
    ("open:U1.5:0", {"A1": "000"}),
    # In a short with an open driver the nets have what the other one is driven to.
    ("and:D0:A1 open:U1.5:0", {"D0": "100", "A1": "100"}),
    ("or:D0:A1 open:U1.5:1", {"D0": "100", "A1": "100"}),
    ("dom:A1:D0 open:U1.5:1", {"D0": "100", "A1": "100"}),
    # The interrupt is an open drain: it is off in the rows with 1, and the pull gives the 1.
    ("pull:IRQ:0", {"IRQ": "000"}),
    ("and:D0:IRQ", {"D0": "000", "IRQ": "000"}),
    ("or:D0:IRQ", {"D0": "100", "IRQ": "100"}),
    ("swap:U1.1:U1.2", {"D0": "010", "D1": "100"}),
    ("swap:U1.1:U1.5", {"D0": "101", "A1": "100"}),
]


class Faults(unittest.TestCase):
    """Faults as texts."""

    def test_refused(self) -> None:
        board = read_files()
        for fault, line in REFUSED:
            with self.subTest(fault), self.assertRaises(BadInput) as caught:
                read_faults(board, fault)
            self.assertIn(line, str(caught.exception))

    def test_names_in_lower_case(self) -> None:
        self.assertEqual(read_faults(read_files(), "open:U1.1:1").opens, {"U1.1": 1})


class Reads(unittest.TestCase):
    """What nets read in pass 1 of the demo board, under the test that the guide shows."""

    def test_pass_one(self) -> None:
        bed = Bed()
        for fault, nets in READS:
            rows = bed.rows(fault)[:3]
            for name, bits in nets.items():
                with self.subTest(f"{name} under {fault}"):
                    self.assertEqual(self.read(bed, rows, name), {bits})

    def read(self, bed: Bed, rows: Sequence, name: str) -> set[str]:  # type: ignore[type-arg]
        """Returns what the compared cells of a net read."""
        mask = bed.test.passes[0].mask
        places = [reader.place for reader in bed.board.nets[name].readers]
        return {
            "".join(str(row.got >> place & 1) for row in rows)
            for place in places
            if mask >> place & 1
        }

    def test_an_open_receiver_alone_reads_its_value(self) -> None:
        bed = Bed()
        rows = bed.rows("open:U3.5:1")
        place = {reader.pin: reader.place for reader in bed.board.nets["A1"].readers}
        self.assertEqual({row.wrong for row in rows}, {0, 1 << place["U3.5"]})

    def test_two_drivers_are_told(self) -> None:
        bed = Bed()
        bed.rows("good")
        self.assertEqual(bed.model.fights, set())


class Stored(unittest.TestCase):
    """The logs in examples/."""

    def test_they_are_those_of_the_model(self) -> None:
        stored = [
            ("svf", "good", "good"),
            ("svf", "and:D0:D1", "shorted"),
            ("svf", "stuck:D0:0 open:U3.5:1", "two-faults"),
            ("walk", "or:D0:D1:A1", "three-shorted"),
        ]
        for command, fault, name in stored:
            bed = Bed()
            if command == "walk":
                bed.svf = walk_text()
            masks = [scan.mask for scan in compared_scans(bed.svf)]
            bed.model.set_faults(fault)
            rows = [row & mask for row, mask in zip(play(bed.model, bed.svf), masks)]
            lines = (EXAMPLES / f"{name}.log").read_text(encoding="ascii").split()
            right = [int(line, 16) & mask for line, mask in zip(lines, masks)]
            self.assertEqual((name, rows), (name, right))


def walk_text() -> str:
    """Returns the walking test of the guide."""
    # pylint: disable-next=import-outside-toplevel
    from tests.support import guide_svf

    return guide_svf("walk")


class Registers(Folder):
    """What is between TDI and TDO, and what it loads, with U2 of the small board nearest TDO."""

    def setUp(self) -> None:
        super().setUp()
        self.board = read_files(small_board(self.folder))
        self.model = Model(self.board)

    def play(self, *lines: str) -> list[int]:
        """Returns the rows that come back."""
        return play(self.model, "STATE RESET;\n" + "\n".join(lines))

    def test_instructions(self) -> None:
        # Each part loads 01, and what follows is what was shifted in.
        sizes = [part.length for part in reversed(self.board.parts)]
        bits = "".join("0" * (size - 2) + "01" for size in reversed(sizes))
        self.assertEqual(self.model.capture("ir"), list(map(int, reversed(bits))))
        whole = sum(sizes)
        self.assertEqual(self.play(f"SIR {whole} TDI (0) TDO (0) MASK (1);"), [])

    def test_bypass(self) -> None:
        # After a reset each of the three parts has one bit, which is 0.
        wanted = [len(part.identity) or 1 for part in reversed(self.board.parts)]
        self.assertEqual([state.size("dr") for state in reversed(self.model.states)], wanted)
        self.assertEqual(self.model.capture("dr"), [0] * sum(wanted))

    def test_bits_go_through(self) -> None:
        size = sum(state.size("dr") for state in self.model.states)
        row = f"SDR {size + 4} TDI (F) TDO (0) MASK (1);"
        self.assertEqual(self.play(row), [0xF << size & (1 << size + 4) - 1])

    def test_what_nothing_decides(self) -> None:
        # N1 has a pull, N2 has none, and nothing drives before the instruction is loaded.
        self.assertEqual(self.model.free, 0)
        levels = self.model.settle()
        self.assertEqual((levels.bits, levels.free), ({"N1": 1}, 0))
        self.model.put_faults(read_faults(self.board, "pull:N1:0 stuck:N2:1"))
        self.assertEqual(self.model.settle().bits, {"N1": 0, "N2": 1})
        self.model.free = 1
        self.model.put_faults(read_faults(self.board, "or:N1:N2"))
        self.assertEqual(self.model.settle().bits, {"N1": 1, "N2": 1})
        self.assertEqual(self.model.settle().free, 1)

    def test_cells_in_any_order(self) -> None:
        # The cells of a net are those of a pin in their own order, as in the boundary register.
        board = read_files()
        for part in board.parts:
            part.entries.reverse()
        for net in board.nets.values():
            net.readers.clear()
            net.drivers.clear()
            net.pins.clear()
        wire(board)
        good = read_files()
        for name, net in board.nets.items():
            self.assertEqual(net.readers, good.nets[name].readers)
            self.assertEqual(net.drivers, good.nets[name].drivers)


@unittest.skipUnless(PROGRAM, "no btest is given")
class Proved(Folder):
    """btest names each single fault for the log that the model gives under it."""

    def singles(self, names: Sequence[str], covered: Sequence[str]) -> Iterator[tuple[str, str]]:
        board = read_files(names)
        for net, value in itertools.product(covered, "01"):
            yield f"stuck:{net}:{value}", f"stuck {net} {value}"
        pins = sorted(pin for pin, net in board.net_of.items() if net.name in covered)
        for pin, value in itertools.product(pins, "01"):
            if pin.startswith("U") and pin != UNTESTED:
                yield f"open:{pin}:{value}", f"open {pin} {value}"
        for one, other in itertools.combinations(covered, 2):
            yield f"and:{one}:{other}", f"short AND {one} {other}"
            yield f"or:{other}:{one}", f"short OR {one} {other}"
            yield f"dom:{one}:{other}", f"short DOM {one} {other}"
            yield f"dom:{other}:{one}", f"short DOM {other} {one}"

    def compare(self, names: Sequence[str], covered: Sequence[str]) -> None:
        btest = Btest(need())
        svf = btest.run("svf", *names)
        model, logs = Model(read_files(names)), ""
        faults = [("good", "PASS"), *self.singles(names, covered)]
        size = compared_scans(svf)[0].size
        for fault, _ in faults:
            model.set_faults(fault)
            logs += f"BOARD {fault}\n{log_text(play(model, svf), size)}"
        answers = btest.run("batch", "4", self.write("day", logs), *names).split("BOARD ")[1:]
        self.assertEqual(len(answers), len(faults))
        for (_, line), answer in zip(faults, answers):
            self.assertIn(line, answer.splitlines())
        self.assertEqual(model.fights, set())

    def test_demo_board(self) -> None:
        self.compare(DEMO, COVERED)

    def test_small_board(self) -> None:
        self.compare(small_board(self.folder), ("N1", "N2"))

    def test_pulls(self) -> None:
        names = small_board(self.folder)
        btest = Btest(need())
        svf, model = btest.run("svf", *names), Model(read_files(names))
        for fault, line in (("open:U1.1:0", "stuck N1 1"), ("pull:N1:0 open:U1.1:1", "stuck N1 0")):
            model.set_faults(fault)
            log = self.write("log", log_text(play(model, svf), 5))
            self.assertIn(line, btest.run("diagnose", "1", log, *names).splitlines())

    def test_names_with_the_sign_between_names(self) -> None:
        names = small_board(self.folder, nets=NETS.replace("N1", "N:1").replace("N2", "N"))
        board = read_files(names)
        self.assertEqual(read_faults(board, "or:N:N:1").shorts, [Short("or", ("N", "N:1"))])


if __name__ == "__main__":
    unittest.main()
