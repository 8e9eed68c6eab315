"""The quick model against the model that works bit by bit, which shares no code with it."""

from __future__ import annotations

import random
import unittest
from unittest import mock
from collections.abc import Iterator

from tests import seeded_boards
from tests.support import PROGRAM, Bed, Folder

from btest_tools.explaining.faults import Fault, fault_of, faults_of
from btest_tools.explaining.rows import Columns, Rows, Source, combined, places_of, rows_of
from btest_tools.explaining.sets import explain
from btest_tools.model import Faults, read_faults
from btest_tools.scans import LogRow

KINDS = ("stuck", "open", "and", "or", "dom", "pull", "swap")


def rows_of_bed(bed: Bed, rows: list[LogRow]) -> Rows:
    """Returns the quick model with a log."""
    return rows_of(bed.board, [(bed.test, rows)])


def random_faults(rng: random.Random, bed: Bed) -> Iterator[str]:
    """Yields faults of a board, on nets of their own."""
    nets = [net for net in bed.board.nets.values() if net.drivers and not net.is_supply]
    rng.shuffle(nets)
    for _ in range(rng.randint(1, 3)):
        kind = rng.choice(KINDS)
        mine = [nets.pop() for _ in range(rng.randint(2, 3))]
        pins = [reader.pin for net in mine for reader in net.readers]
        pins += [driver.pin for net in mine for driver in net.drivers]
        value = rng.randrange(2)
        if kind in ("and", "or", "dom"):
            yield ":".join([kind, *(net.name for net in mine)])
            if rng.randrange(2):
                yield f"open:{rng.choice(pins)}:{value}"
        elif kind == "pull" and mine[0].pull is not None:
            yield f"pull:{mine[0].name}:{value}"
        elif kind == "swap":
            yield f"swap:{mine[0].drivers[0].pin}:{mine[1].drivers[0].pin}"
        elif kind == "stuck":
            yield f"stuck:{mine[0].name}:{value}"
        else:
            yield f"open:{rng.choice(pins)}:{value}"


class Small(unittest.TestCase):
    """Single functions, worked by hand."""

    def test_combined(self) -> None:
        # Rows 0 to 3, from the lowest bit: only the first, only the second, both, none.
        parts = [(0b0101, 0b0100), (0b0110, 0b0010)]
        self.assertEqual(combined("and", parts), (0b0111, 0b0010))
        self.assertEqual(combined("or", parts), (0b0111, 0b0110))
        self.assertEqual(combined("dom", parts), (0b0111, 0b0110))
        self.assertEqual(combined("dom", parts[::-1]), (0b0111, 0b0010))

    def test_columns(self) -> None:
        columns = Columns([0b001, 0b011, 0b100], [0, 2], 3)
        self.assertEqual((columns[0], columns[2]), (0b011, 0b100))
        self.assertEqual(Columns([1], [], 1).columns, [])

    def test_faults(self) -> None:
        lines = ["stuck D0 0", "open U3.5 1", "short AND D0 D1", "short DOM D1 D0 A1", "pull I 0"]
        for line in lines:
            self.assertEqual(fault_of(line).line(), line)
        self.assertEqual(fault_of("short OR A B"), Fault("or", ("A", "B")))
        board = Bed().board
        self.assertEqual(Fault("swap", ("U1.1", "U3.2")).nets(board), ["D0", "D1"])
        self.assertEqual(Fault("and", ("D0", "A1")).nets(board), ["D0", "A1"])
        same = faults_of([fault_of("stuck D0 0"), Fault("swap", ("U1.2", "U1.3"))])
        self.assertEqual(same, read_faults(board, "stuck:D0:0 swap:U1.2:U1.3"))

    def test_rows_with_two_drivers(self) -> None:
        # Of the rows 0 to 2 both drivers are on in row 1, so nothing decides what the net has there.
        bed = Bed()
        rows = Rows(bed.board, 3)
        wire = mock.Mock(net=mock.Mock(pull=None))
        both = [Source("U1.1", 0b011, 0b001), Source("U2.1", 0b110, 0b100)]
        feed = rows.feed(wire, Faults(), both)
        self.assertEqual((feed.fed, feed.bits, feed.broken), (0b101, 0b101, 0))
        feed = rows.feed(wire, faults_of([fault_of("open U2.1 1")]), both)
        self.assertEqual((feed.fed, feed.broken, feed.broken_bits), (0b001, 0b100, 0b110))


class Demo(unittest.TestCase):
    """The demo board."""

    def test_good(self) -> None:
        bed = Bed()
        rows = rows_of_bed(bed, bed.rows("good"))
        self.assertEqual(rows.size, 12)
        self.assertEqual(rows.differing(), [])
        self.assertTrue(rows.explains(Faults()))
        for wire in rows.wires.values():
            level = rows.levels([wire.name], Faults())[wire.name]
            self.assertEqual((level.bits ^ wire.expected) & wire.mask, 0, wire.name)
            self.assertEqual(level.free & wire.mask, 0, wire.name)

    def test_what_explains(self) -> None:
        bed = Bed()
        rows = rows_of_bed(bed, bed.rows("and:D0:D1 open:U3.5:1"))
        self.assertEqual([wire.name for wire in rows.differing()], ["D0", "D1", "A1"])
        for text, right in (
            ("and:D0:D1 open:U3.5:1", True),
            ("stuck:D0:0 stuck:D1:0 open:U3.5:1", True),
            ("and:D0:D1", False),
            ("or:D0:D1 open:U3.5:1", False),
            ("and:D0:D1 open:U3.5:0", False),
            ("and:D0:D1 open:U3.5:1 stuck:D2:0", False),
        ):
            self.assertEqual(rows.explains(read_faults(bed.board, text)), right, text)

    def test_a_board_that_is_too_large(self) -> None:
        bed = Bed()
        log = bed.rows("stuck:D0:0 open:U3.5:1 stuck:IRQ:0")
        whole = sum(len(places_of(net)) for net in bed.board.nets.values())
        with mock.patch("btest_tools.explaining.rows.CELLS", 12 * whole - 1):
            rows = rows_of_bed(bed, log)
        self.assertEqual((list(rows.wires), rows.beyond), (["D0", "A1", "IRQ"], []))
        # D0 has three readers and four drivers, each with two cells.
        with mock.patch("btest_tools.explaining.rows.CELLS", 12 * 11):
            rows = rows_of_bed(bed, log)
            explained = explain(bed.board, [(bed.test, log)])
        self.assertEqual((list(rows.wires), rows.beyond), (["D0"], ["A1", "IRQ"]))
        self.assertEqual(explained.differing, ["D0", "A1", "IRQ"])
        self.assertEqual(explained.left, ["A1", "IRQ"])
        self.assertEqual(len(explained.ranks), 1)

    def test_a_bit_that_nothing_decides_is_not_explained(self) -> None:
        bed = Bed()
        # Both nets of the short have an open driver in pass 1 and no pull.
        text = "and:D0:A1 open:U1.1:0 open:U1.5:0"
        rows = rows_of_bed(bed, bed.rows(text))
        self.assertFalse(rows.explains(read_faults(bed.board, text)))


@unittest.skipUnless(PROGRAM, "no btest is given")
class Seeded(Folder):
    """Boards from a seed with several faults at once."""

    def compare(self, bed: Bed, text: str) -> bool:
        """Compares the models, and returns whether no bit was chosen."""
        bed.model.fights.clear()
        rows = bed.rows(text)
        faults = read_faults(bed.board, text)
        quick = rows_of_bed(bed, rows)
        names = quick.touched(faults)
        levels = quick.levels(names, faults)
        is_free = any(levels[name].free & quick.wires[name].mask for name in names)
        if not bed.model.fights and not is_free:
            self.assertTrue(quick.explains(faults), text)
            return True
        return False

    def test_seeded_boards(self) -> None:
        compared = 0
        for seed in range(40):
            rng = random.Random(seed)
            files = [self.write(name, text) for name, text in seeded_boards.made(seed).items()]
            bed = Bed(files)
            for _ in range(4):
                try:
                    compared += self.compare(bed, " ".join(random_faults(rng, bed)))
                except IndexError:  # too few nets
                    continue
        self.assertGreater(compared, 100)


if __name__ == "__main__":
    unittest.main()
