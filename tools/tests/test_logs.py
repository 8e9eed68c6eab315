"""Nets that differ, with their bits. The expected lines are those of docs/GUIDE.md."""

from __future__ import annotations

import contextlib
import io
import unittest
from unittest import mock

from tests.support import Bed

from btest_tools import asking
from btest_tools.asking import Masked, changed
from btest_tools.logs import (
    Failing,
    bits_of,
    differing,
    driven_in,
    facts,
    failing,
    some,
    spans,
    table,
)

TABLE = """  pin    pass 1-4: expected / got
  U1.1   100 / 000  x..
  U3.1   100 / 000  x..
  U4.1   100 / 000  x.."""


def found(fault: str) -> list[Failing]:
    """Returns the nets of the demo board that differ."""
    bed = Bed()
    return failing(bed.board, bed.test, bed.rows(fault))


class Nets(unittest.TestCase):
    """What differs."""

    def test_two_faults(self) -> None:
        one, two = found("stuck:D0:0 open:U3.5:1")
        self.assertEqual((one.name, two.name), ("D0", "A1"))
        self.assertEqual("\n".join(table(one)), TABLE)
        self.assertEqual((one.pins, one.wrong), (["U1.1", "U3.1", "U4.1"],) * 2)
        self.assertEqual((two.pins, two.wrong), (["U3.5", "U4.5"], ["U3.5"]))
        self.assertEqual(one.reads, ["000"] * 4)
        self.assertEqual(two.reads, [""] * 4)
        self.assertFalse(one.is_like(two))

    def test_differing(self) -> None:
        bed = Bed()
        self.assertEqual(differing(bed.board, bed.rows("good")), [])
        nets = [net.name for net in differing(bed.board, bed.rows("or:D0:D1 stuck:IRQ:1"))]
        self.assertEqual(nets, ["D0", "D1", "IRQ"])

    def test_a_good_board_has_none(self) -> None:
        self.assertEqual(found("good"), [])

    def test_likeness(self) -> None:
        one, two = found("or:D0:D1")
        self.assertTrue(one.is_like(two))
        self.assertTrue(one.may_join(two))
        # Both read 000. No short gives D2 AND A1 a 0 in the first row, where both have 1.
        one, two = found("stuck:D2:0 stuck:A1:0")
        self.assertTrue(one.is_like(two))
        self.assertFalse(one.may_join(two))

    def test_columns(self) -> None:
        (one,) = found("open:U1.1:1")
        columns = one.columns()
        # In pass 1 U1.1 drives and is not compared; U3.1 and U4.1 read what it leaves. In the
        # passes 2 and 3, whose cells are not compared, the others may be one column.
        self.assertEqual([column.passes for column in columns], [[1], [2, 3, 4]])
        self.assertEqual(columns[0].bits, [None, "111", "111"])
        self.assertEqual(columns[1].bits, ["111", "100", "100"])
        self.assertEqual(len(one.columns(1)), 1)

    def test_facts(self) -> None:
        nets = found("stuck:D0:0 open:U3.5:1")
        self.assertEqual(
            list(facts(nets[0], nets, True)),
            [
                "reads 0 at all receivers in every row",
                "driven by U1.1 in pass 1, U3.1 in pass 2, U4.1 in pass 3, U2.2 in pass 4",
                "explained by itself: by no single fault",
            ],
        )
        self.assertEqual(
            list(facts(nets[1], nets, False)),
            ["U3.5 alone differs, the other receivers are right", "driven by U1.5 in pass 1-4"],
        )
        nets = found("and:D0:D1")
        self.assertIn(
            "reads the same bits as D1 wherever both are read", list(facts(nets[0], nets, True))
        )
        self.assertEqual(list(driven_in(nets[1]))[0], ("U1.2", [1]))


class Words(unittest.TestCase):
    """Pieces of lines."""

    def test_spans(self) -> None:
        self.assertEqual(spans([1, 2, 3, 5, 7, 8]), "1-3, 5, 7-8")
        self.assertEqual(spans([]), "")
        self.assertEqual(spans([4]), "4")

    def test_some(self) -> None:
        self.assertEqual(some(["a", "b"]), "a, b")
        self.assertEqual(some(["a"] * 8), "a, a, a, a, a, a, a, a")
        self.assertEqual(some(["a", "b", "c"], 1), "a and 2 more")

    def test_bits(self) -> None:
        self.assertEqual(bits_of("1010", "1100"), "1010 / 1100  .xx.")
        self.assertEqual(bits_of("1010", None), "-")

    def test_many_pins_in_one_line(self) -> None:
        (one,) = found("stuck:D0:0")
        one.readers = [(f"U9.{at}", ["000"]) for at in range(17)]
        self.assertEqual(len(list(table(one))), 2)
        self.assertTrue(list(table(one))[1].startswith("  U9.0 and 16 more   100 / 000"))
        one.readers = one.readers[:16]
        self.assertEqual(len(list(table(one))), 17)

    def test_passes_side_by_side(self) -> None:
        (one,) = found("open:U1.1:1")
        lines = list(table(one, 40))
        self.assertEqual(len(lines), 8)
        self.assertIn("pass 2-4", lines[4])


class Logs(unittest.TestCase):
    """The logs that btest is asked about."""

    def test_digits_are_turned(self) -> None:
        self.assertEqual(changed(b"00FA\n", 0), b"00FA\n")
        self.assertEqual(changed(b"00FA\n", 0x1001), b"10FB\n")
        self.assertEqual(changed(b"00FA\n", 0xF0), b"000A\n")

    def test_logs_in_several_texts(self) -> None:
        bed = Bed()
        rows = bed.rows("stuck:D0:0 stuck:IRQ:0 open:U3.5:1")
        for limit, command in ((1, "diagnose"), (400, "batch")):
            nets = failing(bed.board, bed.test, rows)
            btest, err = mock.Mock(), io.StringIO()
            btest.run.side_effect = lambda command, *words: "FAIL 1\nstuck X 0\n" * 9
            with mock.patch.object(asking, "LIMIT", limit), contextlib.redirect_stderr(err):
                asking.ask(btest, [], bed.test, rows, nets)
            self.assertEqual({call[0][0] for call in btest.run.call_args_list}, {command})
            lines = err.getvalue().splitlines()
            self.assertRegex(lines[-1], r"^explained: (\d+) of \1 nets and pairs of nets$")

    def test_one_net_alone_differs(self) -> None:
        bed = Bed()
        rows = bed.rows("stuck:D0:0 stuck:IRQ:0")
        nets = failing(bed.board, bed.test, rows)
        file = io.BytesIO()
        Masked(bed.test, rows).write(file, (nets[0],))
        alone = bed.test.compare(file.getvalue().splitlines())
        self.assertEqual(alone, bed.rows("stuck:D0:0"))


if __name__ == "__main__":
    unittest.main()
