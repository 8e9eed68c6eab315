"""Netlists of the forms without places, read from texts. The nets were worked out by hand."""

from __future__ import annotations

import math
import unittest
from typing import Callable
from unittest import mock

from btest_tools.netlists import kicad, kicad_pcb, net_file, pads, protel, telesis
from btest_tools.netlists.edges import arc_through, edge
from btest_tools.netlists.lists import Lines, Reader, Wanted, skip, string_from
from btest_tools.netlists.net_file import Nets, Refused, last_line, numbered_lines, shown

Read = Callable[[bytes], Nets]

# Of each form, texts with their net files.
GOOD: list[tuple[Read, bytes, str]] = [
    (kicad.read, b"(export (nets (net (name A) (node (ref U1) (pin 1)))))", "NET A U1.1\n"),
    (
        kicad.read,
        b"(export (other (net (name X))) (nets (net (code 1) (name A)\n"
        b"(node (ref U1) (pin 1) (x y)) (node (ref U2) (pin 2))) (net (name B))))",
        "NET A U1.1 U2.2\nNET B\n",
    ),
    (kicad.read, rb'(export (nets (net (name "A\"(1") (x ")"))))', 'NET A"(1\n'),
    (protel.read, b"[\nU1\nF\nV\n]\n(\nA\nU1-1 U2-1\nU-3-1\n)\n", "NET A U1.1 U2.1 U-3.1\n"),
    (protel.read, b"(A\nU1-1)(B\nU1-2)\n", "NET A U1.1\nNET B U1.2\n"),
    (protel.read, b"(\nA\n\nU1-1\n)\n", "NET A U1.1\n"),
    (protel.read, b"[\nU1\nF(1)\nV[2]\n]\n(\nD(0)\nU1-A(1)\n)\n", "NET D(0) U1.A(1)\n"),
    (protel.read, b"[\nR1\n10K [1%\n]\n(\nA\nR1-1\n)\n", "NET A R1.1\n"),
    (
        protel.read,
        b"PROTEL NETLIST 2.0\n(\nA\nU1-1 PROC-D0 I/O\nU-2-1 R-1 PASSIVE\nU3-1 X-OE OPEN Y\n)\n",
        "NET A U1.1 U-2.1 U3.1\n",
    ),
    (protel.read, b"PROTEL NETLIST 2.0\n(\nA\nU1-1 U2-1\n)\n", "NET A U1.1 U2.1\n"),
    (protel.read, b"(\nA\nC1-2 0.1 uF-2 passive\nU1-1 PROC-D0 IO\n)\n", "NET A C1.2 U1.1\n"),
    (protel.read, b"(\nA\nU1-1 U2-1 U3-1\n)\n", "NET A U1.1 U2.1 U3.1\n"),
    (
        protel.read,
        b"[\nU1\nU2\n]\n(\nU1-1\nU1-1\n)\n(\nU2-1\nX-1\n)\n",
        "NET U1-1 U1.1\nNET U2-1 X.1\n",
    ),
    (
        pads.read,
        b"*PART*\nU1 P@F\n*NET*\n*REMARK* U9.9\n*SIGNAL* A 12 0 -2.5\nU1.1\n U2.1 U3.A.1\n"
        b"*signal* B x\nU1.2\n*MISC*\nU3.1\n*SIGNAL* C\n*end*\nU4.1\n",
        "NET A U1.1 U2.1 U3.A.1\nNET B_x U1.2\n",
    ),
    (
        telesis.read,
        b"$PACKAGES\nF ! V ; U1,\nU2\n$NETS\n\nA;U1.1 U2.1 ,  \r\n  U3.1,\n\n$S-1 ; U1.4\n"
        b"$A_PROPERTIES\nP 1 ; A\n$End\n",
        "NET A U1.1 U2.1 U3.1\nNET $S-1 U1.4\n",
    ),
    (
        telesis.read,
        b"$NETS\n'A;B,!' ; 'U1.1' U2.'A1' 'U3'.1\n'a''b' ; U1.2\n'$END' ; U1.5\n$END\n",
        "NET A;B,! U1.1 U2.A1 U3.1\nNET a'b U1.2\nNET $END U1.5\n",
    ),
]

# Of each form, texts that are refused, with the line at fault and what is said.
BAD: list[tuple[Read, bytes, str]] = [
    (kicad.read, b"(export (nets\n(net (node (ref U1) (pin 1)))))", "line 2: a net without a name"),
    (kicad.read, b"(export\n(nets (net (name A))", "line 2: a bracket is not closed"),
    (kicad.read, b"(export)\n)", "line 2: a bracket is closed that was not open"),
    (kicad.read, b"(export (nets (net (name A)\n(node (ref U1)))))", "line 2: net 'A': not a pin"),
    (protel.read, b"(\n\nU1-1\n)\n", "line 2: a net without a name"),
    (protel.read, b"(\n)\n", "line 2: a net without a name"),
    (protel.read, b"(\nA\nU1-1\n)\n(\nB\n", "line 6: the bracket in line 5 is not closed"),
    (protel.read, b"\n]\n", "line 2: a bracket has no other in its line: ']'"),
    (protel.read, b"[R1\n10K [1%\n]\n", "line 2: a bracket has no other in its line: '10K [1%'"),
    (protel.read, b"[\nR1\n(\n]\n", "line 3: the bracket in line 1 is not closed before '('"),
    (protel.read, b"[\nU1\n]\n(\nU1-1\nU2-1\n)\n", "line 5: a net without a name: its first line"),
    (protel.read, b"(\nA\nU1-1 and\n)\n", "line 3: net 'A': not a pin of a net file: part ''"),
    (pads.read, b"*NET*\n*SIGNAL* A\nU1.3, R1.1\n*END*\n", "line 3: a comma in a pin: 'U1.3,'"),
    (pads.read, b"*NET*\nU1.1\n*END*\n", "line 2: a pin before the first *SIGNAL*: 'U1.1'"),
    (pads.read, b"*NET*\n*SIGNAL*\n*END*\n", "line 2: a net without a name"),
    (pads.read, b"*NET*\n*SIGNAL* A\nU1.1\n", "line 3: no *END*"),
    (telesis.read, b"$NETS\nA ; U1.1\nU1.2\n$END\n", "line 3: not a net: 'U1.2'"),
    (telesis.read, b"$NETS\n'A ; U1.1\n$END\n", "line 2: not a net"),
    (telesis.read, b"$NETS\nA ; U1.1 ; U1.2\n$END\n", "line 2: not a net"),
    (telesis.read, b"$NETS\nA ; U1.1\n", "line 2: no $END"),
    (
        telesis.read,
        b"$NETS\nA ; U1.1,\n$END\n",
        "line 3: net 'A': not a pin of a net file: part '$",
    ),
]


class Forms(unittest.TestCase):
    """What the readers make of texts."""

    def test_good(self) -> None:
        for read, text, nets in GOOD:
            with self.subTest(text):
                self.assertEqual(read(text).text(), nets)

    def test_bad(self) -> None:
        for read, text, line in BAD:
            with self.subTest(text), self.assertRaises(Refused) as why:
                read(text)
            self.assertEqual(str(why.exception)[: len(line)], line)


class OfNetFile(unittest.TestCase):
    """Nets as a net file has them."""

    def refused(self, line: str, call: Callable[[], object]) -> None:
        """Checks that a call refuses with a line."""
        with self.assertRaises(Refused) as why:
            call()
        self.assertEqual(str(why.exception), line)

    def test_names(self) -> None:
        nets = Nets()
        for name in (b"A", b"#B c#", b"\xb5C", b"N" * 255):
            nets.begin(name, 1)
        self.assertEqual([net.word for net in nets], ["A", "_B_c#", "_C", "N" * 255])
        self.assertEqual(
            nets.renamed(), ["net '#B c#' is written _B_c#", "net '\xb5C' is written _C"]
        )
        self.refused("line 3: a net without a name", lambda: nets.begin(b"", 3))
        twice = "line 4: net 'A' is in line 1, too: a name stands once"
        self.refused(twice, lambda: nets.begin(b"A", 4))
        same = "line 5: net '_C': rename it: net '\xb5C' in line 1 is written _C, too"
        self.refused(same, lambda: nets.begin(b"_C", 5))
        long = f"line 6: net '{'M' * 256}': rename it: longer than 255 bytes"
        self.refused(long, lambda: nets.begin(b"M" * 256, 6))

    def test_pins(self) -> None:
        nets = Nets()
        one, two = nets.begin(b"A", 1), nets.begin(b"B", 2)
        for pin in (b"1", b"2", b"1", b"x" * 252):
            nets.add(one, b"U1", pin, 3)
        self.assertEqual(one.pins, ["U1.1", "U1.2", f"U1.{'x' * 252}"])
        self.assertTrue(nets.has_pin(b"U1", b"2"))
        self.assertFalse(nets.has_pin(b"U1", b"3"))
        both = "line 4: pin U1.2 is in net 'B' and, by line 3, in net 'A'"
        self.refused(both, lambda: nets.add(two, b"U1", b"2", 4))
        for part, pin in ((b"", b"1"), (b"U1", b""), (b"U.1", b"1"), (b"#U", b"1"), (b"U 1", b"1")):
            why = f"not a pin of a net file: part {shown(part)}, pin {shown(pin)}"
            line = f"line 5: net 'B': {why}"
            with self.assertRaises(Refused) as bad:
                nets.add(two, part, pin, 5)
            self.assertEqual(str(bad.exception), line)
        with self.assertRaises(Refused):
            nets.add(two, b"U1", b"x" * 253, 5)
        with mock.patch.object(net_file, "MOST_PINS", 4):
            nets.add(two, b"U2", b"1", 6)
            self.refused("line 6: more than 4 pins", lambda: nets.add(two, b"U2", b"2", 6))

    def test_shown(self) -> None:
        self.assertEqual(shown(b"a'b"), '"a\'b"')
        self.assertEqual(shown(b"D\xc3\xa0"), "'D\xe0'")  # UTF-8
        self.assertEqual(shown(b"D\xe0"), "'D\xe0'")
        self.assertEqual(shown(b"abc", 3), "'abc'")
        self.assertEqual(shown(b"abcd", 3), "'abc..'")

    def test_lines(self) -> None:
        found = list(numbered_lines(b"a\n\n\n\nb\nc"))
        self.assertEqual(found, [(1, b"a"), (2, b""), (5, b"b"), (6, b"c")])
        self.assertEqual(list(numbered_lines(b"\nb\n")), [(1, b""), (2, b"b")])
        self.assertEqual([last_line(text) for text in (b"", b"a", b"a\n", b"a\nb")], [1, 1, 1, 2])
        with mock.patch.object(net_file, "LONGEST_LINE", 3):
            self.assertEqual(list(numbered_lines(b"abc")), [(1, b"abc")])
            line = "line 2: longer than 3 bytes"
            self.refused(line, lambda: list(numbered_lines(b"abc\nabcd\n")))
            self.assertEqual(len(list(numbered_lines(b"abc\n" * 9))), 9)


class Brackets(unittest.TestCase):
    """Lists in brackets."""

    def test_lines(self) -> None:
        lines = Lines(b"a\nb\nc\n")
        self.assertEqual([lines.of(at) for at in (0, 1, 2, 5, 2, 4, 0)], [1, 1, 2, 3, 2, 3, 1])

    def test_strings(self) -> None:
        self.assertEqual(string_from(rb'"a\"b\n\tc\\" d', 1), (b'a"b\n\tc\\', 13))
        self.assertEqual(string_from(b'x""', 2), (b"", 3))
        for text in (b'"a', b'"a\\', b'"a\\"'):
            with self.assertRaisesRegex(Refused, "line 1: a string is not closed"):
                string_from(text, 1)
        with mock.patch("btest_tools.netlists.lists.LONGEST_LINE", 3):
            self.assertEqual(string_from(b'"abc\\d"', 1), (b"abcd", 7))
            with self.assertRaisesRegex(Refused, "line 1: a string is longer than 3 bytes"):
                string_from(b'"abcd\\e"', 1)

    def test_what_is_passed_over(self) -> None:
        self.assertEqual(skip(b'(a (b ")" "\\")") c) d', 1), 19)
        with self.assertRaisesRegex(Refused, "line 2: a bracket is not closed"):
            skip(b"(a (b)\nc", 1)
        with mock.patch("btest_tools.netlists.lists.DEEPEST", 2):
            self.assertEqual(skip(b"(a (b) (c))", 1), 11)
            with self.assertRaisesRegex(Refused, "line 2: brackets are nested more than 2 deep"):
                skip(b"(a (b\n(c)))", 1)

    def test_depths(self) -> None:
        wanted: Wanted = {b"a": {b"b": {b"c": {}}}}
        text = b'(a x (b 1 "2" (c 3) (d 4) 5) (b) "z")'
        items = list(Reader(text, wanted, 1).items())
        self.assertEqual([item.words for item in items], [[b"1", b"2", b"5"], []])
        self.assertEqual([item.offset for item in items], [5, 29])
        self.assertEqual([len(item.items) for item in items], [1, 0])
        self.assertEqual((items[0].first(b"c"), items[0].word(b"c")), ([b"3"], b"3"))
        self.assertEqual((items[0].first(b"d"), items[1].word(b"c")), ([], b""))
        (whole,) = Reader(text, wanted, 0).items()
        self.assertEqual((whole.words, len(whole.items)), ([b"x", b"z"], 2))
        self.assertEqual([item.words for item in whole.all(b"b")], [[b"1", b"2", b"5"], []])

        (outer,) = Reader(b"x (a y)", {b"a": {}}, 0).items()  # a word before all lists
        self.assertEqual(outer.words, [b"y"])

    def test_many(self) -> None:
        text = b"(a (b 1 2) (b 3 4))"
        with mock.patch("btest_tools.netlists.lists.MOST_ITEMS", 4):
            self.assertEqual(len(list(Reader(text, {b"a": {b"b": {}}}, 1).items())), 2)
        with mock.patch("btest_tools.netlists.lists.MOST_ITEMS", 3):
            with self.assertRaisesRegex(
                Refused, "line 1: more than 3 words and brackets in a list"
            ):
                list(Reader(text, {b"a": {b"b": {}}}, 1).items())


class Layouts(unittest.TestCase):
    """Edges of boards, and what a board of KiCad may not have."""

    def test_edges(self) -> None:
        half = [(1.0, 0.0), (0.0, -1.0), (-1.0, 0.0)]
        arc = edge(b"arc", half, None)
        self.assertIn(len(arc), (31, 32))  # pieces of 6 degrees at most
        for x, y in arc:
            self.assertAlmostEqual(math.hypot(x, y), 1)
        self.assertEqual(edge(b"arc", half, 90.0), arc)  # an angle belongs to a center and an end
        self.assertEqual(edge(b"arc", half[:1], 90.0), half[:1])
        line = [(0.0, 0.0), (1.0, 0.0), (2.0, 0.0)]
        self.assertEqual(arc_through(line[0], line[1], line[2]), line)
        self.assertEqual(edge(b"poly", line, None), [*line, line[0]])
        self.assertEqual(edge(b"line", line[:2], None), line[:2])

    def test_an_edge_in_a_footprint(self) -> None:
        text = (
            b"(kicad_pcb (footprint X (at 10 20 90) (fp_line (start 1 0) (end 3 0) "
            b"(layer Edge.Cuts)) (fp_line (start 0 0) (end 9 0) (layer F.SilkS))))"
        )
        (line,) = kicad_pcb.read(text)[1].outline
        for point, wanted in zip(line, ((10, 19), (10, 17))):
            self.assertAlmostEqual(point[0], wanted[0])
            self.assertAlmostEqual(point[1], wanted[1])

    def test_refusals(self) -> None:
        with self.assertRaisesRegex(Refused, "line 2: a net without a name"):
            kicad_pcb.read(b"(kicad_pcb\n(net 1))")
        line = b"(fp_line (start 0 0) (end 1 0) (layer Edge.Cuts))"
        text = b"(kicad_pcb (footprint X (at %s 0)" + line + b"))"
        self.assertEqual(len(kicad_pcb.read(text % b"10000")[1].outline), 1)
        with self.assertRaisesRegex(Refused, "out of range: '10000.5'"):
            kicad_pcb.read(text % b"10000.5")


if __name__ == "__main__":
    unittest.main()
