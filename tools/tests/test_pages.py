"""Pages in HTML: their pieces, and what they say of the demo board."""

from __future__ import annotations

import html
import html.parser
import os
import pathlib
import re
import unittest
from collections import Counter
from typing import Optional

from tests.support import DEMO, EXAMPLES, PROGRAM, ROOT, Folder, need, read_files, tool

from btest_tools.files import Text
from btest_tools.pages.board import Cover, board_section, first_pins, reason_section
from btest_tools.pages.day import MOST, Tested, again, answers_of, blocks_of
from btest_tools.pages.frame import made_at, page, version
from btest_tools.pages.pieces import (
    SHOWN,
    bars,
    counted,
    gauge,
    items_of,
    listing,
    percent,
    share,
    table,
)

LOGS = {name: str(EXAMPLES / f"{name}.log") for name in ("good", "shorted", "two-faults")}
WALK = str(EXAMPLES / "three-shorted.log")


class Reader(html.parser.HTMLParser):
    """Fails if the elements of a page aren't closed in their order."""

    def __init__(self) -> None:
        super().__init__()
        self.open: list[str] = []
        self.seen: list[str] = []

    def handle_starttag(self, tag: str, attrs: list[tuple[str, Optional[str]]]) -> None:
        self.seen.append(tag)
        if tag not in ("meta", "br"):
            self.open.append(tag)

    def handle_startendtag(self, tag: str, attrs: list[tuple[str, Optional[str]]]) -> None:
        self.seen.append(tag)

    def handle_endtag(self, tag: str) -> None:
        assert self.open.pop() == tag, f"{tag} ends"


def width(text: str) -> int:
    """Returns how wide a bar is filled, of 200."""
    found = re.findall(r'width="(\d+)" height="12" fill="#456"', text)
    return int(found[0])


class Pieces(unittest.TestCase):
    """Pieces of a page."""

    def test_a_bar_is_a_part_of_the_whole(self) -> None:
        self.assertEqual(width(gauge(6, 14)), 86)  # 200 * 6 / 14 = 85.7
        self.assertEqual([width(gauge(*of)) for of in ((0, 9), (9, 9), (1, 10000))], [0, 200, 1])
        self.assertEqual(width(gauge(0, 0)), 0)
        self.assertIn('role="img" aria-label="6 of 14"', gauge(6, 14))
        self.assertEqual(
            [width(row) for row in bars([("a", 1), ("b", 2)], 4).split("</tr>")[:2]], [50, 100]
        )

    def test_percentages_are_rounded_down(self) -> None:
        self.assertTrue(percent(2, 3).endswith(" 66 %"))
        self.assertTrue(percent(3, 3).endswith(" 100 %"))
        self.assertEqual(percent(0, 0), "")

    def test_words(self) -> None:
        self.assertEqual(share(2, 3), "2 of 3")
        self.assertEqual(share(0, 0), "<span class=quiet>none</span>")
        self.assertEqual(counted(1, "net"), "1 net")
        self.assertEqual(counted(1000, "net"), "1,000 nets")
        self.assertEqual(items_of([]), "")
        self.assertEqual(items_of([" a<b"]), "<ul><li>a&lt;b</li></ul>")

    def test_lists_are_cut_off(self) -> None:
        self.assertEqual(listing(["a", "<"], " "), "a &lt;")
        names = [str(at) for at in range(SHOWN + 1)]
        self.assertNotIn("more", listing(names[:-1]))
        self.assertTrue(listing(names).endswith(f"{SHOWN - 1} <span class=quiet>and 1 more</span>"))

    def test_tables(self) -> None:
        text = table(["a", "b"], [("1", "2")], "bits", (1,))
        self.assertIn("<table class=bits>", text)
        self.assertIn("<tr><th>a</th><th class=number>b</th></tr>", text)
        self.assertIn("<tr><td>1</td><td class=number>2</td></tr>", text)
        self.assertNotIn("<th>", table(["", ""], [("1", "2")]))


class Day(unittest.TestCase):
    """A day's boards."""

    def test_blocks(self) -> None:
        text = "# a day\nBOARD a1 # so\n00\n\n01\nBOARD b\nBOARD a1\n02"
        blocks = list(blocks_of(Text("", text)))
        self.assertEqual(blocks, [("a1", [b"00", b"01"]), ("b", []), ("a1", [b"02"])])

    def test_answers(self) -> None:
        lines = [
            "BOARD a",
            "PASS",
            "BOARD b",
            "FAIL 2",
            "stuck N 0",
            "open U1.1 0",
            "BOARD c",
            "FAIL 0",
        ]
        self.assertEqual(
            list(answers_of(lines)), [["PASS"], ["FAIL 2", "stuck N 0", "open U1.1 0"], ["FAIL 0"]]
        )

    def test_words(self) -> None:
        self.assertEqual(Tested("a", True, [], []).answer(), "PASS")
        one = Tested("a", False, ["stuck N 0"], ["N"])
        self.assertEqual((one.answer(), one.cause()), ("<b>FAIL</b>", "stuck N 0"))
        two = Tested("a", False, ["stuck N 0", "open U1.1 0"], ["N"])
        self.assertEqual(two.answer(), "<b>FAIL</b>, 2 equal faults")
        self.assertEqual(two.cause(), "stuck N 0 or open U1.1 0")
        none = Tested("a", False, [], ["N"])
        self.assertEqual(
            (none.answer(), none.cause()), ("<b>FAIL</b>, no single fault explains it", "")
        )
        many = Tested("a", False, [str(at) for at in range(7)], [])
        self.assertEqual(many.cause(), "0 or 1 or 2 or 3 or 4 or 5 ..")

    def test_what_comes_again(self) -> None:
        self.assertEqual(list(again("Nets", Counter(), 3)), [])
        found = Counter({f"N{at}": 2 for at in range(MOST)})
        (head,) = again("Nets", found, 4)
        self.assertTrue(head.startswith("<h3>Nets, by the number of boards</h3>\n"))
        self.assertIn('aria-label="2 of 4"', head)
        found.update(["a", "b"])
        lines = list(again("Nets", found, 4))
        self.assertEqual(lines[1:], ["<p class=quiet>and 2 more</p>"])
        self.assertEqual(lines[0].count("aria-label"), MOST)


class Frame(unittest.TestCase):
    """The frame of a page."""

    def test_head(self) -> None:
        os.environ["SOURCE_DATE_EPOCH"] = "0"
        try:
            text = page("a<b", ["/x/c.chain", "n.nets"], ["<p>one</p>", "<p>two</p>"])
            self.assertEqual(made_at(), "1970-01-01 00:00 UTC")
        finally:
            del os.environ["SOURCE_DATE_EPOCH"]
        self.assertIn("<title>a&lt;b</title>", text)
        self.assertIn("<h1>a&lt;b</h1>", text)
        number = (ROOT / "VERSION").read_text(encoding="ascii").strip()
        self.assertEqual(version(), number)
        made = f"Made 1970-01-01 00:00 UTC by report.py of btest {number} from c.chain n.nets"
        self.assertIn(made, text)
        self.assertIn("<p>one</p>\n<p>two</p>\n</body>", text)


class OfBoard(unittest.TestCase):
    """Sections about a board, for coverage lists worked by hand."""

    def text(self, cover: Cover) -> str:
        return "\n".join(board_section(read_files(), cover))

    def test_untested(self) -> None:
        cover = Cover({}, ["U2.9"], ["U1.1", "U1.2"], [["D0", "D<1"]], SHOWN + 2)
        text = self.text(cover)
        self.assertIn("14 nets, 14 of them covered", text)
        self.assertIn("<h3>1 driver</h3>\n<p>A receiver on another pin, or a control cell", text)
        self.assertIn("<h3>2 receivers</h3>\n<p>A driver on another pin.</p>", text)
        self.assertIn("<p>U1.1 (D0), U1.2 (D1)</p>", text)
        self.assertIn("<h3>302 pairs of nets</h3>", text)
        self.assertIn("D0 with D&lt;1 <span class=quiet>and 2 more</span>", text)

    def test_one_thing_is_untested(self) -> None:
        for cover in (
            Cover({}, ["U2.9"]),
            Cover({}, [], ["U1.1"]),
            Cover({}, [], [], [["D0", "D1"]], 1),
        ):
            text = self.text(cover)
            self.assertIn("<h2>Pins and pairs of covered nets that are not tested</h2>", text)

    def test_all_is_tested(self) -> None:
        text = self.text(Cover())
        self.assertNotIn("not tested", text)
        self.assertNotIn("<h3>DARK", text)

    def test_reasons(self) -> None:
        text = self.text(Cover({"VCC": "SUPPLY", "GND": "SUPPLY", "CS": "DARK"}))
        self.assertIn("<h3>SUPPLY, 2 nets: a SUPPLY line names it</h3>", text)
        self.assertIn("<h3>DARK, 1 net: a part without a description", text)
        self.assertIn("14 nets, 11 of them covered", text)
        self.assertLess(text.index("covered"), text.index("SUPPLY"))

    def test_parts(self) -> None:
        # U4: four data pins drive and read, IRQ drives, two address pins and MODE read.
        cover = Cover({"MODE": "NODRIVER"}, ["U4.1"], ["U4.2"])
        row = "<tr><td>U4</td><td>PORT4</td><td class=number>10</td><td>4 of 5</td><td>4 of 6</td>"
        self.assertIn(f"{row}<td>2 of 4</td>", self.text(cover))

    def test_long_lists(self) -> None:
        board = read_files()
        net = board.nets["D0"]
        self.assertEqual(first_pins(net), "U1.1 U3.1 U4.1 U2.2")
        net.pins = net.pins * 4
        self.assertTrue(first_pins(net).endswith(" and 4 more"))
        self.assertEqual(len(list(reason_section(board, "DARK", ["D1"] * SHOWN))), 2)
        lines = list(reason_section(board, "DARK", ["D1"] * (SHOWN + 1)))
        self.assertEqual(lines[-1], "<p class=quiet>and 1 more</p>")
        self.assertEqual(lines[1].count("<tr>"), SHOWN + 1)


@unittest.skipUnless(PROGRAM, "no btest is given")
class Pages(Folder):
    """The pages of the demo board say what its texts say."""

    def page(self, *words: str) -> str:
        answer = tool("report.py", "--btest", need(), *words)
        self.assertEqual((answer.returncode, answer.stderr), (0, ""))
        reader = Reader()
        reader.feed(answer.stdout)
        self.assertEqual(reader.open, [])
        self.assertFalse({"script", "img", "link", "iframe"} & {*reader.seen})
        self.assertNotIn("<ul></ul>", answer.stdout)
        return answer.stdout

    def check(self, text: str, *pieces: str) -> None:
        for piece in pieces:
            self.assertIn(piece, text)

    def test_the_board(self) -> None:
        text = self.page(*DEMO)
        self.check(
            text,
            "<title>controller.chain</title>",
            "4 parts in the chain, 14 nets, 6 of them covered",
            "<td>CS</td><td>U1.6 M1.20</td>",
            "DARK, 2 nets",
            "<h3>1 driver</h3>",
            "U2.9 (D3)",
            "<tr><td>U1</td><td>PROC</td><td class=number>12</td><td>5 of 7</td><td>5 of 6</td>",
            " 66 %",
            'aria-label="6 of 14"',
        )

    def test_a_board_that_failed(self) -> None:
        text = self.page("--log", LOGS["two-faults"], *DEMO)
        self.check(
            text,
            "<title>two-faults.log on controller.chain</title>",
            ">FAIL<",
            "2 nets not as expected",
            "<li><b>two causes</b><ul><li>D0: stuck D0 0</li><li>A1: open U3.5 1</li></ul>",
            "explained by itself: open U3.5 1",
            "<td>101</td><td class=bad>1<b>1</b>1</td>",
            "<td>U3.5 (PORT4, reads)</td>",
            "<b>D0</b>: U1.1 (PROC, drives and reads)",
            "R1 in series joins A1, A1R",
        )

    def test_one_fault(self) -> None:
        text = self.page("--log", LOGS["shorted"], *DEMO)
        self.check(text, "Single faults that explain the whole log", "short AND D0 D1")

    def test_a_good_board(self) -> None:
        self.check(self.page("--log", LOGS["good"], *DEMO), ">PASS<")

    def test_a_day(self) -> None:
        text = self.page("--batch", str(EXAMPLES / "three-boards.logs"), *DEMO)
        self.check(
            text,
            "3 boards, 2 passed: 66.7 %",
            "<td>2211-0418</td><td><b>FAIL</b></td><td class=number>2</td><td>D0, D1</td>",
            "<td>2211-0417</td><td>PASS</td><td class=number>0</td>",
            'aria-label="1 of 3"',
            '<td>passed</td><td><svg viewBox="0 0 202 14" role="img" aria-label="2 of 3">',
            "<td>failed</td>",
            "<h3>Nets that differ, by the number of boards</h3>",
            "<h3>Faults that explain a whole log, by the number of boards</h3>",
        )
        self.assertNotIn("FAIL 1", text)

    def test_a_day_from_a_pipe(self) -> None:
        text = (EXAMPLES / "three-boards.logs").read_text(encoding="ascii")
        answer = tool("report.py", "--btest", need(), "--batch", "/dev/stdin", *DEMO, stdin=text)
        self.assertIn("3 boards, 2 passed", answer.stdout)

    def test_walk(self) -> None:
        self.check(self.page("--walk", WALK, *DEMO), "GROUP 3", "three-shorted.log on")

    def test_odd_names(self) -> None:
        name = ("<script>&\"'" + "x" * 255)[:255]
        for file in DEMO[:2]:
            text = pathlib.Path(file).read_text(encoding="ascii")
            self.write(
                pathlib.Path(file).name, text.replace("D0 ", f"{name} ").replace("CS ", "<b>CS ")
            )
        files = [f"{self.folder}/controller.chain", f"{self.folder}/controller.nets", *DEMO[2:]]
        self.check(self.page("--log", LOGS["shorted"], *files), html.escape(name), "&lt;b&gt;CS")


if __name__ == "__main__":
    unittest.main()
