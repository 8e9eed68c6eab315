"""The stages of one board with a player that gives what a test says, and the signals of a station.
No text that a station prints is compared here."""

from __future__ import annotations

import itertools
import os
import select
import signal
import unittest
from types import SimpleNamespace
from typing import Optional, Union, cast
from unittest import mock

from btest_tools.btest import Btest
from btest_tools.files import BadInput
from btest_tools.station import line, stages
from btest_tools.station.folder import IDENT, Product
from btest_tools.station.parts import Link, codes, fits, patterns
from btest_tools.station.player import Compared, Interrupted, PlayerFailed
from btest_tools.station.stages import Bench, BoardTest, Ended, Outcome
from btest_tools.station.stop import SIGNALS, Stop
from btest_tools.station.yields import Fault, Tested, counts, places_of

IR, DR = Compared("SIR", 4, 0b0101, 0xF, 1), Compared("SDR", 6, 0b101010, 0b111100, 2)
TEXTS = {
    "chain.svf": [IR],
    IDENT: [Compared("SDR", 33, 0, 1, 1)],
    "board.svf": [IR, DR, DR],
    "walk.svf": [IR, DR],
}
Answer = Union[list[Optional[int]], Exception]


class Fake:
    """A player that gives, for each text in turn, what is listed, or that all is right."""

    version = "fake"

    def __init__(self, **answers: list[Answer]) -> None:
        self.answers, self.played, self.resets = answers, [], 0  # type: ignore[var-annotated]

    def play(self, name: str, statements: list[Compared]) -> list[Optional[int]]:
        """Returns the next bits for a text."""
        self.played.append(name)
        left = self.answers.get(name.partition(".")[0], [])
        found: Answer = left.pop(0) if left else [None] * len(statements)
        if isinstance(found, Exception):
            raise found
        return found

    def reset(self) -> None:
        """Counts."""
        self.resets += 1

    def close(self) -> None:
        """Does nothing."""


def bench_of(answer: str = "PASS\n", has_ident: bool = True) -> Bench:
    """Returns a bench whose btest gives one answer."""
    product = SimpleNamespace(has_ident=has_ident, files=[])
    bench = Bench(cast(Product, product), cast(Btest, SimpleNamespace()))
    bench.statements.update(TEXTS)
    bench.__dict__["chain"] = [Link("U1", 2, False), Link("U2", 2, True)]
    setattr(bench, "answer", lambda log: answer)
    return bench


class Stages(unittest.TestCase):
    """Which texts are played, and how a test ends."""

    def setUp(self) -> None:
        self.told: list[str] = []
        self.player = Fake()

    def run_test(self, bench: Bench, **answers: list[Answer]) -> Outcome:
        """Tests a board whose player gives these answers."""
        self.told.clear()
        self.player = Fake(**answers)
        return BoardTest(bench, self.player, self.told.append).run()

    def test_a_good_board(self) -> None:
        outcome = self.run_test(bench_of())
        self.assertEqual((outcome.verdict, outcome.stage), ("PASS", "board"))
        self.assertEqual(self.player.played, ["chain.svf", IDENT, "board.svf", "chain.svf"])
        self.assertEqual(self.told, ["chain", "ident", "board", "chain after the board"])
        self.assertEqual([log.rows for log in outcome.logs], ["2A\n2A\n"])
        self.assertEqual(self.player.resets, 0)

    def test_without_codes(self) -> None:
        self.run_test(bench_of(has_ident=False))
        self.assertEqual(self.player.played, ["chain.svf", "board.svf", "chain.svf"])
        self.assertEqual(self.told, ["chain", "board", "chain after the board"])

    def test_a_failure(self) -> None:
        # The board is played once more, and the walking test if its log may help.
        bad: list[Answer] = [[None, 0b001010, None]]
        for answer, walks in (
            ("FAIL 0\n", True),
            ("FAIL 1\nshort AND A B\n", True),
            ("FAIL 2\nstuck A 0\nshort AND A B\n", True),
            ("FAIL 1\nstuck A 0\n", False),
        ):
            outcome = self.run_test(bench_of(answer), board=bad * 2)
            walk = ["walk.svf"] if walks else []
            played = ["chain.svf", IDENT, "board.svf", "chain.svf", "board.svf"]
            self.assertEqual(self.player.played, [*played, *walk, "chain.svf"])
            self.assertEqual((outcome.verdict, outcome.stage), ("FAIL", "board"))
            stages_told = ["chain after the board", "board again", *["walk"] * walks]
            self.assertEqual(self.told[3:], [*stages_told, "chain at the end"])
            self.assertEqual(outcome.logs[0].rows, "0A\n2A\n")
            self.assertEqual(len(outcome.logs), 2 + walks)

    def test_a_board_on_which_no_net_walks(self) -> None:
        bench = bench_of("FAIL 0\n")
        bench.statements["walk.svf"] = [IR]
        self.run_test(bench, board=[[None, 0b001010, None]] * 2)
        self.assertNotIn("walk.svf", self.player.played)

    def test_how_often_it_fails(self) -> None:
        cases: list[tuple[Answer, str]] = [
            ([None, None, None], "1 of 2"),
            ([None, 0b001010, None], "2 of 2"),
            ([None, 0b001110, None], "2 of 2, 1 bits differ"),
            ([None, None, 0b001001], "2 of 2, 2 bits differ"),
        ]
        for second, runs in cases:
            answers: list[Answer] = [[None, 0b001010, None], second]
            outcome = self.run_test(bench_of("FAIL 0\n"), board=answers)
            self.assertEqual((outcome.verdict, outcome.runs), ("FAIL", runs))

    def test_bits_that_are_not_compared(self) -> None:
        # The player says that the row is wrong, but only bits differ that aren't compared.
        outcome = self.run_test(bench_of("PASS\n"), board=[[None, 0b101001, None]])
        self.assertEqual(outcome.verdict, "PASS")

    def test_the_chain(self) -> None:
        good: list[Answer] = [[None]]
        for before, stage in enumerate(("chain", "chain after the board", "chain at the end")):
            wrong: list[Answer] = [*good * before, [0b1111]]
            board: list[Answer] = [[None, 0b001010, None]] * 2
            outcome = self.run_test(bench_of("FAIL 0\n"), chain=wrong, board=board)
            self.assertEqual((outcome.verdict, outcome.stage), ("CHAIN", stage))
            self.assertEqual(len(outcome.lines), 1 if stage == "chain" else 2)

    def test_another_number_of_bits(self) -> None:
        # No instruction register is wrong, but what is behind them.
        bench = bench_of()
        bench.statements["chain.svf"] = [IR, DR, DR]
        cases: list[tuple[Answer, str]] = [
            ([None, None, 0b000000], "CHAIN"),
            ([None, 0b000000, None], "CHAIN"),
            ([None, None, None], "PASS"),
        ]
        for came, verdict in cases:
            outcome = self.run_test(bench, chain=[came])
            self.assertEqual(outcome.verdict, verdict)

    def test_a_chain_that_breaks_in_the_test(self) -> None:
        outcome = self.run_test(bench_of(), board=[[0b1111, None, None]])
        self.assertEqual((outcome.verdict, outcome.stage), ("CHAIN", "board"))
        self.assertEqual([log.rows for log in outcome.logs], ["2A\n2A\n"])  # it is kept

    def test_another_part(self) -> None:
        outcome = self.run_test(bench_of(), ident=[[1]])
        self.assertEqual((outcome.verdict, outcome.stage), ("PART", "ident"))
        self.assertEqual(self.told, ["chain", "ident", "chain after the codes"])
        outcome = self.run_test(bench_of(), ident=[[1]], chain=[[None], [0b1111]])
        self.assertEqual((outcome.verdict, outcome.stage), ("CHAIN", "chain after the codes"))

    def test_a_player_that_fails(self) -> None:
        # The chain's test shows whether the reset came to the pins: all its statements are right.
        bench = bench_of()
        bench.statements["chain.svf"] = [IR, DR]
        cases: list[tuple[Answer, bool]] = [
            ([None, None], True),
            ([0b1111, None], False),
            (PlayerFailed("gone"), False),
        ]
        for (second, is_reset), error in itertools.product(
            cases, (PlayerFailed("no cable"), Interrupted())
        ):
            outcome = self.run_test(bench, chain=[[None, None], second], board=[error])
            verdict = "PLAYER" if isinstance(error, PlayerFailed) else "STOPPED"
            self.assertEqual((outcome.verdict, outcome.stage), (verdict, "board"))
            self.assertEqual(self.player.resets, 1)
            self.assertEqual("may not be" not in outcome.lines[-1], is_reset)
            self.assertEqual(len(outcome.lines), 2)

    def test_btest_and_the_player_differ(self) -> None:
        for answer, board in (("FAIL 0\n", []), ("PASS\n", [[None, 0b001010, None]])):
            outcome = self.run_test(bench_of(answer), board=cast(list[Answer], board))
            self.assertEqual(outcome.verdict, "PLAYER")

    def test_logs_that_btest_refuses(self) -> None:
        bench = bench_of()
        with mock.patch.object(bench, "answer", side_effect=BadInput("so")):
            self.assertEqual(self.run_test(bench).verdict, "PLAYER")

    def test_logs_that_are_too_long(self) -> None:
        # At the limit btest is asked, and beyond it the player's word counts.
        for most, verdict in ((6, "PLAYER"), (5, "FAIL")):
            bench = bench_of("PASS\n")
            bad: list[Answer] = [[None, 0b001010, None]] * 2
            with mock.patch.object(stages, "MOST", most):
                self.assertEqual(self.run_test(bench, board=bad).verdict, verdict)
                if most == 5:
                    self.assertEqual(self.run_test(bench).verdict, "PASS")

    def test_the_end_of_a_test(self) -> None:
        end = Ended("CHAIN", "chain", ("a", "b"))
        self.assertEqual((end.verdict, end.stage, end.lines), ("CHAIN", "chain", ["a", "b"]))


class Signals(unittest.TestCase):
    """Ctrl-C, and the signals that ask a program to end."""

    def setUp(self) -> None:
        self.before = [signal.getsignal(number) for number in SIGNALS]
        self.stop = Stop()
        self.is_open = True
        self.addCleanup(self.close)

    def close(self) -> None:
        """Gives the signals back, once."""
        if self.is_open:
            self.stop.close()
            self.is_open = False

    def can_read(self) -> bool:
        """Returns whether a signal is waited for."""
        return bool(select.select([self.stop.file], [], [], 0)[0])

    def test_a_signal(self) -> None:
        self.assertFalse(self.can_read())
        os.kill(os.getpid(), signal.SIGINT)
        self.assertTrue(self.can_read())
        self.assertFalse(self.stop.has_to_end)
        self.stop.clear()
        self.assertFalse(self.can_read())
        self.stop.clear()

    def test_signals_that_end_the_program(self) -> None:
        for number in (signal.SIGTERM, signal.SIGINT):
            os.kill(os.getpid(), number)
            self.assertTrue(self.stop.has_to_end)
        self.stop.clear()
        self.assertTrue(self.stop.has_to_end)

    def test_many_signals(self) -> None:
        # The pipe gets full, and no signal waits until it is read.
        self.assertFalse(os.get_blocking(self.stop.writing))
        self.assertFalse(os.get_blocking(self.stop.file))
        for _ in range(200_000):
            self.stop.ask(signal.SIGINT, None)
        self.stop.clear()
        self.assertFalse(self.can_read())

    def test_the_signals_are_given_back(self) -> None:
        files = self.stop.file, self.stop.writing
        self.close()
        self.assertEqual([signal.getsignal(number) for number in SIGNALS], self.before)
        for file in files:
            self.assertRaises(OSError, os.fstat, file)


class Typed(unittest.TestCase):
    """What is typed at a station, and what a terminal is told."""

    def lines(self, *pieces: bytes, is_stopped: bool = False) -> list[str]:
        """Returns the lines of what comes in pieces, and then ends or is stopped."""
        station = cast(
            line.Station, SimpleNamespace(stop=SimpleNamespace(file=9), prompt=mock.Mock())
        )
        left = list(pieces)

        def ready(*_: object) -> tuple[list[int], list[int], list[int]]:
            return ([0] if left or not is_stopped else [9]), [], []

        def read(*_: object) -> bytes:
            return left.pop(0) if left else b""

        with mock.patch("btest_tools.station.line.select.select", ready):
            with mock.patch("btest_tools.station.line.os.read", read):
                found = list(line.Station.typed(station))
        # It asks whenever it waits: for each piece, and for the end if that isn't a stop before.
        self.assertGreaterEqual(cast(mock.Mock, station.prompt).call_count, len(pieces) + 1)
        return found

    def test_lines(self) -> None:
        self.assertEqual(self.lines(b"a1\nb2\r\n"), ["a1", "b2"])
        self.assertEqual(self.lines(b"a", b"1\nb", b"2\n"), ["a1", "b2"])
        self.assertEqual(self.lines(b"a1\nb2"), ["a1", "b2"])
        self.assertEqual(self.lines(b"a1\nb2\r"), ["a1", "b2"])
        self.assertEqual(self.lines(), [])
        self.assertEqual(self.lines(b"\n"), [""])
        self.assertEqual(self.lines(b"a1\nb2", is_stopped=True), ["a1"])

    def test_stages_are_told_on_a_terminal(self) -> None:
        for is_terminal in (False, True):
            with mock.patch.object(line, "tell") as tell, mock.patch.object(line, "sys") as system:
                system.stderr.isatty.return_value = is_terminal
                line.Station.show_stage(cast(line.Station, None), "board")
            self.assertEqual(tell.called, is_terminal)

    def test_what_was_typed_before_is_thrown_away(self) -> None:
        for is_terminal in (False, True):
            with mock.patch.object(line, "say") as say, mock.patch.object(line, "termios") as term:
                with mock.patch(
                    "btest_tools.station.line.os.isatty", return_value=is_terminal
                ) as asked:
                    line.Station.prompt()
            asked.assert_called_once_with(0)
            self.assertEqual(
                term.tcflush.call_args_list, [mock.call(0, term.TCIFLUSH)] * is_terminal
            )
            say.assert_called_once()

    def test_all_is_given_back(self) -> None:
        parts = SimpleNamespace(stop=mock.Mock(), record=mock.Mock(), lock=mock.Mock())
        line.Station.close(cast(line.Station, parts))
        parts.stop.close.assert_called_once_with()
        parts.record.close.assert_called_once_with()
        parts.lock.release.assert_called_once_with()


class Codes(unittest.TestCase):
    """Codes of parts, and faults of a day, as values."""

    def test_fits(self) -> None:
        code = 0x10123017
        digits = f"{code:032b}"
        self.assertTrue(fits(digits, code))
        self.assertTrue(fits("X" * 32, code))
        self.assertTrue(fits("XXXX" + digits[4:], code ^ 0xF << 28))
        self.assertFalse(fits("XXXX" + digits[4:], code ^ 1))
        self.assertFalse(fits(digits, code ^ 1 << 31))
        self.assertEqual([fits("", None), fits("", code), fits(digits, None)], [True, False, False])

    def test_patterns(self) -> None:
        # From TDO: the 0 of U3, the code of U2, the 0 of U1. Bit 31 of the code doesn't matter.
        chain = [Link("U1", 2, False), Link("U2", 2, True), Link("U3", 2, False)]
        mask = ((1 << 34) - 1) ^ 1 << 32
        statement = Compared("SDR", 34, 0x10123017 << 1, mask, 1)
        wanted = {"U3": "", "U2": f"X{0x10123017:031b}", "U1": ""}
        self.assertEqual(patterns(chain, statement), wanted)
        found = [(part.name, code) for part, code in codes(chain, 34, 0x10123017 << 1)]
        self.assertEqual(found, [("U3", None), ("U2", 0x10123017), ("U1", None)])

    def test_places_of_faults(self) -> None:
        net_of = {"U1.1": "A", "U2.1": "B", "U2.2": "C"}
        for name, parts, nets in (
            ("stuck A 0", "", "A"),
            ("pull A 1", "", "A"),
            ("short AND A B", "", "A B"),
            ("open U2.1 0", "U2", "B"),
            ("swap U1.1 U2.2", "U1 U2", "A C"),
            ("short OR A C with open U2.1 0", "U2", "A B C"),
            ("open U9.1 0", "", ""),
            ("part: wrong part U1: it has; wrong part U2: so", "U1 U2", ""),
            ("chain: so", "", ""),
        ):
            found = places_of(Fault((name,), ""), net_of)
            self.assertEqual(found, (set(parts.split()), set(nets.split())), name)

    def test_most_boards_first(self) -> None:
        boards = [Tested(serial, [], False) for serial in "XYZ"]
        net_of = {f"U{at}.1": name for at, name in enumerate("DCBA", 1)}
        faults = [
            Fault(("open U1.1 0",), "", boards[:1]),
            Fault(("open U2.1 0",), "", boards),
            Fault(("open U4.1 0", "open U3.1 0"), "", boards[:2]),
        ]
        parts, nets = counts(faults, net_of)
        self.assertEqual(parts, [("U2", 3), ("U3", 2), ("U4", 2), ("U1", 1)])
        self.assertEqual(nets, [("C", 3), ("A", 2), ("B", 2), ("D", 1)])


if __name__ == "__main__":
    unittest.main()
