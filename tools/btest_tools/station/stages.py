"""The stages of one board: chain, codes, board, chain again; on a failure the board once more and
the walking test. What a log says is asked of btest."""

from __future__ import annotations

import re
from collections.abc import Callable, Sequence
from dataclasses import dataclass, field
from functools import cached_property
from typing import NamedTuple, Optional

from btest_tools import failing
from btest_tools.board import Files, read_board
from btest_tools.btest import LOG, Btest
from btest_tools.explaining.placed import Placed
from btest_tools.files import BadInput, Text, read
from btest_tools.places import Places
from btest_tools.station.folder import IDENT, Product
from btest_tools.station.parts import Link, open_place, wrong_parts
from btest_tools.station.player import Compared, Interrupted, Player, PlayerFailed, compared
from btest_tools.station.record import Log

STATUS = {"PASS": 0, "FAIL": 1, "CHAIN": 3, "PART": 4, "PLAYER": 5, "STOPPED": 130}
TWICE = "2 of 2"  # two runs of the board's test have the same wrong bits
COMES_AND_GOES = "the fault comes and goes: clean and press the contacts"
MOST = 64 << 20  # bytes of a log that btest reads
WALKS = re.compile(r"FAIL 0\n|.*^short ", re.S | re.M)  # answers after which the walking test helps


class Ended(Exception):
    """The test has come to its end in a stage, with a verdict other than PASS and FAIL."""

    def __init__(self, verdict: str, stage: str, lines: Sequence[str]) -> None:
        super().__init__(verdict)
        self.verdict, self.stage, self.lines = verdict, stage, list(lines)


class Came(NamedTuple):
    """What came back in the test of a board: a log, and the bits that differ, row by row."""

    log: Log
    wrong: list[int]


@dataclass
class Outcome:
    """How a test ended."""

    verdict: str
    stage: str
    lines: list[str]
    runs: str = ""
    logs: list[Log] = field(default_factory=list)


class Bench:
    """A product at a station: its texts, and the program that judges. It is read once."""

    def __init__(self, product: Product, btest: Btest) -> None:
        self.product, self.btest = product, btest
        self.statements: dict[str, list[Compared]] = {}

    def compared(self, name: str) -> list[Compared]:
        """Returns the statements of a text that compare."""
        if name not in self.statements:
            self.statements[name] = compared(self.product.text(name))
        return self.statements[name]

    @cached_property
    def places(self) -> Optional[Places]:
        """Where the pins are, if the folder has a file that says so."""
        return self.product.places

    @cached_property
    def nearness(self) -> Placed:
        """Which pins are side by side, with the board."""
        chain, nets, *bsdls = self.product.files
        return Placed(read_board(chain, nets, bsdls), self.places)

    @cached_property
    def failing(self) -> failing.Bench:
        """The board as the explanation of a failure has it."""
        board = self.nearness.board
        return failing.Bench(self.btest, self.product.files, board, self.nearness)

    @cached_property
    def chain(self) -> list[Link]:
        """The parts of the chain."""
        chain, nets, *bsdls = map(read, self.product.files)
        parts = Files(chain, nets, bsdls).parts
        return [Link(part.name, part.length, bool(part.identity)) for part in parts]

    @property
    def has_walk(self) -> bool:
        """Whether any net walks."""
        return any(one.register == "SDR" for one in self.compared("walk.svf"))

    def answer(self, log: str) -> str:
        """Returns what btest says of a log of the board's test."""
        words = ("1", LOG, *self.product.files)
        return self.btest.run("diagnose", *words, begin=("PASS", "FAIL"), log=Text("the log", log))


class BoardTest:
    """The test of one board. `tell` is called with each stage."""

    def __init__(self, bench: Bench, player: Player, tell: Callable[[str], None]) -> None:
        self.bench, self.player, self.tell = bench, player, tell
        self.stage = ""
        self.logs: list[Log] = []

    def run(self) -> Outcome:
        """Tests the board. Whatever happens, the TAP controllers are in reset afterwards if the
        player can bring them there."""
        try:
            outcome = self.stages()
        except Ended as end:
            outcome = Outcome(end.verdict, end.stage, end.lines)
        except PlayerFailed as why:
            outcome = Outcome("PLAYER", self.stage, [str(why), *self.reset()])
        except Interrupted:
            self.tell("stopping")
            outcome = Outcome("STOPPED", self.stage, ["stopped by the operator", *self.reset()])
        outcome.logs = self.logs
        return outcome

    def reset(self) -> list[str]:
        """Brings the pins to reset, and says what came of it. The test of the chain, which ends in
        reset, shows whether anyone listens."""
        try:
            self.player.reset()
            came = self.player.play("chain.svf", self.bench.compared("chain.svf"))
            if all(bits is None for bits in came):
                return ["the pins are in reset"]
        except PlayerFailed:
            pass
        return ["the pins may not be in reset: take the supply off the board"]

    def stages(self) -> Outcome:
        """Plays the stages in their order."""
        self.check_chain("chain")
        self.check_parts()
        first = self.play_board("board")
        self.check_chain("chain after the board")
        answer = self.judge(first)
        if answer == "PASS\n":
            return Outcome("PASS", "board", [])
        runs = self.play_again(first)
        if WALKS.match(answer) and self.bench.has_walk:
            self.play_rows("walk", "walk.svf")
        self.check_chain("chain at the end")
        lines = [] if runs == TWICE else [COMES_AND_GOES]
        return Outcome("FAIL", "board", lines, runs)

    def begin(self, stage: str) -> None:
        """Notes the stage."""
        self.stage = stage
        self.tell(stage)

    def check_chain(self, stage: str) -> None:
        """Ends the test if the scan chain isn't sound."""
        self.begin(stage)
        statements = self.bench.compared("chain.svf")
        came = self.player.play("chain.svf", statements)
        broke = ["the scan chain broke during the test"] if stage != "chain" else []
        for statement, bits in zip(statements, came):
            if bits is not None and statement.register == "SIR":
                raise Ended("CHAIN", stage, [*broke, open_place(self.bench.chain, statement, bits)])
        if any(bits is not None for bits in came):
            why = "the chain has another number of parts or of instruction bits than the chain file"
            raise Ended("CHAIN", stage, [*broke, why])

    def check_parts(self) -> None:
        """Ends the test if a part has another code."""
        if not self.bench.product.has_ident:
            return
        self.begin("ident")
        statements = self.bench.compared(IDENT)
        for statement, bits in zip(statements, self.player.play(IDENT, statements)):
            if bits is not None:
                lines = wrong_parts(self.bench.chain, statement, bits)
                self.check_chain("chain after the codes")
                raise Ended("PART", "ident", lines)

    def play_board(self, stage: str) -> Came:
        """Plays the board's test."""
        return self.play_rows(stage, "board.svf")

    def play_rows(self, stage: str, name: str) -> Came:
        """Plays a test and keeps its log, also if the chain breaks in it."""
        self.begin(stage)
        statements = self.bench.compared(name)
        played = list(zip(statements, self.player.play(name, statements)))
        rows, wrong = [], []
        for statement, bits in played:
            if statement.register == "SDR":
                row = statement.tdo if bits is None else bits
                rows.append(f"{row:0{(statement.size + 3) // 4}X}\n")
                wrong.append(statement.differs(row))
        self.logs.append(Log(stage, "".join(rows)))
        for statement, bits in played:
            if statement.register == "SIR" and bits is not None:
                lines = [
                    "the scan chain broke during the test",
                    open_place(self.bench.chain, statement, bits),
                ]
                raise Ended("CHAIN", stage, lines)
        return Came(self.logs[-1], wrong)

    def judge(self, came: Came) -> str:
        """Returns the answer of btest to a log. It has to be that of the player."""
        if len(came.log.rows) > MOST:  # btest reads no log of this length
            return "FAIL\n" if any(came.wrong) else "PASS\n"
        try:
            answer = self.bench.answer(came.log.rows)
        except BadInput as wrong:
            raise PlayerFailed(f"btest refuses the log: {wrong}") from None
        if (answer == "PASS\n") == any(came.wrong):
            raise PlayerFailed("the player and btest differ on whether the board passes")
        return answer

    def play_again(self, first: Came) -> str:
        """Plays the board's test once more, and says how the two runs compare."""
        second = self.play_board("board again")
        if not any(second.wrong):
            return "1 of 2"
        bits = sum(bin(one ^ other).count("1") for one, other in zip(first.wrong, second.wrong))
        return f"{TWICE}, {bits} bits differ" if bits else TWICE
