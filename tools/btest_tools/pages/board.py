"""What a page says of a board and of what its test covers."""

from __future__ import annotations

from collections import Counter
from collections.abc import Iterator
from dataclasses import dataclass, field
from html import escape

from btest_tools.board import Board, Net, part_of
from btest_tools.failing import Bench
from btest_tools.pages.pieces import SHOWN, bars, counted, listing, percent, share, table

# For each reason what it means, and what a designer or the writer of the chain file can do.
REASONS = {
    "COVERED": ("a safe setting drives and reads it", ""),
    "SUPPLY": (
        "a SUPPLY line names it",
        "Nothing to do; check the line if the net is a signal.",
    ),
    "TESTPORT": (
        "a pin of the test access port or a compliance pin stands in it",
        "Nothing can be driven there; a break in the wiring of the test port shows in the test of "
        "btest chain.",
    ),
    "DARK": (
        "a part without a description, a linkage pin or a pin without a boundary cell may drive it",
        "Give the part's BSDL text, name it in an INERT line if it can't drive, or choose a part "
        "with boundary scan.",
    ),
    "NODRIVER": ("no boundary cell drives it", "Connect a spare output of a scanned part."),
    "BLOCKED": (
        "it has drivers, and no safe setting enables one",
        "Give such outputs control cells of their own; for an open drain, say in a PULL line that "
        "the net is pulled to its disable value.",
    ),
    "NORECEIVER": (
        "a driver can be enabled, and no other pin's boundary cell reads it",
        "Connect a spare input of a scanned part.",
    ),
}
FEW = 12  # pins of a net that are shown


@dataclass
class Cover:
    """The coverage list: the reason of each net that isn't covered, the pins that aren't tested,
    and the pairs."""

    reasons: dict[str, str] = field(default_factory=dict)
    drivers: list[str] = field(default_factory=list)
    receivers: list[str] = field(default_factory=list)
    pairs: list[list[str]] = field(default_factory=list)
    pair_count: int = 0

    def reason(self, net: str) -> str:
        """Returns the reason of a net."""
        return self.reasons.get(net, "COVERED")


def cover_of(bench: Bench) -> Cover:
    """Asks btest for the coverage list of a board."""
    text = bench.btest.run("cover", *bench.files, begin="NETS ")
    first = (text.find("\nPAIR ") + 1) or len(text)  # pairs come last, and may be millions
    cover = Cover(pair_count=text.count("\n", first))
    shown = text[first : first + 600 * SHOWN].splitlines()[:SHOWN]
    cover.pairs = [line.split()[1:] for line in shown]
    for kind, name, *reason in (line.split() for line in text[:first].splitlines()[1:]):
        if kind == "NET":
            cover.reasons[name] = reason[0]
        else:
            (cover.drivers if kind == "DRIVER" else cover.receivers).append(name)
    return cover


def board_section(board: Board, cover: Cover) -> Iterator[str]:
    """Yields what is said of a board."""
    counts = Counter(cover.reason(name) for name in board.nets)
    parts, nets = counted(len(board.parts), "part"), counted(len(board.nets), "net")
    covered = counts["COVERED"]
    yield f"<h2>The board</h2>\n<p>{parts} in the chain, {nets}, {covered:,} of them covered.</p>"
    reasons = [reason for reason in REASONS if counts[reason]]
    named = [("covered" if one == "COVERED" else one, counts[one]) for one in reasons]
    yield bars(named, len(board.nets))
    yield from parts_table(board, cover)
    for reason in reasons:
        if reason != "COVERED":
            names = [name for name in board.nets if cover.reason(name) == reason]
            yield from reason_section(board, reason, names)
    yield from untested(board, cover)


def reason_section(board: Board, reason: str, names: list[str]) -> Iterator[str]:
    """Yields the nets that have a reason."""
    why, advice = REASONS[reason]
    yield f"<h3>{reason}, {counted(len(names), 'net')}: {why}</h3>\n<p>{advice}</p>"
    yield table(
        ["net", "pins"], [(escape(name), first_pins(board.nets[name])) for name in names[:SHOWN]]
    )
    if len(names) > SHOWN:
        yield f"<p class=quiet>and {len(names) - SHOWN:,} more</p>"


def first_pins(net: Net) -> str:
    """Returns the first pins of a net."""
    more = f" and {len(net.pins) - FEW} more" if len(net.pins) > FEW else ""
    return listing(net.pins[:FEW], " ") + more


def untested(board: Board, cover: Cover) -> Iterator[str]:
    """Yields the pins and pairs of covered nets that are not tested."""
    if cover.drivers or cover.receivers or cover.pair_count:
        yield "<h2>Pins and pairs of covered nets that are not tested</h2>"
    for what, pins, advice in (
        ("driver", cover.drivers, "A receiver on another pin, or a control cell of its own."),
        ("receiver", cover.receivers, "A driver on another pin."),
    ):
        if pins:
            named = [f"{pin} ({board.net_of[pin].name})" for pin in pins]
            yield f"<h3>{counted(len(pins), what)}</h3>\n<p>{advice}</p>\n<p>{listing(named)}</p>"
    if cover.pair_count:
        shown = ", ".join(f"{escape(one)} with {escape(other)}" for one, other in cover.pairs)
        more = cover.pair_count - SHOWN
        shown += f" <span class=quiet>and {more:,} more</span>" if more > 0 else ""
        yield (
            f"<h3>{counted(cover.pair_count, 'pair')} of nets</h3>\n<p>They can not be observed at "
            "once, so a short between them may stay unseen: control cells that do not share a net "
            f"would help.</p>\n<p>{shown}</p>"
        )


Roles = dict[str, set[str]]


def with_both(roles: Roles) -> Roles:
    """Returns roles of pins with two more: pins that have both, and pins that have any."""
    driver, receiver = roles["driver"], roles["receiver"]
    return {**roles, "both": driver & receiver, "any": driver | receiver}


def parts_table(board: Board, cover: Cover) -> Iterator[str]:
    """Yields for each part how many of its pins are tested in each of the roles that they have."""
    pins = Counter(part_of(pin) for pin in board.net_of)
    able: Counter[tuple[str, str]] = Counter()
    tested: Counter[tuple[str, str]] = Counter()
    out = {"driver": set(cover.drivers), "receiver": set(cover.receivers)}
    for name, net in board.nets.items():
        roles: Roles = {
            "driver": {driver.pin for driver in net.drivers},
            "receiver": {reader.pin for reader in net.readers},
        }
        covered = name not in cover.reasons
        good = {role: has - out[role] if covered else set() for role, has in roles.items()}
        for count, of_net in ((able, roles), (tested, good)):
            for role, some in with_both(of_net).items():
                count.update((part_of(pin), role) for pin in some)
    yield (
        "<h3>Parts of the chain</h3>\n<p>Of the pins in nets that have boundary cells, so many are "
        "tested as driver, as receiver, as both.</p>"
    )
    heads = ["part", "entity", "pins in nets", "as driver", "as receiver", "as both"]
    rows = [
        (
            escape(part.name),
            escape(part.entity or "known by its length alone"),
            str(pins[part.name]),
            *(
                share(tested[part.name, role], able[part.name, role])
                for role in ("driver", "receiver", "both")
            ),
            percent(tested[part.name, "any"], able[part.name, "any"]),
        )
        for part in board.parts
    ]
    yield table([*heads, "tested in a role"], rows, numbers=(2,))
