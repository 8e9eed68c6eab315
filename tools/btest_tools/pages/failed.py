"""What a page says of a board that failed."""

from __future__ import annotations

from collections.abc import Iterator, Sequence
from html import escape

from btest_tools.asking import lines_of
from btest_tools.board import Board, Net, part_of
from btest_tools.explaining.faults import fault_of
from btest_tools.explaining.words import Rank, Teller, left, where
from btest_tools.failing import Bench, Look, by_parts
from btest_tools.logs import Failing, facts, spans
from btest_tools.pages.pieces import SHOWN, Row, counted, items_of, listing, table

PASSED = (
    "<p>Every compared bit is the expected one. Where the player failed, an SIR did: look at the "
    "chain first.</p>"
)
BITS = (
    "<p>Bits are in the order of the rows of a pass. A bit that is not the expected one is bold "
    "and underlined; - is a pin that is not compared.</p>"
)


def log_section(bench: Bench, seen: Look, pictures: str = "") -> Iterator[str]:
    """Yields what is said of the log of a board, with the pictures of it, if there are some."""
    passed = seen.head == "PASS"
    kind, verdict = ("pass", "PASS") if passed else ("fail", "FAIL")
    yield f'<h2>The log</h2>\n<p class="verdict {kind}">{verdict}</p>'
    if passed:
        yield PASSED
        return
    yield f"<p>{counted(len(seen.found), 'net')} not as expected.</p>"
    yield from explanations(bench, seen)
    yield from named_faults(bench.board, seen)
    yield pictures
    yield "<h2>Nets that differ</h2>"
    if not seen.is_asked:
        yield items_of(list(by_parts(seen.found)))
        return
    yield BITS
    for one in seen.found:
        yield from net_section(one, seen)


def explanations(bench: Bench, seen: Look) -> Iterator[str]:
    """Yields the sets of faults that explain the log."""
    explained = seen.explained
    yield from (f"<p>{escape(line)}</p>" for line in where(explained))
    whole = "every compared bit" if not explained.left else "a part of the log"
    ranks = list(Teller(bench.board, bench.nearness).ranks(explained))
    if ranks:
        yield f"<h3>Sets of faults that give {whole}, the likeliest first</h3>"
        yield "<ol>" + "".join(map(rank_item, ranks)) + "</ol>"
    if explained.more:
        yield f"<p class=quiet>and {counted(explained.more, 'set')} with more or rarer causes</p>"
    yield from (f"<p>{escape(line)}</p>" for line in (*left(explained), seen.walk) if line)


def rank_item(rank: Rank) -> str:
    """Returns a rank as an item of a list."""
    text = f"<li><b>{escape(rank.head)}</b>{items_of(rank.lines)}"
    for other in rank.equals:
        text += f"<p>or</p>{items_of(other)}"
    return text + (f"<p>Next: {escape(rank.next)}.</p>" if rank.next else "") + "</li>"


def named_faults(board: Board, seen: Look) -> Iterator[str]:
    """Yields the faults that btest names, with the pins at which they may be."""
    named = seen.faults or list(lines_of(seen.found))
    if not named:
        return
    kind = "explain the whole log" if seen.faults else "explain one net, or two"
    yield f"<h3>Single faults that {kind}, and where they may be</h3>"
    rows = [(escape(line), "<br>".join(pins_of(board, line))) for line in named[:SHOWN]]
    yield table(["fault", "pins"], rows)


def pins_of(board: Board, line: str) -> Iterator[str]:
    """Yields the pins that a fault may be at, net by net, each with its part's entity and what it
    does."""
    fault = fault_of(line)
    for name in fault.nets(board):
        pins = fault.names if fault.kind == "open" else board.nets[name].pins
        shown = listing([pin_words(board, board.nets[name], pin) for pin in pins])
        yield shown if fault.kind == "open" else f"<b>{escape(name)}</b>: {shown}"


def pin_words(board: Board, net: Net, pin: str) -> str:
    """Returns a pin with its part's entity and what it does."""
    part = part_of(pin)
    does = ["drives"] * any(driver.pin == pin for driver in net.drivers)
    does += ["reads"] * any(reader.pin == pin for reader in net.readers)
    entity = board.entities().get(part, "in series" if part in net.links else "")
    what = ", ".join(filter(None, [entity, " and ".join(does)]))
    return pin + (f" ({what})" if what else "")


def net_section(one: Failing, seen: Look) -> Iterator[str]:
    """Yields a net with its bits."""
    net = one.net
    links = f"; {', '.join(net.links)} in series joins {', '.join(net.joined)}" if net.links else ""
    count = f"{len(one.wrong)} of {len(one.pins)} receivers differ"
    yield f"<h3>{escape(one.name)}: {count}{escape(links)}</h3>"
    yield bits_table(one)
    yield items_of(list(facts(one, seen.found, seen.is_asked)))


def bits_table(one: Failing) -> str:
    """Returns the bits of a net: those that are wrong are marked by more than a color."""
    columns = one.columns()
    rows = []
    for at, (pin, _) in enumerate(one.readers):
        got = [column.bits[at] or "" for column in columns]
        row = "".join(bits_cell(one.expected, bits) for bits in got)
        rows.append(Row(f"<tr><td>{escape(pin)}</td><td>{one.expected}</td>{row}</tr>"))
    if len(rows) > SHOWN:
        rows[SHOWN:] = [Row(f"<tr><td>and {len(rows) - SHOWN} more</td></tr>")]
    heads = ["pin", "expected", *(f"pass {spans(column.passes)}" for column in columns)]
    return table(heads, rows, "bits")


def bits_cell(expected: str, got: str) -> str:
    """Returns the bits that came at a pin."""
    marked = "".join(bit if bit == want else f"<b>{bit}</b>" for bit, want in zip(got, expected))
    return f"<td class=bad>{marked}</td>" if "<b>" in marked else f"<td>{marked or '-'}</td>"


def walk_section(lines: Sequence[str]) -> Iterator[str]:
    """Yields what is said of the log of the walking test."""
    text = escape("\n".join(lines))
    yield f"<h2>The walking test</h2>\n<pre class=wide>{text}</pre>"
