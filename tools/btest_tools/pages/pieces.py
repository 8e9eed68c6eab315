"""Pieces of a page."""

from __future__ import annotations

from collections.abc import Collection, Iterable, Sequence
from html import escape

SHOWN = 300  # lines of a list; btest prints all of them


class Row(str):
    """A row of a table that is HTML already."""


def cells(row: Sequence[str], tag: str, numbers: Collection[int]) -> str:
    """Returns the cells of a row."""
    kinds = (" class=number" if at in numbers else "" for at in range(len(row)))
    return "".join(f"<{tag}{kind}>{cell}</{tag}>" for kind, cell in zip(kinds, row))


def table(
    heads: Sequence[str],
    rows: Iterable[Sequence[str] | Row],
    kind: str = "",
    numbers: Collection[int] = (),
) -> str:
    """Returns a table. Cells are HTML. `numbers` are the columns that hold numbers."""
    body = "\n".join(
        row if isinstance(row, Row) else f"<tr>{cells(row, 'td', numbers)}</tr>" for row in rows
    )
    head = f"<tr>{cells(heads, 'th', numbers)}</tr>\n" if any(heads) else ""
    named = f" class={kind}" if kind else ""
    return f"<div class=wide><table{named}>\n{head}{body}\n</table></div>"


def gauge(part: int, whole: int) -> str:
    """Returns a bar of which a part is filled. Its name is read to who doesn't see it."""
    width = max(1, round(200 * part / whole)) if part and whole else 0
    return (
        f'<svg viewBox="0 0 202 14" role="img" aria-label="{part:,} of {whole:,}">'
        '<rect x="1" y="1" width="200" height="12" fill="#fff" stroke="#999"/>'
        f'<rect x="1" y="1" width="{width}" height="12" fill="#456"/></svg>'
    )


def percent(part: int, whole: int) -> str:
    """Returns a share as a bar and a number, rounded down."""
    return f"{gauge(part, whole)} {100 * part // whole} %" if whole else ""


def bars(counts: Iterable[tuple[str, int]], whole: int) -> str:
    """Returns names and numbers with bars, of which a full one is the whole. The words are no
    part of the drawing, so that a narrow screen doesn't make them small."""
    rows = [(escape(name), gauge(count, whole), f"{count:,}") for name, count in counts]
    return table(["", "", ""], rows, numbers=(2,))


def share(tested: int, whole: int) -> str:
    """Returns how many of a whole, or that there are none."""
    return f"{tested} of {whole}" if whole else "<span class=quiet>none</span>"


def counted(number: int, what: str) -> str:
    """Returns a number of things."""
    return f"{number:,} {what}{'' if number == 1 else 's'}"


def listing(items: Sequence[str], joint: str = ", ") -> str:
    """Returns items as text, the first of them if they are many."""
    shown = joint.join(map(escape, items[:SHOWN]))
    more = len(items) - SHOWN
    return shown + (f" <span class=quiet>and {more:,} more</span>" if more > 0 else "")


def items_of(lines: Sequence[str]) -> str:
    """Returns a list, or nothing if it has no lines."""
    body = "".join(f"<li>{escape(line.strip())}</li>" for line in lines)
    return f"<ul>{body}</ul>" if lines else ""
