"""The frame of a page: its head, and where it comes from."""

from __future__ import annotations

import datetime
import os
import pathlib
from collections.abc import Iterable, Sequence
from html import escape

VERSION = pathlib.Path(__file__).resolve().parents[3] / "VERSION"
STYLE = """
body { font: 15px/1.45 sans-serif; color: #111; background: #fff; margin: 0 auto; padding: 1em;
  max-width: 72em; }
h1 { font-size: 1.5em; margin: 0 0 .3em; }
h2 { font-size: 1.2em; margin: 1.8em 0 .5em; border-bottom: 2px solid #111; }
h3 { font-size: 1em; margin: 1.4em 0 .3em; } p, ul, ol { margin: .4em 0; }
ul, ol { padding-left: 1.3em; }
.wide { overflow-x: auto; } table { border-collapse: collapse; }
h1, h3, td, li, p { overflow-wrap: anywhere; }
th, td { text-align: left; vertical-align: top; padding: .2em .9em .2em 0;
  border-bottom: 1px solid #bbb; } th { white-space: nowrap; }
td.number, th.number { text-align: right; white-space: nowrap; } td { min-width: 4.5em; }
td:first-child { min-width: 7em; } td.number { min-width: 0; }
.bits td { font-family: monospace; white-space: nowrap; } .bits td.bad { background: #fde3e0; }
.bits b { color: #b00020; text-decoration: underline; } .quiet { color: #555; }
.verdict { display: inline-block; font-weight: bold; font-size: 1.3em; padding: .1em .7em;
  border: 3px solid #111; }
.fail { border-color: #b00020; color: #b00020; border-style: double; }
.pass { border-color: #14632b; color: #14632b; }
svg { width: 9em; height: .9em; vertical-align: middle; margin-right: .4em; }
@media print { body { max-width: none; padding: 0; font-size: 11px; }
  h3, tr { break-inside: avoid; } h2, h3 { break-after: avoid; } }
"""


def version() -> str:
    """Returns the version that goes with these programs, or nothing if it isn't there."""
    try:
        return VERSION.read_text(encoding="utf-8").strip()
    except OSError:
        return ""


def made_at() -> str:
    """Returns when a page is made, in local time. SOURCE_DATE_EPOCH may fix it."""
    fixed = os.environ.get("SOURCE_DATE_EPOCH", "")
    if fixed.isdecimal():
        moment = datetime.datetime.fromtimestamp(int(fixed), datetime.timezone.utc)
    else:
        moment = datetime.datetime.now().astimezone()
    return moment.strftime("%Y-%m-%d %H:%M %Z").strip()


def page(title: str, files: Sequence[str], body: Iterable[str]) -> str:
    """Returns a page. All of it is made before the first byte is printed."""
    sections = "\n".join(body)
    names = escape(" ".join(map(os.path.basename, files)))
    number = version()
    made = f"Made {made_at()} by report.py of btest{' ' + number if number else ''}"
    return (
        '<!DOCTYPE html>\n<html lang="en">\n<head>\n<meta charset="utf-8">\n'
        '<meta name="viewport" content="width=device-width">\n'
        f"<title>{escape(title)}</title>\n<style>{STYLE}</style>\n</head>\n<body>\n"
        f"<h1>{escape(title)}</h1>\n<p class=quiet>{made} from {names}</p>\n"
        f"{sections}\n</body>\n</html>\n"
    )
