"""The time of an attempt."""

from __future__ import annotations

from datetime import datetime, timezone
from typing import NamedTuple


class Moment(NamedTuple):
    """A moment in UTC and local, to the second, as ISO 8601 has them."""

    utc: str
    local: str


def moment() -> Moment:
    """Returns this moment."""
    now = datetime.now(timezone.utc)
    utc = now.strftime("%Y-%m-%dT%H:%M:%SZ")
    return Moment(utc, now.astimezone().isoformat(timespec="seconds"))
