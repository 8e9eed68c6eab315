"""What a cause costs. Among sets of faults that explain a log the cheapest is told first."""

from __future__ import annotations

from typing import NamedTuple


class Weights(NamedTuple):
    """Prices, of which a whole cause is 10. What follows each says why."""

    # One defect is likelier than two: boards have few.
    cause: float = 10
    # A row of pins that isn't soldered is one defect. The price is such that four open pins at
    # one part are likelier than a short of four nets, and a short of three nets that lie side by
    # side is likelier than three open pins.
    pin: float = 2.5
    # A bridge of solder joins two pins more often than three, and three more often than four.
    # A net that doesn't lie side by side with the others may need a bridge of its own. Nobody
    # knows, so Prices.spare only says by how much the price may be too low.
    net: float = 4
    # Bridges are between neighbors. Nets that have no pins side by side may still have
    # tracks side by side, so the price is small.
    apart: float = 1
    # Mostly the level wins that the drivers of the family pull harder, at both nets alike. One
    # driver that wins against the other both ways is rarer.
    dominating: float = 1
    # Exchanged pins come from a wrong footprint or a harness, which a running line has no more.
    swap: float = 4
    # Open pins float to one level at one part.
    mixed: float = 1
    # A resistor that isn't fitted or soldered has few pins, an integrated part has many: of a
    # stuck net with a pull and a missing pull the first is likelier by little.
    pull: float = 0.5
    # A pack that isn't fitted takes all of its nets at once. That leaves little doubt, so they
    # cost less than one cause.
    pack: float = -0.5


WEIGHTS = Weights()
CAUSES = 4  # more causes than these are not looked for together
RANKS = 3  # ranks that are told; the others are counted
EQUALS = 6  # sets of one rank that are told; the others are counted
EACH = 300  # nets that differ, up to which shorts and exchanged pins are looked for
