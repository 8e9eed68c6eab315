"""Reads KiCad's netlists (File > Export > Netlist, format KiCad)."""

from __future__ import annotations

from btest_tools.netlists.lists import Lines, Reader, Wanted
from btest_tools.netlists.net_file import Nets

NET: Wanted = {b"name": {}, b"node": {b"ref": {}, b"pin": {}}}
WANTED: Wanted = {b"export": {b"nets": {b"net": NET}}}


def read(text: bytes) -> Nets:
    """Returns the nets of a netlist."""
    nets, lines = Nets(), Lines(text)
    for item in Reader(text, WANTED, 2).items():
        net = nets.begin(item.word(b"name"), lines.of(item.offset))
        for node in item.all(b"node"):
            nets.add(net, node.word(b"ref"), node.word(b"pin"), lines.of(node.offset))
    return nets
