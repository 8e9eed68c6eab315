"""Reads where the pins of a board are, of either form that has it."""

from __future__ import annotations

from btest_tools.files import BadInput
from btest_tools.netlists import ipc356, kicad_pcb
from btest_tools.netlists.net_file import Refused
from btest_tools.netlists.program import read_bytes
from btest_tools.places import Places


def read_places(name: str) -> Places:
    """Reads a board of KiCad (.kicad_pcb) or a netlist by IPC-D-356."""
    text = read_bytes(name)
    reader = kicad_pcb.read if text.lstrip().startswith(b"(") else ipc356.read
    try:
        places = reader(text)[1]
    except Refused as why:
        raise BadInput(f"{name} {why}") from None
    if not places.pins:
        raise BadInput(f"{name}: no places: is this a .kicad_pcb, or a netlist by IPC-D-356?")
    return places
