#!/usr/bin/env python3
"""Prints the net file of a board of KiCad 5 to 8 (.kicad_pcb).

Usage: kicad-pcb-nets.py BOARD.kicad_pcb >BOARD.nets
"""
import sys

sys.dont_write_bytecode = True  # no folder of compiled modules beside the tools
# pylint: disable=wrong-import-position
from btest_tools.netlists import kicad_pcb, program  # noqa: E402

program.main("a board of KiCad", lambda text: kicad_pcb.read(text)[0])
