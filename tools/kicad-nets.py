#!/usr/bin/env python3
"""Prints the net file of a KiCad netlist (File > Export > Netlist, format KiCad).

Usage: kicad-nets.py BOARD.net >BOARD.nets
"""
import sys

sys.dont_write_bytecode = True  # no folder of compiled modules beside the tools
# pylint: disable=wrong-import-position
from btest_tools.netlists import kicad, program  # noqa: E402

program.main("a KiCad netlist", kicad.read)
