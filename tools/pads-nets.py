#!/usr/bin/env python3
"""Prints the net file of a PADS ASCII netlist (*PADS-PCB*, *NET*, *SIGNAL*).

Usage: pads-nets.py BOARD.asc >BOARD.nets
"""
import sys

sys.dont_write_bytecode = True  # no folder of compiled modules beside the tools
# pylint: disable=wrong-import-position
from btest_tools.netlists import pads, program  # noqa: E402

program.main("a PADS ASCII netlist", pads.read)
