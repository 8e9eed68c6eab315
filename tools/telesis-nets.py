#!/usr/bin/env python3
"""Prints the net file of a Telesis netlist, as Cadence Allegro reads it ($NETS).

Usage: telesis-nets.py BOARD.tel >BOARD.nets
"""
import sys

sys.dont_write_bytecode = True  # no folder of compiled modules beside the tools
# pylint: disable=wrong-import-position
from btest_tools.netlists import program, telesis  # noqa: E402

program.main("a Telesis netlist", telesis.read)
