#!/usr/bin/env python3
"""Prints the net file of a Protel netlist (parts in [ ], nets in ( )).

Usage: protel-nets.py BOARD.NET >BOARD.nets
"""
import sys

sys.dont_write_bytecode = True  # no folder of compiled modules beside the tools
# pylint: disable=wrong-import-position
from btest_tools.netlists import program, protel  # noqa: E402

program.main("a Protel netlist", protel.read)
