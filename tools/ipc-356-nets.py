#!/usr/bin/env python3
"""Prints the net file of a netlist by IPC-D-356 or IPC-D-356A, for bare-board testers.

Usage: ipc-356-nets.py BOARD.ipc >BOARD.nets
"""
import sys

sys.dont_write_bytecode = True  # no folder of compiled modules beside the tools
# pylint: disable=wrong-import-position
from btest_tools.netlists import ipc356, program  # noqa: E402

program.main("a netlist by IPC-D-356", lambda text: ipc356.read(text)[0])
