#!/usr/bin/env python3
"""A station on the line: prepares the folder of a product, tests its boards with OpenOCD and keeps
a record of each attempt."""

import sys

sys.dont_write_bytecode = True  # no folder of compiled modules beside the tools
# pylint: disable=wrong-import-position
from btest_tools.files import frame  # noqa: E402
from btest_tools.station.command import main  # noqa: E402

if __name__ == "__main__":
    frame(main)
