#!/usr/bin/env python3
"""Finds the library, in this folder or installed, and runs the command whose name it has.

Each command of this folder imports this file, and an installed command is a copy of it.
"""

import os
import signal
import sys

# Ctrl-C ends a command that still starts without a traceback.
if signal.getsignal(signal.SIGINT) == signal.default_int_handler:
    signal.signal(signal.SIGINT, signal.SIG_DFL)
NAME = os.path.basename(sys.argv[0])
if sys.version_info < (3, 11):
    sys.exit(NAME + ": needs Python 3.11 or later")
HERE = os.path.dirname(os.path.realpath(__file__))
for home in (HERE, os.path.join(HERE, "../share/inrc2pb"), os.path.join(HERE, "../lib/inrc2pb")):
    if os.path.exists(os.path.join(home, "inrc2pb/__init__.py")):
        sys.path.insert(0, home)
        break
else:
    sys.exit(NAME + ": there is no folder share/inrc2pb: install it again with `make install`")

from inrc2pb.commands.command import launch  # noqa: E402

if __name__ == "__main__":
    launch()
