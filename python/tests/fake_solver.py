#!/usr/bin/env python3
"""A solver for tests: `fake_solver.py HOW MODEL` behaves as HOW says.

`crash` ends by a signal, `silent` prints nothing, `nonsense` prints bytes that are no answer,
`flood` prints them without end, `rejected` prints an answer that breaks the model, `liar` says that
no roster exists, `unsupported` that it cannot read the model, `lazy` gives up at once, and `deaf`
ignores TERM and never ends.
"""

import os
import signal
import sys
import time


def main():
    how = sys.argv[1]
    if how == "crash":
        os.kill(os.getpid(), signal.SIGSEGV)
    elif how == "nonsense":
        sys.stdout.buffer.write(bytes(range(256)) * 100)
    elif how == "flood":
        while True:
            sys.stdout.buffer.write(b"no answer \xff\n" * 1000)
    elif how == "rejected":
        print("s OPTIMUM FOUND\no 0\nv x1 x2 x3")
    elif how == "liar":
        print("s UNSATISFIABLE")
    elif how in ("unsupported", "lazy"):
        print("s UNSUPPORTED" if how == "unsupported" else "s UNKNOWN")
    elif how == "deaf":
        signal.signal(signal.SIGTERM, signal.SIG_IGN)
        while True:
            time.sleep(10)
    return 0 if how in ("rejected", "silent") else 1


if __name__ == "__main__":
    sys.exit(main())
