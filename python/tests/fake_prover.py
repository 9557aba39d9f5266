#!/usr/bin/env python3
"""An `inrc2pb-bound` for tests: `fake_prover.py HOW LOG WORDS..` behaves as HOW says, and writes
its words, the text of its certificate and that of its given facts to LOG.

`hang` never ends, also on TERM, `crash` ends by a signal, `fails` has the fault of a program
without memory, `lies` prints what is no number, `flood` a number of many digits, and a number is
the bound. A number after `/` is the bound of a certificate with cases.
"""

import json
import os
import signal
import sys
import time
from pathlib import Path


def main():
    how, log, *words = sys.argv[1:]
    texts = {
        option: Path(path).read_text()
        for option, path in zip(words, words[1:])
        if option in ("--proof", "--given")
    }
    Path(log).write_text(json.dumps({"words": words, "texts": texts, "process": os.getpid()}))
    if how == "hang":
        signal.signal(signal.SIGTERM, signal.SIG_IGN)
        while True:
            time.sleep(10)
    elif how == "crash":
        os.kill(os.getpid(), signal.SIGSEGV)
    elif how == "fails":
        print("inrc2pb-bound: out of memory", file=sys.stderr)
        return 4
    alone, _, by_cases = how.partition("/")
    bound = by_cases if by_cases and "\nSPLIT " in texts["--proof"] else alone
    print("lower bound " + {"lies": "low", "flood": "9" * 9999}.get(how, bound))
    return 0


if __name__ == "__main__":
    sys.exit(main())
