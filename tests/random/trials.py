"""The command line, the runs and the report of a program that tries numbered cases, which a seed
and the number make."""

import argparse
import concurrent.futures
import functools
import os
import sys


def run_trials(about, try_number, kinds, cases="weeks", default=90):
    """Calls `try_number(program, seed, number)` for as many cases as the command line asks for, in
    several processes.

    It returns a count for each of the kinds, or the text of a mistake. The report has the sums of
    the counts with the words of the kinds. The exit status is 1 if there is a mistake, or nothing
    of one kind was tried.
    """
    reader = argparse.ArgumentParser(
        description=about, formatter_class=argparse.RawDescriptionHelpFormatter
    )
    reader.add_argument("program")
    reader.add_argument(f"--{cases}", dest="cases", metavar="N", type=int, default=default)
    reader.add_argument("--seed", metavar="N", type=int, default=1)
    given = reader.parse_args()
    with concurrent.futures.ProcessPoolExecutor() as pool:
        found = list(
            pool.map(functools.partial(try_number, given.program, given.seed), range(given.cases))
        )
    failed = [wrong for wrong in found if isinstance(wrong, str)]
    tried = [counts for counts in found if not isinstance(counts, str)]
    sums = [sum(counts[index] for counts in tried) for index in range(len(kinds))]
    if not all(sums):
        failed.append("nothing of one kind was tried")
    print("".join(f"FAILED: {line}\n" for line in failed), end="")
    report = ", ".join(f"{number} {kind}" for number, kind in zip(sums, kinds))
    print(
        f"{os.path.basename(sys.argv[0])}: seed {given.seed}, {given.cases} {cases}, {report};"
        f" {len(failed)} failed"
    )
    sys.exit(1 if failed else 0)
