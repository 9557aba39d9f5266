#!/usr/bin/env python3
"""Runs the built program on weeks, rosters, files and answers made at random, and checks it from
outside.

usage: fuzz.py [PROGRAM] [--seconds N] [--seed N]

PROGRAM is crates/inrc2pb/out/inrc2pb where it is left out. The seed is printed; the same seed tries
the same cases. Half of the weeks are tried as they were made, with several rosters:
tests/random/random_rosters.py says what is compared. In the others, and in the files of examples/,
bytes are cut, doubled and swapped, words and numbers exchanged, lines moved. What is checked of
each run then:

- its status is one of the list in docs/answers.md, and not that of out of memory or a failed read
or write; - where it is not 0, standard error is one line of the stated form, standard output is
empty, and no file is made; - the counts of a model's first line are those of its lines; - an answer
in pieces ends as the whole answer does; - a roster of files that are read is judged as
python/inrc2pb/judging/rules.py does; - a fault of a file is the one that the library
`python/inrc2pb` reports, in the same file and line.

A case that fails is made smaller as long as it fails in the same way, and kept in a folder of its
own under fuzz-failures/, with the command that shows it.
"""

import argparse
import glob
import os
import random
import re
import shutil
import sys
import tempfile
import time

from random_rosters import check_roster
from drafts import ROOT, FileFault, files, files_of, read_week, solution_text
from random_weeks import (
    any_cell,
    example_files,
    legal_roster,
    random_cases,
    random_roster,
    random_week,
    read,
)
from runs import FILES, Runs, Wrong
from shrink import shrunk

MOST_FAILURES = 5  # then it ends, since each takes some seconds to be made small

TEXTS = (
    r"(end of file|another word expected|number expected|out of limits|unknown name|repeated|text"
    r" after the end)"
)
FAULTS = {
    1: re.compile(
        rf"inrc2pb: ((scenario|history|week|solution|fix)( line \d+)?: {TEXTS}|history: week not"
        r" below WEEKS"
        r"|answer: (no status line or a second one|unknown status|bad literal|variable out of range"
        r"|variable with both values|bad o value))\n"
    ),
    5: re.compile(r"inrc2pb: solver found no roster: (UNSATISFIABLE|UNKNOWN|UNSUPPORTED)\n"),
    6: re.compile(r"inrc2pb: (constraint \d+ is not satisfied|roster breaks H[1-5])\n"),
}


def example_weeks():
    """The files of some example weeks, and the answers that solvers gave."""
    for name in ("eight", "n005w4", "thirty"):
        yield example_files(name), [
            read(path) for path in sorted(glob.glob(f"{ROOT}/examples/{name}/answers/*"))
        ]


# ---- changes


def change_bytes(chance, text):
    begin = chance.randrange(len(text) + 1)
    end = min(len(text), begin + chance.choice([1, 1, 2, 5, 40, 400]))
    piece = text[begin:end]
    other = chance.randrange(len(text) + 1)
    return chance.choice(
        [
            lambda: text[:begin],
            lambda: text[:begin] + text[end:],
            lambda: text[:end] + piece + text[end:],
            lambda: text[:begin] + piece[::-1] + text[end:],
            lambda: text[:begin] + chr(chance.randrange(256)) + text[begin + 1 :],
            lambda: text[:begin]
            + chance.choice([" ", "\n", "\r\n", "\t", "(", ",", "=", "-", "x", "\0", "\xff"])
            + text[begin:],
            lambda: text[:other] + piece + text[other:],
        ]
    )()


def change_words(chance, text):
    words = re.split(r"(\s+)", text)
    places = [i for i, word in enumerate(words) if word and not word.isspace()]
    if not places:
        return text
    one = chance.choice(places)
    other = chance.choice(places)
    kind = chance.randrange(4)
    if kind == 0:
        words[one], words[other] = words[other], words[one]
    elif kind == 1:
        words[one] = words[other]
    elif kind == 2:
        words[one] = ""
    else:
        words[one] += " " + words[other]
    return "".join(words)


def change_numbers(chance, text):
    found = list(re.finditer(r"[0-9]+", text))
    if not found:
        return text
    number = chance.choice(found)
    new = chance.choice(
        [
            0,
            1,
            2,
            3,
            7,
            8,
            9,
            15,
            16,
            17,
            52,
            53,
            64,
            65,
            1000,
            1001,
            9998,
            9999,
            10000,
            65535,
            65536,
            2**32,
            10**40,
        ]
    )
    near = max(0, int(number.group()) + chance.choice([-1, 1]))
    new = chance.choice([new, near, near, near])
    return f"{text[: number.start()]}{chance.choice(['', '', '000'])}{new}{text[number.end() :]}"


def change_lines(chance, text):
    lines = text.splitlines(keepends=True)
    if not lines:
        return text
    one = chance.randrange(len(lines))
    other = chance.randrange(len(lines))
    low = min(one, other)
    high = max(one, other) + 1
    return "".join(
        chance.choice(
            [
                lambda: lines[:one] + lines[one + 1 :],
                lambda: lines[:one] + [lines[one]] + lines[one:],
                lambda: lines[:low] + lines[low:high][::-1] + lines[high:],
                lambda: lines[low:high] + lines[:low] + lines[high:],
            ]
        )()
    )


def changed(chance, text):
    for _ in range(chance.choice([1, 1, 1, 2, 3, 8])):
        text = chance.choice(
            [change_bytes, change_words, change_numbers, change_numbers, change_lines]
        )(chance, text)
    return text


# ---- cases of changed files


def changed_case(chance, weeks):
    """A week and what goes with it, where one of the files, the answer and the roster may be
    changed."""
    if chance.random() < 0.4:
        case, answers = chance.choice(weeks)
        case = dict(case)
        week = read_week(case["sce"], case["his"], case["week"])
        roster = legal_roster(chance, week)
    else:
        week, roster = random_week(chance)
        case = files_of(week)
        answers = []
    case["answer"] = chance.choice(
        answers or ["s SATISFIABLE\nv x1\n", "o 5\ns OPTIMUM FOUND\nv -x1 x2 x3\nv x4 -x5\n"]
    )
    case["roster"] = solution_text(week, random_roster(chance, week, roster))
    if chance.random() < 0.3:
        case["fix"] = solution_text(
            week, [any_cell(chance, week) for _ in range(chance.randint(0, 3))]
        )
    if chance.random() < 0.4:
        case["early"] = ""
    for names, likely in (
        (["sce", "his", "week", *["fix"] * ("fix" in case)], 0.6),
        (["answer"], 0.8),
        (["roster"], 0.4),
    ):
        if chance.random() < likely:
            name = chance.choice(names)
            case[name] = changed(chance, case[name])
    case["cuts"] = " ".join(
        str(chance.randrange(len(case["answer"]) + 1)) for _ in range(chance.choice([1, 2, 5, 20]))
    )
    return case


def check_fault(status, out, err, made=None):
    if status not in FAULTS or not FAULTS[status].fullmatch(err):
        raise Wrong(f"status {status}", f"standard error {err[:200]!r}")
    if out or made is not None:
        raise Wrong(
            f"status {status}, and more", f"standard output {out[:200]!r}, solution file {made!r}"
        )


def check_counts(model):
    lines = model.split("\n")[:-1]
    first = re.fullmatch(r"\* #variable= (\d+) #constraint= (\d+)", lines[0])
    rest = lines[2:] if len(lines) > 1 and lines[1].startswith("min:") else lines[1:]
    variables = max((int(number) for number in re.findall(r"x(\d+)", model)), default=0)
    if not first or (int(first.group(1)), int(first.group(2))) != (variables, len(rest)):
        raise Wrong(
            "counts of a model",
            f"{lines[0]!r} over {variables} variables and {len(rest)} constraints",
        )


def cut(text, cuts):
    places = sorted(min(int(place), len(text)) for place in cuts.split())
    return [text[a:b] for a, b in zip([0, *places], [*places, len(text)])]


def library_fault(case):
    """The fault of the library for the files of the case, as the program's line, or an empty
    text."""
    try:
        ward = files.read_scenario("scenario", case["sce"])
        history = files.read_history("history", ward, case["his"])
        files.read_week("week", ward, case["week"])
        files.check_week_number("history", history, ward)
        if "fix" in case:
            files.read_solution("fix", ward, case["fix"])
    except FileFault as fault:
        return (
            f"inrc2pb: {fault.path}{f' line {fault.line}' if fault.line else ''}: {fault.fault}\n"
        )
    return ""


def check_changed(runs, case):
    runs.put(case)
    status, out, err = runs.run("encode")
    if err != library_fault(case):
        raise Wrong("the library's fault", f"{library_fault(case)!r} is not {err!r}")
    if status:
        check_fault(status, out, err)
    else:
        check_counts(out)
    ended = runs.decode()
    if ended[0]:
        check_fault(*ended)
    if "cuts" in case and runs.decode(cut(case["answer"], case["cuts"])) != ended:
        raise Wrong("an answer in pieces", f"ends otherwise than {ended[:3]}")
    status, out, err = runs.run("extend", "--from", "roster.txt")
    if status in (0, 6):
        check_roster(runs, case)
    else:
        check_fault(status, out, err)


# ---- all of them


def failure(check, runs, case):
    """What is wrong with the case, or None."""
    try:
        check(runs, case)
    except Wrong as wrong:
        return wrong
    except (FileFault, IndexError, KeyError, ValueError) as error:
        return Wrong("files that the library does not read", repr(error))
    return None


def keep(check, runs, case, named, wrong):
    small = shrunk(
        case, lambda case: getattr(failure(check, runs, case), "kind", None) == wrong.kind
    )
    wrong = failure(check, runs, small)
    folder = f"{ROOT}/fuzz-failures/{named}"
    shutil.rmtree(folder, ignore_errors=True)
    os.makedirs(folder)
    for name, text in small.items():
        if name in FILES:
            with open(f"{folder}/{FILES[name]}", "w", encoding="latin-1", newline="") as file:
                file.write(text)
    with open(f"{folder}/command.txt", "w", encoding="latin-1") as file:
        file.write(f"{runs.shown}\n{wrong}\n")
    print(f"FAILED: {wrong}\n  {runs.shown}\n  kept in {folder}", flush=True)


def cases(seed, number, weeks):
    """The cases of a number, each with its check."""
    if number % 2:
        return [(check_roster, case) for case in random_cases(seed, number)]
    return [(check_changed, changed_case(random.Random(f"changed {seed} {number}"), weeks))]


def main():
    reader = argparse.ArgumentParser(
        description=__doc__, formatter_class=argparse.RawDescriptionHelpFormatter
    )
    reader.add_argument("program", nargs="?", default=f"{ROOT}/crates/inrc2pb/out/inrc2pb")
    reader.add_argument("--seconds", type=float, default=60)
    reader.add_argument("--seed", type=int, default=random.SystemRandom().randrange(10**9))
    given = reader.parse_args()
    weeks = list(example_weeks())
    print(f"seed {given.seed}", flush=True)
    end = time.monotonic() + given.seconds
    number = 0
    tried = 0
    failed = 0
    while time.monotonic() < end and failed < MOST_FAILURES:
        number += 1
        with tempfile.TemporaryDirectory(prefix="inrc2pb-") as folder:
            runs = Runs(given.program, folder)
            for check, case in cases(given.seed, number, weeks):
                tried += 1
                wrong = failure(check, runs, case) if failed < MOST_FAILURES else None
                if wrong:
                    failed += 1
                    keep(check, runs, case, f"{given.seed}-{tried}", wrong)
    print(f"{tried} cases, {failed} failed")
    sys.exit(1 if failed else 0)


if __name__ == "__main__":
    main()
