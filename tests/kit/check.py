#!/usr/bin/env python3
"""Tests what was changed, in a minute or three: runs what can notice it, and proves nothing.

usage: check.py [COMMIT]      (`make check`, or `make check SINCE=COMMIT`)

It asks git for the files that differ from the last commit that passed the gate, or from COMMIT, and
for new ones. The tests run on the programs that `make` or `make test` has left in `out`. Its last
lines say what was not run.

Of the tests of Python it runs those that choice.py takes within a limit of processor seconds, which
are those of earlier runs. Needs Python 3.11 with NumPy, pytest, black, flake8 and mypy.
"""

import importlib.util
import json
import os
import re
import subprocess
import sys
import tempfile
from concurrent.futures import ThreadPoolExecutor, as_completed
from pathlib import Path
from textwrap import shorten
from typing import Dict, Iterator, List, Mapping, NamedTuple, Sequence

ROOT = Path(__file__).resolve().parents[2]
sys.path[:0] = [str(ROOT), str(ROOT / "tests" / "kit")]

import build  # noqa: E402
from choice import Choice, choose, read_sources  # noqa: E402

PROGRAM = ROOT / "out" / "inrc2pb"
BOUND = ROOT / "out" / "inrc2pb-bound"
TEST_SECONDS = ROOT / "out" / "test-seconds.json"
# The processor seconds of tests for changes of one package, and of all packages together, beside which
# layout, types and scripts take up to 90. The tests of a plan, and of its page, need the most.
LIMIT = 35.0
LIMITS = {"plans": 90.0, "page": 90.0}
LIMIT_OF_ALL = 90.0
# The steps that run at a time; pytest takes two processors more.
LANES = 2
LINES_OF_A_FAILURE = 60
# The most signs of the line that lists the changed files.
LINE = 500

ROWS = "python/inrc2pb/rows/cheapest_rows.c"
TESTS_OF_ROWS = "python/tests/rows/test_compiled.py"
# The files whose changes the tests of Python can notice.
TESTED = r"(python|examples|certified|bench|tests/data|tests/kit)/.*(?<!\.md)|docs/.*|build\.py"
# Programs whose types are checked, with those of the library.
TYPED = r"(bench|certified|tests/edits|tests/kit)/.*\.py|build\.py"
# Scripts, each with the files whose changes it may notice.
SCRIPTS = {
    "tests/pages/repository.sh": r"(crates|examples|bench|package|tests/pages|tests/edits|\.ci)/.*"
    r"|python/(launcher|inrc2pb-).*|(CHANGELOG|CONTRIBUTING)\.md"
    r"|docs/(benchmark|build|changing|layers|rule_places|serving|trusted)\.md|.*\.sh",
    "tests/pages/reading.sh": r"crates/.*|docs/(definitions|reading)\.md|tests/pages/.*\.py",
    "tests/pages/guards.sh": r"tests/pages/.*\.py",
    "tests/pages/build.sh": r"build\.py",
    "tests/pages/edits.sh": r"build\.py|tests/edits/.*",
    "tests/pages/install.sh": r"Makefile|package/.*",
    "python/tests/manual.sh": r"man/.*|python/inrc2pb/commands/.*|docs/answers\.md",
    "tests/program/manual.sh": r"(man|completions)/.*",
}
# A script that is changed is run itself, but for the one that runs all tests of Python.
OWN_SCRIPTS = r"(tests/(pages|program|random)|python/tests)/(?!checks)\w+\.sh"


class Step(NamedTuple):
    """A command that can notice a change."""

    what: str
    words: Sequence[str]
    environment: Mapping[str, str] = {}


class Ended(NamedTuple):
    """How a step ended."""

    failed: bool
    seconds: float  # of processor time
    output: str


class Failed(Exception):
    """Why nothing can be tested."""


# ---- what was changed


def git(*words: str) -> List[str]:
    """The lines that this command of git prints, or those that end with a NUL."""
    ran = subprocess.run(["git", *words], cwd=ROOT, capture_output=True, text=True)
    if ran.returncode:
        raise Failed(f"git {' '.join(words)}: {ran.stderr.strip()}")
    return [line for line in re.split("[\0\n]", ran.stdout) if line]


def passed_commit() -> str:
    """The last commit of this clone that passed the gate; else that at which its branch left the
    one that it follows, or the present commit."""
    gate = ROOT / "out" / "gate"
    if gate.exists():
        commit, counts = gate.read_text().splitlines()[:2]
        if " 0 failed" in counts and not commit.endswith("-dirty"):
            return commit
    try:
        return git("merge-base", "HEAD", "@{upstream}")[0]
    except Failed:
        return "HEAD"


def changed_since(commit: str) -> List[str]:
    """The files that differ from a commit, those that are gone and those that are new."""
    differ = git("diff", "--name-only", "--no-renames", "-z", commit)
    return sorted({*differ, *git("ls-files", "--others", "--exclude-standard", "-z")})


def matching(changed: Sequence[str], pattern: str) -> List[str]:
    """Those of the files that are there and match the pattern."""
    return [file for file in changed if re.fullmatch(pattern, file) and (ROOT / file).is_file()]


# ---- what can notice it


def limit_of(changed: Sequence[str]) -> float:
    """The processor seconds of tests for these changes."""
    packages = {Path(file).parent.name for file in changed}
    return min(sum(LIMITS.get(package, LIMIT) for package in packages), LIMIT_OF_ALL)


def choice_of(changed: Sequence[str]) -> Choice:
    """The tests of Python for these changes."""
    tested = [file for file in changed if re.fullmatch(TESTED, file)]
    if not tested:
        return Choice([], [])
    kept = json.loads(TEST_SECONDS.read_text()) if TEST_SECONDS.exists() else {}
    seconds = {f"python/{test}": cost for test, cost in kept.items()}
    return choose(tested, read_sources(ROOT), seconds, limit_of(tested))


def python_steps(changed: Sequence[str], tests: Choice) -> Iterator[Step]:
    """The steps for the Python files among the changed ones, and the tests for all."""
    if tests.run:
        yield test_step(tests)
    if not any(file.endswith(".py") for file in changed):
        return
    settings = "python/pyproject.toml"
    typed = matching(changed, TYPED)
    mypy = ["mypy", "--config-file", settings, "--cache-dir", "out/types"]
    for files in filter(None, (["python/inrc2pb"], typed)):
        yield Step(f"types of {files[0]}", [*mypy, *files], {"MYPYPATH": "python:bench:certified"})
    yield Step("imports between packages", ["python3", "python/tests/packages.py"])
    there = matching(changed, r".*\.py")
    if there:
        yield Step("layout of Python", ["black", "--config", settings, "--check", *there])
        yield Step("names that nothing uses", ["flake8", "--config", "python/.flake8", *there])
        yield Step("names of variables", ["python3", "python/tests/names.py", *there])


def test_step(tests: Choice) -> Step:
    """The step that runs the chosen tests, the nearest files first."""
    files = list(dict.fromkeys(test.partition("::")[0] for test in tests.run))
    left_out = [test for test in tests.left_out if test.partition("::")[0] in files]
    words = ["pytest", "-q", "-x", "--tb=short", *files]
    for test in left_out:
        words += ["--deselect", test[len("python/") :]]
    if not run(Step("", ["pytest", "--version", "-p", "xdist"])).failed:
        words += ["-n", "2"]
    return Step(f"{len(tests.run)} tests of {len(files)} files", words, {"INRC2PB": str(PROGRAM)})


def page_steps(changed: Sequence[str]) -> Iterator[Step]:
    """The steps for the pages among the changed files, and for the lists of their paths."""
    pages = matching(changed, r"([A-Z]+|(docs|bench|certified|examples)/\w+)\.md")
    if pages:
        words = ["tests/pages/pages.sh", str(PROGRAM), *pages]
        yield Step(f"pages: {' '.join(pages)}", words, {"BOUND": str(BOUND)})
    if matching(changed, r"tests/pages/(paths\.(py|txt)|questions\.txt)"):
        yield Step("words and questions of the paths", ["tests/pages/paths.py"])


def rows_steps(changed: Sequence[str]) -> Iterator[Step]:
    """The steps for the pricing in C: an access outside of an array ends its tests."""
    if ROWS not in changed:
        return
    compiler = os.environ.get("CC", "cc")
    yield Step(
        "warnings of C", [compiler, "-O2", "-Wall", "-Wextra", "-Werror", "-fsyntax-only", ROWS]
    )
    found = subprocess.run(
        [compiler, "-print-file-name=libasan.so"], capture_output=True, text=True
    ).stdout.strip()
    environment = {
        "ROWS_FLAGS": "-fsanitize=address,undefined -fno-sanitize-recover",
        "LD_PRELOAD": found,
        "ASAN_OPTIONS": "detect_leaks=0",
    }
    yield Step(
        "pricing under AddressSanitizer", ["pytest", "-q", "--tb=short", TESTS_OF_ROWS], environment
    )


def script_steps(changed: Sequence[str]) -> Iterator[Step]:
    """The scripts that can notice changes."""
    scripts = [script for script, files in SCRIPTS.items() if matching(changed, files)]
    for script in dict.fromkeys([*scripts, *matching(changed, OWN_SCRIPTS)]):
        yield Step(script, [script, str(PROGRAM)], {"BOUND": str(BOUND)})


def crate_steps(changed: Sequence[str]) -> Iterator[Step]:
    """The step for the layout of the crates among the changed files."""
    crates = sorted(
        {file.split("/")[1] for file in matching(changed, r"crates/\w+/(src|specs|proofs)/.*")}
    )
    if crates:
        yield Step("layout of crates", ["tests/kit/layout.sh", *crates])


# ---- what is not run


def proof_lines(changed: Sequence[str]) -> Iterator[str]:
    """The commands that prove the changed crates and those above them, each with the seconds that
    the proofs took last time, and those that try changed edits."""
    crates = build.crates_below(sorted(path.parent.name for path in ROOT.glob("crates/*/src")))
    parts = [file.split("/")[1:3] for file in changed if re.match("crates/.*/.*/", file)]
    proved = {name for name, part in parts if part != "must-fail"} & set(crates)
    for name in sorted(proved):
        has_tests = any(b"#[test]" in path.read_bytes() for path in crates[name].sources())
        yield f"  cd crates/{name} && rt {'test' if has_tests else 'check'}{last_time([name])}"
    is_for_all = {"crates.txt", "HANDLES"} & set(changed)
    above = [name for name, crate in crates.items() if is_for_all or crate.below & proved]
    if above:
        yield f"  rt all check{last_time(above)}, for {len(above)} crates"
    for name in sorted({name for name, part in parts if part == "must-fail"}):
        yield f"  tests/edits/main.py {name}"


def last_time(names: Sequence[str]) -> str:
    """The seconds that the proofs of these crates took last time, as a comment of a command."""
    kept = build.seconds_of_proofs()
    known = [kept[name] for name in names if name in kept]
    return f"    # {sum(known)} s last time" if known else "    # never measured here"


def lines_of_the_rest(changed: Sequence[str], tests: Choice) -> Iterator[str]:
    """What was not run, and the commands that run it."""
    proofs = list(proof_lines(changed))
    if proofs:
        yield "not proved: the crates that have changed, which these commands prove:"
        yield from proofs
        yield "Then type `make`: what ran above ran on the programs that were built before."
    if tests.left_out:
        nearest = ", ".join(tests.left_out[:3])
        yield f"not run: {len(tests.left_out)} tests that may notice it, such as {nearest}"
    yield "not run: what no change of these files should alter; `make test` runs everything"


# ---- the run


def environment() -> Dict[str, str]:
    """That of the steps: python3 is the one that has NumPy."""
    if importlib.util.find_spec("numpy"):
        return dict(os.environ)
    return {**os.environ, "PATH": f"/usr/bin:{os.environ['PATH']}"}


def run(step: Step) -> Ended:
    """Runs a step. A command that is not installed fails."""
    with tempfile.TemporaryFile() as output:
        try:
            process = subprocess.Popen(
                step.words,
                cwd=ROOT,
                env={**environment(), **step.environment},
                stdin=subprocess.DEVNULL,
                stdout=output,
                stderr=subprocess.STDOUT,
            )
        except FileNotFoundError as fault:
            return Ended(True, 0.0, str(fault))
        _, status, used = os.wait4(process.pid, 0)
        process.returncode = os.waitstatus_to_exitcode(status)
        output.seek(0)
        text = output.read().decode(errors="replace")
    return Ended(process.returncode != 0, used.ru_utime + used.ru_stime, text)


def report(step: Step, ended: Ended) -> None:
    """Prints how a step ended, and what it said if it failed."""
    print(f"{'FAILED' if ended.failed else 'ok':6} {ended.seconds:5.1f} s  {step.what}", flush=True)
    if ended.failed:
        print("\n".join(ended.output.splitlines()[-LINES_OF_A_FAILURE:]), flush=True)


def check(since: str) -> bool:
    """Runs what can notice the changes since a commit; whether all of it passed."""
    changed = changed_since(since)
    commit = git("rev-parse", "--short", since)[0]
    print(
        shorten(
            f"changed since {commit}: {' '.join(changed) or 'nothing'}", LINE, placeholder=" .."
        )
    )
    tests = choice_of(changed)
    steps = [
        *python_steps(changed, tests),
        *page_steps(changed),
        *rows_steps(changed),
        *crate_steps(changed),
        *script_steps(changed),
    ]
    passed = True
    total = 0.0
    with ThreadPoolExecutor(LANES) as pool:
        running = {pool.submit(run, step): step for step in steps}
        for future in as_completed(running):
            ended = future.result()
            report(running[future], ended)
            passed = passed and not ended.failed
            total += ended.seconds
    print(f"{'ok' if passed else 'FAILED':6} {total:5.1f} s  in all")
    print("\n".join(lines_of_the_rest(changed, tests)))
    return passed


def main(words: List[str]) -> int:
    """Reads the command line; the exit status."""
    if any(word.startswith("-") for word in words) or len(words) > 1:
        print(__doc__, file=sys.stderr)
        return 2
    if not (PROGRAM.exists() and BOUND.exists()):
        print("check.py: there is no out/inrc2pb yet: `make` builds it", file=sys.stderr)
        return 2
    try:
        return 0 if check(words[0] if words else passed_commit()) else 1
    except (Failed, build.Failed) as fault:
        print(f"check.py: {fault}", file=sys.stderr)
        return 2


if __name__ == "__main__":
    sys.exit(main(sys.argv[1:]))
