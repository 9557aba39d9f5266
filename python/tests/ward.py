"""The example weeks, and runs of the commands, for the tests of this folder."""

import contextlib
import datetime
import importlib
import os
import shutil
import signal
import subprocess
import sys
import tempfile
import time
import traceback
import unittest
from dataclasses import replace
from pathlib import Path
from types import SimpleNamespace
from unittest import mock

ROOT = Path(__file__).resolve().parents[2]
HELPERS = ROOT / "python"
sys.path.insert(0, str(HELPERS))

from inrc2pb.programs import clock, program, progress  # noqa: E402
from inrc2pb.week import files, records, writing  # noqa: E402, F401
from inrc2pb.commands.command import MODULES, launch  # noqa: E402
from inrc2pb.judging.absences import with_requests  # noqa: E402
from inrc2pb.week.faults import ProgramFault  # noqa: E402

# A copy of this process, as `begin_command` makes it, loads no command anew, and asks no program
# again whether it is the right one.
for command in MODULES.values():
    importlib.import_module(f"inrc2pb.commands.{command}")
with contextlib.suppress(ProgramFault):
    program.find_program()

WARD = ROOT / "examples" / "ward"
SCENARIO, HISTORY, WEEK, ROSTER = (
    WARD / name for name in ("ward.txt", "history-0.txt", "week-0.txt", "roster-0.txt")
)
WEEK_OPTIONS = ("--sce", SCENARIO, "--his", HISTORY, "--week", WEEK)
WEEK_FILES = program.WeekFiles(SCENARIO, HISTORY, WEEK)
THIRTY = ROOT / "examples" / "thirty"
THIRTY_FILES = program.WeekFiles(
    THIRTY / "ward.txt", THIRTY / "history-3.txt", THIRTY / "week-3.txt"
)
# A roster of this week: clasp's answer to its model with --early.
EARLY_ANSWER = ROOT / "tests" / "data" / "thirty_clasp_early.txt"
# A shell lets its background ignore Ctrl-C, and so would the commands.
if signal.getsignal(signal.SIGINT) == signal.SIG_IGN:
    signal.signal(signal.SIGINT, signal.default_int_handler)
HAS_CLASP, HAS_CBC = (shutil.which(name) is not None for name in ("clasp", "cbc"))
# A test has fewer files open.
MOST_FILES = 1000
# All weeks of the tests have ended, but for those of tests that say which day it is.
clock.today = lambda: datetime.date(9999, 12, 31)
# The seconds of a search that ends by itself, with a proof, and of a wait for what comes at once.
# No test takes them, on a machine that is ten times slower neither: a test in which the time of a
# search has to end says when (`time_ends_at`).
ENOUGH = 120


def run(command, *words, environment=None, errors="strict"):
    """Runs a command in this process, or, with an environment of its own, in a copy of it; its
    status, standard output and standard error. Output that is no UTF-8 is a fault if `errors` does
    not say how to read it."""
    # The time of --inrc2 begins with the process.
    if environment is not None or "--inrc2" in words:
        ran = begin_command(command, *words, environment=environment)
        texts = [text.decode(errors=errors) for text in ran.communicate()]
        return (ran.returncode, *texts)
    with tempfile.TemporaryFile() as printed, tempfile.TemporaryFile() as said:
        with own_signals(), output_to(printed, said):
            status = status_of(command, words)
        texts = []
        for file in (printed, said):
            file.seek(0)
            texts.append(file.read().decode(errors=errors))
        return (status, *texts)


def start_command(command, *words, **options):
    """A command that has begun as its user starts it, which takes longer than a copy of this
    process. The options are those of a Popen."""
    path = str(HELPERS / f"inrc2pb-{command}")
    pipes = dict.fromkeys(("stdout", "stderr"), subprocess.PIPE)
    return subprocess.Popen([sys.executable, path, *map(str, words)], **{**pipes, **options})


def begin_command(command, *words, environment=None, **options):
    """A command that has begun in a copy of this process, where its library is loaded, and that
    waits for no other thread at its end. The options are those of a Popen."""

    def runs():
        # The Popen waits until no process has the other end of one of its pipes.
        os.closerange(3, MOST_FILES)
        signal.signal(signal.SIGINT, signal.default_int_handler)
        for number in (signal.SIGTERM, signal.SIGHUP):
            signal.signal(number, signal.SIG_DFL)
        os.environ.update(environment or {})
        sys.stdin = open(0, closefd=False)
        os._exit(status_of(command, words))

    pipes = dict.fromkeys(("stdout", "stderr"), subprocess.PIPE)
    return subprocess.Popen(
        [command], preexec_fn=runs, restore_signals=False, **{**pipes, **options}
    )


def status_of(command, words):
    """Runs a command in this process; its status. Its output goes to the descriptors 1 and 2."""
    path = str(HELPERS / f"inrc2pb-{command}")
    sys.stdout, sys.stderr = (open(number, "w", closefd=False) for number in (1, 2))
    with mock.patch.object(sys, "argv", [path, *map(str, words)]):
        try:
            launch()
        except SystemExit as end:
            return end.code
        except BaseException:
            traceback.print_exc()
        finally:
            for stream in (sys.stdout, sys.stderr):
                stream.flush()
    return 1


@contextlib.contextmanager
def output_to(printed, said):
    """Within the block the standard output and standard error of this process are these files."""
    streams = sys.stdout, sys.stderr
    kept = [os.dup(number) for number in (1, 2)]
    try:
        for number, file in ((1, printed), (2, said)):
            os.dup2(file.fileno(), number)
        yield
    finally:
        sys.stdout, sys.stderr = streams
        for number, before in zip((1, 2), kept):
            os.dup2(before, number)
            os.close(before)


@contextlib.contextmanager
def own_signals():
    """After the block signals do what they did before."""
    numbers = (signal.SIGINT, signal.SIGTERM, signal.SIGHUP, signal.SIGCHLD)
    handlers = {number: signal.getsignal(number) for number in numbers}
    try:
        yield
    finally:
        for number, handler in handlers.items():
            signal.signal(number, handler)


@contextlib.contextmanager
def time_ends_at(event):
    """Within the block the time of a search ends when it has the first roster (`improved`), or its
    bound (`bound_rose`), and not before that. This holds for the commands of `run`, too."""
    passed = [0.0]
    told = getattr(progress.Progress, event)

    def tells(*words):
        told(*words)
        passed[0] += 1e9

    fake = SimpleNamespace(monotonic=lambda: time.monotonic() + passed[0])
    with mock.patch.object(clock, "time", fake), mock.patch.object(progress.Progress, event, tells):
        yield


def nurse_rows(nurse):
    """The rows of a nurse in the ward's roster."""
    return [row for row in ROSTER.read_text().splitlines() if row.startswith(f"{nurse} ")]


class HelperTest(unittest.TestCase):
    """A test with a folder of its own."""

    def setUp(self):
        folder = tempfile.TemporaryDirectory()
        self.addCleanup(folder.cleanup)
        self.folder = Path(folder.name)

    def changed(self, path, old, new, name="changed.txt"):
        """The file with another text, in the test's folder."""
        text = path.read_text()
        self.assertIn(old, text)
        target = self.folder / name
        target.write_text(text.replace(old, new, 1))
        return target

    def solution(self, *rows, week=0, ward="ward", name="rows.txt"):
        """A solution file with these rows, the first of them on line 5."""
        target = self.folder / name
        target.write_text(
            "\n".join([f"SOLUTION\n{week} {ward}\n", f"ASSIGNMENTS = {len(rows)}", *rows]) + "\n"
        )
        return target

    def away(self, *absences, week=WEEK, name="away.txt"):
        """A copy of a week's file in which nurses are away, such as `Chen=Fri,Sat`, or `Chen` on
        all days: each as many equal requests."""
        scenario = files.read_scenario(SCENARIO)
        found = []
        for text in absences:
            nurse, _, days = text.partition("=")
            found += [
                records.Absence(nurse, records.DAYS.index(day), None)
                for day in (days.split(",") if days else records.DAYS)
            ]
        target = self.folder / name
        target.write_text(
            files.week_text(with_requests(scenario, files.read_week(week, scenario), found).data)
        )
        return target

    def swapped(self, one, two):
        """The ward's roster with the weeks of two nurses swapped, in the file start.txt."""
        names = {one: two, two: one}
        rows = files.read_solution(ROSTER).cells
        return self.solution(
            *(row._replace(nurse=names.get(row.nurse, row.nurse)).row() for row in rows),
            name="start.txt",
        )

    def script(self, name, text):
        """A shell script in the test's folder."""
        path = self.folder / name
        path.write_text(f"#!/bin/sh\n{text}")
        path.chmod(0o755)
        return path

    def answers_once(self, early=False):
        """A solver that has an answer of penalty 20 to the ward's week when it is called first, and
        none later."""
        answer = self.folder / "answer.txt"
        answer.write_text(program.answer_with(replace(WEEK_FILES, early=early), ROSTER))
        return f"sh -c 'mkdir {self.folder}/called 2> /dev/null && cat {answer}'"

    def slow_to_encode(self, running):
        """The environment of a program whose `encode` makes the file `running`, and does not end in
        the time of a test."""
        encodes = f'[ "$1" != encode ] || {{ touch {running}; exec sleep 200; }}'
        return {
            "INRC2PB": str(
                self.script("inrc2pb", f'{encodes}\nexec {program.find_program()} "$@"\n')
            )
        }

    def assert_fault(self, ran, line, status=1):
        """The run printed this line on standard error and nothing else."""
        self.assertEqual(ran, (status, "", line + "\n"))
