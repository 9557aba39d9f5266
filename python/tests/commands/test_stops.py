"""Stops each command at random moments, by Ctrl-C or TERM. It ends soon, with the status of its
manual page; its best roster is whole, at the penalty that was reported; and neither a process nor a
temporary file is left."""

import contextlib
import os
import random
import re
import signal
import subprocess
import tempfile
import time
import unittest
from pathlib import Path
from unittest import mock

from ward import HAS_CBC, HISTORY, ROSTER, SCENARIO, THIRTY_FILES, WARD, WEEK
from ward import WEEK_FILES, HelperTest, output_to, program, run, status_of, time_ends_at

from inrc2pb.rows import row_run

STOPS = 20
SIGNALS = (signal.SIGINT, signal.SIGTERM)
# The seconds in which a command ends, of a processor and by the clock, and those that a solver has to
# print its answer. Of the clock those do not count in which the machine let a process wait.
END = 2.0
ANSWER = 2.0
WAIT = 60.0
TICKS = os.sysconf("SC_CLK_TCK")
LONG = 1 << 36


def work(process):
    """The processor seconds of a process and of its children, also those that have ended."""
    try:
        fields = Path(f"/proc/{process}/stat").read_text().rpartition(")")[2].split()
        children = Path(f"/proc/{process}/task/{process}/children").read_text().split()
    except OSError:
        return 0.0
    return sum(map(int, fields[11:15])) / TICKS + sum(map(work, children))


def pressure():
    """The seconds in which some process has waited for a processor or a disk, since the machine
    began; 0 if the system does not count them."""
    total = 0.0
    for name in ("cpu", "io"):
        with contextlib.suppress(OSError):
            text = Path(f"/proc/pressure/{name}").read_text()
            total += int(re.search("some .*total=([0-9]+)", text)[1]) / 1e6
    return total


class StopTest(HelperTest):
    def setUp(self):
        super().setUp()
        self.chance = random.Random(1)
        self.room = self.folder / "room"
        self.room.mkdir()
        # So a search starts each kind of process that it may start, and one of each.
        two = mock.patch.object(row_run, "processors", lambda: 2)
        two.start()
        self.addCleanup(two.stop)

    def stopped(self, number, seconds, command, *words):
        """The status, the output and the messages of a command that gets this signal so many
        seconds after it has begun with its library loaded."""
        with tempfile.TemporaryFile("w+") as printed, tempfile.TemporaryFile("w+") as said:
            # A signal that comes before the copy takes signals waits until then: scripts that run
            # beside others ignore Ctrl-C.
            signal.pthread_sigmask(signal.SIG_BLOCK, SIGNALS)
            child = os.fork()
            if not child:
                for each in SIGNALS:
                    signal.signal(each, signal.SIG_DFL)
                signal.pthread_sigmask(signal.SIG_UNBLOCK, SIGNALS)
                tempfile.tempdir = str(self.room)
                with output_to(printed, said):
                    os._exit(status_of(command, words))
            signal.pthread_sigmask(signal.SIG_UNBLOCK, SIGNALS)
            time.sleep(seconds)
            before = work(child)
            began = time.monotonic()
            waited = pressure()
            os.kill(child, number)
            ended, used = 0, before
            while not ended and time.monotonic() < began + WAIT:
                used = work(child)
                ended, status = os.waitpid(child, os.WNOHANG)
                time.sleep(0.01)
            took = time.monotonic() - began - (pressure() - waited)
            if not ended:
                os.kill(child, signal.SIGKILL)
                os.waitpid(child, 0)
            texts = []
            for file in (printed, said):
                file.seek(0)
                texts.append(file.read())
        self.assertTrue(ended, f"it goes on: {words}, {texts}")
        self.assertLess(used - before, END, texts)
        self.assertLess(took, END + ANSWER * ("--solver" in words), texts)
        self.assertEqual(list(self.room.iterdir()), [])
        left = subprocess.run(["pgrep", "-af", str(self.folder)], stdout=subprocess.PIPE)
        self.assertEqual(left.stdout, b"")
        return (os.waitstatus_to_exitcode(status), *texts)

    def moments(self, *forms):
        """A signal, a moment and one of the forms for each stop."""
        for stop in range(STOPS):
            number = SIGNALS[stop % 2]
            seconds = self.chance.random()
            with self.subTest(signal=number, seconds=seconds, form=stop // 2 % len(forms)):
                yield number, seconds, forms[stop // 2 % len(forms)]


@unittest.skipUnless(HAS_CBC, "needs cbc")
class Solve(StopTest):
    def test_a_week(self):
        roster = self.folder / "roster"
        answer = self.folder / "answer.txt"
        answer.write_text(program.answer_with(WEEK_FILES, ROSTER))
        solver = self.script("slow.sh", f"trap 'cat {answer}; exit' TERM\nsleep 9 & wait\n")
        forms = (
            (THIRTY_FILES, "--out"),
            (THIRTY_FILES, "--inrc2", "--sol"),
            (WEEK_FILES, "--solver", solver, "--out"),
        )
        for number, seconds, (week, *words) in self.moments(*forms):
            roster.unlink(missing_ok=True)
            ran = self.stopped(number, seconds, "solve", *week.options(), *words, roster)
            status, printed, said = ran
            if roster.exists():
                self.assertEqual(status, 0, said)
                penalty = program.penalty_of(week, roster)
                self.assertIn(f"penalty {penalty}", printed.splitlines())
                self.assertRegex(printed + "(", r"lower bound \d+ \(|no lower bound|\($")
            else:
                self.assertIn(status, (5, 128 + number, -number), said)
                self.assertEqual(printed, "")

    def test_a_period(self):
        words = ("--sce", SCENARIO, "--his", HISTORY, "--week", WEEK, WARD / "week-1.txt")
        solver = self.script("slow.sh", "trap exit TERM\nsleep 9 & wait\n")
        for number, seconds, more in self.moments((), ("--ahead",), ("--solver", solver)):
            with tempfile.TemporaryDirectory(dir=self.folder) as folder:
                out = Path(folder, "out")
                ran = self.stopped(number, seconds, "solve", *words, "--out", out, *more)
                status, printed, said = ran
                rosters = len(list(out.glob("roster-*.txt")))
            is_done = status == 0 and "stopped" not in printed
            self.assertTrue(is_done or status in (128 + number, -number), (status, said))
            self.assertEqual(len(re.findall("(?m)^week .: penalty", printed)), rosters, printed)


@unittest.skipUnless(HAS_CBC, "needs cbc")
class Plan(StopTest):
    def at_work(self, ward):
        """A nurse who works on the first Friday of the newest plan."""
        newest = max((ward / "plans").glob("0*"))
        return re.search("(?m)^(.+) Fri ", (newest / "roster-0.txt").read_text())[1]

    def test_a_ward(self):
        ward = self.folder / "ward"
        with time_ends_at("improved"):
            for words in (("new",), ("plan", "--time", 15)):
                self.assertEqual(run("plan", ward, *words)[0], 0)
        forms = (("plan", "--free"), ("ill", "Chen", "Fri"), ("page",), ("swap",))
        for number, seconds, words in self.moments(*forms):
            if words == ("swap",):
                words = ("swap", self.at_work(ward), "Fri")
            status, _, said = self.stopped(number, seconds, "plan", ward, *words)
            self.assertIn(status, (0, 6, 128 + number, -number), said)
            for path in (ward / "plans").glob("0*"):
                self.assertTrue((path / "roster-1.txt").exists() and (path / "plan.json").exists())


class Roster(StopTest):
    def test_a_week(self):
        long = self.folder / "long.txt"
        with open(long, "wb") as file:
            file.truncate(LONG)
        week = WEEK_FILES.options()
        thirty = THIRTY_FILES.options()
        stored = self.folder / "stored.txt"
        stored.write_text("s UNSATISFIABLE\n")
        forms = (
            ("referee", *week, "--answer", long),
            ("referee", *thirty, "--answer", stored),
            ("why", *week, "--roster", ROSTER),
            ("check", *thirty),
        )
        for number, seconds, words in self.moments(*forms):
            status, _, said = self.stopped(number, seconds, "roster", *words)
            done = () if long in words else (0, 1)
            self.assertIn(status, (*done, 128 + number, -number), said)


if __name__ == "__main__":
    unittest.main()
