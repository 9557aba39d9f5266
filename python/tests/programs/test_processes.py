"""Tests of inrc2pb.processes."""

import os
import signal
import subprocess
import sys
import time
import unittest

from ward import ENOUGH, HELPERS, HelperTest

from inrc2pb.programs.processes import Processes

# Runs a command, and prints its number when it runs.
RUNS = """
import sys
from pathlib import Path
from inrc2pb.programs.processes import Processes
Processes().run(["sh", "-c", "echo $$; exec sleep 600"], 600, Path("/"), hear=lambda data: (sys.stdout.buffer.write(data), sys.stdout.flush()))
"""


def is_alive(number):
    """Whether there is such a process that has not ended."""
    try:
        with open(f"/proc/{number}/stat") as file:
            return file.read().rpartition(")")[2].split()[0] != "Z"
    except OSError:
        return False


class Groups(HelperTest):
    def test_groups_end(self):
        processes = Processes()
        began = time.monotonic()
        ended = processes.run(["bash", "-c", "sleep 600 & sleep 600"], 0.3, self.folder)
        self.assertTrue(ended.timed_out)
        self.assertLess(time.monotonic() - began, ENOUGH)
        processes.stop()
        self.assertTrue(processes.run(["sleep", "600"], 600, self.folder).timed_out)

    def test_processes_that_are_asked_to_end_and_do_not_are_killed(self):
        processes = Processes()
        began = time.monotonic()

        def hear(data):
            if data.startswith(b"ready"):
                processes.ask_to_end()

        script = "trap 'echo answer' TERM; echo ready; while true; do sleep 0.1; done"
        ended = processes.run(["bash", "-c", script], 600, self.folder, hear=hear)
        self.assertEqual((ended.status, ended.output), (-signal.SIGKILL, "ready\nanswer\n"))
        self.assertLess(time.monotonic() - began, ENOUGH)

    def test_a_child_that_keeps_the_output_open_is_not_waited_for(self):
        began = time.monotonic()
        ended = Processes().run(["sh", "-c", "sleep 600 & echo answer"], 600, self.folder)
        self.assertEqual((ended.status, ended.output, ended.timed_out), (0, "answer\n", False))
        self.assertLess(time.monotonic() - began, ENOUGH)

    def test_after_the_end_of_those_that_run_others_start(self):
        processes = Processes()
        ended = processes.run(
            ["sh", "-c", "echo ready; exec sleep 600"],
            600,
            self.folder,
            hear=lambda data: processes.end_running(),
        )
        self.assertEqual((ended.status, ended.timed_out), (-signal.SIGKILL, False))
        self.assertEqual(processes.run(["echo", "ready"], 60, self.folder).output, "ready\n")

    @unittest.skipIf(
        subprocess.run("setpriv --pdeathsig KILL true", shell=True).returncode, "needs setpriv"
    )
    def test_a_process_ends_with_the_one_that_started_it(self):
        environment = {**os.environ, "PYTHONPATH": str(HELPERS)}
        with subprocess.Popen(
            [sys.executable, "-c", RUNS], env=environment, stdout=subprocess.PIPE
        ) as started:
            number = int(started.stdout.readline())
            self.assertTrue(is_alive(number))
            started.kill()
        limit = time.monotonic() + ENOUGH
        while is_alive(number) and time.monotonic() < limit:
            time.sleep(0.01)
        self.assertFalse(is_alive(number))

    def test_a_command_that_does_not_run(self):
        with self.assertRaises(FileNotFoundError):
            Processes().run([str(self.folder / "missing")], 60, self.folder)
        script = self.script("other", "")
        script.write_text("no program")
        with self.assertRaisesRegex(OSError, "Exec format error"):
            Processes().run([str(script)], 60, self.folder)
        self.assertEqual(Processes().run(["sh", "-c", "exit 127"], 60, self.folder).status, 127)


if __name__ == "__main__":
    unittest.main()
