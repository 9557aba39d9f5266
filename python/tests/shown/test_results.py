"""Tests of `inrc2pb-roster results`: one table of the reports of many searches."""

import shutil
import subprocess
import unittest

from ward import HelperTest, run

from inrc2pb.week.soft_rules import SOFT_RULES

PROVED = (
    "status OPTIMUM FOUND\nobjective 320\npenalty 320\nS1 320\nlower bound 320 (inrc2pb-bound)\nno"
    " roster costs less, proved\n"
)
OPEN = (
    "status SATISFIABLE\nobjective 500\npenalty 400\nlower bound 300 (inrc2pb-bound): the gap is"
    " 100, 25.0 %\n"
)


def costs(name, cost):
    """A row of the table of a period, in which S6 alone costs anything."""
    rules = "".join(f"{cost if rule == 'S6' else 0:6}" for rule in SOFT_RULES)
    return f"{name}{cost:10}{rules}\n"


PERIOD = (
    "week 1: penalty 100, out/roster-0.txt\nweek 2: penalty 150, out/roster-1.txt\n\n"
    + f"         penalty{''.join(f'{rule:>6}' for rule in SOFT_RULES)}\n"
    + costs("week 1", 100)
    + costs("week 2", 150)
    + costs("period", 250)
    + "lower bound 250 of the sum (inrc2pb-bound): no plan costs less, proved\n"
)
NOT_PROVED = PROVED.replace("inrc2pb-bound", "plain Python, not proved").replace(", proved\n", "\n")
LOG = (
    "Seq\tHost\tStarttime\tJobRuntime\tSend\tReceive\tExitval\tSignal\tCommand\n2\t:\t1795953093.375\t"
    "     7.234\t0\t9\t0\t0\tsolve\n"
)


class Results(HelperTest):
    def reports(self, *texts):
        """Files with these texts."""
        paths = [self.folder / f"{number}.txt" for number in range(1, 1 + len(texts))]
        for path, text in zip(paths, texts):
            path.write_text(text)
        return paths

    def test_a_line_for_each_report_and_one_for_all(self):
        paths = self.reports(PROVED, OPEN, PERIOD, NOT_PROVED, "")
        log = self.folder / "jobs.log"
        log.write_text(LOG)
        status, printed, said = run("roster", "results", *paths, "--joblog", log)
        self.assertEqual((status, said), (0, ""))
        rows = [line.split() for line in printed.splitlines()]
        self.assertEqual(rows[1], [str(paths[0]), "320", "320", "0.0", "proved", "-"])
        self.assertEqual(rows[2], [str(paths[1]), "400", "300", "25.0", "no", "7.2"])
        self.assertEqual(rows[3], [str(paths[2]), "250", "250", "0.0", "proved", "-"])
        self.assertEqual(rows[4], [str(paths[3]), "320", "320", "0.0", "no", "-"])
        self.assertEqual(rows[5], [str(paths[4]), "-", "-", "-", "no", "roster", "-"])
        self.assertEqual(
            printed.splitlines()[-1],
            "reports: 5; with a roster: 4, proved the best: 2; penalty 1290 in all",
        )

    def test_the_last_numbers_of_a_report_count(self):
        report = self.reports(OPEN + "penalty 320\nlower bound 310 (x)\n")[0]
        row = run("roster", "results", report)[1].splitlines()[1].split()
        # 10 of 320 points.
        self.assertEqual(row[1:], ["320", "310", "3.1", "no", "-"])

    def test_a_file_that_is_no_log(self):
        report = self.reports(PROVED)[0]
        line = (
            f"inrc2pb-roster: {report} is no log of parallel: give the file that its option"
            " --joblog has written"
        )
        self.assert_fault(run("roster", "results", report, "--joblog", report), line)

    @unittest.skipUnless(shutil.which("parallel"), "needs GNU parallel")
    def test_the_log_of_parallel(self):
        log = self.folder / "jobs.log"
        reports = self.folder / "reports"
        reports.mkdir()
        command = f"printf 'penalty %d0\\nlower bound 10\\n' {{}} > {reports}/{{#}}.txt"
        words = [
            "parallel",
            "--will-cite",
            "--joblog",
            str(log),
            "--resume",
            "-j",
            "2",
            command,
            ":::",
        ]
        subprocess.run([*words, "1", "2"], check=True)
        # Started again, it runs only what the log does not have.
        (reports / "1.txt").write_text("penalty 70\nlower bound 7\n")
        subprocess.run([*words, "1", "2", "3"], check=True)
        status, printed, _ = run(
            "roster",
            "results",
            *(reports / f"{number}.txt" for number in (1, 2, 3)),
            "--joblog",
            log,
        )
        self.assertEqual(
            [line.split()[1] for line in printed.splitlines()[1:4]], ["70", "20", "30"]
        )
        self.assertNotIn("-", [line.split()[-1] for line in printed.splitlines()[1:4]])


if __name__ == "__main__":
    unittest.main()
