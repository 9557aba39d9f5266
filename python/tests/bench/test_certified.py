"""Tests of certified: the instances are always the same, and the programs confirm what is known of
some of them."""

import hashlib
import shutil
import subprocess
import sys
import tempfile
import unittest
from pathlib import Path

from ward import ROOT, program

from inrc2pb.search.bounds import find_prover
from inrc2pb.week.soft_rules import SOFT_RULES

CERTIFIED = ROOT / "certified"
sys.path.insert(0, str(CERTIFIED))

import certify  # noqa: E402
import instances  # noqa: E402

# Instances whose certificates are checked at each run of the tests.
CHECKED = ("small-5-first", "last-12", "early-fix-20", "none-12", "wide-40x6", "period-12x2")


def checked(folder, *names):
    """The status and the lines of a folder's check.sh for these instances."""
    environment = {
        "INRC2PB": str(program.find_program()),
        "PATH": "/usr/bin:/bin",
    }
    ran = subprocess.run(
        [str(folder / "check.sh"), *names],
        stdout=subprocess.PIPE,
        stderr=subprocess.STDOUT,
        text=True,
        env=environment,
    )
    return ran.returncode, ran.stdout.splitlines()


class Certified(unittest.TestCase):
    def test_sixty_weeks_and_twelve_periods(self):
        weeks = [one for one in instances.INSTANCES if one.weeks == 1]
        self.assertEqual((len(weeks), len(instances.INSTANCES) - len(weeks)), (60, 12))
        self.assertEqual(len({one.name for one in instances.INSTANCES}), 72)
        self.assertEqual(
            {min(one.nurses for one in weeks), max(one.nurses for one in weeks)}, {5, 1000}
        )

    def test_the_files_are_those_of_the_table(self):
        rows = certify.rows()
        self.assertEqual(list(rows), [one.name for one in instances.INSTANCES])
        with tempfile.TemporaryDirectory() as room:
            for one in instances.INSTANCES:
                files = instances.make(one, Path(room))
                self.assertEqual(certify.sum_of(files), rows[one.name].files, one.name)

    def test_the_table_has_the_penalties_of_the_rosters(self):
        for name, row in certify.rows().items():
            rosters = sorted((CERTIFIED / "known" / name).glob("roster-*.txt"))
            self.assertEqual(len(rosters), 0 if row.best == certify.NONE else row.weeks, name)
            self.assertTrue((CERTIFIED / "known" / name / certify.CERTIFICATE).exists())
            if row.best != certify.NONE:
                self.assertLessEqual(int(row.bound), int(row.best))

    def test_the_page_has_the_table(self):
        self.assertIn(
            f"{certify.BEGIN}\n\n{certify.table(certify.rows())}\n\n{certify.END}",
            certify.PAGE.read_text(),
        )

    def test_the_page_has_the_optima_beside_the_relaxations(self):
        page = (CERTIFIED / "README.md").read_text()
        head, _, relaxed, best = page[page.index("| | `first-12`") :].splitlines()[:4]
        names, values, optima = (
            [cell.strip(" `") for cell in line.split("|")[2:-1]] for line in (head, relaxed, best)
        )
        self.assertEqual(optima, [certify.rows()[name].best for name in names])
        for value, optimum in zip(values, optima):
            self.assertLessEqual(int(value), int(optimum))

    @unittest.skipUnless(find_prover(), "needs inrc2pb-bound")
    def test_the_programs_confirm_some(self):
        status, lines = checked(CERTIFIED, *CHECKED)
        self.assertEqual(
            (status, lines[-1]), (0, f"{len(CHECKED)} confirmed, 0 failed"), "\n".join(lines)
        )

    @unittest.skipUnless(find_prover(), "needs inrc2pb-bound")
    def test_each_instance_has_one_row_with_its_sizes(self):
        lines = certify.TABLE.read_text().splitlines()
        rows = {line.split()[0]: line for line in lines}
        named = ("small-5-first", "small-5-second", "small-5-last", "small-6-first", "small-6-last")
        gone, misspelt, right, variables, constraints = named
        changed = {
            gone: [],
            misspelt: [rows[misspelt].replace("second", "secnd")],
            variables: [rows[variables].replace(" 598 514 ", " 599 514 ")],
            constraints: [rows[constraints].replace(" 632 539 ", " 632 538 ")],
        }
        with tempfile.TemporaryDirectory() as room:
            folder = Path(room, "certified")
            folder.mkdir()
            shutil.copy(CERTIFIED / "check.sh", folder)
            for name in ("instances.py", "known"):
                folder.joinpath(name).symlink_to(CERTIFIED / name)
            table = [line for name, row in rows.items() for line in changed.get(name, [row])]
            folder.joinpath("table.txt").write_text("\n".join(table) + "\n")
            status, said = checked(folder, *named)
        self.assertEqual(status, 1)
        self.assertEqual(
            said,
            [
                f"{gone}: certified/table.txt has not one row of it",
                f"{misspelt}: certified/table.txt has not one row of it",
                f"{right}: lower bound 520 penalty 520 optimal",
                f"{variables}: other sizes",
                f"{constraints}: other sizes",
                "1 confirmed, 4 failed",
            ],
        )

    def test_weeks_for_another_validator(self):
        with tempfile.TemporaryDirectory() as room:
            printed = subprocess.run(
                [sys.executable, str(CERTIFIED / "costs.py"), room],
                stdout=subprocess.PIPE,
                text=True,
                check=True,
            ).stdout
            head, *rows = (line.split() for line in printed.splitlines())
            self.assertEqual(head, ["week", "penalty", *SOFT_RULES])
            self.assertEqual(len(rows), 10)
            for name, penalty, *costs in rows:
                # Half a weekend costs 30.
                best = int(certify.rows()[name].best) + 30 * (name == "first-20")
                self.assertEqual((int(penalty), sum(map(int, costs))), (best, best))
                solution = Path(room, name, "roster.txt").read_text()
                self.assertTrue(solution.startswith("SOLUTION\n"))
        for rule, *costs in zip(*(row[2:] for row in (head, *rows))):
            self.assertGreater(sum(map(int, costs)), 0, rule)

    @unittest.skipUnless(find_prover(), "needs inrc2pb-bound")
    def test_the_row_of_an_instance_is_computed(self):
        row = certify.rows()["last-12"]
        with tempfile.TemporaryDirectory() as room:
            files = instances.make(instances.named("last-12"), Path(room))
            self.assertEqual(
                hashlib.sha256(b"".join(path.read_bytes() for path in files.all())).hexdigest(),
                row.files,
            )
            self.assertEqual(
                certify.model_of(files), [str(row.variables), str(row.constraints), row.model]
            )
            self.assertEqual(
                certify.proved(files, CERTIFIED / "known" / "last-12"), (row.bound, int(row.best))
            )


if __name__ == "__main__":
    unittest.main()
