"""Tests of what `make check` chooses: the tests of Python, on a small library and on this one, and
the commands for pages, for the pricing in C and for crates."""

import os
import sys
import unittest

from ward import ROOT, HelperTest

sys.path.insert(0, str(ROOT / "tests" / "kit"))
import check  # noqa: E402
import choice  # noqa: E402

FILES = {
    "python/inrc2pb/low/one.py": "",
    "python/inrc2pb/high/two.py": "from ..low.one import name\n",
    "python/inrc2pb/commands/explain.py": "",
    "python/tests/helper.py": "from inrc2pb.low import one\n",
    "python/tests/low/test_one.py": "from helper import one\ndef test_it(): pass\n",
    "python/tests/low/test_beside.py": "def test_it(): pass\n",
    "python/tests/high/test_two.py": """
import helper
from inrc2pb.high import two
class Cases:
    def test_short(self): pass
    def test_long(self): pass
""",
    "python/tests/high/test_words.py": "def test_it(): run('roster', 'explain', 'examples/ward')\n",
    "python/tests/high/test_files.py": "def test_it(): read('examples', 'ward')\n",
}


class Chosen(HelperTest):
    def setUp(self):
        super().setUp()
        for name, text in FILES.items():
            path = self.folder / name
            path.parent.mkdir(parents=True, exist_ok=True)
            path.write_text(text)

    def choose(self, *changed, seconds=None, limit=10.0):
        """The tests that are run, without the folder of all tests."""
        sources = choice.read_sources(self.folder)
        found = choice.choose(changed, sources, seconds or {}, limit)
        return [test[len("python/tests/") :] for test in found.run]

    def test_who_imports_it_comes_first_and_then_its_package(self):
        self.assertEqual(
            self.choose("python/inrc2pb/low/one.py"),
            [
                "low/test_one.py::test_it",
                "high/test_two.py::Cases::test_long",
                "high/test_two.py::Cases::test_short",
                "low/test_beside.py::test_it",
            ],
        )

    def test_the_shortest_come_first_until_the_limit(self):
        tests = "python/tests/high/test_two.py::Cases::"
        seconds = {f"{tests}test_long": 5.0, f"{tests}test_short": 0.1}
        self.assertEqual(
            self.choose("python/inrc2pb/high/two.py", seconds=seconds, limit=1.1),
            [
                "high/test_two.py::Cases::test_short",
                "high/test_files.py::test_it",
                "high/test_words.py::test_it",
            ],
        )

    def test_the_name_of_a_command(self):
        self.assertEqual(
            self.choose("python/inrc2pb/commands/explain.py"), ["high/test_words.py::test_it"]
        )

    def test_a_file_that_is_read_and_one_that_nothing_reads(self):
        self.assertEqual(self.choose("examples/ward/week-0.txt"), ["high/test_files.py::test_it"])
        self.assertEqual(self.choose("examples/month/week-0.txt"), [])

    def test_the_name_of_a_test_comes_before_the_package(self):
        path = self.folder / "python/tests/high/test_two.py"
        path.write_text(path.read_text().replace("test_short", "test_the_ones"))
        self.assertEqual(
            self.choose("python/inrc2pb/low/one.py", limit=1.1),
            ["high/test_two.py::Cases::test_the_ones", "low/test_one.py::test_it"],
        )

    def test_a_helper_of_the_tests(self):
        self.assertEqual(
            self.choose("python/tests/helper.py"),
            ["high/test_two.py::Cases::test_long", "high/test_two.py::Cases::test_short"],
        )


class ChosenHere(unittest.TestCase):
    """For each of these files the tests that noticed a mistake in it are among the nearest."""

    def test_changes_that_were_noticed(self):
        sources = choice.read_sources(ROOT)
        for changed, tests in (
            ("inrc2pb/plans/swaps.py", ("plans/test_set_days", "plans/test_promises")),
            ("inrc2pb/plans/state.py", ("plans/test_outcomes",)),
            ("inrc2pb/rows/cheapest_rows.c", ("rows/test_compiled",)),
            ("inrc2pb/commands/referee.py", ("search/test_solver_claims",)),
            ("tests/fake_solver.py", ("solvers/test_bad_solvers",)),
            ("inrc2pb/week/hints.py", ("week/test_hints",)),
            ("inrc2pb/shown/totals.py", ("shown/test_sums",)),
            ("inrc2pb/shown/why.py", ("shown/test_charges",)),
            ("inrc2pb/shown/calendars.py", ("shown/test_page",)),
            ("../docs/your_ward.md", ("plans/test_your_ward",)),
        ):
            away = choice.distances([os.path.normpath(f"python/{changed}")], sources)
            for test in tests:
                with self.subTest(changed=changed, test=test):
                    self.assertEqual(away.get(f"python/tests/{test}.py"), 1)


class Commands(unittest.TestCase):
    """What is run for other files, and what is named for crates."""

    def test_pages(self):
        (step,) = check.page_steps(["docs/words.md", "docs/wall.png", "man/inrc2pb.1"])
        self.assertEqual(step.words[-1], "docs/words.md")
        (step,) = check.page_steps(["tests/pages/questions.txt"])
        self.assertEqual(step.words, ["tests/pages/paths.py"])

    def test_pricing_in_c(self):
        *_, step = check.rows_steps([check.ROWS])
        self.assertEqual(step.words[-1], "python/tests/rows/test_compiled.py")
        self.assertIn("-fsanitize=address,undefined", step.environment["ROWS_FLAGS"])

    def test_scripts(self):
        scripts = {step.what for step in check.script_steps(["build.py", "man/inrc2pb.1"])}
        self.assertLessEqual({"tests/pages/build.sh", "tests/program/manual.sh"}, scripts)

    def test_layout_of_changed_crates(self):
        laws = "crates/rota_rules/src/laws.rt"
        (step,) = check.crate_steps([laws, "crates/rota_core/must-fail/gone.edit"])
        self.assertEqual(step.words, ["tests/kit/layout.sh", "rota_rules"])

    def test_a_crate_and_those_above_it(self):
        lines = list(check.proof_lines(["crates/rota_rules/src/lib.rt"]))
        commands = [line.partition("#")[0].strip() for line in lines]
        self.assertEqual(commands, ["cd crates/rota_rules && rt check", "rt all check"])

    def test_a_crate_of_tests_and_an_edit(self):
        lines = list(
            check.proof_lines(
                ["crates/run_tests/src/charges.rt", "crates/rota_items/must-fail/a.edit"]
            )
        )
        commands = [line.partition("#")[0].strip() for line in lines]
        self.assertEqual(
            commands, ["cd crates/run_tests && rt test", "tests/edits/main.py rota_items"]
        )


if __name__ == "__main__":
    unittest.main()
