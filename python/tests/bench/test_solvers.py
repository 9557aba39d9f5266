"""Tests of what bench/solvers.py measures, and of the pages that show it."""

import re
import sys
import unittest

from ward import ROOT, HelperTest

sys.path.insert(0, str(ROOT / "bench"))
import solvers  # noqa: E402

# Searches that README.md names, and its words for their seconds.
IN_README = {
    "thirty": ("for 30 nurses in {}", {1: "a second"}),
    "1000 nurses": ("for 1000 nurses in {}", {7: "seven seconds", 8: "eight seconds"}),
    "month": ("for four weeks of 30 nurses in {}", {10: "ten", 11: "eleven", 12: "twelve"}),
}
BURN = "import time\nwhile time.process_time() < 0.4: pass"


class Measured(HelperTest):
    def test_seconds_of_a_process_that_is_left_behind_count(self):
        with open(self.folder / "said.txt", "w+") as said:
            _, seconds, _ = solvers.measured(
                ["sh", "-c", f'echo this; "{sys.executable}" -c "{BURN}" & '], said
            )
            said.seek(0)
            self.assertEqual(said.read(), "this\n")
        self.assertGreater(seconds, 0.35)


def measured_rows():
    """The rows of the table of searches."""
    measured = solvers.PAGE.read_text().split(solvers.BEGIN)[1].split(solvers.END)[0]
    return [line for line in measured.splitlines() if line.startswith("| `")]


class Pages(unittest.TestCase):
    def test_the_readme_has_seconds_of_the_table(self):
        readme = " ".join((ROOT / "README.md").read_text().split())
        cells = [[cell.strip(" `") for cell in row.split("|")] for row in measured_rows()]
        seconds = {row[1]: round(float(row[5])) for row in cells}
        for name, (words, numbers) in IN_README.items():
            self.assertIn(words.format(numbers[seconds[name]]), readme)

    def test_the_short_table_is_of_the_long_one(self):
        rows = measured_rows()
        self.assertGreater(len(rows), 20)
        self.assertIn(
            f"{solvers.BEGIN_SUMMARY}\n\n{solvers.summary(rows)}\n\n{solvers.END_SUMMARY}",
            solvers.SUMMARY.read_text(),
        )

    def test_a_row_of_each_kind(self):
        rows = ["| `one` | 20 | 20 | yes | 1.0 |", "| `two` | 40 | 30 | no | 9.0 |"]
        self.assertEqual(
            solvers.summary([*rows, "| `9 nurses, 4 weeks` | none |  | no | 3.0 |"]).splitlines()[
                2:
            ],
            [
                "| a week of 5 to 120 nurses | 2 | 1 | 1.0 | 25.0 % |",
                "| four weeks of 12 to 120 nurses | 1 | 0 |  |  |",
            ],
        )

    def test_the_page_names_each_module_of_the_search_and_its_tests(self):
        page = solvers.PAGE.read_text()
        named = set(re.findall(r"`((?:rows|search|solvers|judging)/[a-z_0-9]+(?:\.c)?)`", page))
        library = ROOT / "python" / "inrc2pb"
        modules = {
            f"{folder}/{path.name.removesuffix('.py')}"
            for folder in ("rows", "search", "solvers")
            for path in (library / folder).glob("[a-z]*.*")
        }
        tests = {name for name in named if "/test_" in name}
        self.assertEqual(named - tests, modules)
        for name in tests:
            self.assertTrue((ROOT / "python" / "tests" / f"{name}.py").exists(), name)


if __name__ == "__main__":
    unittest.main()
