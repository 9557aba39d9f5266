"""Tests of the names of a model's variables and constraints, by docs/model.md."""

import unittest
from dataclasses import replace

from ward import ROSTER, SCENARIO, WARD, WEEK_FILES, WEEK_OPTIONS, HelperTest, program, run

THIRTY = WARD.parent / "thirty"


class Names(HelperTest):
    def setUp(self):
        super().setUp()
        self.model = self.folder / "week.opb"

    def names(self, files, *more):
        """The lines of the names of a week's model, by their first word."""
        program.encode(files, self.model)
        # The model may come after the files of the week, as in `names $WEEK week.opb`.
        status, printed, said = run("roster", "names", *files.options(), *more, self.model)
        self.assertEqual((status, said), (0, ""))
        found = [line.split(" ", 1) for line in printed.splitlines()]
        self.assertEqual(len({name for name, _ in found}), len(found))
        return dict(found)

    def test_every_variable_and_constraint_of_a_model_has_a_name(self):
        last = program.WeekFiles(
            *(THIRTY / name for name in ("ward.txt", "history-3.txt", "week-3.txt"))
        )
        for files in (
            WEEK_FILES,
            replace(WEEK_FILES, early=True),
            replace(WEEK_FILES, fix=ROSTER),
            last,
            replace(last, early=True),
        ):
            names = self.names(files)
            head = self.model.read_text().split("\n", 1)[0].split()
            variables = int(head[2])
            constraints = int(head[4])
            self.assertEqual(
                set(names),
                {f"x{n}" for n in range(1, variables + 1)}
                | {f"c{n}" for n in range(1, constraints + 1)},
            )

    def test_names_of_the_ward(self):
        # Seven nurses, three shift types and two skills: the unit variable has number 7*7*3*2 + 1,
        # and the page on models has c299.
        names = self.names(WEEK_FILES)
        self.assertEqual((names["x1"], names["x295"]), ("cell Amara Mon Day Charge", "unit"))
        self.assertEqual(
            names["c1"],
            (
                "unit the unit variable is true; an answer that violates it is cut off, or is of"
                " another week"
            ),
        )
        self.assertEqual(names["c60"], "H2 Wed Day Nurse needs at least 1")
        self.assertEqual(names["c298"], "S2 runs of Day of Chen should be at most 5")
        self.assertEqual(names["c299"], "S2 runs of Day of Chen should be at least 2")
        self.assertEqual(names["x385"], "slack c299 S2 15 runs of Day of Chen should be at least 2")

    def test_another_model_is_refused(self):
        program.encode(replace(WEEK_FILES, fix=ROSTER), self.model)
        advice = "give the files of which it was made, and --fix and --early as then"
        line = f"inrc2pb-roster: {self.model} is not the model of this week: {advice}"
        self.assert_fault(run("roster", "names", self.model, *WEEK_OPTIONS), line)
        line = (
            f"inrc2pb-roster: {SCENARIO} is read, so the list of names cannot be written to it:"
            " choose another file"
        )
        self.assert_fault(
            run("roster", "names", self.model, *WEEK_OPTIONS, "--out", SCENARIO), line
        )

    def test_names_in_a_file(self):
        target = self.folder / "names.txt"
        names = self.names(WEEK_FILES)
        self.assertEqual(
            run("roster", "names", self.model, *WEEK_OPTIONS, "--out", target), (0, "", "")
        )
        self.assertEqual(len(target.read_text().splitlines()), len(names))


if __name__ == "__main__":
    unittest.main()
