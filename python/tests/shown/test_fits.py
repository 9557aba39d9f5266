"""Tests of `inrc2pb-roster fits`."""

import unittest

from ward import ROOT, WEEK_OPTIONS, HelperTest, run

from inrc2pb.week.facts import Choice, Claim, facts_text

THREE = ROOT / "crates" / "who_fits"


class Fits(HelperTest):
    def test_the_nurses_are_those_of_the_example_in_rattle(self):
        files = (
            "--sce",
            THREE / "data" / "scenario.txt",
            "--his",
            THREE / "data" / "history.txt",
            "--week",
            THREE / "data" / "week.txt",
        )
        status, printed, said = run("roster", "fits", *files)
        # After each nurse the example has her variable.
        wanted = [
            [word for word in line.split() if not word.startswith("x")]
            for line in (THREE / "stdout").read_text().splitlines()
        ]
        self.assertEqual(
            (status, said, [line.split() for line in printed.splitlines()]), (0, "", wanted)
        )

    def test_who_is_away_does_not_fit(self):
        facts = self.folder / "facts.txt"
        claims = [Claim(Choice(1, nurse, 0, None)) for nurse in ("Amara", "Bruno")]
        facts.write_text(facts_text("ward", [*claims, Claim(Choice(1, "Ewa", 0, "Day"), False)]))
        lines = run("roster", "fits", *WEEK_OPTIONS, "--given", facts)[1].splitlines()
        self.assertEqual(
            lines[:3],
            [
                "Mon Day Charge (1,1): nobody",
                "Mon Day Nurse (1,2): Chen Grace",
                "Mon Late Nurse (1,1): Chen Ewa Finn Grace",
            ],
        )

    def test_a_fault_of_a_file(self):
        missing = self.folder / "none.txt"
        line = f"inrc2pb-roster: {missing}: No such file or directory: look at its name and folder"
        self.assert_fault(run("roster", "fits", *WEEK_OPTIONS[:4], "--week", missing), line, 3)


if __name__ == "__main__":
    unittest.main()
