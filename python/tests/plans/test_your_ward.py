"""Tests of docs/your_ward.md: its figures are examples, since a search ends by the clock, but each line
that it shows of a verb is one that the verb prints, in these words."""

import datetime
import re
import unittest
from unittest import mock

from test_kept_plans import KeptTest
from ward import HAS_CBC, ROOT

from inrc2pb.plans.store import Means

PAGE = ROOT / "docs" / "your_ward.md"
# What another plan, folder or time of day changes.
CHANGES = (
    ("(/[^ ]*/)?my w[aä]rd", "FOLDER"),
    ("Amara|Bruno|Chen|Dilek|Ewa|Finn|Grace", "NURSE"),
    ("NURSE(, NURSE)+", "NURSE"),
    ("(Mon|Tue|Wed|Thu|Fri|Sat|Sun) [0-9]+ (Nov|Dec)", "DAY"),
    ("[0-9]{4}-[0-9]{2}-[0-9]{2}( [0-9:]{5})?", "DAY"),
    ("(Day|Late|Night)( Nurse| Charge)?|off(?= instead)|(?<=instead of )off", "SHIFT"),
    ("[+-]?[0-9]+", "0"),
    (r"\b(day|nurse)s\b", r"\1"),
)


def form(line):
    """A line without what another plan changes."""
    for pattern, word in CHANGES:
        line = re.sub(pattern, word, line)
    return line.strip()


def shown(heading):
    """The lines in the boxes of a section of the page that are no commands."""
    section = PAGE.read_text().partition(f"\n## {heading}\n")[2].partition("\n## ")[0]
    boxes = re.findall("(?ms)^```[a-z ]*\n(.*?)^```$", section)
    lines = (line for box in boxes for line in box.splitlines())
    return [line for line in lines if line != ".." and not line.startswith("inrc2pb-plan ")]


@unittest.skipUnless(HAS_CBC, "cbc is not installed")
class Words(KeptTest):
    """The example of `new`, with a stored plan of two weeks in place of that of the page."""

    def assert_shown(self, heading, *verbs):
        """The verbs print each line of the section."""
        printed = "".join(self.runs(*words)[1] for words in verbs)
        forms = {form(line) for line in printed.splitlines()}
        lines = shown(heading)
        self.assertGreater(len(lines), 1)
        while lines:
            line = lines.pop(0)
            if form(line) not in forms and lines:
                # The page has a long line in two.
                line = f"{line} {lines.pop(0)}"
            with self.subTest(line):
                self.assertIn(form(line), forms)

    def test_an_illness(self):
        self.does("page")
        self.assert_shown("Someone is ill", ("ill", "Finn", "Fri"))

    def test_a_swap(self):
        swap = ("swap", "Grace", "Fri", "Finn")
        self.assert_shown("Two nurses swap", swap[:3], swap, (*swap, "--do"), (*swap, "--do"))

    def test_a_promise(self):
        off = ("set", "Grace", "Wed", "2", "off", "her", "sister", "marries", "--time", "0")
        self.does("page")
        self.does("swap", "Grace", "Fri", "Finn", "--do")
        refused = ("swap", "Chen", "Wed", "2", "Grace")
        self.assert_shown("You decide one day yourself", off, (*off, "--do"), refused)

    def test_the_end_of_a_week(self):
        self.does("page")
        over = ("over", "Grace", "Mon", "ill,", "Chen", "Mon", "Day")
        tuesday = datetime.date(2026, 12, 8)
        with mock.patch.object(Means, "today", lambda _: tuesday):
            self.assert_shown("The week is over", over, ("over", "Chen", "5.12.", "off"))


if __name__ == "__main__":
    unittest.main()
