"""Tests of the page for the wall: one sheet of paper, the ward's own name, and what has changed
since it was hung up."""

import datetime
import re
import shutil
import subprocess
import unittest
from dataclasses import replace

from test_folder_pages import CHANGED, FolderPages
from test_plans import MONDAY, FolderTest

from inrc2pb.sheets.ward import read_sheet
from inrc2pb.plans.pages import write_pages
from inrc2pb.plans.ward import first_plan
from inrc2pb.week.records import Cell

NAMES = (
    "Brigitte Huber, Anna Koch, Anna Maier, Siobhán O'Neill, Zoë Weiß, Łukasz Nowak, Mehmet Yılmaz,"
    " Chiara Rossi, Dragana Petrović, Jean-Luc Petit, Fatima El Amrani, Günter Groß, Ines Pérez,"
    " Katja Vogel, Paul Schmidt, Ruth Stein, Sabine Lang, Tom Becker, Vera Novak, Willi Braun, Lea"
    " Fischer, Noah Wagner"
).split(", ")


class Paper(FolderTest):
    def setUp(self):
        super().setUp()
        dates = [str(MONDAY + datetime.timedelta(days=day)) for day in range(28)]
        self.rows["nurses"][1:] = [
            [
                name,
                "Full",
                "Charge, Nurse",
                "",
                "Sat, Sun" if name == "Ruth Stein" else "",
                *[""] * 6,
            ]
            for name in NAMES
        ]
        self.rows["plan"] = [["nurse", *dates], *([name, *[""] * 28] for name in NAMES)]
        self.rows["plan"][1][1:4] = ["leave"] * 3
        # A wall names the rules that a plan breaks, and this one breaks none.
        self.rows["needs"][1:] = [[*row[:3], *["0"] * 7] for row in self.rows["needs"][1:]]
        self.write()
        shifts = ("Day", "Late", "Night")
        cells = [
            Cell(name.replace(" ", "_"), day, shifts[number % 3], "Nurse")
            for number, name in enumerate(NAMES)
            for day in range(28)
            if (number + day) % 7 < 4
            and not (number == 0 and day < 3)
            and not (name == "Ruth Stein" and day % 7 > 4)
        ]
        plan = first_plan(read_sheet(self.ward, None, ())).with_cells(cells)
        write_pages(self.ward, plan.with_state(replace(plan.state, published=True)), "stamp", {})
        self.wall = (self.ward / "wall.html").read_text()

    def test_the_name_is_that_of_the_folder(self):
        self.assertIn("<h1>my wärd, 30 Nov to 27 Dec 2026</h1>", self.wall)
        self.assertIn("<h1>my wärd, ", (self.ward / "roster.html").read_text())

    def test_who_never_works_on_a_day_is_not_away_on_it(self):
        rows = dict(re.findall('<tr><th scope="row">([^<]*)</th>(.*?)</tr>', self.wall))
        self.assertEqual(
            {
                name: row.count(">away<")
                for name, row in rows.items()
                if "away" in row and ">away<" in row
            },
            {"Brigitte Huber": 3},
        )

    @unittest.skipUnless(shutil.which("chromium"), "chromium is not installed")
    def test_twenty_two_full_names_and_their_legend_are_on_one_sheet(self):
        target = self.folder / "wall.pdf"
        words = (
            "--headless",
            "--no-sandbox",
            "--disable-gpu",
            f"--user-data-dir={self.folder}/chromium",
            f"--print-to-pdf={target}",
        )
        subprocess.run(
            ["chromium", *words, (self.ward / "wall.html").as_uri()],
            check=True,
            capture_output=True,
            timeout=120,
        )
        self.assertEqual(len(re.findall(rb"/Type\s*/Page\b(?!s)", target.read_bytes())), 1)


class Changes(FolderPages):
    """What is marked on the pages of plans one after another."""

    def marks(self, name):
        """The number of marks in the table of a page, and whether its legend explains them."""
        text = (self.ward / name).read_text()
        return (
            text.split("</table>")[0].count(f">{CHANGED}<"),
            f"{CHANGED} = changed since the plan that was hung up before" in text,
        )

    def takes_a_shift(self):
        """A plan without the first shift of the one that holds."""
        plan = self.store.current()
        self.store.save("plan", plan.with_cells(plan.cells[1:]))

    def test_only_a_plan_that_was_hung_up_is_compared(self):
        for _ in range(3):
            self.takes_a_shift()
            self.assertEqual(self.marks("roster.html"), (0, False))
        self.said("page")
        self.assertEqual(
            (self.marks("roster.html"), self.marks("wall.html")), ((0, False), (0, False))
        )
        for number in (1, 2):
            self.takes_a_shift()
            self.assertEqual(
                (self.marks("roster.html"), self.marks("wall.html")),
                ((number, True), (number, True)),
            )
        # The sheet that takes its place marks what is other on it.
        self.said("page")
        self.assertEqual(self.marks("wall.html"), (2, True))
        self.said("page")
        self.assertEqual(self.marks("wall.html"), (0, False))

    def test_after_the_end_of_a_week_the_others_are_compared(self):
        self.said("page")
        plan = self.store.current()
        last = plan.cells[-1]
        self.store.save("plan", plan.with_cells(plan.cells[:-1]))
        self.said("over")
        self.assertEqual(self.marks("wall.html"), (1, True))
        self.assertGreaterEqual(last.day, 7)


if __name__ == "__main__":
    unittest.main()
