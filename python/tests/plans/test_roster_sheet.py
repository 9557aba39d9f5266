"""Tests of the spreadsheet of the plans, and of verbs beside spreadsheets that are copies."""

import datetime
import io
import shutil
import unittest
import zipfile
from unittest import mock
from xml.etree import ElementTree

from book_writer import Sheet, write_book
from test_kept_plans import KeptTest
from test_next_period import PeriodTest
from test_plans import MONDAY, TWO_WEEKS

from inrc2pb.plans import planning
from inrc2pb.plans.roster_sheet import roster_sheets
from inrc2pb.plans.searching import Found
from inrc2pb.plans.store import Means
from inrc2pb.plans.table import VERBS, Verbs
from inrc2pb.plans.verb import Event
from inrc2pb.plans.ward import first_plan
from inrc2pb.plans.ward_folder import WardFolder
from inrc2pb.programs.progress import Progress
from inrc2pb.sheets.ods_file import no_formula
from inrc2pb.sheets.ward import read_sheet
from inrc2pb.shown.roster_text import COLORS

TABLE = "{urn:oasis:names:tc:opendocument:xmlns:table:1.0}"
FO = "{urn:oasis:names:tc:opendocument:xmlns:xsl-fo-compatible:1.0}"
# The words of each verb, but for those that have none.
WORDS = {
    "ill": ("Grace", "Wed", "2"),
    "leave": ("Grace", "Wed", "2"),
    "training": ("Grace", "Wed", "2"),
    "unpaid": ("Grace", "Wed", "2"),
    "away": ("Grace", "Wed", "2"),
    "back": ("Grace", "Fri", "2"),
    "swap": ("Grace", "Tue", "2", "Finn"),
    "set": ("Grace", "Fri", "2", "off"),
}


class RosterSheets(PeriodTest):
    def content(self):
        """The styles of the spreadsheet, and its sheets with the texts and styles of their
        cells."""
        with zipfile.ZipFile(self.ward / "tables" / "roster-2026.ods") as archive:
            content = ElementTree.fromstring(archive.read("content.xml"))
        sheets = {
            table.get(TABLE + "name"): [
                [
                    ("".join(cell.itertext()), cell.get(TABLE + "style-name"))
                    for cell in row.iter(TABLE + "table-cell")
                ]
                for row in table.iter(TABLE + "table-row")
            ]
            for table in content.iter(TABLE + "table")
        }
        colors = [part.get(FO + "background-color") for part in content.iter()]
        return [color for color in colors if color], sheets

    def test_a_sheet_for_each_period_with_shifts_sums_and_colors(self):
        self.rows["plan"][1][1:3] = ["leave", "leave"]
        self.write()
        self.assertIn("my wärd/tables/roster-2026.ods", self.does("page"))
        colors, sheets = self.content()
        self.assertEqual(colors, list(COLORS))
        (rows,) = sheets.values()
        self.assertEqual(list(sheets), ["from 2026-11-30"])
        self.assertEqual(
            [text for text, _ in rows[0]],
            ["nurse"]
            + [f"{day:%a} {day}" for day in (MONDAY + n * datetime.timedelta(1) for n in range(14))]
            + ["shifts", "hours", "nights", "weekends", "wishes granted"],
        )
        chen = next(row for row in rows if row[0][0] == "Chen")
        self.assertEqual(
            chen[1:8],
            [("", None), ("", None), *[("Late", "c1")] * 2, *[("Night", "c2")] * 3],
        )
        self.assertEqual([text for text, _ in chen[-5:]], ["10", "86.5", "6", "2", "0/1"])
        # Amara has two skills, and works on her leave, which the sums count, too.
        amara = rows[1]
        self.assertIn(amara[1], [("Day Charge", "c0"), ("away", None)])
        # A verb that changes nothing of it writes no new one, and the next period has a sheet.
        self.assertNotIn("roster-2026.ods", self.does("page"))
        self.end_period()
        self.write_next(MONDAY + datetime.timedelta(days=14))
        self.plan_next(TWO_WEEKS)
        self.does("page")
        self.assertEqual(list(self.content()[1]), ["from 2026-11-30", "from 2026-12-14"])
        self.does("undo")
        self.assertEqual(len(self.content()[1]), 2)

    def test_no_reason_of_a_day_away_is_in_it(self):
        self.rows["plan"][7][10] = "ill"
        self.write()
        self.does("page")
        with zipfile.ZipFile(self.ward / "tables" / "roster-2026.ods") as archive:
            text = archive.read("content.xml").decode()
        self.assertNotIn(">ill<", text)

    def test_texts_that_a_program_may_take_for_formulas(self):
        for text, wanted in (
            ("=1+1", "'=1+1"),
            ("+Ann", "'+Ann"),
            ("-", "'-"),
            ("@SUM", "'@SUM"),
            ("Ann-Marie", "Ann-Marie"),
        ):
            self.assertEqual(no_formula(text), wanted)
        for sheet in ("nurses", "plan"):
            self.rows[sheet][7][0] = "@Grace"
        self.write()
        plan = first_plan(read_sheet(self.ward)).with_cells(TWO_WEEKS[:5])
        with zipfile.ZipFile(io.BytesIO(*roster_sheets([plan]).values())) as archive:
            self.assertIn("<text:p>'@Grace</text:p>", archive.read("content.xml").decode())


class Copies(KeptTest):
    """What lies in `tables` is never read back, whatever the ward's own spreadsheet is."""

    def test_each_verb_beside_spreadsheets_in_tables(self):
        self.rows["plan"][7][12] = "leave"
        self.write()
        shutil.copytree(self.ward / "plans", self.folder / "stored")
        sheets = [Sheet(name, rows) for name, rows in self.rows.items()]
        names = [name for verb in VERBS for name in verb.names]
        self.assertLessEqual(set(WORDS), set(names))
        for own in ("csv", "ods", "xlsx"):
            if own != "csv":
                for path in self.ward.glob("*.*"):
                    path.unlink()
                write_book(self.ward / f"ward.{own}", sheets)
            for name in names:
                with self.subTest(own=own, verb=name):
                    self.does_beside_copies(name)

    def does_beside_copies(self, name):
        """Does a verb, after the stored plan; its search finds the plan that there is."""
        shutil.rmtree(self.ward / "plans")
        shutil.copytree(self.folder / "stored", self.ward / "plans")
        tables = self.ward / "tables"
        tables.mkdir(exist_ok=True)
        for copy in ("roster-2026.ods", "ward.xlsx", "plan.csv", "nurses.csv"):
            (tables / copy).write_bytes(b"no spreadsheet")
        folder = WardFolder(self.ward)
        self.assertNotIn(tables, [path.parent for path in folder.files()])
        verbs = Verbs(folder, Means(Progress(None), lambda line: None))
        event = Event(name, WORDS.get(name, ()), do=True)
        with (
            mock.patch.object(planning, "search_plan", lambda old, *_: Found(old)),
            mock.patch.object(planning, "more_even", lambda plan, *_: plan),
        ):
            verbs.done(event)


if __name__ == "__main__":
    unittest.main()
