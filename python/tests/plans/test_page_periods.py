"""Tests of the local page of a ward with a period that runs and a next one."""

import datetime
import html
import re
import unittest
from urllib.parse import urlencode

from served_page import ServedPage
from test_calendar import NEXT, NEXT_FOLDER
from test_page_stamps import fields_of
from test_past import today_is
from test_plans import MONDAY, TWO_WEEKS
from ward import HAS_CBC

from inrc2pb.plans.plan_files import read_record, read_state
from inrc2pb.plans.store import plan_texts
from inrc2pb.week.records import Cell


class PagePeriods(ServedPage):
    """December runs, and January is planned."""

    def setUp(self):
        super().setUp()
        clock_of_test = today_is(2026, 12, 1)
        clock_of_test.start()
        self.addCleanup(clock_of_test.stop)
        self.write_plan()
        heads = [str(MONDAY + datetime.timedelta(days=day)) for day in range(28)]
        rows = (row[:15] + [""] * 14 for row in self.rows["plan"][1:])
        self.rows["plan"] = [["nurse", *heads], *rows]
        self.write()
        plan = self.jobs.verbs().current(str(NEXT)).with_cells(TWO_WEEKS)
        now = datetime.datetime(2026, 12, 1, 12, 0)
        self.jobs.folder.add("plan", plan_texts(plan, plan.state.record("plan", now)), now)
        self.january = f"{self.site.path}{NEXT_FOLDER}/"

    def test_the_page_goes_from_one_period_to_the_next(self):
        page = self.asks()[1]
        self.assertIn(f'<a href="{self.january}">Period from Mon 14 Dec</a>', page)
        self.assertNotIn("> 20 Dec<", page)
        status, page = self.asks(path=self.january)
        self.assertEqual(status, 200)
        self.assertIn("14 Dec", page)
        self.assertIn(f'<a href="{self.site.path}">The period that runs</a>', page)
        self.assertNotIn("End the week", page)
        cells = re.findall('<a href="([^"]*nurse=Chen&amp;day=4#cell)"', page)
        self.assertEqual(cells, [f"{self.january}?nurse=Chen&amp;day=4#cell"])
        self.assertIn("Fri 18 Dec", self.asks(path=f"{self.january}?nurse=Chen&day=4")[1])
        self.assertIn("18 Dec", self.asks(path=f"{self.january}wall")[1])
        for path in (f"{self.site.path}from-2027-01-11/", f"{self.january}nothing"):
            self.assertEqual(self.asks(path=path)[0], 404, path)

    def test_buttons_are_for_the_period_that_is_shown(self):
        page = self.asks(path=self.january)[1]
        self.asks("POST", self.january, form="verb=page")
        asked = self.asks()[1]
        self.assertIn("Yes, write it", asked)
        self.sends_to(self.january, **fields_of(asked, "Yes, write it"))
        self.assertEqual(read_record(self.last()).typed, f"page {NEXT} (on the page)")
        self.assertTrue((self.ward / NEXT_FOLDER / "wall.html").exists())
        name = f"{self.january}calendars/Chen.ics"
        self.assertIn("BEGIN:VCALENDAR", self.asks(path=name)[1])
        page = self.asks(path=f"{self.january}?nurse=Grace&day=0")[1]
        self.assertIn("Grace, Mon 14 Dec: Day Nurse", page)
        self.sends_to(
            self.january, verb="set", nurse="Grace", first=str(NEXT), shift="off", seconds="0"
        )
        self.assertEqual(read_state(self.last()).period, 1)
        self.assertEqual([one.day for one in read_state(self.last()).set_days], [0])
        self.sends(verb="page")
        self.assertEqual(read_state(self.last()).period, 0)

    def away(self):
        """The days of each period on which verbs have written that a nurse is away."""
        verbs = self.jobs.verbs()
        plans = verbs.current(), verbs.current(str(NEXT))
        return [[(one.nurse, one.day) for one in plan.state.absences] for plan in plans]

    @unittest.skipUnless(HAS_CBC, "cbc is not installed")
    def test_an_absence_across_the_border_is_one_form(self):
        sunday, tuesday = (str(NEXT + datetime.timedelta(days=day)) for day in (-1, 1))
        form = re.search("<details><summary>A nurse is away.*?</form>", self.asks()[1], re.DOTALL)
        last = form[0].partition('name="last"')[2].partition("</select>")[0]
        self.assertIn(f'<option value="{tuesday}">Tue 15 Dec</option>', last)
        self.assertNotIn(tuesday, form[0].replace(last, ""))
        cell = self.asks(path=f"{self.site.path}?nurse=Finn&day=13")[1]
        self.assertIn(f'<option value="{tuesday}">to Tue 15 Dec</option>', cell)
        fields = f"verb=away&nurse=Finn&first={sunday}&last={tuesday}&reason=leave&seconds=20"
        self.asks("POST", form=fields)
        asked = self.ended()
        self.assertIn("A nurse is away: nurse Finn, day Sun 13 Dec, last day Tue 15 Dec", asked)
        self.assertIn("the period from Mon 14 Dec on:", asked)
        self.assertIn("Finn, Mon 14 Dec: leave instead of Late Nurse", asked)
        self.assertEqual(self.away(), [[], []])
        self.sends(**fields_of(asked, "Yes, write it"))
        self.assertEqual(self.away(), [[("Finn", 13)], [("Finn", 0), ("Finn", 1)]])
        self.sends(verb="undo")
        self.assertEqual(self.away(), [[], []])

    @unittest.skipUnless(HAS_CBC, "cbc is not installed")
    def test_the_next_period_gives_a_shift_up(self):
        # Nobody who may work the night of Sunday is off on Monday.
        self.rows["needs"][4][3] = 0
        self.write()
        plan = self.jobs.verbs().current(str(NEXT))
        days = [Cell(nurse, 0, "Day", "Nurse") for nurse in ("Chen", "Dilek", "Ewa")]
        others = [cell for cell in plan.cells if cell[:2] not in {one[:2] for one in days}]
        plan = plan.with_cells(cell for cell in (*others, *days) if cell[:2] != ("Ewa", 1))
        now = datetime.datetime(2026, 12, 1, 12, 0)
        self.jobs.folder.add("plan", plan_texts(plan, plan.state.record("plan", now)), now)
        self.sends(verb="page")
        sunday = NEXT - datetime.timedelta(days=1)
        self.asks("POST", form=f"verb=away&nurse=Chen&first={sunday}&reason=ill&seconds=20")
        asked = self.ended()
        self.assertIn("Night Nurse, Sun 13 Dec: 1 nurse missing", asked)
        self.assertIn("before Day on Mon 14 Dec, in the plan of the next period", asked)
        gives = fields_of(asked, "The next period gives that up")
        self.asks("POST", form=urlencode({n: html.unescape(v) for n, v in gives.items()}))
        asked = self.ended()
        self.assertNotIn("1 nurse missing", asked)
        self.assertIn("the period from Mon 14 Dec on:", asked)
        self.assertNotIn("The next period gives that up", asked)
        self.assertEqual(self.away(), [[], []])
        self.sends(**{n: html.unescape(v) for n, v in fields_of(asked, "Yes, write it").items()})
        self.assertEqual(self.away(), [[("Chen", 13)], []])
        plan, then = self.jobs.verbs().current(), self.jobs.verbs().current(str(NEXT))
        (night,) = (cell.nurse for cell in plan.cells if (cell.day, cell.shift) == (13, "Night"))
        self.assertFalse(
            any(cell[:2] == (night, 0) and cell.shift != "Night" for cell in then.cells)
        )

    def sends_to(self, path, **fields):
        """Sends a form to the page of a period, and says yes."""
        form = "&".join(f"{name.replace(' ', '+')}={value}" for name, value in fields.items())
        self.assertEqual(self.asks("POST", path, form=f"{form}&sure=yes")[0], 303)
        return self.ended()


if __name__ == "__main__":
    unittest.main()
