"""A test that lives two periods day by day, at a terminal and on the page. What pages and verbs say is
compared with `own_ward`, which imports nothing of the product."""

import datetime
import html
import re
import shutil
import unittest
from unittest import mock
from urllib.parse import urlencode

from own_ward import DAY, END, FIRST, LEAVES, NEEDS, NURSES, SECOND, Page, Ward, rows_of, sheets
from served_page import ServedPage
from test_page_stamps import fields_of
from test_past import today_is
from ward import ENOUGH, HAS_CBC, run, time_ends_at

from inrc2pb.plans import planning

# A search ends with its first plan, so no test waits for its time.
TIME = ("--time", str(ENOUGH))
WEEK = 7 * DAY


def worked_text(ward):
    """The tables of what was worked, those of the older years first, with the heads of the first
    one."""
    first, *others = (path.read_text() for path in sorted(ward.glob("tables/worked-*.csv")))
    return first + "".join(text.partition("\n")[2] for text in others)


def _weeks(monday, first):
    """The weeks of a period that are not over."""
    return [week for week in (monday, monday + WEEK) if week >= first]


@unittest.skipUnless(HAS_CBC, "cbc is not installed")
class TwoPeriods(ServedPage):
    def setUp(self):
        super().setUp()
        self.known = Ward()
        self.rows = sheets()
        self.write()

    def verb(self, today, *words, status=0):
        """What a verb says at a terminal on this day."""
        with today_is(today.year, today.month, today.day), time_ends_at("improved"):
            ran = run("plan", self.ward, *words)
        self.assertEqual(ran[0], status, ran)
        return ran[1]

    def page_of(self, monday, name):
        """A page of a period."""
        return Page((self.folder_of(monday) / name).read_text())

    def folder_of(self, monday):
        """The folder of the pages of a period."""
        return self.ward if monday <= self.known.open_from else self.ward / f"from-{monday}"

    def agrees(self, monday, said=""):
        """Takes the shifts of a period from its page, and compares all that is said of them."""
        known = self.known
        first = max(monday, known.open_from)
        last = monday + 13 * DAY
        roster = self.page_of(monday, "roster.html")
        known.take(roster, first)
        self.assertEqual(known.broken(first, last), [])
        self.assertEqual(sorted(roster.red), sorted(known.missing(first, last)))
        costs = [known.week_costs(week) for week in _weeks(monday, first)]
        weeks = {week: sum(points.values()) for week, points in zip(_weeks(monday, first), costs)}
        text = (self.folder_of(monday) / "roster.html").read_text()
        charged = {
            html.unescape(name): int(points)
            for name, points in re.findall("<summary><b>([^<]*)</b>: ([0-9]+) ", text)
        }
        places = charged.pop("Places with fewer nurses than best", 0)
        wanted = {
            known.names.get(nurse, nurse): points
            for nurse in NURSES
            for points in [sum(one.get(nurse, 0) for one in costs)]
            if points
        }
        self.assertEqual(charged, wanted)
        self.assertEqual(places, sum(one[""] for one in costs))
        self.assertEqual(roster.points, sum(weeks.values()))
        for week, points in weeks.items():
            if "calendar week" in said and len(weeks) > 1:
                number = week.isocalendar()[1]
                self.assertIn(f"(calendar week {number}): {points} points\n", said)
        for place, shift in known.promised.items():
            if first <= place[1] <= last and not known.word(*place):
                self.assertEqual(known.cells.get(place, ("",))[0], shift, place)
        if monday not in known.hung:
            return
        wall = self.page_of(monday, "wall.html")
        self.assertEqual(sorted(wall.red), sorted(roster.red))
        for name, cells in wall.rows.items():
            nurse = known.nurse_of(name)
            sums = [cell["text"] for cell in cells if "sum" in cell["kind"].split()]
            self.assertEqual(sums, known.sums(nurse, monday), (nurse, monday))
            days = [cell for cell in cells if "sum" not in cell["kind"].split()]
            for number, cell in enumerate(days):
                place = nurse, first + number * DAY
                is_changed = known.hung[monday].get(place) != known.cells.get(place)
                self.assertEqual("\u0394" in cell["marks"], is_changed, place)
                is_promised = self.is_promised(place)
                self.assertEqual("\u2713" in cell["marks"], is_promised, place)

    def is_promised(self, place):
        """Whether a nurse's day is promised and planned so."""
        fixed = {("Greta Voß", datetime.date(2026, 12, 16)): "Early"}
        wanted = {**fixed, **self.known.promised}
        if self.known.off(*place) and not self.known.word(*place):
            wanted[place] = ""
        return place in wanted and self.known.shift(*place) == wanted[place]

    def hangs_up(self, today, monday):
        """Hangs the plan of a period up."""
        # A first plan costs so much that the verb asks.
        self.verb(today, "page", *([str(monday)] if monday > FIRST else []), "--do")
        self.known.hung[monday] = {
            place: cell
            for place, cell in self.known.cells.items()
            if monday <= place[1] < monday + 2 * WEEK
        }
        self.agrees(monday)

    def is_over(self, today, *corrections):
        """The first week that is not over ends."""
        known = self.known
        known.ends(known.open_from)
        self.verb(today, "over", *corrections)
        known.open_from += WEEK

    def worked(self):
        """The table of what was worked has what was typed."""
        table = rows_of(worked_text(self.ward))
        self.assertEqual(set(table), self.known.worked_rows(self.known.open_from))
        self.assertEqual(len(table), len(set(table)))

    def at_minimum(self, days, places):
        """The nurses' days of these places that have the minimum number of nurses."""
        known = self.known
        return [
            (nurse, day)
            for day in days
            for place in places
            if known.number(day, *place) == known.needed(day, *place)[0]
            for (nurse, date), cell in sorted(known.cells.items())
            if (date, cell) == (day, place) and (nurse, day) not in known.promised
        ]

    def promises(self, today, days):
        """Promises a day off, on the page, to a nurse without whom a place has too few. Returns her
        and the day, and what the page has asked."""
        for nurse, day in self.at_minimum(days, NEEDS):
            name = nurse.replace(" ", "_")
            asked = self.on_page(today, verb="set", nurse=name, first=day, shift="off")
            if asked:
                return nurse, day, asked
        self.fail("nobody can have a day off")

    def on_page(self, today, **fields):
        """Sends a form of the page, and says yes to its question. Returns the question; nothing if
        there is none, since it cannot be."""
        with today_is(today.year, today.month, today.day), time_ends_at("improved"):
            asked = self.asks("POST", form=urlencode(fields))[1]
            if "Yes, write it" not in asked:
                asked = self.ended()
            if "Yes, write it" not in asked:
                return ""
            sure = fields_of(asked, "Yes, write it")
            self.sends(**{name: html.unescape(value) for name, value in sure.items()})
            return asked

    def test_two_periods(self):
        with mock.patch.object(planning, "EVENING_SHARE", 0.0):
            self.lives()

    def lives(self):
        known = self.known
        december, january = datetime.date(2026, 12, 10), datetime.date(2026, 12, 12)
        # ---- both periods are planned and hung up before the first one begins
        self.assertIn("14 nurses", self.verb(december, "check"))
        self.agrees(FIRST, self.verb(december, "plan", *TIME))
        self.hangs_up(december, FIRST)
        said = self.verb(january, "plan", *TIME)
        self.assertIn("This holds if the period before it ends as planned.\n", said)
        self.agrees(SECOND, said)
        self.hangs_up(january, SECOND)
        self.assertNotIn("Ivana Kovač", self.page_of(SECOND, "wall.html").rows)
        # ---- a promise that needs a search, on the page
        saturday = FIRST + 5 * DAY
        today = FIRST + DAY
        nurse, day, asked = self.promises(today, [saturday, saturday + DAY])
        self.assertIn("to call", asked)
        known.promised[nurse, day] = ""
        self.agrees(FIRST)
        # ---- an illness, at the terminal
        days = [FIRST + 3 * DAY, FIRST + 4 * DAY]
        ill = next(
            nurse
            for (nurse, day), _ in sorted(known.cells.items())
            if day == days[0] and (nurse, day) not in known.promised
        )
        known.is_ill(ill, days)
        said = self.verb(today + DAY, "ill", ill, *map(str, days), *TIME)
        self.agrees(FIRST, said)
        # ---- a shift that stays open, and is filled later
        later = [FIRST + number * DAY for number in (4, 5, 6)]
        night, sunday = self.at_minimum(later, [("Night", "Nurse")])[-1]
        self.verb(today + DAY, "set", night, str(sunday), "off", "--open", "--do")
        known.promised[night, sunday] = ""
        self.agrees(FIRST)
        self.assertEqual(len(known.missing(sunday, sunday)), 1)
        self.verb(today + DAY, "set", night, str(sunday), "back", "--do")
        del known.promised[night, sunday]
        said = self.verb(today + DAY, "plan", str(sunday), *TIME)
        self.agrees(FIRST, said)
        self.assertEqual(known.missing(FIRST, END - DAY), [])
        # ---- the first week is over, and is corrected a week later
        monday = FIRST
        other = next(nurse for (nurse, day) in sorted(known.cells) if day == monday)
        was_planned = dict(known.cells)
        self.is_over(FIRST + WEEK, other, str(monday), "ill")
        known.planned.update(
            {one: cell for one, cell in was_planned.items() if one[1] < FIRST + WEEK}
        )
        known.is_ill(other, [monday])
        self.agrees(FIRST)
        self.worked()
        wednesday = FIRST + 2 * DAY
        third = next(nurse for (nurse, day) in sorted(known.cells) if day == wednesday)
        self.verb(FIRST + WEEK + DAY, "over", third, str(wednesday), "off")
        del known.cells[third, wednesday]
        self.agrees(FIRST)
        self.agrees(SECOND)
        self.worked()
        # ---- the columns of the first week go, and nothing changes
        self.rows = sheets(known.names, FIRST + WEEK)
        self.write()
        self.hangs_up(FIRST + WEEK + DAY, FIRST)
        # ---- on Tuesday it is recorded who was off on Monday, and no later plan changes that
        monday = FIRST + WEEK
        absent = next(nurse for (nurse, day) in sorted(known.cells) if day == monday)
        known.records(monday)
        del known.cells[absent, monday]
        there = {place for place in known.cells if place[1] == monday}
        self.assertIn("no week ends", self.verb(monday + DAY, "over", absent, str(monday), "off"))
        self.agrees(FIRST)
        self.agrees(FIRST, self.verb(monday + DAY, "plan", *TIME))
        self.agrees(FIRST, self.verb(monday + DAY, "plan", str(monday + 2 * DAY), *TIME))
        self.verb(monday + DAY, "set", min(there)[0], str(monday), "off", "--do", status=1)
        self.assertEqual({place for place in known.cells if place[1] == monday}, there)
        # ---- an illness across the border, while January hangs, is one form of the page
        border = [SECOND - 2 * DAY, SECOND - DAY, SECOND, SECOND + DAY]
        on_last = {nurse for nurse, day in known.cells if day == SECOND - DAY} - set(LEAVES)
        on_both = {nurse for nurse in on_last if (nurse, SECOND) in known.cells}
        patient = min(on_both or on_last)
        known.is_ill(patient, border)
        words = {"verb": "away", "nurse": patient.replace(" ", "_"), "reason": "ill"}
        days = {"first": border[0], "last": border[-1], "seconds": TIME[1]}
        self.assertIn("to call", self.on_page(border[0] - DAY, **words, **days))
        self.agrees(FIRST)
        self.agrees(SECOND)
        # ---- the period is over; Maria has another name
        self.is_over(SECOND)
        self.worked()
        known.names["Maria Schäfer"] = "Maria Huber"
        # The columns of December go.
        self.rows = sheets(known.names, SECOND)
        self.write()
        # The new sheet has the marks of what has changed since the older one.
        self.verb(SECOND, "page", "--do")
        self.agrees(SECOND)
        known.hung[SECOND] = {one: cell for one, cell in known.cells.items() if one[1] >= SECOND}
        self.assertIn("Maria Huber", self.page_of(SECOND, "wall.html").rows)
        # ---- last year is corrected, and undo brings it back
        last_year = SECOND - 4 * DAY
        fourth = next(nurse for (nurse, day) in sorted(known.cells) if day == last_year)
        new_year = datetime.date(2027, 1, 4)
        self.is_over(new_year)
        before = known.cells.copy()
        self.verb(new_year, "over", fourth, str(last_year), "off")
        del known.cells[fourth, last_year]
        self.agrees(SECOND)
        self.worked()
        self.verb(new_year, "undo")
        known.cells = before
        self.agrees(SECOND)
        self.worked()
        # ---- a copy of the folder from a backup goes on, and the year is over
        backup = self.folder / "backup"
        shutil.copytree(self.ward, backup)
        self.is_over(END)
        self.worked()
        with today_is(END.year, END.month, END.day):
            self.assertEqual(run("plan", backup, "over")[0], 0)
        self.assertEqual(worked_text(backup), worked_text(self.ward))


if __name__ == "__main__":
    unittest.main()
