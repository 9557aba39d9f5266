"""Tests of the pages of a ward's folder: each of them shows the plan that holds, or weeks that are
over, whatever verbs came before."""

import datetime
import random
import re
import shutil
import sys
import unittest
from dataclasses import dataclass, field, replace
from typing import Dict, FrozenSet, Optional, Tuple
from unittest import mock
from xml.etree import ElementTree

from test_kept_plans import KeptTest
from test_plans import MONDAY, TWO_WEEKS
from ward import ROSTER, files

from inrc2pb.plans import pages, ward_folder
from inrc2pb.plans.verb import Event, Status
from inrc2pb.plans.store import Means, PlanStore
from inrc2pb.plans.table import Verbs
from inrc2pb.plans.ward_folder import WardFolder
from inrc2pb.programs.progress import Progress
from inrc2pb.shown.calendars import Issue, calendar

# A nurse, a day of the calendar, a shift type and a skill.
Shift = Tuple[str, datetime.date, str, str]
DAY = datetime.timedelta(days=1)
STORED = files.read_solution(ROSTER).cells
# A shift on a page and in a calendar, and the sign of a changed cell, after which there is its
# older shift.
SHIFT = "(Day|Late|Night) (Charge|Nurse)"
CHANGED = "\u0394"


def shifts_from(monday):
    """The stored roster in both weeks of a period."""
    return frozenset(
        (cell.nurse, monday + (7 * week + cell.day) * DAY, cell.shift, cell.skill)
        for week in (0, 1)
        for cell in STORED
    )


@dataclass(frozen=True)
class State:
    """What a test has done until now: a period of two weeks, how many of them are over, its shifts,
    whether they hang on the wall, the shifts of the calendars, and the pages of weeks that are
    over, by the Monday of their period."""

    monday: datetime.date = MONDAY
    over: int = 0
    shifts: Optional[FrozenSet[Shift]] = None
    is_published: bool = False
    calendars: FrozenSet[Shift] = frozenset()
    worked: Dict[datetime.date, FrozenSet[Shift]] = field(default_factory=dict)

    @property
    def first(self):
        """The first day that is not over."""
        return self.monday + 7 * self.over * DAY

    @property
    def planned(self):
        """The shifts of weeks that are not over, if there is a plan."""
        return self.shifts and frozenset(shift for shift in self.shifts if shift[1] >= self.first)


class FolderPages(KeptTest):
    """A folder on which verbs work one after another."""

    def setUp(self):
        super().setUp()
        self.states = [State(), State(shifts=shifts_from(MONDAY))]
        self.sheet_monday = MONDAY
        means = Means(Progress(sys.stderr), lambda line: None)
        self.verbs = Verbs(WardFolder(self.ward), means)
        self.store = PlanStore(WardFolder(self.ward), means)

    def said(self, verb, *words):
        """What the verb says."""
        return self.verbs.done(Event(verb, words)).lines()

    @property
    def state(self):
        """What the folder should have."""
        return self.states[-1]

    def days(self, monday):
        """The sheet plan has the two weeks from this Monday on."""
        if monday != self.sheet_monday:
            self.sheet_monday = monday
            self.rows["plan"] = [
                ["nurse", *(f"{monday + day * DAY}" for day in range(14))],
                *([row[0]] for row in self.rows["plan"][1:]),
            ]
            self.write()

    # ---- the steps of a user, and their right results

    def page(self):
        self.said("page")
        self.states.append(replace(self.state, is_published=True, calendars=self.state.shifts))

    def change(self, chooses):
        """Takes a shift away that is not over, as a search may."""
        state = self.state
        taken = chooses.choice(sorted(state.planned))
        old = self.store.current()
        cells = [
            cell for cell in old.cells if (cell.nurse, state.monday + cell.day * DAY) != taken[:2]
        ]
        self.store.save("plan", old.with_cells(cells))
        shifts = state.shifts - {taken}
        self.states.append(
            replace(
                state, shifts=shifts, calendars=shifts if state.is_published else state.calendars
            )
        )

    def over(self, chooses):
        """Ends a week in which a nurse has not worked a shift."""
        state = self.state
        last = state.first + 7 * DAY
        taken = chooses.choice(sorted(shift for shift in state.planned if shift[1] < last))
        self.said("over", taken[0], f"{taken[1]}", "off")
        shifts = state.shifts - {taken}
        calendars = shifts if state.is_published else state.calendars
        worked = {
            **state.worked,
            state.monday: frozenset(shift for shift in shifts if shift[1] < last),
        }
        ended = State(state.monday, 1, shifts, state.is_published, calendars, worked)
        self.states.append(State(last, calendars=calendars, worked=worked) if state.over else ended)

    def plan_again(self):
        """Plans a period that has just begun: both weeks are the stored roster."""
        self.days(self.state.monday)
        self.store.save("plan", self.store.current().with_cells(TWO_WEEKS))
        self.states.append(replace(self.state, shifts=shifts_from(self.state.monday)))

    def undo(self, with_days=True):
        if with_days:
            self.days(self.states[-2].monday)
        self.said("undo")
        self.states.pop()

    # ---- the contents of the folder

    def shown(self, name):
        """The shifts of a page by its words, without the older ones of changed cells."""
        found = set()
        for table in ElementTree.parse(self.ward / name).iter("table"):
            caption, head, body = table
            if caption.text == "Shifts of each nurse":
                dates = [
                    " ".join("".join(day.itertext()).split()[-2:])
                    for day in list(head.iter("tr"))[-1]
                ][1:]
                cells = (
                    (row[0].text, date, "".join(cell.itertext()))
                    for row in body
                    for cell, date in zip(row[1:], dates)
                )
                words = (
                    (nurse, date, re.search(SHIFT, text.split(CHANGED)[0]))
                    for nurse, date, text in cells
                )
                found |= {(nurse, date, *shift.groups()) for nurse, date, shift in words if shift}
        return found

    def worded(self, shifts):
        """Shifts as pages name their days."""
        return {
            (nurse, f"{date.day} {date:%b}", shift, skill) for nurse, date, shift, skill in shifts
        }

    def in_calendars(self):
        """The shifts of all calendars that are not cancelled."""
        found = set()
        for path in (self.ward / "calendars").glob("*.ics"):
            for event in path.read_text().split("BEGIN:VEVENT")[1:]:
                words = re.search(f"SUMMARY:{SHIFT}", event)
                date = re.search("DTSTART[^:]*:([0-9]{8})", event)[1]
                if words and "STATUS" not in event:
                    found.add(
                        (
                            path.stem,
                            datetime.datetime.strptime(date, "%Y%m%d").date(),
                            *words.groups(),
                        )
                    )
        return found

    def assert_pages(self, done):
        """Each page shows the plan that holds, or weeks that are over."""
        state = self.state
        there = {path.name for path in self.ward.glob("*.html")}
        is_known = state.shifts is None or self.sheet_monday == state.monday
        wanted = {f"worked-{monday}.html": shifts for monday, shifts in state.worked.items()}
        if is_known and state.planned:
            wanted.update(
                {
                    "roster.html": state.planned,
                    **({"wall.html": state.planned} if state.is_published else {}),
                }
            )
        self.assertLessEqual(there, set(wanted), done)
        # Without the days of the plan in the sheet its pages cannot be written.
        self.assertTrue(there == set(wanted) or not is_known, (done, there))
        for name in there:
            self.assertEqual(self.shown(name), self.worded(wanted[name]), (done, name))
        found = self.in_calendars()
        self.assertTrue(
            found == state.calendars or not found and not (state.is_published and is_known),
            (done, found ^ state.calendars),
        )


class Sequences(FolderPages):
    def test_pages_after_any_verbs(self):
        for seed in range(3):
            with self.subTest(seed):
                self.setUp()
                self.walk(random.Random(seed), 14)

    def walk(self, chooses, steps):
        """So many verbs as they come."""
        done = []
        for _ in range(steps):
            state = self.state
            has_plan = self.state.shifts is not None
            if has_plan and self.sheet_monday != state.monday:
                self.days(state.monday)
            some = (
                ["page", "change", "over", "over", "undo"]
                if has_plan
                else ["plan_again", "plan_again", "undo"]
            )
            verb = chooses.choice(
                some if len(self.states) > 2 else [one for one in some if one != "undo"]
            )
            done.append(verb)
            if verb in ("change", "over"):
                getattr(self, verb)(chooses)
            elif verb == "undo":
                self.undo(chooses.random() < 0.7)
            else:
                getattr(self, verb)()
            self.assert_pages(done)


class Undone(FolderPages):
    def lines(self, *verbs):
        """What undo says after these verbs."""
        chooses = random.Random(1)
        for verb in verbs:
            getattr(self, verb)(*[chooses] * (verb in ("change", "over")))
        said = self.said("undo")
        self.states.pop()
        self.assert_pages(verbs)
        return said

    def test_undo_of_the_end_of_a_week_takes_its_page_back(self):
        page = self.ward / "worked-2026-11-30.html"
        said = self.lines("over")
        self.assertIn(f"written: {self.ward}/roster.html, {self.ward}/tables/roster-2026.ods", said)
        self.assertIn(f"taken away: {page}", said)

    def test_undo_of_the_second_week_leaves_the_first_one_on_its_page(self):
        self.lines("over", "over")
        text = (self.ward / "worked-2026-11-30.html").read_text()
        self.assertTrue("week 1" in text and "weeks 1 to 2" not in text)

    def test_undo_of_the_first_plan_of_a_period_leaves_no_roster(self):
        said = self.lines("page", "over", "over", "plan_again")
        self.assertIn(f"taken away: {self.ward}/roster.html", said)
        # The calendars have the period that is over.
        self.assertEqual(self.in_calendars(), self.state.calendars)

    def test_undo_of_a_page_takes_the_calendars_away(self):
        self.lines("page")
        self.assertFalse((self.ward / "calendars").exists())

    def test_undo_of_the_only_plan_leaves_nothing(self):
        self.change(random.Random(1))
        self.said("undo")
        self.said("undo")
        self.assertEqual([path.name for path in self.ward.glob("*.html")], [])

    def test_undo_of_the_end_of_a_period_beside_the_days_of_the_next_one(self):
        self.lines("page", "over", "over", "plan_again")
        self.undo(with_days=False)
        self.assert_pages(["page", "over"])
        self.assertEqual([path.name for path in self.ward.glob("*.html")], [])
        # With its own days again the next verb writes the pages of the first week.
        self.days(MONDAY)
        self.page()
        self.assert_pages(["page", "over", "page"])

    def test_undo_beside_a_fault_of_the_sheet(self):
        chooses = random.Random(1)
        for verbs in ((), (self.page,)):
            for verb in verbs:
                verb()
            self.over(chooses)
            self.rows["plan"][1][1] = "wihs"
            self.write()
            said = self.said("undo")
            self.states.pop()
            self.assertEqual([path.name for path in self.ward.glob("*.html")], [])
            self.assertEqual(self.in_calendars(), set())
            self.assertTrue(said[-1].startswith("its pages are not written: "), said)
            self.rows["plan"][1][1] = ""
            self.write()

    def test_undo_beside_a_sheet_that_cannot_be_read(self):
        self.page()
        reader = mock.Mock(side_effect=PermissionError(13, "Permission denied", "ward.ods"))
        means = Means(Progress(sys.stderr), print)
        with mock.patch.object(ward_folder, "read_book", reader):
            said = Verbs(WardFolder(self.ward), means).done(Event("undo")).lines()
        self.assertIn("its pages are not written: ward.ods: Permission denied", said[-1])
        self.assertEqual([path.name for path in self.ward.glob("*.html")], [])

    def test_a_page_that_cannot_be_taken_away(self):
        self.over(random.Random(1))
        with mock.patch.object(
            pages.Path, "unlink", side_effect=PermissionError(13, "Permission denied", "worked")
        ):
            found = self.verbs.done(Event("undo"))
        self.assertIn(
            "the plan holds, but its pages are not written: worked: Permission denied",
            found.lines()[-1],
        )
        self.assertEqual(found.status, Status.PAGES_NOT_WRITTEN)

    def test_pages_of_a_run_that_was_killed_are_told(self):
        self.page()
        self.assertNotIn("another plan", "".join(self.said("check")))
        # The plan is written, and its pages are not.
        with mock.patch.object(
            pages, "write_pages", side_effect=KeyboardInterrupt
        ), self.assertRaises(KeyboardInterrupt):
            self.said("over")
        warnings = [line for line in self.said("check") if line.startswith("warning: ")]
        for line, name in zip(warnings, ("roster.html", "wall.html")):
            says = (
                "shows another plan than the one that holds, as if a run was killed: the verbs plan"
                " and page write it anew"
            )
            self.assertEqual(line, f"warning: {name} {says}")
        self.said("page")
        self.assertNotIn("another plan", "".join(self.said("check")))
        # Pages of an older release do not say which plan they show.
        for name in ("roster.html", "wall.html"):
            (self.ward / name).write_text("<html/>")
        self.assertNotIn("another plan", "".join(self.said("check")))

    def test_other_files_stay(self):
        self.page()
        for name in ("notes.html", "calendars/mine.ics", "worked-2026-11-02.html"):
            (self.ward / name).write_text("mine")
        self.said("undo")
        for name in ("notes.html", "calendars/mine.ics", "worked-2026-11-02.html"):
            self.assertEqual((self.ward / name).read_text(), "mine")


class Links(FolderPages):
    """A folder that several people may write: who links a page or a calendar to a file gets nothing
    written there."""

    def setUp(self):
        super().setUp()
        self.outside = self.folder / "outside.txt"
        self.outside.write_text("mine")

    def test_pages_and_calendars_take_the_place_of_links(self):
        (self.ward / "calendars").mkdir()
        names = ("roster.html", "wall.html", "worked-2026-11-30.html", "calendars/Finn.ics")
        for name in names:
            (self.ward / name).symlink_to(self.outside)
        self.page()
        self.over(random.Random(1))
        self.assertEqual(self.outside.read_text(), "mine")
        for name in names:
            self.assertTrue(
                (self.ward / name).is_file() and not (self.ward / name).is_symlink(), name
            )
        self.assert_pages("page and over")

    def test_a_folder_of_calendars_that_is_a_link(self):
        other = self.folder / "other"
        other.mkdir()
        (other / "Finn.ics").write_text("mine")
        (self.ward / "calendars").symlink_to(other)
        self.page()
        self.assertEqual([path.read_text() for path in other.iterdir()], ["mine"])
        self.assert_pages("page")
        # Neither does undo take anything away there.
        shutil.rmtree(self.ward / "calendars")
        (self.ward / "calendars").symlink_to(other)
        self.undo()
        self.assertEqual([path.read_text() for path in other.iterdir()], ["mine"])

    def test_undo_takes_a_link_away_and_not_its_file(self):
        (self.ward / "wall.html").symlink_to(self.outside)
        (self.ward / "worked-2026-11-30.html").symlink_to(self.outside)
        self.over(random.Random(1))
        self.undo()
        self.assertEqual(
            (self.outside.read_text(), (self.ward / "wall.html").is_symlink()), ("mine", False)
        )


class Calendars(FolderPages):
    def events(self, nurse):
        """The events of a nurse's calendar by their dates."""
        text = (self.ward / "calendars" / f"{nurse}.ics").read_text()
        return {
            re.search("DTSTART[^:]*:([0-9]{8})", event)[1]: event
            for event in text.split("BEGIN:VEVENT")[1:]
        }

    def test_a_correction_of_a_worked_day_is_cancelled(self):
        # Finn works late on Thursday and Friday of both weeks.
        self.page()
        before = self.events("Finn")
        with mock.patch("time.time", return_value=datetime.datetime.now().timestamp() + 1):
            self.said("over", *"Finn Fri off".split())
        now = self.events("Finn")
        self.assertEqual(set(now), set(before))
        numbers = [int(re.search("SEQUENCE:([0-9]+)", one["20261204"])[1]) for one in (before, now)]
        self.assertLess(*numbers)
        self.assertEqual(
            [date for date, event in now.items() if "STATUS:CANCELLED" in event], ["20261204"]
        )
        # Later verbs keep the days that were worked, and the cancelled one.
        self.said("over")
        self.assertEqual(
            ["STATUS:CANCELLED" in event for event in self.events("Finn").values()].count(True), 1
        )
        self.assertEqual(set(self.events("Finn")), set(before))

    def test_a_calendar_without_shifts_has_nothing_to_take_back_later(self):
        plan = self.verbs.current().with_cells([])
        text = calendar(plan.view(), "Finn", plan.days.monday, {}, Issue(1, {}))
        self.assertEqual((text.count("BEGIN:VEVENT"), text.count("STATUS:CANCELLED")), (1, 1))

    def test_the_shifts_of_a_nurse_who_is_no_more_in_the_sheet_are_cancelled(self):
        self.page()
        before = self.events("Finn")
        self.rows["nurses"] = [row for row in self.rows["nurses"] if row[0] != "Finn"]
        self.rows["plan"] = [row for row in self.rows["plan"] if row[0] != "Finn"]
        self.write()
        plan = self.store.current()
        self.store.save("plan", plan)
        self.assertTrue(set(before) <= set(self.events("Finn")))
        self.assertNotIn("Finn", {shift[0] for shift in self.in_calendars()})

    def test_damaged_plans_of_the_past_hinder_no_page(self):
        self.page()
        roster = next(path for path in sorted((self.ward / "plans").glob("0002*"))) / "roster-0.txt"
        self.said("over")
        roster.write_text("")
        (self.ward / "plans" / "undone").mkdir()
        (self.ward / "plans" / "undone" / "0007-other").mkdir()
        self.assertIn("/calendars", self.said("page")[-1])


if __name__ == "__main__":
    unittest.main()
