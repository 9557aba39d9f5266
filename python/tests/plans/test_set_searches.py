"""Tests of days that are set after a search: where no single exchange makes room for them, or each
costs many points."""

import datetime
import unittest
from unittest import mock

from served_page import ServedPage
from test_kept_plans import KeptTest
from test_page_stamps import fields_of
from test_plans import MONDAY
from ward import ENOUGH, HAS_CBC

from inrc2pb.plans import planning
from inrc2pb.plans.planned import Planned
from inrc2pb.plans.plan_files import read_record, read_state
from inrc2pb.plans.searching import Found
from inrc2pb.plans.state import SetDay
from inrc2pb.plans.store import Means
from inrc2pb.plans.swaps import MOST_POINTS
from inrc2pb.plans.table import Verbs
from inrc2pb.plans.verb import Event, Status
from inrc2pb.plans.verbs import set_day
from inrc2pb.plans.verbs.set_day import DaySet
from inrc2pb.plans.ward_folder import WardFolder
from inrc2pb.programs.program import BROKEN_RULE, NO_ROSTER
from inrc2pb.programs.progress import Progress
from inrc2pb.week.faults import FileFault, ProgramFault, Stopped
from inrc2pb.week.records import Cell, NurseDay


class Today(datetime.date):
    """A day on which a test is run."""

    now = MONDAY

    @classmethod
    def today(cls):
        return cls.now


class SearchTest(KeptTest):
    def setUp(self):
        super().setUp()
        patch = mock.patch.object(set_day.datetime, "date", Today)
        patch.start()
        self.addCleanup(patch.stop)
        self.addCleanup(setattr, Today, "now", MONDAY)
        Today.now = MONDAY - datetime.timedelta(days=9)

    def does_set(self, *words, seconds=None, do=False):
        """What comes of the verb."""
        verbs = Verbs(WardFolder(self.ward), Means(Progress(None), lambda line: None))
        return verbs.done(Event("set", words, seconds, do=do))

    def asks_set(self, *words, seconds=None):
        """What is known of it before a search."""
        verbs = Verbs(WardFolder(self.ward), Means(Progress(None), lambda line: None))
        return verbs.asked(Event("set", words, seconds))


class WhenToSearch(SearchTest):
    def test_a_cheap_exchange_needs_no_search_and_a_dear_one_does(self):
        for words in ("Grace Mon off", "Grace Sat Day", "Grace Fri Late", "Dilek Mon off"):
            asked = self.asks_set(*words.split())
            costs = [way.cost for way in asked.instead if way.swap]
            if not asked.faults:
                costs.append(asked.cost)
            self.assertEqual(asked.needs_search, min(costs, default=99) > MOST_POINTS, words)
            self.assertFalse(self.asks_set(*words.split(), seconds=0).needs_search)
        self.assertTrue(self.asks_set("Grace", "Sat", "Day").needs_search)

    def test_what_no_other_shift_can_mend_needs_no_search(self):
        self.rows["plan"][7][1] = "Day"
        self.rows["plan"][1][2] = "ill"
        # Dilek has Night on the Sunday before the plan, and Chen Late on Wednesday, by the sheet.
        self.rows["plan"][3][3] = "Late"
        self.write()
        for words in (
            "Grace Mon off",
            "Amara Tue Late",
            "Finn Wed Night",
            "Dilek Mon Day",
            "Chen Thu Day",
        ):
            asked = self.asks_set(*words.split())
            self.assertTrue(asked.faults and not asked.needs_search, words)
        # Chen has Night on the Sunday before only in the plan, which a search may change.
        self.assertTrue(self.asks_set("Chen", "Mon 2", "Day").needs_search)

    def test_a_search_begins_tomorrow_or_on_the_day_itself(self):
        plan = self.read()
        for today, first in ((-9, 0), (0, 1), (4, 5), (5, 5), (9, 5), (99, 5)):
            Today.now = MONDAY + datetime.timedelta(days=today)
            self.assertEqual(set_day._first_free(plan, 5), first, today)
        over = plan.with_state(plan.state.__class__(**{**vars(plan.state), "open_week": 1}))
        Today.now = MONDAY
        self.assertEqual(set_day._first_free(over, 9), 7)


class Ends(SearchTest):
    """How a search ends that a test makes."""

    def ended(self, *words, result, do=True):
        """What comes of the verb if its search ends so."""
        with mock.patch.object(planning, "search_plan", side_effect=result):
            return self.does_set(*words, do=do)

    def test_a_search_that_finds_nothing_writes_nothing(self):
        before = self.last()
        for fault in (
            ProgramFault(NO_ROSTER, "no rosters were found in this time"),
            FileFault(self.ward, 1, "no roster can have this row"),
        ):
            found = self.ended("Dilek", "Mon", "off", result=fault)
            self.assertEqual((type(found), found.status), (DaySet, Status.NOT_KEPT))
            said = found.lines("write")
            self.assertEqual(said[1:3], ["nothing is written", "a search for a plan with it has found none"])  # fmt: skip
        self.assertEqual(self.last(), before)

    def test_other_faults_are_told(self):
        for fault in (
            ProgramFault(BROKEN_RULE, "week-0.txt line 3"),
            Stopped(NO_ROSTER, "stopped before the first plan"),
        ):
            with self.assertRaises(ProgramFault) as caught:
                self.ended("Dilek", "Mon", "off", result=fault)
            self.assertIs(caught.exception, fault)

    def test_no_plan_is_written_that_keeps_less_than_the_one_before(self):
        # Chen, who never works Night now, has three nights in each week, and that of Dilek, too.
        self.rows["nurses"][3][3] = "Night"
        self.write()
        before = self.last()

        def search(old, _asked, _progress):
            return Found(old.with_cells([*old.cells, Cell("Chen", 0, "Night", "Nurse")]))

        with mock.patch.object(planning, "without_needless_changes", lambda old, new, ends: new):
            found = self.ended("Dilek", "Mon", "off", result=search)
        self.assertEqual(
            (type(found), found.status, self.last()), (DaySet, Status.NOT_KEPT, before)
        )


@unittest.skipUnless(HAS_CBC, "cbc is not installed")
class Searched(SearchTest):
    def test_a_promise_that_a_search_keeps_for_fewer_points(self):
        before = self.last()
        place = NurseDay("Dilek", 6)
        asked = self.asks_set("Dilek", "Sun", "off", "a", "wedding")
        cheapest = min(way.cost for way in asked.instead if way.swap)
        found = self.does_set("Dilek", "Sun", "off", "a", "wedding", seconds=float(ENOUGH))
        self.assertEqual((type(found), found.is_written, self.last()), (Planned, False, before))
        now = sum(found.penalties.values())
        old = asked.old.view().penalty
        self.assertLess(now - old, cheapest)
        said = found.lines("type it again with --do")
        self.assertEqual(said[-1], "nothing is written: type it again with --do")
        promise = "Dilek, Sun 6 Dec: off (a wedding)"
        self.assertEqual(
            said[1], f"{promise}: swaps and later plans keep it, until it is taken back"
        )
        self.assertIn(f"{now} points instead of {old}", "\n".join(said))
        # It is written with do, and later plans keep it.
        words = ("set", "Dilek", "Sun", "off", "a", "wedding", "--do", "--time", ENOUGH)
        self.assertIn(promise, self.does(*words))
        state = read_state(self.last())
        self.assertEqual(state.set_days, (SetDay("Dilek", 6, "a wedding"),))
        self.assertNotIn(tuple(place), self.cells())
        self.assertEqual(read_record(self.last()).verb, "set Dilek 2026-12-06 off")
        self.assertEqual(sum(self.points()), now)


class OnThePage(ServedPage):
    @unittest.skipUnless(HAS_CBC, "cbc is not installed")
    def test_the_question_has_what_the_search_finds(self):
        self.write_plan()
        page = self.asks(path=f"{self.site.path}?nurse=Dilek&day=6")[1]
        button = "off, promised, after a search with few changes"
        [text] = [one for one in page.split("</button>") if button in one]
        form = fields_of(page, text.rpartition(">")[2])
        self.assertEqual(self.asks("POST", form="&".join(f"{name}={value}" for name, value in form.items()) + "&verb=set")[0], 303)  # fmt: skip
        page = self.ended()
        self.assertIn("Dilek, Sun 6 Dec: off instead of Day Nurse", page)
        self.assertEqual(self.plans(), ["0001"])
        self.sends(**fields_of(page, "Yes, write it"))
        self.assertEqual(self.plans(), ["0001", "0002"])
        # A cheap day is asked about without a search, and a dear one by the button of its own.
        for day, text in ((0, "off, promised"), (5, "Day Nurse")):
            page = self.asks(path=f"{self.site.path}?nurse=Grace&day={day}")[1]
            self.assertIn(f"  {text}</button>", page)


if __name__ == "__main__":
    unittest.main()
