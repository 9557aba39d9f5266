"""Tests of events and outcomes as values: what a question shows is not written, and no status is
read from words."""

import contextlib
import sys
import unittest
from test_kept_plans import KeptTest
from test_plans import DATES
from unittest import mock

from inrc2pb.sheets.ward import read_sheet
from inrc2pb.judging.leave import credited
from inrc2pb.judging.limits import read_given
from inrc2pb.plans.absence import Away
from inrc2pb.plans.offers import Offers
from inrc2pb.plans.verb import Event, Status
from inrc2pb.plans.verbs.check import Checked
from inrc2pb.plans.verbs.over import WeekOver
from inrc2pb.plans.verbs.page import Published
from inrc2pb.plans.verbs.swap import Swapped
from inrc2pb.plans.verbs.undo import Undone
from inrc2pb.sheets.written_days import BACK, DayWord
from inrc2pb.plans.store import Means
from inrc2pb.plans.state import Swap
from inrc2pb.judging.obstacles import Obstacle
from inrc2pb.plans.table import Verbs
from inrc2pb.plans.ward_folder import WardFolder
from inrc2pb.programs.progress import Progress
from inrc2pb.week.facts import read_reasons
from inrc2pb.week.faults import Misuse
from inrc2pb.week.files import read_history, read_scenario, read_solution, read_week
from inrc2pb.week.records import NurseDay, in_plan


class Records(KeptTest):
    def test_a_ward_says_as_records_what_its_files_say(self):
        self.rows["nurses"][3][5:] = ["3", "1", "Night", "2", "2", "0"]
        self.rows["nurses"][4][3] = "Late"
        self.rows["contracts"][1][2] = "20!"
        self.rows["needs"].append(["1", "Day", "Nurse", *["0+1"] * 7])
        self.rows["plan"][1][1:4] = ["leave", "wish", "no Night"]
        self.rows["plan"][2][8:10] = ["Day/Charge", "unpaid"]
        self.write()
        written = (DayWord("Grace", 12, "ill"), DayWord("Amara", 0, BACK))
        for ward in (
            read_sheet(self.ward, None, written),
            read_sheet(self.ward, None, ()).with_absences(written),
        ):
            texts = ward.texts
            scenario = read_scenario("ward.txt", ward.texts["ward.txt"])
            self.assertEqual(ward.scenario, scenario)
            self.assertEqual(
                credited(ward.past, ward.counted),
                read_history("history-0.txt", scenario, texts["history-0.txt"]),
            )
            self.assertEqual(ward.claims, read_given("facts.txt", scenario, texts["facts.txt"]))
            names = [f"week-{number}.txt" for number in (0, 1)]
            self.assertEqual(
                ward.weeks, tuple(read_week(name, scenario, texts[name]) for name in names)
            )
            names = [f"fix-{number}.txt" for number in (0, 1)]
            self.assertEqual(
                ward.held,
                in_plan(read_solution(name, scenario, texts[name]).cells for name in names),
            )
            found = read_reasons("reasons.txt", scenario, texts["reasons.txt"])
            self.assertEqual(
                ward.reasons,
                {(one.nurse, 7 * (one.week - 1) + one.day): word for one, word in found.items()},
            )
            self.assertEqual(ward.reasons, {("Grace", 12): "ill", ("Bruno", 8): "unpaid"})


class Outcomes(KeptTest):
    def setUp(self):
        super().setUp()
        self.verbs = Verbs(WardFolder(self.ward), Means(Progress(None), lambda line: None))

    def asked(self, verb, *words, **options):
        return self.verbs.asked(Event(verb, words, **options))

    def test_what_is_asked_is_not_written(self):
        self.rows["plan"][3][1] = "leave"
        self.write()
        before = {path: path.read_bytes() for path in self.ward.rglob("*") if path.is_file()}
        for kind, event in (
            (type(None), Event("check")),
            (type(None), Event("plan", ("Fri",))),
            (Away, Event("ill", ("Grace", "Wed", "Fri"))),
            (Away, Event("back", ("Chen", "Mon"))),
            (Offers, Event("swap", ("Grace", "Mon"))),
            (Swapped, Event("swap", ("Grace", "Tue", "Dilek"), do=True)),
            (WeekOver, Event("over", ("Grace", "Fri", "ill"))),
            (Published, Event("page")),
            (Undone, Event("undo")),
        ):
            with self.subTest(event):
                self.assertIs(type(self.verbs.asked(event)), kind)
        self.assertEqual(
            {path: path.read_bytes() for path in self.ward.rglob("*") if path.is_file()}, before
        )

    def test_what_cannot_be_asked_for_is_a_misuse(self):
        for event in (
            Event("plan", ("soon",)),
            Event("ill", ("Grace", "Fri", DATES[0])),
            Event("back", ("Grace", "Fri")),
            Event("swap", ("Grace", "Mon"), do=True),
            Event("over", ("Grace", "Mon 2", "off")),
        ):
            with self.subTest(event), self.assertRaises(Misuse):
                self.verbs.asked(event)

    def test_an_absence(self):
        found = self.asked("ill", "Gra", "Wed", "Fri")
        self.assertEqual((found.nurse, found.days, found.word), ("Grace", (2, 3, 4), "ill"))
        self.assertEqual({one: word for one, word in found.new.away.items() if one not in found.old.away},
                         {NurseDay("Grace", day): "ill" for day in found.days})  # fmt: skip
        # No shift has changed yet.
        self.assertEqual(found.new.works, found.old.works)

    def test_who_is_back(self):
        self.rows["plan"][3][1:4] = ["leave", "leave", "ill"]
        self.write()
        found = self.asked("back", "Chen", "Tue")
        self.assertEqual((found.days, found.word, found.was), ((1,), BACK, "leave"))
        self.assertEqual({one.day for one in found.new.away if one.nurse == "Chen"}, {0, 2})

    def test_the_faults_of_a_swap(self):
        self.rows["plan"][7][1] = "Day"
        self.rows["plan"][1][2] = "ill"
        self.write()
        held = Obstacle.HELD
        follows = Obstacle.FOLLOWS
        never = Obstacle.NEVER
        away = Obstacle.AWAY
        skill = Obstacle.SKILL
        for words, swap, faults in (
            # The sheet fixes Grace's Monday. Dilek's Night is followed by no Day, and Grace works
            # Day on Tuesday.
            (
                "Grace Mon Dilek",
                Swap("Grace", "Dilek", (0,)),
                [(held, "Grace", 0), (follows, "Grace", 1), (follows, "Dilek", 0)],
            ),
            (
                "Dilek Mon Finn",
                Swap("Dilek", "Finn", (0,)),
                [(follows, "Dilek", 0), (never, "Finn", 0), (follows, "Finn", 1)],
            ),
            ("Bruno Tue Amara", Swap("Bruno", "Amara", (1,)), [(away, "Amara", 1)]),
            ("Grace Thu Bruno", Swap("Grace", "Bruno", (3,)), [(skill, "Grace", 3)]),
        ):
            with self.subTest(words):
                found = self.asked("swap", *words.split(), do=True)
                self.assertEqual((found.swap, found.status), (swap, Status.NOT_KEPT))
                self.assertEqual(sorted((one.kind.name, one.nurse, one.day) for one in found.faults),
                                 sorted((kind.name, nurse, day) for kind, nurse, day in faults))  # fmt: skip

    def test_the_end_of_the_last_week_ends_the_period(self):
        found = self.verbs.done(Event("over"))
        self.assertEqual((found.next.first, found.status), (7, Status.DONE))
        self.assertIsNone(self.verbs.done(Event("over")).next)

    def test_no_status_is_read_from_words(self):
        # The same events with all sentences gone have the same statuses.
        self.rows["plan"][1][1] = self.rows["plan"][2][1] = self.rows["plan"][5][1] = "leave"
        self.write()
        events = (
            Event("check"),
            Event("swap", ("Dilek", "Mon", "Finn"), do=True),
            Event("over"),
            Event("page"),
            Event("undo"),
        )
        statuses = [Status.NOT_KEPT, Status.NOT_KEPT, Status.DONE, Status.DONE, Status.DONE]
        with contextlib.ExitStack() as silent:
            for module in sys.modules.copy():
                if module.startswith("inrc2pb.plans."):
                    self.silence(silent, sys.modules[module])
            self.assertEqual([self.verbs.done(event).status for event in events], statuses)

    def silence(self, silent, module):
        """No function of a module that makes lines has any."""
        for name in dir(module):
            if name.endswith("_lines"):
                silent.enter_context(mock.patch.object(module, name, return_value=[]))

    def test_the_status_of_check(self):
        self.assertEqual(type(self.verbs.done(Event("check"))), Checked)
        charge = next(row for row in self.rows["needs"] if row[1:3] == ["Day", "Charge"])
        charge[5] = "4"
        self.write()
        self.assertEqual(self.verbs.done(Event("check")).status, Status.NO_PLAN)


if __name__ == "__main__":
    unittest.main()
