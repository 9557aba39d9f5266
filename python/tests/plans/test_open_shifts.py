"""Tests of shifts that are left open: minimum numbers that nobody fills."""

import unittest
from unittest import mock
from urllib.parse import urlencode

from served_page import ServedPage
from test_kept_plans import KeptTest
from test_page_stamps import fields_of
from test_past import PastTest
from test_plans import TWO_WEEKS
from ward import HAS_CBC, run

from inrc2pb.plans import planning
from inrc2pb.plans.left_open import filled, left_open, with_fewer_open, without_away
from inrc2pb.plans.plan_files import read_record, read_state
from inrc2pb.plans.planned import OF_OLDER_SHEET, bound_text
from inrc2pb.plans.searching import KnownBound
from inrc2pb.programs.program import NO_ROSTER
from inrc2pb.search.bounds import PROVER, Bound
from inrc2pb.sheets.open_shifts import OpenShift
from inrc2pb.week.faults import ProgramFault
from inrc2pb.week.files import read_scenario, read_week
from inrc2pb.week.records import Cell, Place, Requirement

# Chen alone has Night on the first Friday.
NIGHT = OpenShift(4, "Night", "Nurse", 1)
MISSING = "Night Nurse, Fri 4 Dec: 1 nurse missing"
NO_SEARCH = ("--time", "0")


class OpenTest(KeptTest):
    def opens(self, *words):
        """What the verb prints with the option that leaves shifts open."""
        return self.does(*words, "--open")

    def needed(self, number=0):
        """The numbers of nurses in the week's file of the plan that holds."""
        last = self.last()
        ward = read_scenario(last / "ward.txt")
        return read_week(last / f"week-{number}.txt", ward).requirements

    def opened(self):
        return read_state(self.last()).opened


class Values(OpenTest):
    def test_a_plan_without_a_shift_and_what_is_left_of_it(self):
        night = Cell("Chen", 4, "Night", "Nurse")
        late = Cell("Finn", 11, "Late", "Nurse")
        plan = self.plan.with_cells(cell for cell in TWO_WEEKS if cell not in (night, late))
        opened = left_open(plan)
        self.assertEqual(opened.state.opened, (NIGHT, OpenShift(11, "Late", "Nurse", 1)))
        self.assertEqual(left_open(plan, 5).state.opened, opened.state.opened[1:])
        self.assertEqual(filled(opened, 5).state.opened, (NIGHT,))
        # The minimum is lowered, and the best number is as it was.
        needs = opened.needs
        self.assertEqual(needs[Place(4, "Night", "Nurse")], Requirement(0, 1))
        self.assertEqual(needs[Place(5, "Night", "Nurse")], Requirement(1, 1))
        text = " ".join(opened.ward.texts["week-1.txt"].split())
        self.assertIn(f"Late Nurse {'(1,1) ' * 4}(0,1)", text)
        # Whoever takes it fills it.
        now = with_fewer_open(opened.with_cells([*opened.cells, night]))
        self.assertEqual(now.state.opened, opened.state.opened[1:])
        self.assertEqual(now.needs[Place(4, "Night", "Nurse")], Requirement(1, 1))

    def test_shifts_on_days_away_and_after_others_are_nobodys(self):
        self.rows["plan"][7][2:4] = ["leave", "leave"]
        self.write()
        cells = [*TWO_WEEKS, Cell("Ewa", 4, "Day", "Nurse")]
        kept = set(without_away(self.read(cells), 0).cells)
        gone = {cell for cell in cells if cell[:2] in (("Grace", 1), ("Grace", 2), ("Ewa", 4))}
        self.assertEqual(set(cells) - kept, gone)
        self.assertLess(set(cells) - set(without_away(self.read(cells), 2).cells), gone)

    def test_each_sentence_with_proved_says_it(self):
        known = KnownBound(40, Bound(30, PROVER, ""), beside=35)
        self.assertNotIn("open", bound_text(known))
        said = bound_text(known, 1)
        self.assertIn("(proved by inrc2pb-bound, with 1 open shift)", said)
        self.assertIn("(not proved, with 1 open shift)", said)
        self.assertIn("with 2 open shifts)", bound_text(known._replace(penalty=30), 2))


class SetOpen(OpenTest):
    def test_a_shift_that_only_she_has(self):
        status, printed, _ = run("plan", self.ward, "set", "Chen", "Fri", "off", *NO_SEARCH)
        self.assertEqual(status, 6)
        self.assertIn("with --open the shift that she leaves stays open\n", printed)
        asked = self.opens("set", "Chen", "Fri", "off")
        self.assertIn(f"{MISSING}\n", asked)
        self.assertIn("  +30  Night Nurse, Fri 4 Dec: 0 of 1 nurse\n", asked)
        self.assertIn("nothing is written: type it again with --do\n", asked)
        self.assertEqual(self.opened(), ())
        self.does("page")
        self.opens("set", "Chen", "Fri", "off", "--do")
        self.assertEqual(self.opened(), (NIGHT,))
        self.assertEqual(self.needed()[Place(4, "Night", "Nurse")], Requirement(0, 1))
        self.assertEqual(read_record(self.last()).typed, "set Chen Fri off --open")
        # The proved program charges the missing nurse, and the pages show it in red.
        self.assertEqual(len(self.points()), 2)
        for page in ("roster.html", "wall.html"):
            text = (self.ward / page).read_text()
            self.assertIn(f'<p class="open">{MISSING}</p>', text)
        self.assertIn(".open { color: #b00020", text)
        self.assertIn(f"warning: {MISSING}\n", run("plan", self.ward, "check")[1])
        # Other verbs keep it, and who takes the shift fills it.
        self.does("swap", "Grace", "Mon", "Ewa", "--do")
        self.assertEqual(self.opened(), (NIGHT,))
        self.does("set", "Ewa", "Fri", "Night", *NO_SEARCH, "--do")
        self.assertEqual(self.opened(), ())
        self.assertEqual(self.needed()[Place(4, "Night", "Nurse")], Requirement(1, 1))
        self.assertNotIn(MISSING, (self.ward / "wall.html").read_text())
        self.does("undo")
        self.assertIn(MISSING, (self.ward / "wall.html").read_text())

    def test_hard_rules_hold_all_the_same(self):
        for words in ("Finn Fri Night", "Grace Mon Day/Charge", "Dilek Mon Day"):
            status, printed, said = run("plan", self.ward, "set", *words.split(), "--open")
            self.assertIn(status, (1, 6), words)
            self.assertTrue("not possible" in printed or "no skill" in said, words)
        self.assertEqual(self.opened(), ())

    def test_verbs_that_leave_nothing_open(self):
        for verb in ("swap", "over", "page", "back", "check"):
            self.assert_refused("--open is for set, plan and days away", self.ward, verb, "--open")


class OverOpen(PastTest):
    def test_a_week_below_a_minimum_has_costs_and_is_red(self):
        self.does("over", "Chen", "Fri", "off")
        self.assertEqual(read_state(self.last()).opened, (NIGHT,))
        page = (self.ward / "worked-2026-11-30.html").read_text()
        self.assertIn(f'<p class="open">{MISSING}</p>', page)
        self.assertNotIn("breaks a hard rule", page)
        self.does("over", "Ewa", "4.12.", "Night")
        self.assertEqual(read_state(self.last()).opened, ())


@unittest.skipUnless(HAS_CBC, "cbc is not installed")
class Searches(OpenTest):
    def ill_at_night(self):
        """All who may work Night are ill on the first Friday."""
        for nurse in ("Amara", "Bruno", "Chen", "Dilek", "Ewa"):
            self.rows["plan"][1 + "ABCDE".index(nurse[0])][5] = "ill"
        self.rows["nurses"][7][3] = "Night"
        # Nobody has to be in charge then.
        self.rows["needs"][1][7] = 0
        self.write()

    def test_an_illness_is_written_though_nobody_takes_the_shift(self):
        self.ill_at_night()
        self.rows["plan"][3][5] = ""
        self.write()
        status, printed, said = self.runs("ill", "Chen", "Fri")
        self.assertEqual(status, 0, (printed, said))
        self.assertIn(f"{MISSING}\n", printed)
        self.assertIn(NIGHT, self.opened())
        self.assertEqual([one.word for one in read_state(self.last()).absences], ["ill"])
        self.assertNotIn(("Chen", 4), self.cells())
        self.points()

    def test_an_illness_is_written_though_the_search_finds_nothing(self):
        def none(*_words):
            raise ProgramFault(NO_ROSTER, "no rosters were found in this time: give more")

        with mock.patch.object(planning, "search_plan", none):
            printed = self.does("ill", "Chen", "Fri", "Sat")
            refused = run("plan", self.ward, "leave", "Ewa", "Tue")
        self.assertIn(f"{MISSING}\n", printed)
        self.assertEqual([one.day for one in self.opened()], [4, 5])
        self.assertEqual(refused[0], 5)

    def test_a_plan_that_fills_it_later(self):
        self.opens("set", "Chen", "Fri", "off", "--do")
        self.does("set", "Chen", "Fri", "back", "--do")
        printed = self.does("plan")
        self.assertEqual(self.opened(), ())
        self.assertNotIn("missing", printed)
        self.assertNotIn("open", printed)

    def test_a_plan_that_cannot_fill_it(self):
        self.ill_at_night()
        status, printed, _ = self.runs("plan")
        self.assertEqual(status, 6)
        self.assertIn("with --open these shifts stay open, and who is away does not work", printed)
        status, printed, said = self.runs("plan", "--open")
        self.assertEqual(status, 0, printed)
        self.assertIn(f"{MISSING}\n", printed)
        self.assertIn("with 1 open shift)", printed)
        self.assertEqual(self.opened(), (NIGHT,))
        again = self.runs("plan")
        self.assertIn(planning.STILL_OPEN, again[2])
        self.assertEqual(self.opened(), (NIGHT,))

    def test_a_plan_of_a_ward_that_lacks_nurses(self):
        self.rows["needs"][4][3:] = [5, *[1] * 6]
        self.write()
        status, printed, _ = self.runs("plan")
        self.assertEqual(status, 5)
        self.assertIn("with --open these shifts stay open\n", printed)
        printed = self.opens("plan")
        self.assertIn("missing\n", printed)
        self.assertIn((0, "Night", "Nurse"), [one[:3] for one in self.opened()])


@unittest.skipUnless(HAS_CBC, "cbc is not installed")
class SavedMeanwhile(OpenTest):
    def test_a_plan_that_was_found_before_the_sheet_was_saved_is_not_written(self):
        search = planning.search_plan

        def saves(*words):
            found = search(*words)
            self.rows["plan"][7][5] = "leave"
            self.write()
            return found

        plans = len(self.texts())
        with mock.patch.object(planning, "search_plan", saves):
            status, printed, _ = self.runs("ill", "Chen", "Tue")
        self.assertEqual(status, 6, printed)
        self.assertIn(f"{OF_OLDER_SHEET}\n", printed)
        self.assertEqual(len(self.texts()), plans)
        self.does("ill", "Chen", "Tue")
        self.assertNotIn(("Grace", 4), self.cells())


class PageOpen(ServedPage):
    def setUp(self):
        super().setUp()
        self.write_plan()

    def test_a_button_leaves_a_shift_open(self):
        page = self.asks(path=f"{self.site.path}?nurse=Chen&day=4")[1]
        self.assertRegex(page, r"\+[0-9]+  off, promised, and this stays open: Night Nurse<")
        form = "verb=set&nurse=Chen&first=2026-12-04&shift=off&open=yes"
        asked = self.asks("POST", form=form)[1]
        self.assertIn(MISSING, asked)
        page = self.sends(**fields_of(asked, "Yes, write it"))
        self.assertIn(f'<p class="open">{MISSING}</p>', page)
        self.assertEqual(read_state(self.last()).opened, (NIGHT,))

    @unittest.skipUnless(HAS_CBC, "cbc is not installed")
    def test_a_button_for_a_ward_that_lacks_nurses(self):
        self.rows["needs"][4][3:] = [5, *[1] * 6]
        self.write()
        page = self.sends(verb="plan", seconds="20")
        self.assertIn("with --open these shifts stay open", page)
        form = fields_of(page, "Leave it open")
        asked = self.asks("POST", form=urlencode(form))[1]
        self.assertIn("Yes, write it", asked)
        with mock.patch.object(planning, "EVENING_SHARE", 0.0):
            page = self.sends(**fields_of(asked, "Yes, write it"))
        self.assertRegex(
            page, '<p class="open">[A-Z][a-z]+ Nurse, Mon 30 Nov: [0-9] nurses? missing'
        )
        self.assertTrue(read_state(self.last()).opened)


if __name__ == "__main__":
    unittest.main()
