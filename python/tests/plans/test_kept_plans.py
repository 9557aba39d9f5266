"""Tests of what verbs keep and say: agreed swaps, lost wishes, nurses to call, and a week that was
not worked as planned."""

import datetime
import unittest
from dataclasses import replace
from test_plans import MONDAY, TWO_WEEKS, FolderTest
from unittest import mock
from ward import HAS_CBC, files, run
from xml.etree import ElementTree

from inrc2pb.sheets.ward import read_sheet
from inrc2pb.judging.limits import limits_way_out
from inrc2pb.judging.rules import Charge
from inrc2pb.plans import kept, pages
from inrc2pb.plans.changes import days_off_beside_absences, shift_changes, with_few_changes
from inrc2pb.plans.needless_changes import without_needless_changes
from inrc2pb.plans.facts import unkept
from inrc2pb.plans.planned import Planned
from inrc2pb.plans.searching import Asked
from inrc2pb.plans.absence import part_lines
from inrc2pb.plans.planned import bound_text
from inrc2pb.plans.searching import KnownBound
from inrc2pb.plans.sentences import (
    beside_lines,
    call_lines,
    change_lines,
    due_lines,
    unkept_lines,
    wish_lines,
)
from inrc2pb.plans.state import Record, Swap
from inrc2pb.plans.plan_files import read_record, read_state, record_text
from inrc2pb.sheets.written_days import DayWord
from inrc2pb.plans.ward import plan_of
from inrc2pb.plans.limits import limits_for_leavers
from inrc2pb.search.bounds import PLAIN, PROVER, Bound
from inrc2pb.shown.page import page_text
from inrc2pb.week.dates import PlanDays
from inrc2pb.week.facts import Charged
from inrc2pb.week.faults import FileFault
from inrc2pb.week.records import Absence, Cell, NurseDay, Request

BARE = PlanDays(None, 2)
BARE_DATES = [PlanDays(MONDAY, 2).text(day) for day in range(14)]


class KeptTest(FolderTest):
    """A ward whose plan of two weeks is the stored roster twice."""

    def setUp(self):
        super().setUp()
        self.plan = self.write_plan()

    def read(self, cells=None):
        """The stored plan, or one with these cells, with what the spreadsheet says now."""
        plan = self.plan if cells is None else self.plan.with_cells(cells)
        return plan_of(read_sheet(self.ward, None, ()), plan.state)

    def with_wishes(self, plan, *weeks):
        """The plan with these wishes in its weeks."""
        asked = [replace(week, requests=wishes) for week, wishes in zip(plan.ward.weeks, weeks)]
        return replace(
            plan, ward=replace(plan.ward, weeks=(*asked, *plan.ward.weeks[len(weeks) :]))
        )

    def agreed(self):
        """The nurses and days on which the plan that holds has a swap."""
        return set(read_state(self.last()).agreed)


class AwayNow(KeptTest):
    def test_a_nurse_who_works_on_days_on_which_she_is_away_now(self):
        # The plan has Grace at work from Monday to Friday.
        self.rows["plan"][7][2:4] = ["leave", "leave"]
        self.write()
        said = (
            "week 1 (calendar week 49): Grace works Day on Tue 1 Dec and Wed 2 Dec, and is away"
            " then, or never works that: plan again"
        )
        printed = run("plan", self.ward, "check")[1]
        self.assertIn(f"warning: {said}\n", printed)
        self.assertNotIn("No mistake found", printed)
        self.assertIn(f"{said}\n", self.does("page"))
        roster = (self.ward / "roster.html").read_text()
        self.assertIn(said, roster)
        self.assertNotIn("no plan was found", roster)

    def test_the_mark_of_a_day_away_is_in_its_own_cell(self):
        # The word fills a narrow cell, and a mark beside it was printed on the next day.
        self.rows["plan"][7][2] = "leave"
        self.write()
        plan = self.read(cell for cell in TWO_WEEKS if cell[:2] != ("Grace", 1))
        text = page_text(pages.roster_content(self.ward, plan, self.plan))
        self.assertRegex(text, '<span class="away">leave</span><span [^>]*class="mark"')
        self.assertIn(".many .away + .mark { display: block", text)


class Words(KeptTest):
    def test_a_change_of_skill_is_told_and_the_nurse_is_called(self):
        old = [Cell("Amara", 0, "Day", "Nurse")]
        new = [Cell("Amara", 0, "Day", "Charge")]
        changes = shift_changes(old, new)
        self.assertEqual(
            change_lines(changes, BARE), ["Amara, Mon of week 1: Day Charge instead of Day Nurse"]
        )
        self.assertEqual(call_lines(changes), ["1 nurse to call: Amara"])

    def test_who_is_away_on_a_changed_day_is_not_called(self):
        old = [Cell("Amara", 0, "Day", "Nurse")]
        new = [Cell("Bruno", 0, "Day", "Nurse")]
        changes = shift_changes(old, new)
        away = {("Amara", 0): "ill"}
        says = [
            "Amara, Mon of week 1: ill instead of Day Nurse",
            "Bruno, Mon of week 1: Day Nurse instead of off",
        ]
        self.assertEqual(
            (change_lines(changes, BARE, away), call_lines(changes, away)),
            (says, ["1 nurse to call: Bruno"]),
        )

    def test_how_many_shifts_differ_from_a_plan_that_nobody_has_seen(self):
        for number, says in (
            (1, "1 shift differs from the last plan"),
            (2, "2 shifts differ from the last plan"),
        ):
            new = self.plan.with_cells(self.plan.cells[number:])
            planned = Planned(
                self.plan,
                self.plan,
                Asked(0, False, 1.0),
                new,
                penalties={},
                bound=None,
                is_stopped=False,
            )
            self.assertIn(says, planned.lines())

    def test_who_works_though_she_is_away_is_told(self):
        # Grace works Day on Wednesday and Friday of both weeks, and Amara Day in charge on Monday.
        self.rows["plan"][7][3] = self.rows["plan"][7][5] = self.rows["plan"][7][12] = "ill"
        self.rows["plan"][1][1] = "leave"
        self.write()
        says = [
            (
                "week 1 (calendar week 49): no plan was found that keeps every absence: Amara works"
                " Day on Mon 30 Nov, Grace works Day on Wed 2 Dec and Fri 4 Dec"
            ),
            (
                "week 1 (calendar week 49): lower the minimum of Charge and Nurse in the sheet"
                " needs, or give someone the skill"
            ),
            (
                "week 2 (calendar week 50): no plan was found that keeps every absence: Grace works"
                " Day on Fri 11 Dec"
            ),
            (
                "week 2 (calendar week 50): lower the minimum of Nurse in the sheet needs, or give"
                " someone the skill"
            ),
        ]
        self.assertEqual(unkept_lines(self.read(), unkept(self.read())), says)
        self.assertEqual(unkept_lines(self.plan, unkept(self.plan)), [])

    def test_lost_wishes(self):
        plan = self.with_wishes(
            self.plan,
            (Request("Grace", None, 4), Request("Chen", "Night", 4), Request("Ewa", None, 0)),
            (),
        )
        refused = [
            "wish not granted: Grace, off on Fri 4 Dec",
            "wish not granted: Chen, no Night on Fri 4 Dec",
        ]
        self.assertEqual(wish_lines(None, plan), refused)
        # Grace is off, so her wish is granted; Ewa works on Monday.
        cells = [cell for cell in plan.cells if (cell.nurse, cell.day) != ("Grace", 4)]
        new = plan.with_cells([*cells, Cell("Ewa", 0, "Day", "Nurse")])
        self.assertEqual(wish_lines(plan, new), ["wish lost: Ewa, off on Mon 30 Nov"])

    def test_why_nobody_can_take_a_shift(self):
        self.rows["plan"][7][1] = "Day"
        # Only Dilek works nights.
        for row in self.rows["nurses"][1:]:
            row[3] = "" if row[0] == "Dilek" else "Night"
        self.write()
        fixed = (
            "the sheet plan fixes it for Grace: empty her cell of this day, save the sheet, and"
            " look again"
        )
        self.assertEqual(
            self.does("swap", "Grace", "Mon"),
            f"nobody can take Grace's Day on Mon 30 Nov: {fixed}\n",
        )
        self.assertIn(
            "nobody can take Dilek's Night on Mon 30 Nov: each swap would break a hard rule, ",
            self.does("swap", "Dilek", "Mon"),
        )
        self.rows["plan"][7][1] = ""
        self.write()
        self.assertIn("who could take Grace's Day on Mon 30 Nov", self.does("swap", "Grace", "Mon"))

    def test_the_part_of_a_contract_that_counts_is_told(self):
        # Nine of 14 days: 8 * 9 / 14 shifts, rounded down, and 10 * 9 / 14, rounded up; at most
        # three days off in a row. Ill days change nothing of the shifts.
        self.rows["contracts"][1][1:3] = ["8", "10!"]
        self.write()
        begun = self.read()
        for word, says in (
            ("unpaid", ["Grace is away or unpaid on 5 of 14 days: contract Full counts in proportion, 5 to 7 shifts in place of 8 to 10.",
                        "No maximum of days off in a row, since they are away for longer, or come or leave: Grace."]),
            ("ill", []),
        ):  # fmt: skip
            self.rows["plan"][7][3:8] = [word] * 5
            self.write()
            away = self.read()
            self.assertEqual(part_lines(begun, away, "Grace"), says)
            self.assertEqual(
                part_lines(away, begun, "Grace"),
                ["Grace: contract Full counts as a whole again."] * bool(says),
            )
            self.assertEqual(part_lines(begun, away, "Chen"), [])

    def test_shifts_are_left_for_nobody_who_is_away(self):
        week = self.plan.week(0)
        cells = [Cell("Chen", day, "Late", "Nurse") for day in range(6)]
        charge = Charge("S2", "work above", "Chen", 30, days=(0, 5), number=6, limit=5)
        names = list(week.scenario.nurses)
        for away in (["Grace", "Finn"], []):
            data = replace(
                week.data,
                absences=frozenset(Absence(nurse, day, None) for nurse in away for day in range(6)),
            )
            said = limits_way_out(replace(week, data=data), [charge], cells)
            self.assertEqual(
                [name for name in names if f"{name} (" in said],
                [name for name in names if name not in ("Chen", *away)],
            )

    def test_changes_that_save_nothing_are_taken_back(self):
        # The roster has nobody too many but Grace on Monday to Friday: without her shifts Day Nurse
        # has fewer than best, or none.
        old = self.plan
        taken = [cell for cell in old.cells if cell.nurse not in ("Grace",) or cell.day > 6]
        needless = old.with_cells([*taken, *(Cell("Grace", day, "Day", "Nurse") for day in (0, 1))])
        self.assertEqual(without_needless_changes(old, needless).works, old.works)
        # She is away on Friday: that change is needed, and it stays.
        self.rows["plan"][7][5] = "ill"
        self.write()
        needless = self.read().with_cells(taken)
        found = without_needless_changes(old, needless)
        self.assertEqual([one[:2] for one in shift_changes(old.cells, found.cells)], [("Grace", 4)])

    def test_changes_cost_as_much_as_in_a_search(self):
        # Finn works late on Saturday, and Grace is off: her new shift costs 20 points, and 40 to
        # call both, but his day off costs nothing.
        cells = [cell for cell in self.plan.cells if (cell.nurse, cell.day) != ("Finn", 5)] + [
            Cell("Grace", 5, "Late", "Nurse")
        ]
        plan = self.with_wishes(self.plan, ())
        more = plan.with_cells(cells).view().penalty - plan.view().penalty
        for saved, is_taken_back in ((55, True), (65, False)):
            old = self.with_wishes(plan, (Request("Finn", None, 5),) * ((more + saved) // 10))
            new = old.with_cells(cells)
            self.assertEqual(old.view().penalty - new.view().penalty, saved)
            self.assertEqual(
                ("Finn", 5) in without_needless_changes(old, new).works, is_taken_back, saved
            )

    def test_one_nurse_is_called_in_place_of_two(self):
        # Finn works late on the weekend, Ewa and Grace are off, and Ewa is off on Monday, too.
        self.rows["plan"][6][6:8] = ["ill", "ill"]
        self.write()
        old = self.read()
        cells = [
            cell for cell in old.cells if (cell.nurse, cell.day) not in (("Finn", 5), ("Finn", 6))
        ]
        new = old.with_cells(
            [*cells, Cell("Grace", 5, "Late", "Nurse"), Cell("Ewa", 6, "Late", "Nurse")]
        )
        changes = shift_changes(old.cells, without_needless_changes(old, new).cells)
        self.assertEqual(
            [(one.nurse, one.day) for one in changes],
            [("Ewa", 5), ("Finn", 5), ("Ewa", 6), ("Finn", 6)],
        )
        self.assertEqual(call_lines(changes, old.away), ["1 nurse to call: Ewa"])

    def test_training_between_days_of_work_is_told(self):
        # Grace works from Monday to Friday, and may work five days in a row.
        self.rows["plan"][7][6] = "training"
        self.write()
        plan = self.read()
        says = (
            "Grace has 6 days in a row with work or training, Mon 30 Nov to Sat 5 Dec, and her"
            " contract at most 5 with work"
        )
        self.assertEqual(list(beside_lines(plan)), [says])
        self.assertEqual(list(beside_lines(self.plan)), [])

    def test_a_night_before_training_or_leave_is_told(self):
        # Dilek has worked Night on Sunday, and does so on Monday and Tuesday.
        self.rows["plan"][4][1] = self.rows["plan"][4][4] = "leave"
        self.write()
        nurse, night = next(
            (cell.nurse, cell.day)
            for cell in self.plan.cells
            if cell.shift == "Night" and cell.day < 13
        )
        row = next(row for row in self.rows["plan"] if row[0] == nurse)
        row[night + 2] = "training"
        self.write()
        says = (
            f"{nurse} works Night on {BARE_DATES[night]}, and has training on"
            f" {BARE_DATES[night + 1]}"
        )
        printed = run("plan", self.ward, "check")[1]
        self.assertIn(f"warning: {says}\n", printed)
        self.assertIn(
            "warning: Dilek works Night on the Sunday before, and has leave on Mon 30 Nov\n",
            printed,
        )
        plan = self.read()
        # The page has the line, but not the one for the wall.
        self.assertIn(f"<p>{says}</p>", page_text(pages.roster_content(self.ward, plan)))
        self.assertNotIn(
            says, page_text(replace(pages.roster_content(self.ward, plan), only_table=True))
        )

    def test_days_away_that_count_as_days_off_are_told(self):
        # Grace is off on both weekends. Her contract has at most four days off in a row; she has
        # leave on the three days after the first one.
        self.rows["contracts"][1][6] = "4"
        self.rows["plan"][7][8:11] = ["leave"] * 3
        self.write()
        plan = self.read()
        plan = plan.with_cells(
            cell for cell in plan.cells if cell.nurse != "Grace" or cell.day not in (7, 8, 9)
        )
        says = (
            "Mon 7 Dec to Wed 9 Dec: 5 days off in a row (2 before Mon 7 Dec), at most 4: her days"
            " away (leave) count as days off"
        )
        # Then she works two days in a row, of three at least.
        short = (
            "Thu 10 Dec to Fri 11 Dec: only 2 days with work in a row, at least 3: the days in a"
            " row end at her days away (leave)"
        )
        due = "60 of the points are due to days away"
        self.assertEqual(
            due_lines(plan), [f"30 points: Grace, {short}", f"30 points: Grace, {says}", due]
        )
        self.assertEqual(due_lines(self.plan), [])

    def test_all_points_that_days_away_take_are_counted(self):
        # Day has at least three days in a row, and contracts at least two days off in a row. Grace
        # works Day from Tuesday of week 1 to Sunday, but for her leave on Thursday, and is away
        # again on Monday of week 2: then she works to its end.
        self.rows["shifts"][1][1] = "4"
        self.rows["plan"][7][4] = self.rows["plan"][7][8] = "leave"
        self.write()
        works = [1, 2, 4, 5, 6, *range(8, 14)]
        grace = [Cell("Grace", day, "Day", "Nurse") for day in works]
        plan = self.read([cell for cell in TWO_WEEKS if cell.nurse != "Grace"] + grace)
        ends = "the days in a row end at her days away (leave)"
        off = "her days away (leave) count as days off"
        *said, points = due_lines(plan)
        self.assertEqual(
            said,
            [
                f"30 points: Grace, Tue 1 Dec to Wed 2 Dec: only 2 days on Day in a row, at least"
                f" 4: {ends}",
                f"30 points: Grace, Tue 1 Dec to Wed 2 Dec: only 2 days with work in a row, at"
                f" least 3: {ends}",
                f"30 points: Grace, Thu 3 Dec: only 1 day off, at least 2: {off}",
                f"15 points: Grace, before Mon 7 Dec: only 3 days on Day in a row, at least 4:"
                f" {ends}",
                f"30 points: Grace, Mon 7 Dec: only 1 day off, at least 2: {off}",
            ],
        )
        self.assertEqual(points, "135 of the points are due to days away")

    def test_the_limit_of_a_nurse_who_leaves_is_told_and_keeps_her_shifts_of_days_before_a_search(
        self,
    ):
        # Grace has five shifts from Monday to Friday. Her limit is that of the part of the plan
        # before she leaves, rounded up.
        self.rows["contracts"][1][1:3] = ["0", "8!"]
        for first, most in ((8, 4), (6, 3), (3, 2)):
            self.rows["plan"][7][1:] = [""] * (first - 1) + ["away"] * (15 - first)
            self.write()
            plan = self.read()
            gone = plan.with_cells(
                cell for cell in plan.cells if cell.nurse != "Grace" or cell.day < first - 1
            )
            shifts = min(first - 1, 5)
            for day, above in ((0, 0), (3, max(0, 3 - most)), (first - 1, shifts - most)):
                limits = limits_for_leavers(gone.ward, gone.state, gone.limits, day)
                limit = next(
                    fact.most
                    for fact, _ in limits
                    if isinstance(fact, Charged) and fact.nurse == "Grace"
                )
                self.assertEqual(limit, min(above, max(0, shifts - most)), (first, day))
            says = [
                line
                for line in unkept_lines(gone, unkept(gone))
                if f"Grace has {shifts} shifts of at most {most}" in line
            ]
            self.assertEqual(bool(says), shifts > most, first)
            allowed = replace(
                gone, limits=limits_for_leavers(gone.ward, gone.state, gone.limits, first - 1)
            )
            self.assertFalse(
                [line for line in unkept_lines(allowed, unkept(allowed)) if "Grace has" in line]
            )

    @unittest.skipUnless(HAS_CBC, "cbc is not installed")
    def test_who_leaves_with_too_many_shifts_is_named_and_an_earlier_day_takes_one(self):
        self.rows["contracts"][1][1:3] = ["0", "8!"]
        self.write()
        status, out, _ = self.runs("away", "Grace", "Sat", "Sun", "2")
        self.assertIn("Grace has 5 shifts of at most 3, above on Thu 3 Dec and Fri 4 Dec", out)
        self.assertIn(
            "shifts before Sat 5 Dec stay: plan from an earlier day can take some of them away", out
        )
        self.assertEqual(status, 6)
        # The page with costs says it also later, and that for the wall does not.
        self.does("page")
        self.assertIn("Grace has 5 shifts of at most 3", (self.ward / "roster.html").read_text())
        self.assertNotIn("Grace has", (self.ward / "wall.html").read_text())
        self.does("undo")
        status, out, _ = self.runs("plan")
        self.assertNotIn("Grace has", out + (self.ward / "roster.html").read_text())
        self.assertEqual(status, 0)

    def test_an_illness_takes_no_shifts_of_other_days(self):
        # Grace has five shifts in both weeks, and her limit is ten. Two days of a weekend alone
        # count as two.
        self.rows["contracts"][1][1:3] = ["8", "10!"]
        self.rows["plan"][7][6:8] = ["ill", "ill"]
        self.write()
        cells = self.plan.cells
        more = Cell("Grace", 12, "Day", "Nurse")
        fewer = [one for one in cells if (one.nurse, one.day) != ("Grace", 0)]
        for rosters, most in ((cells, 2), (fewer, 1), ([*cells, more], 2), ([], 0)):
            plan = self.read(rosters)
            limit = next(
                fact.most
                for fact, _ in plan.limits
                if isinstance(fact, Charged) and fact.nurse == "Grace"
            )
            self.assertEqual(limit, most)
            # Only an eleventh shift is above the limit.
            self.assertEqual(
                bool([line for line in unkept_lines(plan, unkept(plan)) if "Grace has" in line]),
                more in rosters,
            )

    def test_days_off_beside_days_away_cost_more(self):
        # Grace is off on both weekends, and ill on Friday: her weekend costs more, and days on
        # which she is always off do not count.
        self.rows["plan"][7][5] = "ill"
        self.rows["nurses"][7][4] = "Sun"
        self.write()
        plan = self.read()
        self.assertEqual(days_off_beside_absences(plan), {("Grace", 5)})
        asked = with_few_changes(
            plan.scenario,
            replace(plan.data[0], requests=()),
            [],
            [5],
            beside=[("Grace", 5), ("Grace", 6)],
        )
        self.assertEqual(
            {nurse: asked.requests.count(Request(nurse, None, 5)) for nurse in ("Ewa", "Grace")},
            {"Ewa": 2, "Grace": 8},
        )
        # A nurse who is back earlier can be called.
        back = plan.with_state(replace(plan.state, absences=(DayWord("Grace", 5, "back"),)))
        self.assertEqual(days_off_beside_absences(back), set())

    def test_a_swap_is_marked_but_not_on_the_wall(self):
        plan = self.plan.with_state(
            replace(self.plan.state, agreed=(NurseDay("Grace", 7), NurseDay("Chen", 7)))
        )
        content = pages.roster_content(self.ward, plan)
        table = ElementTree.fromstring(page_text(content).partition("\n")[2])
        marked = {row[0].text: [cell for cell, part in enumerate(row) if "a swap that was written" in "".join(part.itertext())]
                  for row in next(table.iter("table")).iter("tr") if len(row)}  # fmt: skip
        self.assertEqual(
            {nurse: cells for nurse, cells in marked.items() if cells}, {"Grace": [8], "Chen": [8]}
        )
        self.assertIn("<li>\u21c4 = a swap that was written</li>", page_text(content))
        self.assertNotIn(
            "\u21c4",
            page_text(replace(content, only_table=True))
            + page_text(pages.roster_content(self.ward, self.plan)),
        )

    def test_agreed_days_cost_much(self):
        old = [Cell("Chen", 4, "Late", "Nurse")]
        asked = with_few_changes(
            self.plan.scenario,
            replace(self.plan.data[0], requests=()),
            old,
            [],
            agreed=[("Chen", 4), ("Grace", 4)],
        )
        counts = {request: asked.requests.count(request) for request in asked.requests}
        wanted = {
            Request("Chen", "Day", 4): 25,
            Request("Chen", "Night", 4): 25,
            Request("Grace", None, 4): 25,
        }
        self.assertEqual(counts, wanted)

    def test_the_file_of_a_plan(self):
        days = (DayWord("Chen", 4, "ill"), DayWord("Zoë_B", 13, "back")), (
            NurseDay("Chen", 4),
            NurseDay("Ida_B", 11),
        )
        time = datetime.datetime(2026, 11, 28, 12, 0)
        for record in (
            Record("ill Chen 4", time, BARE, 1, True, *days),
            Record("swap Chen Zoë_B Sat 1", time, BARE, swap=Swap("Chen", "Zoë_B", (5,))),
            Record("over period", time, PlanDays(MONDAY, 0)),
        ):
            folder = self.folder / "kept"
            folder.mkdir(exist_ok=True)
            (folder / "plan.json").write_text(record_text(record))
            self.assertEqual(read_record(folder), record)

    def test_the_file_of_a_plan_is_read_again_if_it_has_changed(self):
        folder = self.last()
        with mock.patch.object(kept, "STEP", 0):
            known = read_record(folder)
            self.assertIs(read_record(folder), known)
            (folder / "plan.json").write_text(record_text(known._replace(typed="another")))
            self.assertEqual(read_record(folder).typed, "another")
            (folder / "link").symlink_to("plan.json")
            with self.assertRaisesRegex(FileFault, "this is a link"):
                read_record(folder)
        # One that has just changed may change again, and look the same.
        (folder / "link").unlink()
        self.assertIsNot(read_record(folder), read_record(folder))

    def test_a_swap_of_an_older_version_is_in_the_words_of_its_verb(self):
        time = datetime.datetime(2026, 11, 28, 12, 0)
        folder = self.folder / "kept"
        folder.mkdir()
        days = PlanDays(MONDAY, 2)
        swap = Swap("Chen", "Zoë_B", (0, 4))
        for record, found in (
            (Record("swap Chen Zoë_B 2026-11-30 2026-12-04", time, days), swap),
            (Record("swap Chen Zoë_B 2027-11-30", time, days), None),
            (Record("ill Chen 2026-11-30 2026-12-04", time, days), None),
        ):
            (folder / "plan.json").write_text(record_text(record))
            self.assertEqual(read_record(folder), record._replace(swap=found))


class Weeks(KeptTest):
    def test_a_week_after_which_the_plan_breaks_a_rule(self):
        printed = self.does("over", "Bruno", "Sun", "Night,", "Finn", "Fri", "off,")
        cure = (
            "after these corrections the plan does not fit any more: plan again, from Mon 7 Dec on"
        )
        self.assertIn(
            (
                "week 2 (calendar week 50), not allowed on the day after: Bruno may not work Day on"
                " Mon after Night on the Sunday before\n"
            ),
            printed,
        )
        self.assertIn(f"{cure}\n", printed)
        self.assertIn(
            (
                "week 1 (calendar week 49), below the minimum number: Fri Late Nurse has 0 nurses"
                " and needs at least 1\n"
            ),
            printed,
        )
        self.assertIn("if it was not worked so: undo, then over with other corrections", printed)
        self.assertNotIn("to call", printed)
        cells = files.read_solution(self.last() / "roster-0.txt").cells
        self.assertIn(Cell("Bruno", 6, "Night", "Nurse"), cells)

    def test_rules_that_the_plan_breaks_are_told_with_their_weeks(self):
        late = next(row for row in self.rows["needs"] if row[1:3] == ["Late", "Nurse"])
        late[7] = "2"
        self.write()
        printed = run("plan", self.ward, "check")[1]
        for week in ("week 1 (calendar week 49)", "week 2 (calendar week 50)"):
            self.assertIn(
                (
                    f"{week}: below the minimum number: Fri Late Nurse has 1 nurse and needs at"
                    " least 2\n"
                ),
                printed,
            )

    def test_a_week_after_which_a_limit_is_exceeded(self):
        # Grace works from Monday to Friday, and so she does in the week before.
        self.rows["contracts"][1][4] = "5!"
        self.write()
        printed = self.does("over", "Grace", "Sat", "Day", "Grace", "Sun", "Day", "--do")
        self.assertIn(
            (
                "week 1 (calendar week 49) exceeds a limit that holds: Grace has 7 days of work in"
                " a row"
            ),
            printed,
        )
        self.assertIn(
            (
                "week 2 (calendar week 50) exceeds a limit that holds: Grace has 12 days of work in"
                " a row, to Fri 11 Dec, of at most 5"
            ),
            printed,
        )
        self.assertIn("plan again, from Mon 7 Dec on", printed)

    def test_the_page_for_the_wall(self):
        # On Friday of week 2 one nurse fewer is best, as on a bank holiday; the other cells are as
        # in all weeks.
        self.rows["needs"].append(["2", "Day", "Nurse", *[""] * 4, "1", "", ""])
        self.rows["nurses"][6][4] = "Wed"
        self.write()
        self.does("page")
        page = ElementTree.parse(self.ward / "wall.html")
        words = ["".join(head.itertext()) for head in page.iter("th")]
        marked = [text for text in words if "as on a bank holiday" in text]
        self.assertEqual([(text[:3], text[-6:]) for text in marked], [("Fri", "11 Dec")])
        self.assertIn("week 2, calendar week 50", words)
        self.assertRegex(
            "".join(next(page.iter("p")).itertext()),
            "^weeks 1 to 2: 7 nurses, 66 shifts; as of [A-Z][a-z]+day, [0-9]+ ",
        )
        finn = next(row for row in page.iter("tr") if "".join(row[0].itertext()) == "Finn")
        # A day on which she never works is off, and not away.
        self.assertEqual("".join(finn[3].itertext()), "")
        # In both weeks five late shifts of eight and a half hours, and one weekend; a wish is
        # granted.
        self.assertEqual(
            ["".join(cell.itertext()) for cell in finn[-5:]], ["10", "85", "0", "2", "1/1"]
        )

    def test_a_wall_that_is_undone(self):
        self.does("page")
        gone = (
            f"taken away: {self.ward}/wall.html, {self.ward}/calendars: take down what hangs on the"
            " wall\n"
        )
        self.assertIn(gone, self.does("undo"))

    def test_a_page_of_a_plan_on_the_wall_is_undone_alone(self):
        self.does("page")
        self.does("over")
        cells = self.cells()
        wall = (self.ward / "wall.html").read_text().split("<table")[1:]
        self.does("page")
        printed = self.does("undo")
        self.assertRegex(
            printed,
            (
                "^undone: page, [0-9: -]+\nthe plan of over, [0-9: -]+ holds again, with the same"
                " shifts\n"
            ),
        )
        self.assertEqual(self.cells(), cells)
        self.assertEqual((self.ward / "wall.html").read_text().split("<table")[1:], wall)
        self.assertRegex(
            self.does("undo"), "^undone: over, [0-9: -]+\nthe plan of page, [0-9: -]+ holds again\n"
        )

    def test_undo_writes_no_page_of_a_plan_that_has_other_names(self):
        self.does("page")
        roster = self.last() / "roster-1.txt"
        self.does("over")
        roster.write_text(roster.read_text().replace("Grace Mon Day", "Grcae Mon Day"))
        self.assertTrue((self.ward / "wall.html").exists())
        printed = self.does("undo")
        self.assertIn(
            (
                "its pages are not written: the plan has 'Grcae Mon Day Nurse', and the spreadsheet"
                " has not all of these names"
            ),
            printed,
        )
        # The pages of the plan that was undone are not left.
        self.assertEqual(list(self.ward.glob("*.html")), [])

    def test_the_weeks_as_they_were_worked(self):
        self.does("over", "Finn", "Fri", "off")
        page = ElementTree.parse(self.ward / "worked-2026-11-30.html")
        finn = next(row for row in page.iter("tr") if "".join(row[0].itertext()) == "Finn")
        self.assertEqual(
            ["".join(cell.itertext()) for cell in finn[1:8]],
            ["Late Nurse"] * 2 + [""] * 3 + ["Late Nurse"] * 2,
        )

        # Late Nurse has nobody on Friday, which counts as a shift that was left open.
        text = "".join(page.getroot().itertext())
        self.assertIn("Late Nurse, Fri 4 Dec: 1 nurse missing", text)
        self.assertNotIn("H2", text)
        self.does("over")
        text = (self.ward / "worked-2026-11-30.html").read_text()
        self.assertIn("Late Nurse, Fri 4 Dec: 1 nurse missing", text)
        self.assertNotIn("has no cost", text)

    def test_a_correction_with_its_skill(self):
        self.does("over", "Amara", "Thu", "Day/Nurse")
        self.assertIn(
            Cell("Amara", 3, "Day", "Nurse"),
            files.read_solution(self.last() / "roster-0.txt").cells,
        )
        self.does("undo")
        status, _, said = run("plan", self.ward, "over", "Grace", "Thu", "Day/Charge")
        self.assertEqual(
            (status, said), (1, "inrc2pb-plan: 'Charge' is no skill of hers: write one of Nurse\n")
        )


@unittest.skipUnless(HAS_CBC, "cbc is not installed")
class NotKept(KeptTest):
    def test_a_limit_that_no_plan_keeps(self):
        for row in self.rows["contracts"][1:]:
            row[1:3] = ["0", "2!"]
        self.write()
        status, printed, said = self.runs("plan", "--do")
        self.assertEqual(status, 6, said)
        self.assertRegex(
            printed,
            (
                "(?m)^week 2 \\(calendar week 50\\): no plan was found that keeps every limit: .*"
                " has [0-9]+ shifts of at most 2, above on "
            ),
        )
        self.assertRegex(
            printed,
            (
                "(?m)^week 2 \\(calendar week 50\\): lower minimum numbers, hold fewer shifts, or"
                " allow these nurses more; "
            ),
        )
        self.assertIn(
            "\nthis plan is written, but it does not keep what the first lines say: ", printed
        )
        self.assertNotIn("costs less", printed)


@unittest.skipUnless(HAS_CBC, "cbc is not installed")
class Training(KeptTest):
    def test_a_search_counts_training_as_work(self):
        # Grace works from Monday to Friday in both weeks, and comes to training from work.
        self.rows["plan"][7][6:9] = ["training", "training", "training"]
        self.write()
        before = self.read()
        self.assertEqual(len(list(beside_lines(before))), 1)
        printed = self.does("plan")
        self.assertNotIn("with work or training", printed)
        row = [day in range(5, 8) or ("Grace", day) in self.cells() for day in range(14)]
        self.assertLessEqual(
            max(len(run) for run in "".join(".x"[is_on] for is_on in row).split(".")), 5
        )

    def test_the_bound_in_words(self):
        kept = "plan that keeps all absences and limits"
        ends = "More seconds may help."
        least = f"This plan costs 1170 points. At least 1080 cannot be avoided by a {kept}"
        proved = f"{least} (proved by inrc2pb-bound)."
        beside = "plan with training as work in a row, and no night shift before it or leave"
        for points, by, above, says in (
            (1080, PROVER, None, f"{proved} {ends}"),
            (1080, PROVER, 1080, f"{proved} {ends}"),
            (1080, PLAIN, None, f"{least} (not proved). {ends}"),
            (
                1170,
                PROVER,
                None,
                f"This plan costs 1170 points, and no {kept} costs less (proved by inrc2pb-bound).",
            ),
            (
                1080,
                PROVER,
                1100,
                f"{proved} At least 1100 cannot be avoided by a {beside} (not proved). {ends}",
            ),
            (1080, PROVER, 1170, f"{proved} No {beside}, costs less (not proved)."),
        ):
            bound = Bound(points, by, "absences and limits")
            self.assertEqual(bound_text(KnownBound(1170, bound, above)), says)
        self.assertEqual(
            bound_text(KnownBound(1170, Bound(1170, PROVER))),
            "This plan costs 1170 points, and no plan costs less (proved by inrc2pb-bound).",
        )
        self.assertEqual(bound_text(None), "how much less another plan can cost is not known")

    def test_what_no_plan_can_keep_is_told(self):
        # Only Dilek works nights, one is needed on Monday, and she has training on Tuesday.
        for row in self.rows["nurses"][1:]:
            row[3] = "" if row[0] == "Dilek" else "Night"
        self.rows["needs"] = [row for row in self.rows["needs"] if row[1] != "Night"]
        self.rows["needs"].append(["", "Night", "Nurse", "1", *["0"] * 6])
        self.rows["plan"][4][2] = "training"
        self.write()
        status, printed, said = self.runs("plan")
        self.assertEqual(status, 0, said)
        self.assertIn("Dilek works Night on Mon 30 Nov, and has training on Tue 1 Dec\n", printed)


@unittest.skipUnless(HAS_CBC, "cbc is not installed")
class Agreed(KeptTest):
    def setUp(self):
        super().setUp()
        # The swap costs points, which a free search would save.
        self.does("swap", "Grace", "Mon", "Chen", "--do")
        self.days = {("Grace", 0), ("Chen", 0)}

    def test_an_absence_that_lifts_a_held_shift(self):
        self.rows["plan"][1][8] = "Day/Charge"
        self.write()
        self.assertIn(
            "Amara, Mon 7 Dec: leave lifts Day, which the spreadsheet holds\n",
            self.does("leave", "Amara", "Mon 2"),
        )

    def test_later_verbs_keep_a_swap(self):
        self.assertEqual(self.agreed(), self.days)
        self.does("ill", "Dilek", "Mon")
        cells = self.cells()
        self.assertEqual((cells["Chen", 0], ("Grace", 0) in cells), (("Day", "Nurse"), False))
        self.assertEqual(self.agreed(), self.days)

    def test_a_swap_that_is_typed_again_is_taken_back(self):
        self.does("swap", "Grace", "Tue", "Chen", "--do")
        swapped = self.cells()
        tuesday = {("Grace", 1), ("Chen", 1)}
        says = "this takes their swap back: later plans do not keep it\n"
        self.assertIn(says, self.does("swap", "Grace", "Mon", "Chen"))
        for words, agreed in (
            (("Grace", "Mon", "Chen"), tuesday),
            (("Grace", "Mon", "Chen"), {*tuesday, *self.days}),
            (("Chen", "Mon", "Grace"), tuesday),
        ):
            printed = self.does("swap", *words, "--do")
            self.assertEqual(
                (says in printed, "later plans keep this swap\n" in printed),
                (agreed == tuesday, agreed != tuesday),
            )
            self.assertEqual(self.agreed(), agreed)
            self.assertEqual(self.cells() == swapped, agreed != tuesday)
        # After swaps with another nurse theirs gives them other shifts than they had before it.
        for words in (
            ("Grace", "Mon", "Chen"),
            ("Grace", "Mon", "Bruno"),
            ("Bruno", "Mon", "Chen"),
            ("Grace", "Mon", "Chen"),
        ):
            self.assertIn("later plans keep this swap\n", self.does("swap", *words, "--do"))

    def test_an_older_swap_holds_again(self):
        # Grace has agreed on Monday with Chen, and then with Bruno.
        self.does("swap", "Grace", "Mon", "Bruno", "--do")
        self.assertEqual(self.agreed(), {*self.days, ("Bruno", 0)})
        self.assertIn(
            "this takes their swap back", self.does("swap", "Grace", "Mon", "Bruno", "--do")
        )
        self.assertEqual(self.agreed(), self.days)

    def test_a_swap_that_cannot_be_kept_is_named(self):
        printed = self.does("ill", "Chen", "Mon")
        self.assertIn(
            "this breaks an agreed swap: Chen, Mon 30 Nov: ill, agreed was Day Nurse\n", printed
        )
        self.assertEqual(self.agreed(), {("Grace", 0)})

    def test_a_second_search_may_break_a_swap_that_no_plan_keeps(self):
        # Only Grace works nights, and the first one is needed.
        for row in self.rows["nurses"][1:]:
            row[3] = "" if row[0] == "Grace" else "Night"
        self.rows["needs"] = [row for row in self.rows["needs"] if row[1] != "Night"]
        self.rows["needs"].append(["", "Night", "Nurse", "1", *["0"] * 6])
        self.write()
        status, printed, said = self.runs("plan")
        self.assertEqual(status, 0, said)
        self.assertIn(
            "no plan was found that keeps all agreed swaps: a search for one that may break them\n",
            said,
        )
        self.assertIn(
            "this breaks an agreed swap: Grace, Mon 30 Nov: Night Nurse, agreed was off\n", printed
        )


if __name__ == "__main__":
    unittest.main()
