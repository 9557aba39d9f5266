"""Tests of `inrc2pb-plan` and of the plans of a ward's folder, on the example of `new` with two
weeks."""

import csv
import datetime
import re
import signal
import subprocess
import time
import unittest
from dataclasses import replace
from unittest import mock
from ward import (
    ENOUGH,
    HAS_CBC,
    HELPERS,
    ROSTER,
    HelperTest,
    begin_command,
    files,
    program,
    run,
    start_command,
)

from inrc2pb.sheets.ward import read_sheet
from inrc2pb.plans import planning
from inrc2pb.plans.changes import with_few_changes, with_old_skills
from inrc2pb.page.server import LocalServer
from inrc2pb.plans.store import plan_texts
from inrc2pb.plans.state import Swap
from inrc2pb.plans.swaps import Swaps
from inrc2pb.plans.ward import first_plan
from inrc2pb.plans.ward_folder import WardFolder
from inrc2pb.plans.words import Wording
from inrc2pb.rows import row_run
from inrc2pb.sheets.ward_template import EXAMPLE
from inrc2pb.week.dates import PlanDays
from inrc2pb.week.facts import Charged, Claim
from inrc2pb.week.faults import Misuse
from inrc2pb.week.records import Cell, Request, WeekData

MONDAY = datetime.date(2026, 11, 30)
DATES = [str(MONDAY + datetime.timedelta(days=day)) for day in range(14)]
# The stored roster in both weeks.
TWO_WEEKS = [
    cell._replace(day=7 * week + cell.day)
    for week in range(2)
    for cell in files.read_solution(ROSTER).cells
]
# The files of the plan with which tests begin.
FIRST_PLAN = {}
DATED = PlanDays(MONDAY, 2)


class Words(unittest.TestCase):
    NURSES = ("Anna_Koch", "Anna_Wolf", "Łukasz_Nowak", "Sun_Li")

    def wording(self, line, first=0):
        return Wording(line.split(), self.NURSES, DATED, first, "ill Anna Fri")

    def test_names_of_several_words_and_their_beginnings(self):
        for line, nurse, day in (
            ("Anna Koch Fri", "Anna_Koch", 4),
            ("anna w 4.12.", "Anna_Wolf", 4),
            ("łuk Sat 2", "Łukasz_Nowak", 12),
            ("Sun Li Mon 2", "Sun_Li", 7),
            ("Sun Li Tue 1 Dec", "Sun_Li", 1),
            ("Sun Li 1 dec", "Sun_Li", 1),
        ):
            with self.subTest(line):
                words = self.wording(line)
                self.assertEqual((words.nurse(), words.day()), (nurse, day))
                words.end()

    def test_accents_may_be_left_out(self):
        names = ("Łukasz_Nowak", "Mehmet_Yılmaz", "Günter_Groß", "Zoë_Weiß", "Zoe_Wolf")
        for text, nurse in (
            ("Lukasz", "Łukasz_Nowak"),
            ("mehmet yilm", "Mehmet_Yılmaz"),
            ("Gunter Gross", "Günter_Groß"),
            # Who writes the accent means it, and who writes none means the name that has none.
            ("Zoë", "Zoë_Weiß"),
            ("Zoe", "Zoe_Wolf"),
            ("zoe weiss", "Zoë_Weiß"),
        ):
            with self.subTest(text):
                self.assertEqual(
                    Wording([*text.split(), "Fri"], names, DATED, 0, "ill Anna Fri").nurse(), nurse
                )

    def test_a_name_that_another_one_begins_with(self):
        for line, nurse, day in (
            ("Anna Maria Fri", "Anna_Maria", 4),
            ("anna ma Fri", "Anna_Maria", 4),
            ("Anna Fri", "Anna", 4),
            ("Anna Maria, Fri", "Anna_Maria", 4),
        ):
            with self.subTest(line):
                words = Wording(line.split(), ("Anna", "Anna_Maria"), DATED, 0, "ill Anna Fri")
                self.assertEqual((words.nurse(), words.day()), (nurse, day))
                words.end()

    def test_a_nurse_with_the_name_of_a_month(self):
        words = Wording(
            "Mon 2 Jan Li".split(), (*self.NURSES, "Jan_Li"), DATED, 0, "swap Sun Li Mon Jan"
        )
        self.assertEqual((words.day(), words.nurse()), (7, "Jan_Li"))

    def test_faults_of_words(self):
        for line, says in (
            ("Anna Fri", "'Anna' may be Anna Koch, Anna Wolf: write the whole name"),
            ("Anna_Kock Fri", "'Anna_Kock' is no nurse: did you mean Anna Koch?"),
            ("", "a nurse is missing: write, for example, ill Anna Fri"),
            ("Sun Li", "a day is missing: write, for example, ill Anna Fri"),
            ("Sun Li Fri soon", "'soon' is a word too many: write, for example, ill Anna Fri"),
            (
                "sun_li soon",
                (
                    "'soon' is no day: write a day such as 2026-11-30, or Fri for the next Friday"
                    " of the plan"
                ),
            ),
        ):
            with self.subTest(line), self.assertRaises(Misuse) as caught:
                words = self.wording(line)
                words.nurse()
                words.day()
                words.end()
            self.assertEqual(str(caught.exception), says)
        with self.assertRaises(Misuse) as caught:
            self.wording("2026-12-01", first=7).open_day()
        self.assertEqual(
            str(caught.exception),
            (
                "Tue 1 Dec is in a week that is over: the plan goes on from Mon 7 Dec, and the verb"
                " over corrects older days"
            ),
        )


class Values(HelperTest):
    def test_few_changes_are_requests_against_all_other_shifts(self):
        scenario = files.read_scenario(HELPERS.parent / "examples" / "ward" / "ward.txt")
        data = WeekData("ward", {}, ())
        old = [Cell("Chen", 4, "Late", "Nurse")]
        asked = [
            one
            for one in with_few_changes(scenario, data, old, [4]).requests
            if one.nurse in ("Chen", "Grace")
        ]
        chen = [Request("Chen", shift, 4) for shift in ("Day", "Night") for _ in range(2)]
        self.assertEqual(asked, [*chen, *[Request("Grace", None, 4)] * 2])
        # A nurse who has just come may have any shift.
        asked = with_few_changes(scenario, data, old, [4], new=["Grace"]).requests
        self.assertEqual({one.nurse for one in asked}, set(scenario.nurses) - {"Grace"})

    def test_a_nurse_who_keeps_her_shift_keeps_her_skill(self):
        scenario = files.read_scenario(HELPERS.parent / "examples" / "ward" / "ward.txt")
        old = [
            Cell("Amara", 0, "Day", "Charge"),
            Cell("Bruno", 0, "Day", "Nurse"),
            Cell("Chen", 1, "Day", "Nurse"),
        ]
        turned = [
            Cell("Amara", 0, "Day", "Nurse"),
            Cell("Bruno", 0, "Day", "Charge"),
            Cell("Chen", 1, "Day", "Nurse"),
        ]
        self.assertEqual(sorted(with_old_skills(scenario, turned, old)), sorted(old))
        # Without Amara only Bruno can be in charge.
        new = [Cell("Bruno", 0, "Day", "Charge"), Cell("Grace", 0, "Day", "Nurse")]
        self.assertEqual(with_old_skills(scenario, new, old), new)


class FolderTest(HelperTest):
    """A ward's folder with blanks in its name, whose sheets are .csv files."""

    def setUp(self):
        super().setUp()
        self.ward = self.folder / "my wärd"
        self.ward.mkdir()
        self.rows = {name: [list(map(str, row)) for row in rows] for name, rows in EXAMPLE.items()}
        self.rows["plan"] = [["nurse", *DATES], *(row[:15] for row in self.rows["plan"][1:])]
        self.write()
        # Other processors would find nothing else, and begin with loading the library. Nights and
        # weekends are made more even by tests of their own.
        for where, name, value in (
            (row_run, "processors", lambda: 1),
            (planning, "MOST_EVENING", 0.1),
        ):
            patch = mock.patch.object(where, name, value)
            patch.start()
            self.addCleanup(patch.stop)

    def write(self):
        """Writes the sheets."""
        for name, rows in self.rows.items():
            with open(self.ward / f"{name}.csv", "w", newline="") as file:
                csv.writer(file).writerows(rows)

    def does(self, *words):
        """What the verb prints."""
        status, printed, said = self.runs(*words)
        self.assertEqual(status, 0, said)
        return printed

    def runs(self, *words):
        """The status of the verb, and what it prints. Its search has time enough."""
        searches = words[0] in ("plan", "ill", "leave", "away", "training", "back")
        return run("plan", self.ward, *words, *(("--time", ENOUGH) if searches else ()))

    def begin(self):
        """Begins with a plan of both weeks, which the first test has made."""
        if not FIRST_PLAN:
            self.does("plan")
            FIRST_PLAN.update(
                {path.relative_to(self.ward): path.read_bytes() for path in self.ward.rglob("0*/*")}
            )
        for path, data in FIRST_PLAN.items():
            (self.ward / path).parent.mkdir(parents=True, exist_ok=True)
            (self.ward / path).write_bytes(data)

    def write_plan(self):
        """Begins with a plan that has the stored roster in both weeks."""
        plan = first_plan(read_sheet(self.ward, None, ())).with_cells(TWO_WEEKS)
        (self.ward / "plans").mkdir(exist_ok=True)
        now = datetime.datetime(2026, 11, 28, 12, 0)
        WardFolder(self.ward).add("plan", plan_texts(plan, plan.state.record("plan", now)), now)
        return plan

    def last(self):
        """The folder of the plan that holds."""
        return sorted(path for path in (self.ward / "plans").iterdir() if path.name[0] == "0")[-1]

    def cells(self):
        """The assignments of the plan that holds, with days of the whole plan."""
        found = {
            number: files.read_solution(self.last() / f"roster-{number}.txt").cells
            for number in range(2)
        }
        return {
            (cell.nurse, 7 * number + cell.day): cell[2:]
            for number, cells in found.items()
            for cell in cells
        }

    def points(self):
        """The penalties of the weeks of the plan that holds, by `extend`."""
        last = self.last()
        found = []
        history = last / "history-0.txt"
        for number in range(2):
            roster = last / f"roster-{number}.txt"
            target = self.folder / f"history-{number + 1}.txt"
            found.append(
                program.penalty_of(
                    program.WeekFiles(last / "ward.txt", history, last / f"week-{number}.txt"),
                    roster,
                )
            )
            if not number:
                self.assertEqual(
                    run(
                        "roster",
                        "next",
                        "--sce",
                        last / "ward.txt",
                        "--his",
                        history,
                        "--roster",
                        roster,
                        "--out",
                        target,
                    )[0],
                    0,
                )
                history = target
        return found

    def texts(self):
        """All files of all plans."""
        return {path: path.read_bytes() for path in (self.ward / "plans").glob("0*/*")}

    def assert_refused(self, says, *words, status=1):
        """The command says this in one line, and does nothing."""
        ran = run("plan", *words)
        self.assertEqual((ran[0], ran[1], ran[2].count("\n")), (status, "", 1), ran)
        self.assertIn(says, ran[2])


@unittest.skipUnless(HAS_CBC, "cbc is not installed")
class Verbs(FolderTest):
    def test_a_plan_an_illness_and_the_way_back(self):
        self.begin()
        before = self.cells()
        old = self.texts()
        status, printed, said = self.runs("ill", "Gra", "Wed", "Fri")
        self.assertEqual(status, 0, said)
        # It speaks in points, and says that those of the search are not those of the plan.
        self.assertRegex(said, "[0-9]+ points, those for changed shifts among them")
        self.assertNotIn("penalt", said)
        self.assertNotIn("the search counted", printed)
        now = self.cells()
        self.assertFalse({("Grace", day) for day in (2, 3, 4)} & set(now))
        self.assertEqual(
            [item for item in before.items() if item[0][1] < 2],
            [item for item in now.items() if item[0][1] < 2],
        )
        self.assertIn(f"2 weeks: {sum(self.points())} points\n", printed)
        # The last penalty of the search has also the new shifts, those on days off beside the
        # illness, and the calls, as the bound has.
        other = {key for key in {*before, *now} if before.get(key, "-")[0] != now.get(key, "-")[0]}
        beside = {("Grace", day) for day in (0, 1, 5, 6)} - set(before)
        called = {
            nurse
            for nurse, day in other
            if (nurse, day) not in {("Grace", 2), ("Grace", 3), ("Grace", 4)}
        }
        counted = (
            sum(self.points())
            + sum(80 if key in beside else 20 for key in other if key in now)
            + 20 * len(called)
        )
        self.assertLessEqual(counted, int(re.findall("([0-9]+) points, those for", said)[-1]), said)
        self.assertFalse(
            [
                said
                for penalty, bound in re.findall(
                    "([0-9]+) points.*; at least ([0-9]+) cannot", said
                )
                if int(bound) > int(penalty)
            ]
        )
        self.assertEqual({path: text for path, text in self.texts().items() if path in old}, old)
        self.assertIn("the plan of plan, ", self.does("undo"))
        self.assertEqual((self.cells(), self.texts()), (before, old))

    def test_a_second_run_never_has_a_worse_plan(self):
        self.begin()
        before = sum(self.points())
        printed = self.does("plan")
        first, second = self.points()
        self.assertLessEqual(first + second, before)
        weeks = (
            f"week 1 (calendar week 49): {first} points\nweek 2 (calendar week 50):"
            f" {second} points\n"
        )
        self.assertIn(f"{weeks}2 weeks: {first + second} points\n", printed)

    def test_a_plan_that_hangs_on_the_wall_changes_little(self):
        self.begin()
        self.does("page")
        calendars = [path.read_text() for path in (self.ward / "calendars").glob("*.ics")]
        self.assertEqual(len(calendars), 7)
        nurse, night = next(
            (nurse, day)
            for (nurse, day), (shift, _) in sorted(self.cells().items())
            if shift == "Night"
        )
        begins, ends = (
            f"{MONDAY + datetime.timedelta(days=night + later)}".replace("-", "")
            for later in (0, 1)
        )
        self.assertIn(
            f"DTSTART:{begins}T223000\nDTEND:{ends}T071500\n",
            (self.ward / "calendars" / f"{nurse}.ics").read_text(),
        )
        before = self.cells()
        points = sum(self.points())
        self.does("plan")
        now = self.cells()
        changed = {
            key for key in {*before, *now} if before.get(key, "-")[0] != now.get(key, "-")[0]
        }
        # Each change has saved at least its 20 points.
        self.assertLessEqual(sum(self.points()) + 20 * len(changed), points)

    def test_a_shift_that_is_taken_back_is_cancelled_in_the_calendar(self):
        self.begin()
        self.does("page")
        nurse, day = next((nurse, day) for nurse, day in sorted(self.cells()) if day > 7)

        def events():
            text = (self.ward / "calendars" / f"{nurse}.ics").read_text()
            return {
                re.search("DTSTART[^:]*:([0-9]+)", event)[1]: event
                for event in text.split("BEGIN:VEVENT")[1:]
            }

        date = DATES[day].replace("-", "")
        before = events()
        self.does("ill", nurse, DATES[day])
        now = events()
        self.assertIn("STATUS:CANCELLED\n", now[date])
        self.assertNotIn("STATUS", before[date])
        uid = "UID:(.*)"
        number = "SEQUENCE:([0-9]+)"
        self.assertEqual(*(re.search(uid, one[date])[1] for one in (before, now)))
        self.assertLessEqual(*(int(re.search(number, one[date])[1]) for one in (before, now)))

    def test_needs_that_no_plan_meets(self):
        # Amara, Bruno and Ewa have the skill.
        self.rows["needs"][1][8] = "4"
        self.write()
        status, printed, said = self.runs("plan")
        self.assertEqual(status, 5, said)
        says = (
            "Lower these by 1 in all; no roster can do with less:\nSat 5 Dec Day Charge: lower 4 to"
            " 3\nwith --open these shifts stay open\n$"
        )
        self.assertRegex(printed, f"^week 1 \\(calendar week 49\\): No roster .* {says}")
        self.assertFalse(list((self.ward / "plans").glob("0*")))

    def test_a_nurse_who_comes_and_one_who_leaves(self):
        self.begin()
        self.does("page")
        self.rows["nurses"].append(["Ida", "Half", "Nurse", *[""] * 8])
        self.rows["plan"].append(["Ida", *["away"] * 7, *[""] * 7])
        self.rows["plan"][4][8:15] = ["away"] * 7
        self.write()
        self.does("plan", "Mon 2")
        nurses = {nurse for nurse, day in self.cells() if day >= 7}
        self.assertNotIn("Dilek", nurses)
        self.assertFalse({nurse for nurse, day in self.cells() if nurse == "Ida" and day < 7})
        # She has the shifts of her contract, 8 in 14 days, though each change of the plan on the
        # wall costs points.
        self.assertGreaterEqual(sum(nurse == "Ida" for nurse, _ in self.cells()), 4)
        self.does("over")
        del self.rows["nurses"][4], self.rows["plan"][4]
        self.write()
        status, _, said = self.runs("plan")
        cure = (
            "write it again, with away in the plan from her last day on, or, if she has another"
            " name now, the old one into the column was of her row"
        )
        self.assertEqual(
            (status, said),
            (
                1,
                (
                    "inrc2pb-plan: Dilek worked in week 1 (calendar week 49), and has no row in"
                    f" the sheet nurses: {cure}\n"
                ),
            ),
        )

    def test_swaps(self):
        self.begin()
        cells = self.cells()
        before = sum(self.points())
        offers = []
        for nurse, day in sorted(cells):
            printed = self.does("swap", nurse, DATES[day])
            offers = [line for line in printed.splitlines() if line.endswith(" takes it")]
            if offers:
                break
        for line in offers[:2]:
            cost, other = line.split()[:2]
            self.assertIn("nothing is written", self.does("swap", nurse, DATES[day], other))
            self.assertEqual(self.cells(), cells)
            self.does("swap", nurse, DATES[day], other, "--do")
            self.assertEqual(sum(self.points()) - before, int(cost))
            self.assertEqual(self.cells()[other, day], cells[nurse, day])
            self.assertNotIn((nurse, day), self.cells())
            self.does("undo")
        self.assertTrue(offers)

    def test_what_a_swap_costs_in_words(self):
        self.write_plan()
        before = sum(self.points())
        # Chen was off on the Sunday before, and is off on Tuesday; both have 10 shifts of at least
        # 17.
        self.assertIn("\n".join([
            " -140  Chen: 10 shifts in the period (5 before Mon 7 Dec), at least 17",
            " -140  Grace: 10 shifts in the period (5 before Mon 7 Dec), at least 17",
            "  +15  Chen, Mon 30 Nov: only 1 day on Day, at least 2",
            "  +60  Chen, Mon 30 Nov: only 1 day with work, at least 3",
            "  +30  Chen, before Mon 30 Nov: only 1 day off, at least 2",
            "  +30  Chen, Tue 1 Dec: only 1 day off, at least 2",
            " +120  Chen: 11 shifts in the period (6 before Mon 7 Dec), at least 17",
            " +160  Grace: 9 shifts in the period (4 before Mon 7 Dec), at least 17",
            f" +135  in all: {before + 135} points instead of {before}\n"]), self.does("swap", "Grace", "Mon", "Chen"))  # fmt: skip

    def test_a_swap_above_a_limit_that_holds(self):
        self.begin()
        sheet = read_sheet(self.ward, None, ())
        rows = [Cell("Chen", day, "Day", "Nurse") for day in range(5)] + [
            Cell("Grace", 5, "Day", "Nurse")
        ]
        plan = first_plan(sheet).with_cells(rows)
        swap = Swap("Chen", "Grace", (5,))
        for limits, faults in (((), 0), ((Claim(Charged("WORK_DAYS", "Chen", 0)),), 1)):
            # Chen's contract has at most five days of work in a row.
            self.assertEqual(len(Swaps(replace(plan, limits=limits)).faults(swap)), faults)

    def test_plans_that_were_edited_by_hand(self):
        self.begin()
        roster = self.last() / "roster-1.txt"
        text = roster.read_text()
        row = text.splitlines()[4]
        other = f"{row.rsplit(' ', 1)[0]} Nurze"
        for new, says in (
            (
                text.replace(row, other),
                f"the plan has '{other}', and the spreadsheet has not all of these names: ",
            ),
            (text.replace(f"{row}\n", "", 1), "roster-1.txt: end of file"),
            ("", "roster-1.txt"),
        ):
            roster.write_text(new)
            for verb in ("page", "over"):
                status, printed, said = run("plan", self.ward, verb)
                self.assertEqual((status, printed, said.count("\n")), (1, "", 1), said)
                self.assertIn(says.split(":")[0], said)
        (self.ward / "plans" / "0002-other").mkdir()
        status, _, said = run("plan", self.ward, "page")
        self.assertEqual((status, said.split(": ")[2]), (1, "this folder is no plan"))
        self.assertIn("undone: 0002-other\n", self.does("undo"))

    def test_a_swap_that_cannot_be_is_not_written(self):
        self.begin()
        cells = self.cells()
        day = next(day for day in range(7, 14) if ("Finn", day) not in cells)
        nurse = next(
            nurse
            for (nurse, on), (shift, _) in sorted(cells.items())
            if on == day and shift == "Night"
        )
        status, printed, _ = run("plan", self.ward, "swap", nurse, DATES[day], "Finn", "--do")
        self.assertEqual((status, self.cells()), (6, cells))
        self.assertRegex(
            printed,
            (
                "^not possible: Finn never works Night\n(not possible: .*\n)?nothing is"
                " written\nwho could take "
            ),
        )

    def test_the_weeks_and_the_period_are_over(self):
        self.begin()
        cells = self.cells()
        worked = next(nurse for nurse, day in cells if day == 6)
        self.does("over", worked, "Sun", "off")
        history = (self.last() / "history-1.txt").read_text()
        self.assertIn(
            " None ", next(line for line in history.splitlines() if line.startswith(worked))
        )
        status, _, said = run("plan", self.ward, "ill", "Chen", "2026-12-01")
        line = (
            "Tue 1 Dec is in a week that is over: the plan goes on from Mon 7 Dec, and the verb over"
            " corrects older days"
        )
        self.assertEqual((status, said), (1, f"inrc2pb-plan: {line}\n"))
        self.assertIn(
            "week 2 (calendar week 50) is over, and with it the period is over\n", self.does("over")
        )
        status, _, said = run("plan", self.ward, "plan")
        self.assertEqual((status, said.split(":")[1]), (1, " a period is over"))
        later = [str(MONDAY + datetime.timedelta(days=14 + day)) for day in range(7)]
        self.rows["plan"] = [["nurse", *later], *([row[0]] for row in self.rows["plan"][1:])]
        self.write()
        self.does("plan")
        last = next(nurse for nurse, day in cells if day == 13)
        past = next(
            line.split()
            for line in (self.last() / "history-0.txt").read_text().splitlines()
            if line.startswith(f"{last} ")
        )
        self.assertEqual((past[1:3], past[3]), (["0", "0"], cells[last, 13][0]))

    def test_ctrl_c_leaves_a_whole_plan_or_none(self):
        quiet = dict.fromkeys(("stdout", "stderr"), subprocess.DEVNULL)
        for seconds, begin in ((0.2, begin_command), (0.6, begin_command), (1.5, start_command)):
            begun = begin("plan", self.ward, "plan", "--time", 60, **quiet)
            time.sleep(seconds)
            begun.send_signal(signal.SIGINT)
            begun.wait(timeout=ENOUGH)
            names = (
                [path.name for path in (self.ward / "plans").glob("*") if path.name != "lock"]
                if (self.ward / "plans").exists()
                else []
            )
            self.assertFalse([name for name in names if not name[0] == "0"])
            for path in (self.ward / "plans").glob("0*"):
                self.assertTrue((path / "roster-1.txt").exists() and (path / "plan.json").exists())


class Refused(FolderTest):
    def test_the_ward_in_sentences(self):
        printed = self.does("check")
        self.assertIn("After Late, the next day no Day.\n", printed)
        self.assertIn(
            (
                "Would rather be off: Amara on Wed 9 Dec; Chen on Sat 5 Dec; Dilek on Fri 4 Dec;"
                " Ewa on Sun 6 Dec.\n"
            ),
            printed,
        )
        # The kind of each absence, and days away that count as work.
        words = {
            "Amara": "ill",
            "Bruno": "leave",
            "Dilek": "training",
            "Ewa": "unpaid",
            "Grace": "away",
        }
        for row in self.rows["plan"][1:]:
            row[8:10] = [words.get(row[0], "")] * 2
        self.rows["nurses"][6][4] = "Tue"
        self.write()
        # All who have the skill Charge are away.
        status, printed, _ = run("plan", self.ward, "check")
        self.assertEqual(status, 6)
        for line in ("Ill: Amara", "Leave: Bruno", "Training: Dilek", "Unpaid: Ewa", "Away: Grace"):
            self.assertIn(f"{line} on Mon 7 Dec to Tue 8 Dec.\n", printed)
        self.assertIn("Always off: Finn on Tue.\n", printed)
        # A Monday and a Tuesday count as a shift each.
        self.assertIn(
            "For days away in the whole period: Amara, Bruno and Dilek 2 shifts and 0 weekends.\n",
            printed,
        )
        self.assertNotIn("In the period until now", printed)
        self.assertFalse((self.ward / "plans").exists())

    def test_what_is_told_first(self):
        # Both weeks have 7 + 12 + 7 + 7 shifts at best; 7 + 5 + 7 + 7 are needed. Five nurses have
        # 8 to 12 shifts, two 4 to 6. Grace has leave on the seven days of the second week, which
        # count as five of her shifts. A plan changes nothing of it.
        self.rows["contracts"][1][1:3] = ["8", "12"]
        self.rows["contracts"][2][1:3] = ["4", "6"]
        self.rows["plan"][7][8:15] = ["leave"] * 7
        del self.rows["plan"][2]
        self.write()
        for begin in (lambda: None, self.write_plan):
            begin()
            lines = self.does("check").splitlines()
            first = lines.index("") + 1
            self.assertTrue(
                lines[0].startswith("warning: sheet plan: Bruno has no row: "), lines[0]
            )
            self.assertEqual(lines[first : first + 4], [
                "my wärd: 7 nurses, 2 weeks in a period.",
                "Week 1 (calendar week 49), Mon 30 Nov: asks for 26 to 33 shifts; the contracts supply 24 to 36 a week.",
                "Week 2 (calendar week 50), Mon 7 Dec: asks for 26 to 33 shifts; the contracts supply 20 to 31 a week.", "",
            ])  # fmt: skip

    def test_a_ward_without_a_mistake(self):
        self.rows["contracts"][1][1:3] = ["8", "12"]
        self.rows["contracts"][2][1:3] = ["4", "6"]
        self.write()
        self.assertEqual(self.does("check").splitlines()[:2], ["No mistake found.", ""])

    def test_minimum_numbers_that_no_plan_meets(self):
        plain = {name: [list(row) for row in rows] for name, rows in self.rows.items()}
        charge = next(
            number for number, row in enumerate(plain["needs"]) if row[1:3] == ["Day", "Charge"]
        )
        # Amara, Bruno and Ewa have the skill Charge.
        for status, cells, says in (
            (5, [("needs", charge, 5, "4")], "Day Charge on Wed: at least 4 are needed, and 3 nurses have the skill: "
             "no roster can meet it: lower 4 to 3, or give more nurses the skill"),
            (6, [("plan", row, 3, "leave") for row, cells in enumerate(plain["plan"]) if cells[0] in ("Amara", "Bruno", "Ewa")],
             "Wed: 1 with Charge needed at once (Day 1), and 0 of the 3 who have it could do it: "
             "no roster that keeps every absence can meet it: lower minimum numbers by 1, or give more nurses the skill, or shorten an absence"),
            (6, [("contracts", row, 2, "2!") for row in (1, 2)] + [("contracts", row, 1, "0") for row in (1, 2)], " too many to keep the limits that hold: lower minimum numbers"),
        ):  # fmt: skip
            with self.subTest(says):
                self.rows = {name: [list(row) for row in rows] for name, rows in plain.items()}
                for sheet, row, column, text in cells:
                    self.rows[sheet][row][column] = text
                self.write()
                ended, printed, said = run("plan", self.ward, "check")
                self.assertEqual((ended, said), (status, ""), printed)
                self.assertIn(says, printed)
                self.assertEqual(
                    printed.splitlines()[-1],
                    "No plan can keep all of this: do what the warnings at the top say.",
                )

    def test_wrong_verbs_and_options(self):
        for says, *words in (
            ("'plna' is no verb: did you mean plan?", "plna"),
            (
                (
                    "'sick' is no verb: write one of new, check, plan, ill, back, swap, set, over,"
                    " page, undo, serve, files, away, leave, unpaid, training\n"
                ),
                "sick",
            ),
            ("a verb is missing after the folder: write one of new, check, plan, ",),
            ("'Chen' is a word too many: undo has none", "undo", "Chen"),
            (
                "--do is for verbs that ask before they write: leave it out with undo",
                "undo",
                "--do",
            ),
            ("--free is for plan: leave it out", "page", "--free"),
            ("--time has to be a number of seconds above 0", "plan", "--time", "0"),
            *(
                (
                    "--time is for verbs that search, such as plan and ill: leave it out with"
                    f" {verb}\n",
                    verb,
                    "--time",
                    "10",
                )
                for verb in ("new", "check", "swap", "over", "page", "undo", "files")
            ),
            ("--port 70000: give a number from 1024 to 65535", "serve", "--port", "70000"),
            (
                (
                    "--port 0: Cannot assign requested address: give the name of this machine, and"
                    " a free port"
                ),
                "serve",
                "--host",
                "203.0.113.1",
            ),
            (
                (
                    "--host '0.0.0.0' is no address that a browser can open: give the name or"
                    " number of this machine, or with --origin the address"
                ),
                "serve",
                "--host",
                "0.0.0.0",
            ),
            ("--host '' is no address", "serve", "--host", ""),
            ("--host '0' is no address", "serve", "--host", "0"),
            ("--host '::' is no address", "serve", "--host", "::"),
            (
                (
                    "--origin 'ward.example': give the beginning of an address, as"
                    " https://ward.example"
                ),
                "serve",
                "--origin",
                "ward.example",
            ),
            (
                "--origin 'https://ward.example/': give the beginning",
                "serve",
                "--origin",
                "https://ward.example/",
            ),
            (
                "--port, --host, --origin and --secret are for serve: leave them out",
                "plan",
                "--origin",
                "https://ward.example",
            ),
            (
                "--port, --host, --origin and --secret are for serve: leave them out",
                "plan",
                "--secret",
                "file",
            ),
            (f"has no plan yet: type inrc2pb-plan '{self.ward}' plan", "swap", "Chen", "Fri"),
            ("has no plan yet", "page"),
            ("there is nothing to undo", "undo"),
            ("'soon' is no day: ", "plan", "soon"),
        ):
            with self.subTest(words):
                self.assert_refused(says, self.ward, *words)
                self.assertFalse(list((self.ward / "plans").glob("0*")))

    def test_a_page_beyond_this_machine_is_told_to_be_in_clear_text(self):
        says = (
            "in clear text: who reads your network reads this address and the roster, and can"
            " change it: let a proxy with TLS on this machine "
        )
        for words, begin, is_told in (
            ((), "http://127.0.0.1:", False),
            (("--host", "localhost"), "http://localhost:", False),
            (("--host", "127.0.0.2"), "http://127.0.0.2:", False),
            (("--origin", "http://localhost:9999"), "http://localhost:9999/", False),
            (("--origin", "http://ward.example"), "http://ward.example/", True),
            # The way from the proxy to this machine is in clear text too.
            (("--host", "0", "--origin", "https://ward.example"), "https://ward.example/", True),
            (
                ("--host", "0.0.0.0", "--origin", "http://ward.example:9999"),
                "http://ward.example:9999/",
                True,
            ),
            (("--origin", "https://ward.example"), "https://ward.example/", False),
        ):
            with self.subTest(words), mock.patch.object(LocalServer, "run"):
                status, printed, said = run("plan", self.ward, "serve", *words)
                self.assertEqual((status, says in said), (0, is_told), said)
                self.assertIn(f"to nobody else: {begin}", printed)

    def test_a_file_of_the_plan_that_another_program_has_saved(self):
        # An editor has saved `Müller` in a code page of Windows.
        self.write_plan()
        before = self.last()
        self.write_plan()
        path = self.last() / "plan.json"
        text = path.read_text().replace('"verb": "plan"', '"verb": "ill Müller"')
        path.write_bytes(text.encode("cp1252"))
        says = (
            "plan.json line 2: this line has a byte that is no UTF-8, as another program has saved"
            " it: correct it, or type undo to go back"
        )
        for verb in ("check", "plan", "page"):
            self.assert_refused(says, self.ward, verb)
        self.assertIn("the plan of plan, 2026-11-28 12:00 holds again", self.does("undo"))
        self.assertEqual(self.last(), before)

    def test_a_file_of_the_plan_that_was_changed(self):
        self.write_plan()
        path = self.last() / "plan.json"
        text = path.read_text()
        for old, new, says in (
            (
                '"published": false',
                '"published": no',
                " line 7: this line was changed, and is no JSON any more: correct it, or type undo",
            ),
            (
                '"published": false',
                '"published": 0',
                ": this file was changed: 'published' has a value that no plan has: correct it, or",
            ),
            ('"weeks": 2', '"weeks": 1e9', "'weeks' has a value that no plan has"),
            ('"weeks": 2', '"weeks": 53', "'weeks' has a value that no plan has"),
            ('"weeks over": 0', '"weeks over": 3', "'weeks over' has a value that no plan has"),
            ('"2026-11-30"', '"30 Nov"', "'monday' has a value that no plan has"),
            ('"2026-11-28 12:00"', "7", "'time' has a value that no plan has"),
            (
                '"days away": []',
                '"days away": [["Chen", 3, "ill"], ["Chen", 14, "ill"]]',
                "row 2 of 'days away' is none of a plan",
            ),
            (
                '"agreed days": []',
                '"agreed days": [["Chen"]]',
                "row 1 of 'agreed days' is none of a plan",
            ),
            (
                '"agreed days": []',
                '"agreed days": ' + "[" * 100_000,
                ": this file was changed: it is no plan",
            ),
            (
                '"verb"',
                '"verbs"',
                (
                    "this file was changed: it has not the names verb, time, monday, weeks, weeks"
                    " over, "
                ),
            ),
            ("{", "[", "is no JSON any more"),
            ("{", "{" + " " * 1_000_000, "the file has more than 1000000 bytes"),
        ):
            with self.subTest(new[:40]):
                path.write_text(text.replace(old, new, 1))
                self.assert_refused(says, self.ward, "page")
        path.unlink()
        self.assert_refused(
            "this folder is no plan: move it away, or type undo to go back to the plan before it",
            self.ward,
            "page",
        )

    def test_times_of_some_shifts_only(self):
        for row, times in zip(self.rows["shifts"], ("times", "7:00-15:30", "", "22:30-25:00")):
            row[4] = times
        self.write()
        status, _, said = run("plan", self.ward, "check")
        self.assertEqual(status, 1)
        self.assertRegex(
            said,
            (
                "row 3, column E: Late: '' has no times: .*\n.*row 4, column E: Night: 25:00 is no"
                " time of a day"
            ),
        )

    def test_a_folder_without_quotes(self):
        first, last = str(self.ward).split(" ")
        says = f"inrc2pb-plan: write the folder in quotes: inrc2pb-plan '{self.ward}' plan\n"
        self.assertEqual(run("plan", first, last, "plan"), (1, "", says))

    def test_no_program(self):
        ran = run("plan", self.ward, "plan", environment={"INRC2PB": "/none"})
        self.assertEqual((ran[0], ran[2].count("\n")), (127, 1))
        self.assertFalse((self.ward / "plans").exists())


if __name__ == "__main__":
    unittest.main()
