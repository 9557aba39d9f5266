"""Tests of the verb back: which absence ends, and which ones stay."""

from unittest import mock
from xml.etree import ElementTree

from served_page import ServedPage
from test_past import today_is
from test_plans import FolderTest
from ward import run

from inrc2pb.sheets.ward import read_sheet
from inrc2pb.plans import planning
from inrc2pb.plans.searching import Found
from inrc2pb.plans.plan_files import read_state
from inrc2pb.sheets.written_days import DayWord, with_days, without_last, words_by_day
from inrc2pb.plans.ward import continued
from inrc2pb.week.files import read_history, read_scenario
from inrc2pb.week.records import Cell


def _without_a_search(_, old, asked):
    """The old plan without the shifts of days away, as if a search had found it."""
    return Found(
        old.with_cells(cell for cell in old.cells if (cell.nurse, cell.day) not in old.away)
    )


class BackTest(FolderTest):
    """A ward whose verbs find plans without a search. Day 0 is Mon 30 Nov, and day 13 is Sun 13
    Dec."""

    def setUp(self):
        super().setUp()
        stand_ins = {
            "_found": _without_a_search,
            "penalties": lambda _: {},
            "without_needless_changes": lambda _, new, ends: new,
        }
        for name, stand_in in stand_ins.items():
            patched = mock.patch.object(planning, name, stand_in)
            patched.start()
            self.addCleanup(patched.stop)

    def begin_with(self, *words):
        """The row of Chen in the sheet plan says this, and there is a plan."""
        self.rows["plan"][3][1:] = [*words, *[""] * (14 - len(words))]
        self.write()
        self.write_plan()

    def lines(self, *words):
        """The lines of a verb, those of its progress first."""
        _, printed, said = run("plan", self.ward, *words)
        return [*said.splitlines(), *printed.splitlines()]

    def away(self):
        """The days on which the plan that holds has Chen away, and why."""
        state = read_state(self.last())
        plan = continued(read_sheet(self.ward, None, state.absences), state)
        return {
            day: word
            for (nurse, day), word in sorted(plan.away.items())
            if nurse == "Chen" and word != "off"
        }


def _days(first, last, word):
    return dict.fromkeys(range(first, last + 1), word)


class Back(BackTest):
    def test_leave_after_an_illness_stays(self):
        self.begin_with(*[""] * 7, *["leave"] * 5)
        self.lines("ill", "Chen", "Wed", "Sun")
        lines = self.lines("back", "Chen", "Sat")
        # Both lines come before the search.
        self.assertEqual(
            lines[:2],
            [
                "Chen: back, Sat 5 Dec to Sun 6 Dec (ill)",
                "Chen stays away: leave, Mon 7 Dec to Fri 11 Dec",
            ],
        )
        self.assertIn(", at most 30 seconds in all; ", lines[2])
        self.assertEqual(self.away(), {**_days(2, 4, "ill"), **_days(7, 11, "leave")})

    def test_an_unpaid_day_after_an_illness_stays(self):
        self.begin_with("", "", "", "", "unpaid")
        self.lines("ill", "Chen", "Wed", "Thu")
        lines = self.lines("back", "Chen", "Thu")
        self.assertEqual(lines[0], "Chen: back, Thu 3 Dec (ill)")
        self.assertIn("Chen stays away: unpaid, Fri 4 Dec", lines)
        self.assertEqual(self.away(), {2: "ill", 4: "unpaid"})

    def test_who_leaves_the_ward_does_not_work_after_it(self):
        for last in ("Sun", "8.12."):
            with self.subTest(last):
                self.begin_with()
                self.lines("away", "Chen", "7.12.", "13.12.")
                self.lines("ill", "Chen", "Fri", last)
                self.assertIn(
                    "Chen stays away: away, Mon 7 Dec to Sun 13 Dec",
                    self.lines("back", "Chen", "Sun"),
                )
                self.assertEqual(self.away(), {**_days(4, 5, "ill"), **_days(7, 13, "away")})

    def test_leave_below_an_illness_holds_again(self):
        self.begin_with(*["leave"] * 5)
        self.lines("ill", "Chen", "Wed", "Sun")
        self.assertEqual(self.away(), {**_days(0, 1, "leave"), **_days(2, 6, "ill")})
        lines = self.lines("back", "Chen", "Thu")
        self.assertEqual(lines[0], "Chen: back, Thu 3 Dec to Sun 6 Dec (ill)")
        self.assertIn("Chen stays away: leave, Thu 3 Dec to Fri 4 Dec", lines)
        self.assertEqual(self.away(), {**_days(0, 1, "leave"), 2: "ill", **_days(3, 4, "leave")})
        # Leave that is written into the spreadsheet later holds, too.
        self.rows["plan"][3][7] = "leave"
        self.write()
        self.assertEqual(self.away()[6], "leave")

    def test_leave_of_the_spreadsheet_ends_with_the_day_that_is_named(self):
        self.begin_with(*["ill"] * 2, *["leave"] * 3, "", "", *["leave"] * 2)
        lines = self.lines("back", "Chen", "Thu")
        self.assertEqual(lines[0], "Chen: back, Thu 3 Dec to Fri 4 Dec (leave)")
        self.assertIn("Chen stays away: leave, Mon 7 Dec to Tue 8 Dec", lines)
        self.assertEqual(self.away(), {**_days(0, 1, "ill"), 2: "leave", **_days(7, 8, "leave")})
        self.assertEqual(
            self.lines("back", "Chen", "Mon")[0], "Chen: back, Mon 30 Nov to Tue 1 Dec (ill)"
        )
        self.lines("back", "Chen", "Wed")
        lines = self.lines("back", "Chen", "7.12.")
        self.assertEqual(([line for line in lines if "stays away" in line], self.away()), ([], {}))

    def test_days_that_are_always_off_are_no_part_of_an_absence(self):
        self.rows["nurses"][3][4] = "Sat, Sun"
        self.begin_with(*[""] * 7, *["leave"] * 5)
        self.lines("ill", "Chen", "Thu", "Fri")
        self.assertEqual(self.lines("back", "Chen", "Fri")[0], "Chen: back, Fri 4 Dec (ill)")
        self.assertEqual(self.away(), {3: "ill", **_days(7, 11, "leave")})
        self.assertEqual(
            self.lines("back", "Chen", "Sat"),
            ["inrc2pb-plan: Chen is not away on Sat 5 Dec: she is always off on it"],
        )

    def test_a_reason_that_was_corrected_does_not_come_again(self):
        self.begin_with()
        self.lines("ill", "Chen", "Wed", "Fri")
        self.lines("leave", "Chen", "Wed", "Fri")
        self.assertEqual(
            self.lines("back", "Chen", "Thu")[0], "Chen: back, Thu 3 Dec to Fri 4 Dec (leave)"
        )
        self.assertEqual(self.away(), {2: "leave"})

    def test_an_illness_that_the_spreadsheet_has_too_ends(self):
        self.begin_with("", "", "ill", "ill", "ill")
        self.lines("ill", "Chen", "Wed", "Thu")
        lines = self.lines("back", "Chen", "Thu")
        self.assertIn("Chen stays away: ill, Fri 4 Dec", lines)
        self.assertEqual(self.away(), {2: "ill", 4: "ill"})

    def test_who_is_back_twice(self):
        self.begin_with(*["leave"] * 5)
        self.lines("back", "Chen", "Wed")
        self.lines("ill", "Chen", "Wed", "Thu")
        self.lines("back", "Chen", "Thu")
        # Her leave from Wednesday on was lifted before she was ill.
        self.assertEqual(self.away(), {**_days(0, 1, "leave"), 2: "ill"})


class Reasons(BackTest):
    def begin_with(self, *words):
        super().begin_with(*words)
        self.lines("page")

    def changes(self, page="roster.html"):
        """The rows of the list of changes of a page: nurse, day, before, now."""
        tree = ElementTree.fromstring((self.ward / page).read_text().partition("\n")[2])
        tables = [one for one in tree.iter("table") if "changes since" in "".join(one.itertext())]
        rows = [
            ["".join(cell.itertext()) for cell in row] for one in tables for row in one.iter("tr")
        ]
        return [row for row in rows if row[0] == "Chen"]

    def test_a_change_to_an_illness_has_its_word(self):
        self.begin_with()
        shift = " ".join(self.cells()["Chen", 5])
        lines = self.lines("ill", "Chen", "Sat")
        self.assertIn(f"Chen, Sat 5 Dec: ill instead of {shift}", lines)
        self.assertEqual(self.changes(), [["Chen", "Sat 5 Dec", shift, "ill"]])

    def test_a_change_from_leave_has_its_word(self):
        self.begin_with("", "", "", "", "", "leave")
        # The plan keeps its shifts.
        with mock.patch.object(planning, "more_even", lambda plan, *_: plan):
            self.lines("plan", "--free")
        self.lines("page")

        def works(_, old, asked):
            return Found(old.with_cells([*old.cells, Cell("Chen", 5, "Late", "Nurse")]))

        with mock.patch.object(planning, "_found", works):
            lines = self.lines("back", "Chen", "Sat")
        self.assertIn("Chen, Sat 5 Dec: Late Nurse instead of leave", lines)
        self.assertEqual(self.changes(), [["Chen", "Sat 5 Dec", "leave", "Late Nurse"]])
        # Nobody reads on the wall why she was away.
        self.assertNotIn("leave", (self.ward / "wall.html").read_text())

    def test_a_nurse_who_worked_on_a_day_of_leave(self):
        self.begin_with("", "", "", "", "", "leave")
        self.lines("plan", "--free")
        self.assertIn(
            "Chen, Sat 5 Dec: Late Nurse instead of leave",
            self.lines("over", "Chen", "Sat", "Late"),
        )


class Over(BackTest):
    """A week that ends with absences. In both weeks Bruno is planned for the first five days, and
    Chen for the days from Wednesday on."""

    def own_cells(self, nurse):
        return {day: shift for (name, day), shift in self.cells().items() if name == nurse}

    def rows_of(self, nurse, page):
        """The cells of a nurse's rows on a page: her days, and her totals."""
        rows = ElementTree.parse(self.ward / page).iter("tr")
        texts = (["".join(cell.itertext()) for cell in row] for row in rows)
        return [row[1:] for row in texts if row[0] == nurse]

    def worked(self, nurse):
        """A nurse's days of the first week on the page of the worked weeks."""
        return self.rows_of(nurse, "worked-2026-11-30.html")[0][:7]

    def shifts_in_history(self, nurse):
        """The number of shifts with which a nurse begins the second week."""
        scenario = read_scenario(self.last() / "ward.txt")
        return read_history(self.last() / "history-1.txt", scenario).nurses[nurse].assignments

    def test_who_was_ill_did_not_work_and_no_other_shift_changes(self):
        self.begin_with()
        self.lines("page")
        before = self.cells()
        lines = self.lines("over", "Bruno", "Mon", "ill,", "Chen", "Tue", "Late")
        self.assertEqual(
            lines[:3],
            [
                "Bruno: ill, Mon 30 Nov",
                "Bruno, Mon 30 Nov: ill instead of Day Nurse",
                "Chen, Tue 1 Dec: Late Nurse instead of off",
            ],
        )
        self.assertIn("week 1 (calendar week 49) is over: the plan goes on from Mon 7 Dec", lines)
        del before["Bruno", 0]
        self.assertEqual(self.cells(), {**before, ("Chen", 1): ("Late", "Nurse")})
        self.assertEqual(read_state(self.last()).absences, (DayWord("Bruno", 0, "ill", 1),))
        self.assertEqual(self.worked("Bruno"), ["ill", "Day Nurse", *["Day Charge"] * 3, "", ""])
        self.assertEqual(self.worked("Chen")[:3], ["", "Late Nurse", "Late Nurse"])
        # The shift hung on the wall.
        self.assertIn(
            "DTSTART;VALUE=DATE:20261130\nSTATUS:CANCELLED\n",
            (self.ward / "calendars" / "Bruno.ics").read_text(),
        )

    def test_who_worked_on_a_day_away_was_back(self):
        self.begin_with("ill")
        lines = self.lines("over", "Chen", "Mon", "Late")
        self.assertEqual(
            lines[:2], ["Chen: back, Mon 30 Nov", "Chen, Mon 30 Nov: Late Nurse instead of ill"]
        )
        self.assertEqual(self.worked("Chen")[0], "Late Nurse")
        # Six days of work, each counted once.
        self.assertEqual(self.shifts_in_history("Chen"), 6)

    def test_the_share_of_days_that_count_as_work(self):
        # A full contract has a shift a day from Monday to Friday. Training counts as one on each
        # day, and an illness the shift of its day.
        for words, shifts in (
            ("", 5),
            ("Bruno Mon off", 4),
            ("Bruno Mon ill", 4 + 1),
            ("Bruno Mon leave, Bruno Tue training", 3 + 2),
            ("Bruno Mon unpaid", 4),
            ("Bruno Mon away", 4),
            ("Bruno Sat ill", 5),
            ("Bruno Sat leave", 5 + 1),
            ("Bruno Fri leave, Bruno Sat leave, Bruno Sun leave", 4 + 1),
            ("Bruno Sat training, Bruno Sun training", 5 + 2),
        ):
            with self.subTest(words):
                self.begin_with()
                self.lines("over", *words.split())
                self.assertEqual(self.shifts_in_history("Bruno"), shifts)
                self.assertEqual(self.shifts_in_history("Grace"), 5)

    def test_the_totals_of_the_period(self):
        self.begin_with()
        self.lines("over", "Bruno", "Mon", "ill")
        # The shifts in all, those of them for days away, the limits of the contract, and the shifts
        # left or missing.
        self.assertEqual(
            self.rows_of("Bruno", "worked-2026-11-30.html")[1][:4],
            ["5", "1", "17 to 22", "12 to 17 left"],
        )
        self.assertEqual(
            self.rows_of("Bruno", "roster.html")[1][:4], ["10", "1", "17 to 22", "7 too few"]
        )

    def test_days_that_do_not_count_shorten_the_contract(self):
        for word in ("unpaid", "away"):
            with self.subTest(word):
                self.begin_with()
                part = (
                    "contract Full counts in proportion, at least 15 shifts in place of at"
                    " least 17."
                )
                self.assertIn(
                    f"Bruno is away or unpaid on 1 of 14 days: {part}",
                    self.lines("over", "Bruno", "Mon", word),
                )
                self.assertEqual(self.worked("Bruno")[:2], [word, "Day Nurse"])

    def test_a_day_without_a_shift_gets_only_its_reason(self):
        self.rows["nurses"][3][4] = "Mon"
        self.begin_with("", "leave")
        before = self.cells()
        # Chen is always off on Monday, and has leave on Tuesday.
        lines = self.lines(
            "over", "Chen", "Mon", "ill", "Chen", "Tue", "training", "Bruno", "Sun", "Away"
        )
        said = ["Chen: ill, Mon 30 Nov", "Chen: training, Tue 1 Dec", "Bruno: away, Sun 6 Dec"]
        self.assertEqual(lines[:3], said)
        self.assertEqual([line for line in lines if "instead of" in line], [])
        self.assertEqual((self.cells(), self.away()), (before, {}))
        self.assertEqual(
            (self.worked("Chen")[:2], self.worked("Bruno")[6]), (["ill", "training"], "away")
        )

    def test_an_illness_lifts_a_shift_that_the_spreadsheet_holds(self):
        self.rows["plan"][2][1] = "Day/Nurse"
        self.begin_with()
        lines = self.lines("over", "Bruno", "Mon", "ill")
        self.assertIn("Bruno, Mon 30 Nov: ill lifts Day, which the spreadsheet holds", lines)
        self.assertNotIn(0, self.own_cells("Bruno"))

    def test_the_last_correction_of_a_day_counts(self):
        for words, written, shift in (
            ("Bruno Mon ill, Bruno Mon Late", (), ("Late", "Nurse")),
            (
                "Bruno Mon Late, Bruno Tue off, Bruno Mon ill",
                (DayWord("Bruno", 0, "ill", 1),),
                None,
            ),
            ("Bruno Mon leave, Bruno Mon training", (DayWord("Bruno", 0, "training"),), None),
        ):
            with self.subTest(words):
                self.begin_with()
                self.lines("over", *words.split())
                self.assertEqual(
                    (read_state(self.last()).absences, self.own_cells("Bruno").get(0)),
                    (written, shift),
                )

    def test_undo_takes_the_absence_back_with_the_week(self):
        self.begin_with()
        self.lines("ill", "Chen", "Fri")
        before = self.cells()
        written = read_state(self.last()).absences
        self.lines("over", "Bruno", "Mon", "ill")
        self.assertEqual(
            read_state(self.last()).absences, (*written, DayWord("Bruno", 0, "ill", 1))
        )
        self.assertEqual(self.lines("undo")[0][:26], "undone: over Bruno Mon ill")
        self.assertEqual(
            (self.cells(), read_state(self.last()).absences, self.away()),
            (before, written, {4: "ill"}),
        )
        self.assertFalse((self.ward / "worked-2026-11-30.html").exists())

    def test_the_last_week_of_a_period(self):
        self.begin_with()
        self.lines("over", "Bruno", "Mon", "ill")
        lines = self.lines("over", "Bruno", "Tue", "ill")
        self.assertIn("Bruno, Tue 8 Dec: ill instead of Day Nurse", lines)
        self.assertIn("week 2 (calendar week 50) is over, and with it the period is over", lines)
        text = (self.ward / "worked-2026-11-30.html").read_text()
        self.assertEqual(text.count(">ill<"), 2)
        self.assertTrue(read_state(self.last()).is_over)
        self.assertEqual(self.lines("undo")[0][:26], "undone: over Bruno Tue ill")
        self.assertEqual(read_state(self.last()).absences, (DayWord("Bruno", 0, "ill", 1),))

    def test_an_absence_after_the_week_that_ends(self):
        self.begin_with()
        later = "Mon 7 Dec has not begun: the verb swap, or ill, changes later days"
        with today_is(2026, 12, 6):
            said = self.lines("over", "Bruno", "7.12.", "ill")
        self.assertEqual(said, [f"inrc2pb-plan: {later}"])


class Written(FolderTest):
    def test_what_verbs_wrote_below_an_illness_stays(self):
        leave = with_days((), "Chen", [1, 2], "leave")
        ill = DayWord("Chen", 2, "ill")
        both = with_days(with_days(leave, "Chen", [2], "ill"), "Chen", [2], "ill")
        self.assertEqual(
            (both, words_by_day(both, "Chen"), words_by_day(both, "Grace")),
            ((*leave, ill), {1: "leave", 2: "ill"}, {}),
        )
        self.assertEqual(set(without_last(both, "Chen", [2])), set(leave))
        self.assertEqual(without_last([ill], "Chen", [2]), (DayWord("Chen", 2, "sheet"),))
        self.assertEqual(without_last([ill], "Grace", []), (ill,))


class Asked(ServedPage):
    def test_the_question_names_what_ends_and_what_stays(self):
        self.rows["plan"][3][1:] = ["", "", "ill", "ill", "leave", *[""] * 9]
        self.write()
        self.write_plan()
        self.assertEqual(self.asks("POST", form="verb=back&nurse=Chen&first=2026-12-03")[0], 303)
        page = self.ended()
        self.assertIn("Yes, write it", page)
        self.assertIn("Chen: back, Thu 3 Dec (ill)\nChen stays away: leave, Fri 4 Dec\n", page)

    def test_a_week_ends_with_an_absence(self):
        self.write_plan()
        question = self.asks("POST", form="verb=over&corrections=Bruno+Mon+ill,+Chen+Tue+Late")[1]
        self.assertIn(
            ("<h2>What was worked: Bruno Mon ill, Chen Tue Late?</h2>"),
            question,
        )
        self.assertEqual(len(list((self.ward / "plans").glob("0*"))), 1)
        page = self.sends(verb="over", corrections="Bruno Mon ill, Chen Tue Late")
        self.assertIn(
            (
                "Bruno: ill, Mon 30 Nov\nBruno, Mon 30 Nov: ill instead of Day Nurse\nChen, Tue 1"
                " Dec: Late Nurse instead of off\n"
            ),
            page,
        )
        self.assertIn("week 1 (calendar week 49) is over: the plan goes on from Mon 7 Dec", page)
        self.assertIn(">ill<", (self.ward / "worked-2026-11-30.html").read_text())
