"""Tests of absences and limits that are given as facts: which weeks of a nurse keep them, what a
roster has above them, and searches."""

import itertools
import unittest
from dataclasses import replace
from ward import (
    ENOUGH,
    HAS_CBC,
    HISTORY,
    ROSTER,
    SCENARIO,
    WEEK,
    WEEK_OPTIONS,
    HelperTest,
    files,
    run,
)

from inrc2pb.judging.limits import (
    exceeded,
    excess,
    limits_in_words,
    limits_way_out,
    read_given,
    with_given,
)
from inrc2pb.rows.plan import ABSENCES_KEPT, FEW_BROKEN, FREE, STRICT, Plan
from inrc2pb.rows.pricing import Crews, Pricing
from inrc2pb.week.facts import Charged, Choice, Claim, facts_text
from inrc2pb.week.faults import FileFault
from inrc2pb.week.records import (
    Absence,
    Cell,
    Contract,
    History,
    KeptLimit,
    Limits,
    Nurse,
    NurseHistory,
    Scenario,
    ShiftType,
    Week,
    WeekData,
)

WARD = files.read_scenario(SCENARIO)
DATA = files.read_week(WEEK, files.read_scenario(SCENARIO))
ALL_LIMITS = frozenset(
    {
        KeptLimit("Ann", "WORK_DAYS", 0),
        KeptLimit("Ann", "SHIFTS", 0),
        KeptLimit("Ann", "WEEKENDS", 0),
    }
)


def ann(past, weeks=4, limits=ALL_LIMITS, absences=(), work=3, shifts=6, weekends=1):
    """The last week of a ward of one nurse, who has Day and Night, at most `work` days in a row,
    `shifts` and `weekends`."""
    types = {
        "Day": ShiftType("Day", Limits(1, 9), ()),
        "Night": ShiftType("Night", Limits(1, 9), ("Day",)),
    }
    contract = Contract("Full", Limits(0, shifts), Limits(1, work), Limits(1, 9), weekends, False)
    scenario = Scenario(
        "small",
        weeks,
        ("Nurse",),
        types,
        {"Full": contract},
        {"Ann": Nurse("Ann", "Full", ("Nurse",))},
    )
    return Week(
        scenario,
        History(weeks - 1, "small", {"Ann": past}),
        WeekData("small", {}, (), frozenset(absences), limits),
    )


def kept_by(shifts, past, absences, work, total, weekends):
    """Whether the shifts of a week keep these absences and limits, by counting."""
    run = past.working_days
    in_row = 0
    for shift in shifts:
        run = run + 1 if shift else 0
        in_row = max(in_row, run if shift else 0)
    at_weekend = bool(shifts[5] or shifts[6])
    away = any(
        shift and ((day, None) in absences or (day, shift) in absences)
        for day, shift in enumerate(shifts)
    )
    works = sum(map(bool, shifts))
    return (
        not away
        and in_row <= work
        and not (works and past.assignments + works > total)
        and not (at_weekend and past.weekends + 1 > weekends)
    )


class Rows(unittest.TestCase):
    def test_the_weeks_of_a_nurse_that_keep_all(self):
        away = {(1, None), (3, "Night")}
        for past in (
            NurseHistory("Ann", 2, 0, None, 0, 0, 1), NurseHistory("Ann", 2, 1, "Day", 2, 2, 0), NurseHistory("Ann", 7, 2, None, 0, 0, 3),
            NurseHistory("Ann", 3, 0, "Night", 5, 5, 0),
        ):  # fmt: skip
            week = ann(past, absences=[Absence("Ann", day, shift) for day, shift in away])
            plan = Plan.of(week.scenario, week.history, [week.data])
            pricing, free = (
                Pricing(one, Crews(one), lambda: None) for one in (plan, plan.kept(FREE))
            )
            for row in itertools.product((0, 1, 2), repeat=7):
                shifts = [(None, "Day", "Night")[choice] for choice in row]
                may = free.cost(0, bytes(row)) is not None
                keeps = may and kept_by(shifts, past, away, 3, 6, 1)
                self.assertEqual(pricing.cost(0, bytes(row)) is not None, keeps, (past, shifts))
                if keeps:
                    self.assertEqual(pricing.cost(0, bytes(row)), free.cost(0, bytes(row)))

    def test_what_is_not_kept_costs_more_if_it_has_to_be(self):
        past = NurseHistory("Ann", 4, 1, None, 0, 0, 1)
        week = ann(past, absences=[Absence("Ann", 0, None)])
        plan = Plan.of(week.scenario, week.history, [week.data])
        # Monday to Thursday and Sunday: one absence, one day above 3 in a row, 9 shifts of 6, and 2
        # weekends of 1.
        row = bytes((1, 1, 1, 1, 0, 0, 1))
        costs = [
            Pricing(one, Crews(one), lambda: None).cost(0, row)
            for one in map(plan.kept, (STRICT, ABSENCES_KEPT, FEW_BROKEN, FREE))
        ]
        self.assertEqual(costs, [None, None, costs[3] + 3000 + 600 * (1 + 3 + 1), 30 + 3 * 20 + 30])

    def test_before_the_last_week_totals_hold_too(self):
        past = NurseHistory("Ann", 5, 0, None, 0, 0, 1)
        week = ann(past)
        plan = Plan.of(week.scenario, replace(week.history, week=0), [week.data])
        pricing = Pricing(plan, Crews(plan), lambda: None)
        self.assertEqual(
            [pricing.cost(0, bytes(row)) for row in ((1, 0, 0, 0, 0, 0, 0), (1, 0, 1, 0, 0, 0, 0))],
            [0, None],
        )


class Above(unittest.TestCase):
    def test_what_a_roster_has_above_limits(self):
        past = NurseHistory("Ann", 4, 1, "Day", 1, 1, 0)
        cells = [Cell("Ann", day, "Day", "Nurse") for day in (0, 1, 2, 6)]
        for limits, above, words in (
            (
                ALL_LIMITS,
                4,
                (
                    "Ann has 4 days of work in a row, to Wed, of at most 3, Ann has 8 shifts of at"
                    " most 6, above on Wed and Sun, Ann has 2 weekends of at most 1, above on Sun"
                ),
            ),
            ({KeptLimit("Ann", "SHIFTS", 1)}, 1, "Ann has 8 shifts of at most 6, above on Sun"),
            ({KeptLimit("Ann", "SHIFTS", 2)}, 0, ""),
            ((), 0, ""),
        ):
            week = ann(past)
            found = exceeded(week, limits, cells)
            self.assertEqual((excess(found), limits_in_words(found, cells)), (above, words))

    def test_who_could_work_instead(self):
        week = files.read_files(SCENARIO, HISTORY, WEEK)
        cells = [Cell("Ewa", day, "Late", "Nurse") for day in range(6)]
        found = exceeded(week, {KeptLimit("Ewa", "WORK_DAYS", 0)}, cells)
        self.assertEqual(
            limits_in_words(found, cells),
            "Ewa has 6 days of work in a row, Mon to Sat, of at most 3",
        )
        # Full has at most 21 shifts, Half 11, and nobody has worked before this week.
        others = "Amara (21), Bruno (21), Chen (21), Dilek (21), Finn (11) and Grace (21)"
        wanted = (
            "lower minimum numbers, hold fewer shifts, or allow these nurses more; with these"
            f" skills shifts are left for {others}"
        )
        self.assertEqual(limits_way_out(week, found, cells), wanted)


class Given(HelperTest):
    def facts(self, *claims):
        """A file of facts."""
        target = self.folder / "facts.txt"
        target.write_text(facts_text("ward", claims))
        return target

    def test_facts_of_a_week(self):
        claims = (
            Claim(Choice(1, "Chen", 4, None)), Claim(Choice(2, "Chen", 5, None)), Claim(Choice(2, "Ewa", 0, "Night"), False),
            Claim(Charged("WEEKENDS", None, 0)), Claim(Charged("SHIFTS", "Finn", 2)),
        )  # fmt: skip
        self.assertEqual(read_given(self.facts(*claims), WARD), claims)
        data = with_given(WARD, DATA, claims, 1)
        self.assertEqual(data.absences, {Absence("Chen", 5, None), Absence("Ewa", 0, "Night")})
        self.assertEqual(
            data.limits,
            {
                KeptLimit("Finn", "SHIFTS", 2),
                *(KeptLimit(nurse, "WEEKENDS", 0) for nurse in WARD.nurses),
            },
        )

    def test_facts_that_a_search_does_not_keep(self):
        for claim, words in (
            (Claim(Choice(1, "Chen", 4, None), False), "NOT CHOICE 1 Chen Fri None"),
            (Claim(Choice(1, "Chen", 4, "Day")), "HOLDS CHOICE 1 Chen Fri Day"),
            (Claim(Charged("SHIFTS", None, 1)), "HOLDS CHARGES SHIFTS ALL 1"),
            (Claim(Charged("WORK_DAYS", "Chen", 1)), "HOLDS CHARGES WORK_DAYS NURSE Chen 1"),
            (Claim(Charged("SHIFTS", "Chen", 0), False), "NOT CHARGES SHIFTS NURSE Chen 0"),
            (Claim(Charged("SHIFT_RUNS", "Chen", 0)), "HOLDS CHARGES SHIFT_RUNS NURSE Chen 0"),
        ):
            with self.assertRaises(FileFault) as found:
                read_given(self.facts(claim), WARD)
            self.assertEqual(
                found.exception.message,
                f"'{words}' is neither an absence nor a limit of a nurse: remove it",
            )


class Commands(HelperTest):
    def setUp(self):
        super().setUp()
        # Amara has Day from Monday to Thursday in the roster of the example.
        self.rows = files.read_solution(ROSTER).cells
        self.facts = self.folder / "facts.txt"

    def give(self, *claims):
        self.facts.write_text(facts_text("ward", claims))
        return "--given", self.facts

    def test_a_roster_that_does_not_keep_the_facts(self):
        chen = next(cell for cell in self.rows if cell.nurse == "Chen")
        few = self.changed(SCENARIO, "Full (17,21)", "Full (0,3)", "few.txt")
        worked = [
            day
            for number, day in enumerate(("Mon", "Tue", "Wed", "Thu", "Fri", "Sat", "Sun"))
            if ("Dilek", number) in {cell[:2] for cell in self.rows}
        ]
        self.assertEqual(len(worked), 5)
        says = f"Dilek has 5 shifts of at most 3, above on {worked[-2]} and {worked[-1]}"
        given = self.give(
            Claim(Choice(1, "Chen", chen.day, None)), Claim(Charged("SHIFTS", "Dilek", 0))
        )
        words = ("--sce", few, *WEEK_OPTIONS[2:], *given)
        status, printed, _ = run("roster", "check", *words, "--roster", ROSTER)
        day = ("Mon", "Tue", "Wed", "Thu", "Fri", "Sat", "Sun")[chen.day]
        wanted = [
            f"{ROSTER}: Chen works {chen.shift} on {day}, and is away",
            f"{ROSTER}: {says}, and this limit holds",
        ]
        self.assertEqual(
            (status, [line for line in printed.splitlines() if "warning" not in line]), (1, wanted)
        )
        table = run("roster", "show", *words, "--roster", ROSTER)[1]
        self.assertIn(f"above a limit that holds: {says}", table)
        self.assertIn("# = on duty while away, or on a shift type that she never works\n", table)
        self.assertIn(
            f"above a limit that holds: {says}", run("roster", "why", *words, "--roster", ROSTER)[1]
        )
        self.assertIn(
            "Dilek: never more than 3 shifts.", run("roster", "check", *words, "--tell")[1]
        )

    def test_the_reason_of_an_absence_is_shown(self):
        off = next(
            (nurse, day)
            for nurse in WARD.nurses
            for day in range(7)
            if (nurse, day) not in {(cell.nurse, cell.day) for cell in self.rows}
        )
        given = self.give(Claim(Choice(1, *off, None)))
        reasons = self.folder / "reasons.txt"
        reasons.write_text(
            "REASONS\nward\n\nROWS = 1\n1"
            f" {off[0]} {('Mon', 'Tue', 'Wed', 'Thu', 'Fri', 'Sat', 'Sun')[off[1]]} leave\n"
        )
        words = (*WEEK_OPTIONS, *given, "--reasons", reasons, "--roster", ROSTER)
        self.assertIn(" leave ", run("roster", "show", *words)[1])
        self.assertIn(">leave</span>", run("roster", "show", *words, "--html")[1])

    def test_options_that_need_others(self):
        given = self.give()
        self.assert_fault(
            run("roster", "check", "--sce", SCENARIO, *given),
            "inrc2pb-roster: --given needs the whole week: give --sce, --his and --week",
        )
        self.assert_fault(
            run("roster", "show", *given, "--roster", ROSTER),
            "inrc2pb-roster: --given needs --sce and --week: give them too",
        )
        wrong = self.give(Claim(Choice(2, "Chen", 4, "Day")))
        line = (
            f"{self.facts}: 'HOLDS CHOICE 2 Chen Fri Day' is neither an absence nor a limit of a"
            " nurse: remove it"
        )
        self.assert_fault(
            run("solve", *WEEK_OPTIONS, *wrong, "--out", self.folder / "r.txt", "--time", ENOUGH),
            f"inrc2pb-solve: {line}",
        )

    @unittest.skipUnless(HAS_CBC, "needs cbc")
    def test_a_search_keeps_absences_and_limits(self):
        target = self.folder / "roster.txt"
        claims = [
            Claim(Choice(1, "Chen", 4, None)),
            Claim(Choice(1, "Grace", 6, "Day"), False),
            *(Claim(Charged(kind, None, 0)) for kind in ("WORK_DAYS", "WEEKENDS")),
        ]
        status, report, said = run(
            "solve", *WEEK_OPTIONS, *self.give(*claims), "--out", target, "--time", ENOUGH
        )
        self.assertEqual((status, "no roster was found" in said), (0, False), said)
        self.assertRegex(report, "\nlower bound [0-9]+ ")
        cells = files.read_solution(target).cells
        self.assertFalse(
            [cell for cell in cells if cell[:2] == ("Chen", 4) or cell[:3] == ("Grace", 6, "Day")]
        )
        self.assertEqual(
            run("roster", "check", *WEEK_OPTIONS, *self.give(*claims), "--roster", target)[1],
            "No mistake found.\n",
        )

    @unittest.skipUnless(HAS_CBC, "needs cbc")
    def test_absences_come_before_limits(self):
        # Three nurses have Charge, which one has to have on each day: with two of them away from
        # Monday to Saturday Ewa works six days in a row, and her contract allows three.
        away = [
            Claim(Choice(1, nurse, day, None)) for nurse in ("Amara", "Bruno") for day in range(6)
        ]
        target = self.folder / "roster.txt"
        given = self.give(*away, Claim(Charged("WORK_DAYS", "Ewa", 0)))
        status, _, said = run("solve", *WEEK_OPTIONS, *given, "--out", target, "--time", ENOUGH)
        self.assertEqual(status, 0, said)
        self.assertIn(
            (
                "no roster was found that keeps every limit: Ewa has 6 days of work in a row, Mon"
                " to Sat, of at most 3\n"
            ),
            said,
        )
        self.assertIn(
            (
                "lower minimum numbers, hold fewer shifts, or allow these nurses more; nobody with"
                " these skills has shifts left"
            ),
            said,
        )
        self.assertFalse(
            [
                cell
                for cell in files.read_solution(target).cells
                if cell.nurse in ("Amara", "Bruno") and cell.day < 6
            ]
        )
        period = self.folder / "period"
        status, printed, said = run(
            "solve", *WEEK_OPTIONS, "--week", WEEK, *given, "--out", period, "--time", ENOUGH
        )
        self.assertEqual(status, 0, said)
        self.assertIn(
            (
                "week 1: no roster was found that keeps every limit: Ewa has 6 days of work in a row,"
                " Mon to Sat, of at most 3\n"
            ),
            said,
        )
        self.assertNotIn("absence", said)

    @unittest.skipUnless(HAS_CBC, "needs cbc")
    def test_a_period_keeps_totals(self):
        # Both weeks ask for 26 shifts at least; nobody may have more than eight in two weeks, which
        # makes 56.
        few = self.changed(SCENARIO, "WEEKS = 4", "WEEKS = 2", "few.txt")
        few.write_text(
            few.read_text()
            .replace("Full (17,21)", "Full (4,8)")
            .replace("Half (8,11)", "Half (4,8)")
        )
        words = (
            "--sce",
            few,
            *WEEK_OPTIONS[2:],
            "--week",
            WEEK,
            *self.give(Claim(Charged("SHIFTS", None, 0))),
            "--out",
            self.folder / "period",
            "--time",
            ENOUGH,
        )
        status, printed, said = run("solve", *words)
        self.assertEqual((status, "no plan was found" in said), (0, False), said)
        cells = [
            cell
            for number in (0, 1)
            for cell in files.read_solution(self.folder / "period" / f"roster-{number}.txt").cells
        ]
        self.assertLessEqual(
            max(sum(cell.nurse == nurse for cell in cells) for nurse in WARD.nurses), 8
        )


if __name__ == "__main__":
    unittest.main()
