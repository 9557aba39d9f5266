"""Tests of maxima of shifts that hold, and that days away make a plan exceed: who is named, what
helps, and what a plan takes away."""

import datetime
import shutil
import unittest
from dataclasses import replace
from functools import cached_property

from test_kept_plans import KeptTest
from ward import HAS_CBC, run

from inrc2pb.sheets.ward import read_sheet
from inrc2pb.plans.verbs.away import absence
from inrc2pb.plans.verbs.set_day import set_day
from inrc2pb.plans.facts import newly_exceeded, unkept
from inrc2pb.plans.verb import Event
from inrc2pb.plans.sentences import days_away_lines, exceeded_lines, unkept_lines
from inrc2pb.plans.state import NurseDay
from inrc2pb.plans.plan_files import read_record, read_state, record_text
from inrc2pb.sheets.written_days import lost_shifts
from inrc2pb.plans.offers import fault_text
from inrc2pb.plans.state import Swap
from inrc2pb.plans.swaps import Swaps
from inrc2pb.plans.ward import continued, plan_of
from inrc2pb.plans.limits import limits_of

MOMENT = datetime.datetime(2026, 11, 29, 12, 0)
# In the stored plan each nurse with a full contract has ten shifts in 14 days, and Grace hers from
# Monday to Friday.
HOLDS = "in the period, and this limit holds"
NEEDS = "if the needs allow it; or allow her more"
# Days of a weekend with nothing beside them count as those from Monday to Friday: two as two of ten
# shifts in ten such days.
TWELVE = f"Grace has 12 shifts, 2 of them for days away, of at most 10 {HOLDS}"
# Her last two shifts are on Thursday and Friday.
TAKES_TWO = f"plan from Thu 10 Dec on, or from an earlier day, takes 2 away {NEEDS}"


class ExceededTest(KeptTest):
    """A ward in which full contracts have at least 8 and never more than 10 shifts."""

    def setUp(self):
        super().setUp()
        self.limits("8", "10!")

    def limits(self, *limits):
        """Full contracts have these limits of shifts."""
        self.rows["contracts"][1][1:3] = limits
        self.write()

    def days(self, *words):
        """The days of Grace in the spreadsheet."""
        self.rows["plan"][7][1:] = [*words, *[""] * (14 - len(words))]
        self.write()


class Lines(ExceededTest):
    def test_days_away_that_exceed_a_limit(self):
        for word in ("ill", "leave", "training"):
            self.days(*[""] * 5, word, word)
            self.assertEqual(list(days_away_lines(self.read())), [f"{TWELVE}: {TAKES_TWO}"], word)
            self.assertEqual(list(exceeded_lines(self.read())), [f"{TWELVE}: {TAKES_TWO}"], word)
            self.assertEqual(
                [
                    line
                    for line in unkept_lines(self.read(), unkept(self.read()))
                    if "Grace" in line
                ],
                [],
                word,
            )

    def test_days_away_within_a_limit(self):
        # A maximum without `!` may be exceeded, and 12 of 12 are not too many.
        self.days(*[""] * 5, "ill", "ill")
        for most in ("10", "12!"):
            self.limits("8", most)
            self.assertEqual(list(exceeded_lines(self.read())), [], most)
        # Two of her ten shifts are on days on which she is ill now, so the next plan has eight of
        # them.
        self.limits("8", "10!")
        self.days("ill", "ill")
        self.assertEqual(list(exceeded_lines(self.read())), [])

    def test_shifts_that_no_plan_takes_away(self):
        # Grace worked five shifts in week 1, and has none in week 2. Two days count as 2 * 5 / 10
        # shifts.
        self.limits("4", "5!")
        self.days(*[""] * 5, "ill", "ill")
        cells = [cell for cell in self.plan.cells if cell.nurse != "Grace" or cell.day < 7]
        says = f"Grace has 6 shifts, 1 of them for days away, of at most 5 {HOLDS}"
        over = (
            "no plan takes so many away, since the others were worked or are held: allow her more"
        )
        earlier = f"plan from Fri 4 Dec on, or from an earlier day, takes 1 away {NEEDS}"
        for first, cure in ((0, earlier), (1, over)):
            plan = self.read(cells)
            plan = plan.with_state(replace(plan.state, open_week=first))
            self.assertEqual(list(days_away_lines(plan)), [f"{says}: {cure}"], first)
        # The spreadsheet holds her shifts.
        own = [cell for cell in cells if cell.nurse == "Grace"]
        self.days(
            *[f"{cell.shift}/{cell.skill}" for cell in sorted(own, key=lambda cell: cell.day)],
            "ill",
            "ill",
        )
        self.assertEqual(list(days_away_lines(self.read(cells))), [f"{says}: {over}"])

    def test_who_leaves_after_training(self):
        # She is present on 7 of 14 days, so her ten shifts at most become five; her training counts
        # as two shifts.
        self.limits("7", "10!")
        self.days(*[""] * 5, "training", "training", *["away"] * 7)
        cells = [cell for cell in self.plan.cells if cell.nurse != "Grace" or cell.day < 7]
        says = f"Grace has 7 shifts, 2 of them for days away, of at most 5 {HOLDS}"
        cure = f"plan from Thu 3 Dec on, or from an earlier day, takes 2 away {NEEDS}"
        self.assertEqual(list(days_away_lines(self.read(cells))), [f"{says}: {cure}"])

    def test_a_limit_that_was_lowered(self):
        # Nobody is away, so a search never left it so; Ewa and Finn have other contracts.
        self.limits("8", "9!")
        lines = list(exceeded_lines(self.read()))
        self.assertEqual(
            [line.split(" ")[0] for line in lines], ["Amara", "Bruno", "Chen", "Dilek", "Grace"]
        )
        cure = f"plan from Fri 11 Dec on, or from an earlier day, takes 1 away {NEEDS}"
        self.assertIn(f"Grace has 10 shifts of at most 9 {HOLDS}: {cure}", lines)
        self.assertEqual(list(days_away_lines(self.read())), [])

    def test_other_limits_that_a_plan_exceeds(self):
        self.limits("0", "")
        self.rows["contracts"][1][4] = "4!"
        self.write()
        says = [line for line in exceeded_lines(self.read()) if "Grace" in line]
        rows = (
            ("1 (calendar week 49)", "Mon 30 Nov to Fri 4 Dec"),
            ("2 (calendar week 50)", "Mon 7 Dec to Fri 11 Dec"),
        )
        run_of = (
            "week {} exceeds a limit that holds: Grace has 5 days of work in a row, {}, of at most"
            " 4: plan again, or allow her more"
        )
        self.assertEqual(says, [run_of.format(*row) for row in rows])

    def test_limits_do_not_depend_on_who_looked_first(self):
        # Grace has two days of illness, and in the changed plan the shifts of three nurses.
        self.days(*[""] * 5, "ill", "ill")
        cells = {(one.nurse, one.day): one for one in self.plan.cells}
        moved = [one._replace(nurse="Grace") if one.nurse in ("Amara", "Bruno") and ("Grace", one.day) not in cells else one
                 for one in self.plan.cells]  # fmt: skip
        plain = self.read()
        looked = self.read()
        for name in (*vars(type(plain)), "data"):
            if isinstance(vars(type(plain)).get(name), (property, cached_property)):
                getattr(looked, name)
        for other in (
            lambda plan: plan,
            lambda plan: plan.with_cells(moved),
            lambda plan: plan_of(plan.ward, plan.state.with_open(moved)),
        ):
            one = other(plain)
            two = other(looked)
            self.assertEqual((one.limits, one.data), (two.limits, two.data))
        # A changed plan is judged by the limits of the plan that it was made from.
        self.assertEqual(looked.with_cells(moved).limits, plain.limits)

    def test_what_a_search_keeps(self):
        # A plan from a day on takes her shifts from this day on away: two of five, and none if
        # eight are before it.
        self.days(*[""] * 5, "ill", "ill")
        for first, kept in ((0, 0), (7, 0), (10, 0), (11, 1), (12, 2)):
            plan = self.read()
            kept_plan = replace(plan, limits=limits_of(plan.ward, plan.state, first))
            limits = {
                fact.nurse: fact.most
                for fact, _ in kept_plan.limits
                if getattr(fact, "kind", "") == "SHIFTS"
            }
            self.assertEqual(limits["Grace"], kept, first)
            named = any(
                "Grace has 12 shifts of at most 10" in line
                for line in unkept_lines(kept_plan, unkept(kept_plan))
            )
            self.assertEqual(
                (named, bool(list(days_away_lines(kept_plan)))), (kept < 2, kept == 2), first
            )


class DaysAwayOfAWard(ExceededTest):
    """Days away count as a ward counts them. Grace works Day from Monday to Friday in both weeks,
    which are ten shifts of `10!`."""

    def counted(self, *words):
        """The shifts and weekends as which her days of the spreadsheet count."""
        self.days(*words)
        ward = self.read().ward
        return ward.counted.shifts.get("Grace", 0), ward.counted.weekends.get("Grace", 0)

    def with_ill(self, plan, *days):
        """The plan with an illness on these days, by the verb."""
        return absence(plan, Event("ill", ("Grace", *map(plan.days.head, days)))).new

    def test_an_illness_on_the_wall_counts_its_shifts(self):
        published = self.read().with_state(replace(self.plan.state, published=True))
        for plan, days, shifts in (
            # Three shifts, and none on a day off.
            (published, (2, 4), 3),
            (published, (2, 6), 3),
            (published, (5, 6), 0),
            # Of a plan that nobody has seen no shift is known: from Monday to Friday.
            (self.read(), (2, 6), 3),
            (self.read(), (5, 6), 2),
        ):
            ill = self.with_ill(plan, *days)
            self.assertEqual(ill.ward.credit.get("Grace", 0), shifts, days)
            cells = [cell for cell in ill.cells if NurseDay(cell.nurse, cell.day) not in ill.away]
            if plan is published:
                # Neither owes she a shift, nor has she one too many.
                self.assertEqual(ill.with_cells(cells).shifts_of["Grace"], 10)
                self.assertEqual(list(exceeded_lines(ill.with_cells(cells))), [])

    def test_what_an_illness_counts_is_kept(self):
        plan = self.read().with_state(replace(self.plan.state, published=True))
        ill = self.with_ill(plan, 2, 4)
        gone = ill.with_cells(
            cell for cell in ill.cells if NurseDay(cell.nurse, cell.day) not in ill.away
        )
        # She is ill for longer, and then once more for the same days.
        longer = self.with_ill(gone, 4, 8)
        self.assertEqual(longer.ward.credit["Grace"], 3 + 2)
        state = replace(
            longer.state,
            cells=tuple(
                cell for cell in longer.cells if NurseDay(cell.nurse, cell.day) not in longer.away
            ),
        )
        self.assertEqual(
            lost_shifts(state.absences),
            {("Grace", day): int(day not in (5, 6)) for day in range(2, 9)},
        )
        again = continued(read_sheet(self.ward, None, state.absences), state)
        self.assertEqual((again.ward.credit["Grace"], again.shifts_of["Grace"]), (5, 10))
        record = state.record("ill", MOMENT)
        (self.last() / "plan.json").write_text(record_text(record))
        self.assertEqual(read_record(self.last()), record)

    def test_an_illness_that_only_the_spreadsheet_has(self):
        self.days("", "", "ill", "ill", "ill", "ill")
        state = replace(self.plan.state, published=True)
        plan = continued(read_sheet(self.ward, None, ()), state)
        self.assertEqual(plan.ward.credit["Grace"], 3)
        gone = plan.with_cells(
            cell for cell in plan.cells if NurseDay(cell.nurse, cell.day) not in plan.away
        )
        # The shifts are known when they are gone, and not any more when she is well again.
        self.assertEqual(
            continued(read_sheet(self.ward, None, gone.state.absences), gone.state).ward.credit[
                "Grace"
            ],
            3,
        )
        self.days()
        self.assertEqual(
            continued(read_sheet(self.ward, None, gone.state.absences), gone.state).ward.credit, {}
        )

    def test_training_is_a_shift_and_a_weekend(self):
        for words, found in (
            (["training"] * 5, (5, 0)),
            ([*[""] * 5, "training", "training"], (2, 1)),
            (["leave"] * 7, (5, 0)),
            ([*[""] * 5, "leave", "leave"], (2, 0)),
        ):
            self.assertEqual(self.counted(*words), found, words)

    def test_who_leaves_has_no_maximum_of_days_off(self):
        # Her contract has at most three days off in a row: the weekend before she leaves and her
        # two last days are four.
        for words, free in (
            ([""] * 12 + ["away", "away"], True),
            (["", "away", "away", ""], False),
            (["unpaid"], False),
        ):
            self.days(*words)
            self.assertEqual(
                self.read().scenario.contract_of("Grace").days_off.maximum > 14, free, words
            )


class SwapsBesideTraining(ExceededTest):
    """Full contracts have at most six days of work in a row. Grace works Day from Monday to Friday
    in both weeks."""

    LONG = (
        "Grace has 12 days in a row with work or training, Mon 30 Nov to Fri 11 Dec, and her"
        " contract at most 6 with work"
    )
    NIGHT = "Grace works Night on Sat 5 Dec, and has leave on Sun 6 Dec"

    def setUp(self):
        super().setUp()
        self.rows["contracts"][1][1:5] = ["8", "20", "3", "6!"]
        self.write()

    def judged(self, nurse, day, *words):
        """The faults of a swap in which Grace takes the nurse's shift of this day, and whether it
        is on offer, if the spreadsheet has these words for her."""
        self.days(*words)
        swaps = Swaps(self.read())
        swap = Swap(nurse, "Grace", (day,))
        return [fault_text(swaps.plan, fault) for fault in swaps.faults(swap)], swap in [
            offer.swap for offer in swaps.offers(nurse, day)
        ]

    def test_too_many_days_in_a_row_with_training(self):
        # With Sunday she works eleven days, in rows of five and of six, and with training on
        # Saturday twelve in a row.
        self.assertEqual(self.judged("Dilek", 6), ([], True))
        self.assertEqual(self.judged("Dilek", 6, *[""] * 5, "training"), ([self.LONG], False))
        # Days of leave are no work.
        self.assertEqual(self.judged("Dilek", 6, *[""] * 5, "leave"), ([], True))

    def test_a_night_before_leave(self):
        self.assertEqual(self.judged("Chen", 5), ([], True))
        self.assertEqual(self.judged("Chen", 5, *[""] * 6, "leave"), ([self.NIGHT], False))
        # Nobody comes to an illness from a night shift: it is not known before.
        self.assertEqual(self.judged("Chen", 5, *[""] * 6, "ill"), ([], True))

    def test_a_swap_that_makes_nothing_worse(self):
        # Her first row is too long before and after a sixth shift in the second week, which only
        # costs points.
        self.rows["contracts"][1][4] = "5"
        self.assertEqual(self.judged("Dilek", 12, *[""] * 5, "training"), ([], True))

    def test_the_verb_says_why_and_writes_nothing(self):
        self.days(*[""] * 5, "training")
        before = self.last()
        status, printed, _ = run("plan", self.ward, "swap", "Dilek", "2026-12-06", "Grace", "--do")
        self.assertEqual(
            (status, printed.splitlines()[:2]),
            (6, [f"not possible: {self.LONG}", "nothing is written"]),
        )
        self.assertEqual(self.last(), before)
        self.assertNotIn("Grace takes it", printed)


class Questions(ExceededTest):
    """No verb writes a plan that exceeds a maximum that holds before it has asked."""

    ASKS = (
        "nothing is written, since a maximum that holds would be exceeded: do what helps, or type"
        " it again with --do\n"
    )

    def asks(self, *words):
        """The lines of a verb that asks and writes nothing."""
        before = self.texts()
        status, printed, said = run("plan", self.ward, *words)
        self.assertEqual((status, self.texts()), (6, before), said)
        self.assertTrue(printed.endswith(self.ASKS), printed)
        return printed

    def test_an_absence_that_counts_too_many_shifts(self):
        # Her ten shifts of ten at most are on Monday to Friday. It asks before a search.
        for word in ("leave", "training"):
            printed = self.asks(word, "Grace", "Sat", "Sun")
            self.assertIn(f"{TWELVE}: {TAKES_TWO}\n", printed)

    def test_an_illness_of_a_plan_on_the_wall_exceeds_nothing(self):
        self.does("page")
        plan = continued(read_sheet(self.ward, None, ()), read_state(self.last()))
        self.assertFalse(
            newly_exceeded(plan, absence(plan, Event("ill", ("Grace", "Wed", "Sun"))).there)
        )

    def test_training_that_makes_days_in_a_row_too_many(self):
        self.rows["contracts"][1][1:5] = ["8", "20", "3", "6!"]
        self.write()
        plan = self.read()
        for word, exceeds in (("training", True), ("leave", False)):
            found = absence(plan, Event(word, ("Grace", "Sat", "Sun")))
            self.assertEqual(newly_exceeded(plan, found.there), exceeds, word)
        # The week before was so already: a day without a change is not new.
        self.assertFalse(newly_exceeded(plan, plan))
        self.assertTrue(
            newly_exceeded(None, absence(plan, Event("training", ("Grace", "Sat", "Sun"))).there)
        )

    def test_the_end_of_a_week_with_corrections(self):
        # Bruno has ten shifts of ten at most, and worked on Saturday too.
        printed = self.asks("over", "Bruno", "Sat", "Late")
        self.assertIn(
            "Bruno has 11 shifts of at most 10 in the period, and this limit holds", printed
        )
        self.assertIn(
            "week 1 (calendar week 49) is over", self.does("over", "Bruno", "Sat", "Late", "--do")
        )

    def test_swaps_and_days_that_are_set_are_refused_with_do_too(self):
        self.rows["contracts"][1][1:5] = ["8", "20", "3", "6!"]
        self.days(*[""] * 5, "training")
        before = self.texts()
        for words in (
            ("swap", "Dilek", "2026-12-06", "Grace", "--do"),
            ("set", "Grace", "2026-12-06", "Day", "--do", "--time", "0"),
        ):
            status, printed, _ = run("plan", self.ward, *words)
            self.assertEqual((status, self.texts()), (6, before))
            self.assertIn(f"not possible: {SwapsBesideTraining.LONG}\n", printed)
        # Who else could have it is told without her.
        found = set_day(self.read(), Event("set", ("Dilek", "2026-12-06", "Late")))
        self.assertNotIn("Grace", [one.nurse for one in found.instead])


@unittest.skipUnless(HAS_CBC, "cbc is not installed")
class Verbs(ExceededTest):
    def test_a_plan_that_cannot_keep_a_limit_is_a_question(self):
        # Five nurses with one shift each, and two with a half contract, for 26 shifts a week. There
        # is no plan that exceeded it before.
        self.limits("0", "1!")
        shutil.rmtree(self.last())
        status, printed, said = self.runs("plan")
        self.assertEqual((status, self.texts()), (6, {}), said)
        self.assertTrue(printed.endswith(Questions.ASKS), printed)
        status, printed, said = self.runs("plan", "--do")
        self.assertEqual((status, bool(self.texts())), (6, True), said)
        self.assertIn(
            "this plan is written, but it does not keep what the first lines say", printed
        )

    def named(self, *words):
        """The lines that the verb prints on maxima of shifts."""
        _, printed, _ = self.runs(*words)
        return [line for line in printed.splitlines() if HOLDS in line]

    def page_has(self, line):
        """Whether the page with costs has the line; that for the wall has none."""
        wall = self.ward / "wall.html"
        self.assertFalse(wall.exists() and HOLDS in wall.read_text())
        return line in (self.ward / "roster.html").read_text()

    def test_leave_is_named_by_each_verb_until_a_plan_takes_shifts_away(self):
        self.does("page")
        line = f"{TWELVE}: {TAKES_TWO}"
        before = self.last()
        self.assertEqual(self.named("leave", "Grace", "Sat", "Sun"), [line])
        self.assertEqual(self.last(), before)
        self.assertEqual(self.named("leave", "Grace", "Sat", "Sun", "--do"), [line])
        self.assertNotEqual(self.last(), before)
        self.assertEqual(sum(nurse == "Grace" for nurse, _ in self.cells()), 10)
        self.assertTrue(self.page_has(line))
        self.assertEqual(self.named("check"), [f"warning: {line}"])
        self.assertEqual(self.named("page"), [line])
        self.assertEqual(self.named("undo"), [line])
        self.assertEqual(self.named("over"), [line])
        self.assertEqual(self.named("undo"), [line])
        self.assertEqual(self.named("plan"), [])
        self.assertEqual(sum(nurse == "Grace" for nurse, _ in self.cells()), 8)
        self.assertEqual(self.named("check"), [])
        self.assertFalse(self.page_has(HOLDS))

    def test_training_is_named_and_a_swap_beside_it(self):
        # Bruno has ten shifts, too.
        self.does("page")
        free = next(day for day in range(14) if ("Bruno", day) not in self.cells())
        day = self.plan.days.head(free)
        says = f"Bruno has 11 shifts, 1 of them for days away, of at most 10 {HOLDS}"
        (line,) = self.named("training", "Bruno", day, "--do")
        self.assertTrue(line.startswith(says), line)
        self.assertTrue(self.page_has(line))
        state = read_state(self.last())
        plan = continued(read_sheet(self.ward, None, state.absences), state)
        offers = [
            one.swap
            for day in range(7)
            if plan.works.get(("Finn", day))
            for one in Swaps(plan).offers("Finn", day)
        ]
        one, other, days = next(
            swap for swap in offers if swap.other not in ("Bruno", "Finn") and len(swap.days) == 1
        )
        self.assertEqual(self.named("swap", one, plan.days.head(days[0]), other, "--do"), [line])

    def test_a_plan_after_a_limit_was_lowered_keeps_it(self):
        self.days(*[""] * 5, "ill", "ill")
        self.limits("8", "12!")
        self.does("page")
        self.limits("8", "10!")
        self.assertEqual(self.named("check"), [f"warning: {TWELVE}: {TAKES_TWO}"])
        self.assertEqual(self.named("plan"), [])
        self.assertEqual(sum(nurse == "Grace" for nurse, _ in self.cells()), 8)


if __name__ == "__main__":
    unittest.main()
