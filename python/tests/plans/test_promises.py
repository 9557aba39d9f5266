"""Tests of promises: what `set` has promised stays in swaps, offers and later plans, is seen on the
pages, and is taken back by `set .. back` after whatever came between."""

import json
import random
import unittest
from dataclasses import replace
from test_set_days import WRITE, SetTest
from unittest import mock
from ward import HAS_CBC, run
from xml.etree import ElementTree

from inrc2pb.plans import kept, pages, planning
from inrc2pb.plans.needless_changes import without_needless_changes
from inrc2pb.plans.exchanges import more_even
from inrc2pb.plans.changes import broken_agreements
from inrc2pb.plans.offers import offers_of
from inrc2pb.plans.pages import Pages
from inrc2pb.plans.searching import Asked, Keep
from inrc2pb.plans.verbs import set_day, swap
from inrc2pb.plans.verb import Event, Status
from inrc2pb.plans.searching import Found, kept_agreed
from inrc2pb.plans.state import SetDay
from inrc2pb.plans.plan_files import read_record, read_state
from inrc2pb.plans.store import Means, PlanStore
from inrc2pb.plans.state import Swap
from inrc2pb.plans.swaps import Swaps
from inrc2pb.judging.obstacles import Obstacle
from inrc2pb.plans.table import Verbs
from inrc2pb.plans.ward import continued
from inrc2pb.plans.ward_folder import WardFolder
from inrc2pb.programs.progress import Progress
from inrc2pb.shown.page import page_text
from inrc2pb.week.faults import Misuse
from inrc2pb.week.records import NurseDay

# Grace works Day on each weekday, Finn Late on Monday, Tuesday and from Friday on, and Chen Night
# from Friday on.
FRIDAY = SetDay("Grace", 4, "her sister marries", "Day", "Nurse")
FREE = SetDay("Grace", 5, "", "", "")


class PromiseTest(SetTest):
    def promising(self, *promises, plan=None):
        """The stored plan with these promises."""
        plan = plan or self.plan
        return plan.with_state(replace(plan.state, set_days=promises))


class Swapping(PromiseTest):
    def test_a_swap_of_a_promised_day_is_refused_with_the_promise_and_the_way_out(self):
        plan = self.promising(FRIDAY)
        (fault,) = [
            one
            for one in Swaps(plan).faults(Swap("Grace", "Finn", (4,)))
            if one.kind is Obstacle.PROMISED
        ]
        self.assertEqual((fault.nurse, fault.day, fault.promise), ("Grace", 4, FRIDAY))
        found = swap.judged(plan, Swap("Finn", "Grace", (4,)), None, has_offers=False)
        says = (
            "not possible: Grace is promised Day Nurse on Fri 4 Dec (her sister marries): take that"
            " back first, with set Grace 2026-12-04 back --do, and then swap"
        )
        self.assertEqual(
            (found.status, found.lines(WRITE)[:2]), (Status.NOT_KEPT, [says, "nothing is written"])
        )
        self.assertEqual(
            swap.judged(self.plan, Swap("Finn", "Grace", (4,)), None, has_offers=False).status,
            Status.DONE,
        )

    def test_a_promised_day_off_is_taken_by_no_swap(self):
        plan = self.promising(FREE)
        # Finn has Late on Saturday.
        self.assertIn(
            Obstacle.PROMISED, [one.kind for one in Swaps(plan).faults(Swap("Grace", "Finn", (5,)))]
        )
        self.assertEqual(
            [
                one
                for one in Swaps(plan).faults(Swap("Grace", "Finn", (4,)))
                if one.kind is Obstacle.PROMISED
            ],
            [],
        )

    def test_offers_have_no_promised_day(self):
        swaps = Swaps(self.plan)
        # Each offer of the stored plan is gone if a day that it moves is promised, and others stay.
        tried = 0
        for nurse, day in (("Grace", 4), ("Finn", 5), ("Chen", 4)):
            for offer in swaps.offers(nurse, day):
                for place in offer.swap.places:
                    cell = self.plan.works.get(place)
                    one = SetDay(*place, "", cell.shift if cell else "", cell.skill if cell else "")
                    left = Swaps(self.promising(one)).offers(nurse, day)
                    moves = {
                        NurseDay(who, on)
                        for who in (offer.swap.nurse, offer.swap.other)
                        for on in offer.swap.days
                    }
                    self.assertIn(place, moves)
                    self.assertFalse(
                        [
                            other
                            for other in left
                            if place in other.swap.places and self.moved(other.swap, place)
                        ]
                    )
                    tried += 1
        self.assertGreater(tried, 10)

    def moved(self, swap, place):
        """Whether a swap gives a nurse another shift on her day."""
        other = swap.other if place.nurse == swap.nurse else swap.nurse
        cells = [self.plan.works.get(NurseDay(nurse, place.day)) for nurse in (place.nurse, other)]
        return (cells[0] and cells[0][2:]) != (cells[1] and cells[1][2:])

    def test_a_shift_that_is_promised_is_offered_to_nobody(self):
        found = offers_of(Swaps(self.promising(FRIDAY)), "Grace", 4)
        self.assertEqual(found.offers, ())
        (said,) = found.lines()
        self.assertIn(
            (
                "nobody can take Grace's Day on Fri 4 Dec: Grace is promised Day Nurse on Fri 4 Dec"
                " (her sister marries): take"
            ),
            said,
        )

    def test_who_else_could_have_a_shift_is_nobody_with_a_promise(self):
        found = self.asked("Grace", "Mon", "Late")
        self.assertEqual({one.nurse for one in found.instead}, {"Chen", "Ewa"})
        found = set_day.set_day(
            self.promising(SetDay("Chen", 0)), Event("set", ("Grace", "Mon", "Late"))
        )
        self.assertEqual({one.nurse for one in found.instead}, {"Ewa"})


class Replacing(PromiseTest):
    def test_what_is_replaced_is_said(self):
        found = set_day.set_day(
            self.promising(FRIDAY), Event("set", ("Grace", "Fri", "off", "she", "asked"))
        )
        self.assertEqual(found.replaces, FRIDAY)
        self.assertEqual(found.new.state.set_days, (SetDay("Grace", 4, "she asked", "", ""),))
        said = found.lines(WRITE)
        self.assertEqual(
            said[0],
            "this replaces what was promised: Grace, Fri 4 Dec: Day Nurse (her sister marries)",
        )
        self.assertEqual(
            said[-1], "who else could do it is known after the older promise is taken back"
        )
        self.assertNotIn("this replaces", "\n".join(self.said("Grace", "Fri", "off")))

    def test_a_swap_stays_below_a_promise_of_the_same_shift(self):
        agreed = (NurseDay("Grace", 4), NurseDay("Finn", 4))
        plan = self.plan.with_state(replace(self.plan.state, agreed=agreed))
        same = set_day.set_day(plan, Event("set", ("Grace", "Fri", "Day"))).new
        self.assertEqual((same.state.agreed, len(same.state.kept)), (agreed, 2))
        other = set_day.set_day(plan, Event("set", ("Grace", "Fri", "off"))).new
        self.assertEqual(other.state.agreed, agreed[1:])

    def test_what_there_is_to_take_back(self):
        self.rows["plan"][7][1:3] = ["off", "Day"]
        self.write()
        plan = self.read()
        plan = plan.with_state(replace(plan.state, agreed=(NurseDay("Grace", 3),)))
        sheet = (
            "the sheet plan promises it to her, so empty her cell of this day, and save the sheet"
        )
        for day, cure in (
            ("Mon", sheet),
            ("Tue", sheet),
            (
                "Thu",
                (
                    "the day is kept for a swap, which the same line as that of the swap, with"
                    " --do, takes back"
                ),
            ),
            ("Fri", "set it first, or type undo"),
        ):
            with self.subTest(day), self.assertRaises(Misuse) as caught:
                set_day.set_day(plan, Event("set", ("Grace", day, "back")))
            self.assertRegex(
                str(caught.exception), f"^nothing is set for Grace on {day} .*: {cure}$"
            )


class LaterPlans(PromiseTest):
    def test_a_search_keeps_what_is_promised_and_not_what_is_planned(self):
        # An illness has taken the promised shift of Friday, and the plan has another one on
        # Thursday.
        promises = FRIDAY, FREE, SetDay("Grace", 3, "", "Late", "Nurse")
        plan = self.promising(*promises)
        for how in Keep:
            kept = kept_agreed(plan, Asked(0, True, 1.0, how))
            self.assertEqual(kept, {one.place: one.cell for one in promises})
        # What cannot be is not kept: she is away, never works it, has not the skill, or the day is
        # before the first one.
        self.assertEqual(set(kept_agreed(plan, Asked(4, True, 1.0))), {FRIDAY.place, FREE.place})
        self.rows["plan"][7][5] = "ill"
        self.write()
        plan = self.promising(
            FRIDAY,
            SetDay("Grace", 3, "", "Day", "Charge"),
            SetDay("Finn", 3, "", "Night", "Nurse"),
            plan=self.read(),
        )
        self.assertEqual(kept_agreed(plan, Asked(0, True, 1.0)), {})

    def test_needless_changes_are_not_taken_back_to_a_broken_promise(self):
        # The old plan has Grace off on Friday, against the promise; the new one has it.
        old = self.promising(FRIDAY).with_cells(
            cell for cell in self.plan.cells if (cell.nurse, cell.day) != ("Grace", 4)
        )
        new = old.with_cells(self.plan.cells)
        self.assertEqual(without_needless_changes(old, new).works[FRIDAY.place], FRIDAY.cell)

    def test_exchanges_that_cost_nothing_leave_promises(self):
        plan = self.promising(
            *(SetDay(cell.nurse, cell.day, "", cell.shift, cell.skill) for cell in self.plan.cells)
        )
        self.assertEqual(more_even(plan, 0, 20_000).works, plan.works)

    def test_a_broken_promise_is_told_once_while_she_is_away_and_else_each_time(self):
        without = [cell for cell in self.plan.cells if (cell.nurse, cell.day) != ("Grace", 4)]
        old = self.promising(FRIDAY)
        broken = self.promising(FRIDAY).with_cells(without)
        self.assertEqual(broken_agreements(old, old), [])
        self.assertEqual([one.place for one in broken_agreements(old, broken)], [FRIDAY.place])
        self.assertEqual([one.place for one in broken_agreements(broken, broken)], [FRIDAY.place])
        self.rows["plan"][7][5] = "ill"
        self.write()
        away = self.promising(FRIDAY, plan=self.read(without))
        self.assertEqual([one.place for one in broken_agreements(old, away)], [FRIDAY.place])
        self.assertEqual(broken_agreements(away, away), [])

    def test_a_promise_whose_names_the_spreadsheet_has_not_any_more(self):
        plan = self.promising(FREE, SetDay("Grace", 4, "", "Twilight", "Nurse"))
        self.assertEqual(continued(plan.ward, plan.state).state.set_days, (FREE,))


class Seen(PromiseTest):
    def marked(self, content):
        """The nurses and columns whose cells say that they are promised."""
        table = next(ElementTree.fromstring(page_text(content).partition("\n")[2]).iter("table"))
        return {
            (row[0].text, column)
            for row in table.iter("tr")
            for column, cell in enumerate(row)
            if "promised: swaps and later plans keep it" in "".join(cell.itertext())
        }

    def test_a_promise_is_marked_on_the_roster_and_on_the_wall(self):
        plan = self.promising(FRIDAY, FREE)
        content = pages.roster_content(self.ward, plan)
        for page in (content, replace(content, only_table=True)):
            self.assertEqual(self.marked(page), {("Grace", 5), ("Grace", 6)})
            self.assertIn(
                "<li>\u2713 = promised: swaps and later plans keep it</li>", page_text(page)
            )
        self.assertNotIn("\u2713", page_text(pages.roster_content(self.ward, self.plan)))

    def test_a_promise_that_the_plan_does_not_keep_has_no_mark(self):
        plan = self.promising(FRIDAY).with_cells(
            cell for cell in self.plan.cells if (cell.nurse, cell.day) != ("Grace", 4)
        )
        self.assertEqual(self.marked(pages.roster_content(self.ward, plan)), set())

    def test_promises_of_the_spreadsheet_are_marked_too(self):
        self.rows["plan"][7][6] = "off"
        self.rows["plan"][7][1] = "Day"
        self.write()
        content = pages.roster_content(self.ward, self.read())
        for page in (content, replace(content, only_table=True)):
            self.assertEqual(self.marked(page), {("Grace", 1), ("Grace", 6)})
            # One sign says it.
            self.assertNotIn("= held", page_text(page))


class Files(PromiseTest):
    def test_the_file_of_a_plan_has_the_promised_shift(self):
        self.does("set", "Grace", "Sat", "Day", "asked", "for", "--do")
        path = self.last() / "plan.json"
        self.assertEqual(
            json.loads(path.read_text())["set days"], [["Grace", 5, "asked for", "Day", "Nurse"]]
        )
        self.assertEqual(
            read_record(self.last()).set_days, (SetDay("Grace", 5, "asked for", "Day", "Nurse"),)
        )
        # An older version has kept nothing of the shift, which is that of the roster.
        path.write_text(path.read_text().replace(', "Day", "Nurse"]', "]"))
        self.assertEqual(
            read_state(self.last()).set_days, (SetDay("Grace", 5, "asked for", "Day", "Nurse"),)
        )


def searched(old, asked, progress):
    """In place of a search: the plan as it was, but for days away, with what a search keeps."""
    kept = kept_agreed(old, asked)
    works = {one: cell for one, cell in old.works.items() if one not in old.away}
    return Found(old.with_cells(cell for cell in {**works, **kept}.values() if cell))


class Sequences(PromiseTest):
    """Verbs one after another in a random order that is always the same. `promised` has what should
    be promised, and `older` what was so before each verb that has written something."""

    def setUp(self):
        super().setUp()
        self.verbs = Verbs(WardFolder(self.ward), Means(Progress(None), lambda line: None))
        self.promised = {}
        self.older = []
        self.refused = 0
        for where, name, made in (
            # No file is changed but by a verb, so those of the last seconds are kept, too.
            (kept, "STEP", 0),
            (planning, "search_plan", searched),
            (planning, "penalties", lambda plan: {}),
            (swap, "penalties", lambda plan: {}),
            (set_day, "penalties", lambda plan: {}),
            (PlanStore, "pages", lambda store, *_: Pages()),
        ):
            patch = mock.patch.object(where, name, made)
            patch.start()
            self.addCleanup(patch.stop)

    def done(self, verb, *words):
        """What comes of a verb; None if it is refused."""
        try:
            return self.verbs.done(Event(verb, words, seconds=0.2, do=True))
        except Misuse:
            return None

    def head(self, day):
        return self.plan.days.head(day)

    def event(self, chance, first):
        """The words of a verb, and what is promised after it, if it writes something."""
        nurse, other = chance.sample([*self.plan.scenario.nurses], 2)
        day = self.head(chance.randrange(first, 14))
        kind = chance.choice(
            ["set"] * 5
            + ["swap"] * 5
            + ["ill", "back", "back", "plan", "undo", "undo", "take back", "take back"]
        )
        if kind == "set":
            return ("set", nurse, day, chance.choice(["off", "Day", "Late", "Night"]))
        if kind == "swap":
            place = chance.choice([NurseDay(nurse, self.plan.days.number(day, 0)), *self.promised])
            return (
                "swap",
                place.nurse,
                self.head(place.day),
                other if other != place.nurse else nurse,
            )
        if kind == "take back" and self.promised:
            place = chance.choice([*self.promised])
            return ("set", place.nurse, self.head(place.day), "back")
        if kind in ("ill", "back"):
            return (kind, nurse, day)
        return ("undo",) if kind == "undo" else ("plan",)

    def check(self, words):
        """What is promised is in the plan, unless the nurse is away, and no swap that is offered
        moves it."""
        plan = self.verbs.current()
        self.assertEqual(
            {place: one.cell for place, one in plan.state.promised.items()}, self.promised, words
        )
        for place, cell in self.promised.items():
            if plan.away.get(place, "off") == "off":
                self.assertEqual(plan.works.get(place), cell, (words, place))

    def does_next(self, words):
        """Does a verb, and keeps count of what should be promised."""
        before = dict(self.promised)
        stack = [*self.older]
        place = (
            NurseDay(words[1], self.plan.days.number(words[2], 0)) if words[0] == "set" else None
        )
        outcome = self.done(*words)
        if outcome is None or not outcome.is_written:
            self.refused += any(fault.promise for fault in getattr(outcome, "faults", ()))
            self.assertNotEqual(words[3:], ("back",), "what is promised can be taken back")
        elif words[0] == "undo":
            self.promised = self.older.pop()
        else:
            self.older = [*stack, before]
            if place and getattr(outcome, "takes_back", False):
                del self.promised[place]
            elif place:
                new = outcome.new if isinstance(outcome, set_day.DaySet) else outcome.plan
                self.promised[place] = new.works.get(place)
        self.check(words)

    def test_promises_hold_and_can_be_taken_back_after_any_verbs(self):
        for seed in range(3):
            chance = random.Random(seed)
            with self.subTest(seed=seed):
                for _ in range(40):
                    if not self.older:
                        # The stored plan is not undone.
                        self.does_next(("set", "Grace", self.head(chance.randrange(5)), "off"))
                    self.does_next(self.event(chance, 0))
        self.assertGreater(self.refused, 2)

    def test_the_end_of_a_week_ends_its_promises_and_undo_brings_them_back(self):
        for words in (
            ("set", "Grace", self.head(5), "Day"),
            ("set", "Grace", self.head(7), "off"),
            ("ill", "Grace", self.head(5)),
        ):
            self.does_next(words)
        both = dict(self.promised)
        self.done("over")
        self.promised = {NurseDay("Grace", 7): None}
        self.check("over")
        self.assertIsNone(self.done("set", "Grace", self.head(5), "back"))
        self.done("undo")
        self.promised = both
        self.check("undo")
        self.assertTrue(self.done("set", "Grace", self.head(5), "back").takes_back)


@unittest.skipUnless(HAS_CBC, "cbc is not installed")
class Searches(PromiseTest):
    def test_set_ill_swap_plan_back_undo_and_set_back(self):
        saturday = ("Grace", 5)
        self.does("page")
        self.does("set", "Grace", "Sat", "Day", "--do")
        # Finn has Late on Saturday.
        status, printed, _ = run("plan", self.ward, "swap", "Grace", "Sat", "Finn", "--do")
        self.assertEqual(status, 6)
        self.assertIn(
            "not possible: Grace is promised Day Nurse on Sat 5 Dec: take that back first, ",
            printed,
        )
        self.assertNotIn("Grace takes it", self.does("swap", "Finn", "Sat"))
        for words, stays in (
            (("plan",), True),
            (("ill", "Grace", "Fri", "Sat"), False),
            (("plan", "--free"), False),
            (("back", "Grace", "Sat"), True),
            (("ill", "Dilek", "Mon"), True),
        ):
            with self.subTest(words):
                self.does(*words)
                self.assertEqual(self.cells().get(saturday), ("Day", "Nurse") if stays else None)
                self.assertEqual(
                    [one.place for one in read_state(self.last()).set_days], [saturday]
                )
        self.does("undo")
        self.assertIn(
            "swaps and later plans may change it again",
            self.does("set", "Grace", "Sat", "back", "--do"),
        )
        self.assertEqual(read_state(self.last()).set_days, ())


if __name__ == "__main__":
    unittest.main()
