"""Tests of dives that fix the weeks of nurses."""

import itertools
import math
import pickle
import random
import unittest
from unittest import mock

from test_row_parts import CHOICES, EARLY, LONG, OFF, DiveTest, search_of
from ward import HAS_CBC

from inrc2pb.programs.clock import Clock, TimeIsOver
from inrc2pb.rows import plan, week_dives, windows
from inrc2pb.rows.descent import all_off
from inrc2pb.rows.plan import POINT
from inrc2pb.rows.part_search import Dive, Done, PartSearch
from inrc2pb.rows.row_parts import RowParts
from inrc2pb.rows.row_program import RowProgram
from inrc2pb.rows.week_dives import WeekDives, _Week
from inrc2pb.rows.windows import Window
from inrc2pb.rows.workers import Worker
from inrc2pb.solvers.resident_program import DUAL, INFEASIBLE, PRIMAL, LinearProgram


class Kept(unittest.TestCase):
    def test_the_cheapest_rows_with_choices_that_are_kept(self):
        whole = search_of(1)
        chance = random.Random(3)
        gains = whole.pricing.crews.gains(
            [chance.choice((0, 7_123, 30_000)) for _ in whole.pricing.crews.places]
        )
        row = whole.rows[4]
        kept = whole.pricing.keeping([(4, range(0, 4), row[:4]), (4, range(6, 7), row[6:])])
        values = []
        for two in itertools.product(CHOICES, repeat=2):
            other = row[:4] + bytes(two) + row[6:]
            cost = whole.pricing.cost(4, other)
            if cost is not None:
                values.append(
                    POINT * cost
                    - sum(
                        gains[whole.pricing.crews.of[4][day][choice]]
                        for day, choice in enumerate(other)
                    )
                )
        found = kept.cheapest(4, gains)
        self.assertEqual(
            (found.value, found.row[:4], found.row[6:]), (min(values), row[:4], row[6:])
        )
        self.assertEqual(
            kept.cheapest_of(range(30), gains), [kept.cheapest(nurse, gains) for nurse in range(30)]
        )
        self.assertEqual(kept.cheapest(5, gains), whole.pricing.cheapest(5, gains))


@unittest.skipUnless(HAS_CBC, "needs cbc")
class Dives(DiveTest):
    def test_dives_end_near_the_bound_and_the_same_chance_at_the_same_roster(self):
        for weeks in (1, 2):
            search = self.generated(weeks)
            lower = search.lower_bound
            value = search.solved.value
            pricing = search.pricing
            # Without a share it fixes as much at once as the solutions allow.
            for share, seed in ((0.0, None), (0.08, None), (0.3, 3)):
                with self.subTest(weeks=weeks, share=share):
                    rows = search.dive(search.clock, share, seed and random.Random(seed))
                    # A linear program that is not held back by any weeks again has its value.
                    self.assertLessEqual(search.program.solve(search.clock).value, value + 1e-6)
                    self.assertIs(search.pricing, pricing)
                    self.assertLessEqual(lower, search.value_of(rows))
                    self.assertLess(search.value_of(rows), lower + 100)
        one, other = (self.generated().dive(Clock(LONG), 0.2, random.Random(5)) for _ in range(2))
        self.assertEqual(one, other)

    def test_the_dual_method_comes_after_weeks_were_fixed(self):
        search = self.generated(1)
        asked = []
        solve = RowProgram.solve

        def watched(program, clock, how=PRIMAL):
            asked.append(how)
            return solve(program, clock, how)

        fixings = mock.Mock(side_effect=search._fix)
        with mock.patch.object(RowProgram, "solve", watched), mock.patch.object(
            search, "_fix", fixings
        ):
            self.assertIsNotNone(search.dive(search.clock))
        self.assertEqual(asked[0], PRIMAL)
        self.assertEqual(asked.count(DUAL), fixings.call_count)

    def test_a_program_that_the_dual_method_does_not_solve(self):
        search = self.generated(1)
        asked = []
        resident = search.program._program
        solve = resident.solve
        value = search.solved.value

        def failing(clock, how, iterations):
            asked.append(how)
            found = solve(clock, how, iterations)
            return found._replace(status=INFEASIBLE) if how == DUAL else found

        with mock.patch.object(resident, "solve", failing):
            self.assertAlmostEqual(search.program.solve(search.clock, DUAL).value, value, 6)
        self.assertEqual(asked, [DUAL, PRIMAL])

    def test_shut_columns_leave_the_program_of_a_dive(self):
        search = self.generated()
        solved = []
        whole = search.program
        before = len(search.program.columns)
        solve = RowProgram.solve

        def watched(program, clock, how=PRIMAL):
            solved.append((program, len(program.columns)))
            return solve(program, clock, how)

        with mock.patch.object(RowProgram, "solve", watched):
            rows = search.dive(search.clock, 0.3)
        self.assertIsNotNone(rows)
        # When weeks are fixed few of the columns are left. Only those that the last fixing shuts
        # are in a program that is solved.
        self.assertIs(solved[0][0], whole)
        self.assertLess(solved[-1][1], before / 2)
        self.assertGreater(len({id(program) for program, _ in solved}), 2)
        # The rows that the dive found are in the whole program.
        self.assertIs(search.program, whole)
        self.assertGreater(len(whole.columns), before)
        self.assertFalse(whole._shut)
        for nurse, row in enumerate(rows):
            self.assertFalse(whole.add(nurse, row, search.pricing.cost(nurse, row)))

    def test_a_dive_of_another_process_begins_at_the_solution_of_the_whole_program(self):
        search = self.generated()
        offered = []
        known = pickle.loads(pickle.dumps(search.known()._replace(program=search.program)))
        parts = PartSearch(search.pricing, known, self.solver.beside(1))
        part = known.program.open_part(self.solver.beside(1).program())
        self.assertAlmostEqual(part.solve(search.clock).value, search.solved.value, 6)
        self.assertEqual(part.iterations, known.program.iterations)
        done = parts.dive(
            search.clock,
            lambda rows, _finder: offered.append(rows) or True,
            Dive(0.3, False, None, None),
        )
        self.assertTrue(done.ended)
        self.assertLess(search.value_of(offered[-1]), search.lower_bound + 100)

    def test_a_dive_apart_begins_without_the_rows_of_the_first_roster(self):
        search = self.generated(1, all_off)
        first = {(nurse, row) for nurse, row in enumerate(search.rows)}
        begun = []
        known = search.known()._replace(program=search.program)
        parts = PartSearch(search.pricing, known, self.solver.beside(1))
        generate = WeekDives.generate

        def see(own, clock):
            begun.append({column[:2] for column in own.program.columns})
            generate(own, clock)

        with mock.patch.object(WeekDives, "generate", see):
            for is_apart in (False, True):
                done = parts.dive(search.clock, lambda *_: True, Dive(0.3, is_apart, 7, None))
                self.assertTrue(done.ended)
        self.assertEqual(len(first), 30)
        self.assertEqual(begun[0] - begun[1], first)
        self.assertLess(begun[1], begun[0])

    def test_no_dive_depends_on_those_before_it(self):
        search = self.generated()
        offered = []
        begun = []
        programs = []
        known = search.known()._replace(program=search.program)
        before = len(search.program.columns)
        parts = PartSearch(search.pricing, known, self.solver.beside(1))
        whole_dive = WeekDives.dive

        def dive(own, *words, **named):
            begun.append((len(own.program.columns), own.penalty))
            programs.append(own.program._program)
            return whole_dive(own, *words, **named)

        with (
            mock.patch.object(WeekDives, "dive", dive),
            mock.patch.object(LinearProgram, "close", autospec=True) as close,
        ):
            for task in (
                Dive(0.3, False, 7, None),
                Dive(0.3, False, 7, None),
                Dive(0.3, False, 7, 9000),
            ):
                offered.append([])
                done = parts.dive(
                    search.clock, lambda rows, _finder: offered[-1].append(rows) or True, task
                )
                self.assertTrue(done.ended)
            self.assertEqual(
                parts.dive(Clock(0.0), lambda *_: True, Dive(0.3, False, 7, None)), Done(False)
            )
        columns = begun[0][0]
        self.assertEqual(begun, [(columns, None)] * 2 + [(columns, 9000)])
        self.assertEqual(offered[0], offered[1])
        self.assertTrue(all(offered))
        # Each dive has a program of its own, which is closed at its end. The known program is as
        # before.
        closed = [id(call.args[0]) for call in close.call_args_list]
        self.assertEqual(len({id(program) for program in programs}), 3)
        self.assertLessEqual({id(program) for program in programs}, set(closed))
        self.assertNotIn(id(search.program._program), closed)
        self.assertEqual(len(search.program.columns), before)

    def test_in_a_large_plan_rounds_of_prices_follow_each_fixing(self):
        search = self.generated()
        lower = search.lower_bound
        fixings = mock.Mock(side_effect=search._fix)
        rounds = mock.Mock(side_effect=week_dives.approach)
        with mock.patch.object(week_dives, "approach", rounds), mock.patch.object(
            search, "_fix", fixings
        ):
            search.dive(search.clock, 0.3)
            rounds.assert_not_called()
            fixings.reset_mock()
            with mock.patch.object(week_dives, "MANY_PLACES", 0):
                rows = search.dive(search.clock, 0.3)
        self.assertEqual(rounds.call_count, fixings.call_count)
        self.assertLess(search.value_of(rows), lower + 100)

    def test_a_dive_that_cannot_be_better_has_no_rows(self):
        search = self.generated()
        search.penalty = search.lower_bound
        self.assertIsNone(search.dive(search.clock, 0.5))

    def test_a_dive_that_its_time_ends(self):
        search = self.generated()
        search.begin(all_off(search.plan), None)
        before = search.penalty
        pricing = search.pricing
        fix = search._fix

        def end(*words):
            fix(*words)
            raise TimeIsOver

        with mock.patch.object(search, "_fix", end):
            self.assertIsNone(search.dive(Clock(LONG), 0.2))
        self.assertLess(search.penalty, before)
        self.assertEqual(search.penalty, search.value_of(search.rows))
        self.assertIs(search.pricing, pricing)

    def test_weeks_in_order(self):
        search = self.generated()
        left = [_Week(nurse, number) for number in range(2) for nurse in range(30)]
        (ordered, some), (free, more) = (
            search._chosen(search.solved, left, 0.5, None, in_order) for in_order in (True, False)
        )
        shares = search._shares(search.solved, left)
        whole = {week for week in left if max(shares[week].values()) > 1 - week_dives.WHOLE}
        others = [week for week in left if week not in whole]
        self.assertEqual((some, more), (min(len(others), 30) // 2, len(others) // 2))
        # In order these are of the first open weeks, as many as there are nurses; without order all
        # that have no other choices are fixed, too.
        self.assertLessEqual(set(ordered) - whole, set(others[:30]))
        self.assertLessEqual(whole, set(free))
        self.assertEqual(len({week.nurse for week in set(free) - whole}), more)
        # The largest shares come first, after the weeks that have no other choices.
        weights = [max(shares[week].values()) for week in free][-more:]
        self.assertEqual(weights, sorted(weights, reverse=True))

    def test_a_fixing_that_costs_too_much_is_undone_and_half_of_it_fixed(self):
        search = self.generated()
        fixings = []
        fix = search._fix
        before = search.pricing
        left = [_Week(nurse, number) for number in range(2) for nurse in range(30)]

        def see(weeks, others):
            fixings.append((list(weeks), others))
            return fix(weeks, others)

        with mock.patch.object(search, "_fix", see):
            weeks, others = search._chosen(search.solved, left, 0.5, None, False)
            fixing = search._fix(weeks, others)
            self.assertIsNot(search.pricing, before)
            halved = search._halved(fixing)
        self.assertEqual(
            fixings[1], (fixings[0][0][: len(weeks) - others + others // 2], others // 2)
        )
        self.assertIs(halved.pricing, before)
        self.assertEqual(set(search.program._shut), set(halved.shut))
        self.assertLess(set(halved.shut), set(fixing.shut))
        search.pricing = before
        search.program.free_all()
        # No rise is allowed: each fixing of several weeks with other choices is undone, until one
        # is left. In a large plan rounds of prices show that before the linear program is solved.
        solve = RowProgram.solve
        asked = []

        def watched(program, clock, how=PRIMAL):
            asked.append(how)
            return solve(program, clock, how)

        for places in (400, 0):
            del fixings[:], asked[:]
            with mock.patch.multiple(
                week_dives, MOST_RISE=-1e6, MANY_PLACES=places
            ), mock.patch.object(search, "_fix", see):
                with mock.patch.object(RowProgram, "solve", watched):
                    rows = search.dive(search.clock, 0.2)
            numbers = [others for _, others in fixings]
            self.assertTrue(
                all(
                    others // 2 == after
                    for others, after in zip(numbers, numbers[1:])
                    if others > 1
                )
            )
            self.assertEqual(
                asked.count(DUAL), len(numbers) if places else sum(others < 2 for others in numbers)
            )
            # Later fewer are fixed at once.
            self.assertLess(max(numbers[numbers.index(1) :]), numbers[0] // 2)
            self.assertLess(search.value_of(rows), search.lower_bound + 100)

    def test_the_next_share(self):
        steady = 0.0
        rising = week_dives.LITTLE_RISE
        self.assertEqual(
            [week_dives._next_share(0.1, most, steady) for most in (0.3, 0.15)], [0.2, 0.15]
        )
        self.assertEqual(week_dives._next_share(0.1, 0.3, rising), 0.1)
        self.assertAlmostEqual(week_dives._next_share(0.1, 0.0, steady), 0.15)
        self.assertAlmostEqual(week_dives._next_share(0.1, 0.0, rising), 0.07)
        self.assertEqual(
            [
                week_dives._next_share(share, 0.0, rise)
                for share, rise in ((0.4, steady), (0.02, rising))
            ],
            [0.5, 0.02],
        )

    def test_no_row_without_the_fixed_weeks(self):
        search = self.generated()
        fixed = {}
        keep = search._fix

        def see(weeks, others):
            found = keep(weeks, others)
            fixed.update(weeks)
            for number in search.program.solve(search.clock).shares:
                column = search.program.columns[number]
                for week, choices in fixed.items():
                    self.assertTrue(week.nurse != column.nurse or week.of(column.row) == choices)
            return found

        with mock.patch.object(search, "_fix", see):
            rows = search.dive(search.clock, 0.2)
        self.assertEqual(len(fixed), 60)
        self.assertTrue(
            all(week.of(rows[week.nurse]) == choices for week, choices in fixed.items())
        )

    def test_weeks_without_other_choices_by_chance(self):
        search = self.generated()
        whole = _Week(3, 1)
        week = _Week(4, 1)
        search.rows = [OFF * 2] * 30
        with mock.patch.object(
            search, "_shares", return_value={whole: {EARLY: 1.0}, week: {EARLY: 0.3, OFF: 0.7}}
        ):
            weeks, others = search._chosen(
                search.solved, [whole, week], 0.3, random.Random(1), False
            )
        self.assertEqual((list(weeks), others), ([whole, week], 1))

    def test_parts_apart_have_processes(self):
        parts = RowParts(search_of(1), [self.solver], apart=True)
        self.assertIsInstance(parts._searches[self.solver], Worker)


class Columns(unittest.TestCase):
    def test_columns_that_are_shut(self):
        program = search_of(1).program
        self.assertEqual([program.shut([0, 1]), program.shut([1, 2])], [[0, 1], [2]])
        program.free([2, 3])
        upper = [
            program._program._columns[program.columns[column].number].upper for column in range(4)
        ]
        self.assertEqual((program._shut, upper), ({0, 1}, [0.0, 0.0, math.inf, math.inf]))

    def test_a_part_of_a_program_and_its_new_rows(self):
        whole = search_of(1).program
        before = list(whole.columns)
        whole.shut([0])
        part = whole.open_part(LinearProgram(None))
        self.assertEqual(
            [column[:3] for column in part.columns], [column[:3] for column in before[1:]]
        )
        # It knows its own rows only.
        self.assertFalse(part.add(*before[1][:3]))
        for row in (before[0], (3, EARLY, 5)):
            self.assertTrue(part.add(*row[:3]))
        part.iterations = 12
        whole.take_new(part)
        self.assertEqual(
            [column[:3] for column in whole.columns],
            [column[:3] for column in before] + [(3, EARLY, 5)],
        )
        self.assertEqual(whole.iterations, 12)


class NextDives(unittest.TestCase):
    def tasks(self, number, better=()):
        """The first eight dives and windows of a thread, of which these find a better roster."""
        tasks = []
        clock = Clock(LONG)
        search = search_of(2)

        def see(_clock, _take, task, *_rows):
            search.penalty -= 5 if len(tasks) in better else 0
            tasks.append(task)
            if len(tasks) == 8:
                clock.stop()
            return Done(False)

        parts = RowParts(search, [None, None])
        for searcher in parts._searches.values():
            self.enterContext(mock.patch.multiple(searcher, dive=see, improve=see))
        with self.assertRaises(TimeIsOver):
            parts._work(None, clock, number)
        return tasks

    def test_in_a_short_period_windows_come_after_dives_in_vain(self):
        for better, dives in (((), 2), ((0, 2), 5)):
            kinds = [type(task) for task in self.tasks(0, better)]
            self.assertEqual(kinds, [Dive] * dives + [Window] * (8 - dives))

    def test_every_second_dive_begins_at_another_solution(self):
        dives = self.tasks(0, range(8))
        self.assertEqual([dive.seed is None for dive in dives], [True] + [False] * 7)
        # Neither beginning ends lower everywhere.
        self.assertEqual([dive.is_apart for dive in dives], [False, True] * 4)
        self.assertTrue(all(dive.share in (0.3, 0.2, 0.4) for dive in dives))

    def test_in_a_long_period_windows_come_between_dives(self):
        with mock.patch.object(windows, "WEEKS", 1), mock.patch.object(plan, "FEW_WEEKS", 1):
            first, second = (self.tasks(number) for number in range(2))
        # Half of the threads begin with a dive, because it takes long.
        for tasks, dives in ((first, 1), (second, 0)):
            kinds = [type(task) for task in tasks]
            self.assertEqual(kinds, [*[Dive] * dives, *[Window] * 4, *[Dive] * (4 - dives)])
            some = tasks[dives : dives + 4]
            self.assertEqual([task.seed is None for task in some], [True, True, False, False])
            self.assertEqual({task.days for task in some[:2]}, {range(7), range(7, 14)})


if __name__ == "__main__":
    unittest.main()
