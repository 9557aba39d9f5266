"""Tests of a bound above a roster, which shows that this computer counts wrong."""

import unittest

from test_rows import POINT, pricing_of, random_plan

from inrc2pb.programs.clock import Clock
from inrc2pb.rows.row_run import WholeSearch
from inrc2pb.rows.row_search import RowSearch, WrongBound

STEP = 5


def search_of(pricing, solver=None, kind=RowSearch):
    """A search whose rosters are all accepted."""
    search = kind(
        pricing, solver, Clock(100.0), lambda rows, finder: search.value_of(rows), lambda: None
    )
    return search


class Wrong(unittest.TestCase):
    def setUp(self):
        plan, _ = random_plan(3, nurses=2, shifts=2)
        self.search = search_of(pricing_of(plan), kind=WholeSearch)

    def test_a_bound_above_a_roster_refutes_itself(self):
        search = self.search
        search.penalty = 100
        rows = search._priced(search.prices, range(2), search.clock)
        search.bound = None
        less = {
            nurse: priced._replace(value=priced.value + 10**6) for nurse, priced in rows.items()
        }
        with self.assertRaises(WrongBound):
            search._raise_bound(search.prices, less)

    def test_a_roster_below_the_bound_refutes_it(self):
        search = self.search
        rows = [
            priced.row for priced in search._priced(search.prices, range(2), search.clock).values()
        ]
        value = search.value_of(rows)
        if value is None:
            self.skipTest("the rows are no roster")
        for bound, is_wrong in ((value, False), (value + 1, True), (value + STEP, True)):
            search.bound = bound * POINT
            search.penalty = None
            if is_wrong:
                with self.assertRaises(WrongBound):
                    search.keep(rows, "x")
            else:
                self.assertTrue(search.keep(rows, "x"))


if __name__ == "__main__":
    unittest.main()
