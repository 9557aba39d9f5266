"""Tests of the next history, beside the random ones of python/tests/next_history.py."""

import unittest
from dataclasses import replace

from ward import HISTORY, SCENARIO, files, records

from inrc2pb.week.faults import Misuse
from inrc2pb.judging.next_history import next_history


class Histories(unittest.TestCase):
    def test_a_number_that_no_file_may_have(self):
        scenario = files.read_scenario(SCENARIO)
        history = files.read_history(HISTORY, scenario)
        past = replace(history.nurses["Chen"], days_off=9995, assignments=9999)
        nurses = {**history.nurses, "Chen": past}
        after = next_history(scenario, replace(history, nurses=nurses), ())
        self.assertEqual(
            (after.nurses["Chen"].days_off, after.nurses["Chen"].assignments), (9999, 9999)
        )
        row = records.Cell("Chen", 0, "Day", "Nurse")
        with self.assertRaisesRegex(
            Misuse, "Chen would have more than 9999 assignments or weekends: correct her history"
        ):
            next_history(scenario, replace(history, nurses=nurses), [row])


if __name__ == "__main__":
    unittest.main()
