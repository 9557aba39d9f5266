"""Tests of the probable reasons of faults, in both directions: too many and too few."""

import unittest

from inrc2pb.week.hints import composed_otherwise, reasons

WARD = ["SCENARIO = ward", "SKILLS = 2", "Charge", "Nurse"]


def reason(*lines):
    """The probable reason of a fault at the end of these lines."""
    return reasons(lines, len(lines), "x")


class Numbers(unittest.TestCase):
    def test_lines_below_a_heading(self):
        for announced, says in (
            (1, "; 'SKILLS = 1' on line 2 announces 1, and 2 lines follow it"),
            (2, ""),
            (3, "; 'SKILLS = 3' on line 2 announces 3, and 2 lines follow it"),
        ):
            self.assertEqual(reason(WARD[0], f"SKILLS = {announced}", *WARD[2:]), says)

    def test_words_of_a_row(self):
        for announced, says in (
            (0, "; Night announces 0 shift types, and the line has 1"),
            (1, ""),
            (2, "; Night announces 2 shift types, and the line has 1"),
        ):
            row = f"Night {announced} Day"
            self.assertEqual(reason("FORBIDDEN_SHIFT_TYPES_SUCCESSIONS", row), says)

    def test_pairs_of_a_week(self):
        for pairs, says in (
            (6, "; Day Nurse has 6 pairs, and 7 are needed"),
            (7, ""),
            (8, "; Day Nurse has 8 pairs, and 7 are needed"),
        ):
            self.assertEqual(reason("REQUIREMENTS", "Day Nurse" + " (1,1)" * pairs), says)

    def test_words_of_requests_and_assignments(self):
        for heading, rows in (
            ("SHIFT_OFF_REQUESTS", ("Chen Any", "Chen Any Fri", "Chen Li Any Fri")),
            ("ASSIGNMENTS", ("Chen Fri Day", "Chen Fri Day Nurse", "Chen Li Fri Day Nurse")),
        ):
            few, right, many = (reason(heading, row) for row in rows)
            words = len(rows[1].split())
            self.assertTrue(few.endswith(f", and the line has {words - 1} words"), few)
            self.assertEqual(right, "")
            self.assertIn(f"has {words + 1} words; does a name have a blank?", many)


class Accents(unittest.TestCase):
    def test_a_name_that_is_composed_otherwise(self):
        one, other = "G\u00fcl", "Gu\u0308l"
        self.assertEqual(composed_otherwise(one, ["Chen", other]), other)
        self.assertEqual(composed_otherwise(other, ["Chen", one]), one)
        self.assertIsNone(composed_otherwise(one, ["Chen", one]))


if __name__ == "__main__":
    unittest.main()
