"""Tests of the lines that a search prints while it runs."""

import io
import unittest

from inrc2pb.programs.progress import Progress, WardProgress, gap_share


class Lines(unittest.TestCase):
    def said(self, kind):
        """What is printed of a roster and then of a better one, without the seconds."""
        target = io.StringIO()
        progress = kind(target)
        progress.bound_rose(400)
        progress.improved(500, "a dive")
        progress.improved(400, "a swap")
        return [line.partition(" s  ")[2] for line in target.getvalue().splitlines()]

    def test_the_gap_is_a_part_of_the_penalty(self):
        self.assertEqual(gap_share(500, 400), "20.0 %")
        self.assertEqual((gap_share(400, 500), gap_share(0, 0)), ("0.0 %", "0.0 %"))

    def test_penalties_bounds_and_points(self):
        self.assertEqual(
            self.said(Progress),
            [
                "penalty 500  bound 400, gap 20.0 %  (a dive)",
                "penalty 400  bound 400, gap 0.0 %  (a swap)",
            ],
        )
        self.assertEqual(
            self.said(WardProgress),
            [
                "500 points; at least 400 cannot be avoided",
                "400 points; at least 400 cannot be avoided",
            ],
        )


if __name__ == "__main__":
    unittest.main()
