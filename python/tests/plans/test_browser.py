"""A short way through the local page in a real browser, for the gate. `make browser` takes longer
ones."""

import unittest

from browser import HAS_BROWSER, BrowserTest


@unittest.skipUnless(HAS_BROWSER, "chromium, its driver or selenium is not installed")
class Short(BrowserTest):
    def test_a_cell_a_swap_and_the_way_back(self):
        self.write_plan()
        before = self.cells()
        self.opens()
        self.fits()
        self.opens_cell("Chen", 4)
        self.button("takes it")
        self.says_yes("Write this swap: Chen and ", "later plans keep this swap")
        self.assertNotEqual(self.cells(), before)
        self.button("Take it back")
        self.says_yes("Undo\\?", "holds again")
        self.assertEqual((self.cells(), self.plans(), self.clicks), (before, ["plan"], 5))


if __name__ == "__main__":
    unittest.main()
