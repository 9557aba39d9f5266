"""Long ways through the local page in a real browser: what a planner does in a period, by mouse and
by keyboard, on a screen and on a telephone.

    make browser
"""

import unittest

from browser import HAS_BROWSER, SCREEN, TELEPHONE, BrowserTest
from ward import HAS_CBC


@unittest.skipUnless(
    HAS_BROWSER and HAS_CBC, "chromium, its driver, selenium or cbc is not installed"
)
class Mouse(BrowserTest):
    def test_a_period(self):
        self.opens()
        self.fits()
        # The form of the first plan is open, and nothing is chosen.
        self.button("Plan")
        self.says_yes("Plan\\?", "2 weeks: [0-9]+ points")
        self.fits()
        self.button("Publish")
        self.says_yes("Publish\\?", "written: .*wall.html")
        self.assertTrue((self.ward / "wall.html").exists())
        self.sets()
        self.is_ill()
        self.swaps()
        self.unfolds("The week is over")
        self.button("End the week")
        self.says_yes(
            "The week is over: ", "week 1 .calendar week 49. is over: the plan goes on from "
        )
        self.button("Undo")
        self.says_yes("this takes back: over .on the page., ", "undone: over .on the page., ")
        self.assertEqual(self.plans(), ["plan", "page", "set", "ill", "swap"])
        print(
            f"{type(self).__name__}: {self.clicks} clicks or keys Enter, {self.stops} stops of the"
            " key Tab"
        )

    def sets(self):
        """Promises a day off that costs nothing but points."""
        nurse, day = next(
            key
            for key, cell in sorted(self.cells().items())
            if self.is_offered(*key, "  off, promised")
        )
        self.opens_cell(nurse, day)
        self.button("off, promised")
        self.says_yes("A nurse has another shift: ", "later plans keep it")
        self.assertNotIn((nurse, day), self.cells())

    def is_ill(self):
        """A nurse is ill on the first day on which she works."""
        nurse, day = min(self.cells(), key=lambda key: (key[1], key[0]))
        self.opens_cell(nurse, day)
        self.presses("//button[.='ill']")
        self.says_yes("A nurse is away: ", "written: ")
        self.assertNotIn((nurse, day), self.cells())

    def swaps(self):
        """The first swap on offer."""
        nurse, day = next(key for key in sorted(self.cells()) if self.is_offered(*key, " takes it"))
        before = self.cells()
        self.opens_cell(nurse, day)
        self.button(" takes it")
        self.says_yes("Write this swap: ", "later plans keep this swap")
        self.assertNotEqual(self.cells(), before)

    def is_offered(self, nurse, day, text):
        """Whether a button of a nurse's day has this text, on a day that is soon reached."""
        if day > 4:
            return False
        self.browser.get(f"{self.address}?nurse={nurse}&day={day}")
        section = self.browser.page_source.split('<section id="cell">')[1].split("</section>")[0]
        self.opens()
        return any(text in part.split("</button>")[0] for part in section.split("<button")[1:])


class MouseOnTelephone(Mouse):
    width = TELEPHONE


class Keyboard(Mouse):
    by_keyboard = True
    width = SCREEN


class KeyboardOnTelephone(Keyboard):
    width = TELEPHONE


if __name__ == "__main__":
    unittest.main()
