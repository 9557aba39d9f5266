"""Tests of the local page as its user meets it: the roster comes first, a click on a cell opens
what can be done with it, and a spreadsheet is read only if it has changed."""

import html
import os
import re
import threading
import time
import unittest
from html.parser import HTMLParser
from unittest import mock
from urllib.parse import urlencode

from served_page import ServedPage
from test_plans import DATES

from inrc2pb.plans import ward_folder
from inrc2pb.plans.kept import Kept
from inrc2pb.sheets.sheet_files import read_book


class Stops(HTMLParser):
    """What the key Tab reaches on a page, one after another: `first` is the number of stops before
    the roster."""

    def __init__(self, page):
        super().__init__()
        self.stops = []
        self.first = None
        self._folded = []
        self.feed(page)

    def handle_starttag(self, tag, attrs):
        words = dict(attrs)
        if tag == "table" and self.first is None:
            self.first = len(self.stops)
        if tag == "details":
            self._folded.append("open" not in words)
        # A closed fold hides all but its summary.
        hidden = any(self._folded[:-1] if tag == "summary" else self._folded)
        is_stop = (
            tag in ("button", "select", "summary")
            or (tag == "a" and "href" in words)
            or (tag == "input" and words["type"] != "hidden")
        )
        if is_stop and not hidden and words.get("tabindex") != "-1":
            self.stops.append(tag)

    def handle_endtag(self, tag):
        if tag == "details":
            self._folded.pop()


class Roster(ServedPage):
    def setUp(self):
        super().setUp()
        self.write_plan()

    def cell(self, nurse, day):
        """The page of a nurse's day."""
        return self.asks(path=f"{self.site.path}?nurse={nurse}&day={day}")[1]

    def buttons(self, page):
        """The texts of the buttons of a nurse's day, and the fields that they send."""
        section = re.search('<section id="cell">.*?</section>', page, re.S)[0]
        found = {}
        for form in re.findall("<form.*?</form>", section, re.S):
            fields = {
                html.unescape(name): html.unescape(value)
                for name, value in re.findall('type="hidden" name="([^"]*)" value="([^"]*)"', form)
            }
            for attributes, text in re.findall("<button([^>]*)>([^<]*)</button>", form):
                found[html.unescape(text)] = {
                    **fields,
                    **dict(re.findall('name="([^"]*)" value="([^"]*)"', attributes)),
                }
        return found

    def test_the_roster_comes_first_and_nothing_is_chosen(self):
        for page in (self.asks()[1], self.cell("Chen", 4)):
            self.assertLess(page.index("<table"), page.index('<section id="forms">'))
            self.assertNotIn("selected", page)
            self.assertNotIn("checked", page)
            self.assertNotIn("<details open", page)
        # Who plans for the first time finds the form open.
        self.sends(verb="undo")
        self.assertRegex(self.asks()[1], '<details open=""><summary>Plan</summary>')

    def test_few_stops_before_the_roster_and_one_for_each_nurse_in_it(self):
        self.assertLess(Stops(self.asks()[1]).first, 10)
        # After a verb has written something, there is one that takes it back.
        self.assertLess(Stops(self.sends(verb="over")).first, 10)
        page = self.asks()[1]
        table = re.search("<table.*?</table>", page, re.S)[0]
        self.assertEqual(len(Stops(table).stops), 7)
        self.assertEqual(table.count("<a "), 7 + 7 * 7)

    def test_a_cell_opens_what_can_be_done_with_it(self):
        # Chen works Night on Friday.
        page = self.cell("Chen", 4)
        self.assertRegex(page, r'<section id="cell"><h2>Chen, Fri 4 Dec: Night Nurse</h2>')
        link = f"{self.site.path}?nurse=Chen&day=4#cell"
        self.assertIn(f'td a[href="{link}"] {{ outline: ', page)
        self.assertIn(f'href="{html.escape(link)}" tabindex="-1"', page)
        buttons = self.buttons(page)
        self.assertIn("+120  Ewa takes it", buttons)
        self.assertEqual(
            {**buttons["ill"], "stamp": ""},
            {"verb": "away", "nurse": "Chen", "first": DATES[4], "stamp": "", "reason": "ill"},
        )
        self.assertEqual(
            buttons["+0  Night Nurse, as now, and later plans keep it"]["shift"], "Night/Nurse"
        )
        # Nobody else has the night, so others have to move.
        self.assertRegex(page, ">off, promised, after a search with few changes: Night Nurse on ")
        # Grace's Day is above the minimum, so she may be promised the day off.
        buttons = self.buttons(self.cell("Grace", 4))
        off = next(text for text in buttons if text.endswith("  off, promised"))
        self.assertRegex(off, r"^\+[0-9]+  off, promised$")
        self.assertEqual(
            {**buttons[off], "stamp": ""},
            {
                "verb": "set",
                "nurse": "Grace",
                "first": DATES[4],
                "shift": "off",
                "stamp": "",
                "seconds": "0",
            },
        )

    def test_one_question_and_one_yes(self):
        fields = next(
            fields
            for text, fields in self.buttons(self.cell("Grace", 4)).items()
            if text.endswith("  off, promised")
        )
        before = self.jobs.folder.stamp
        page = html.unescape(self.asks("POST", form=urlencode(fields))[1])
        self.assertIn(
            "<h2>A nurse has another shift: nurse Grace, day Fri 4 Dec, shift off, and no other shift"
            " moves?</h2>",
            page,
        )
        self.assertIn("Grace, Fri 4 Dec: off instead of Day Nurse", page)
        self.assertRegex(page, r"\+[0-9]+  in all: [0-9]+ points instead of [0-9]+")
        self.assertEqual((page.count("Yes, write it"), self.jobs.folder.stamp), (1, before))
        # What would break a rule is refused with the rule, before any question.
        self.asks(
            "POST",
            form=urlencode({"verb": "set", "nurse": "Finn", "first": DATES[0], "shift": "Night"}),
        )
        self.assertRegex(self.asks()[1], 'class="fault">not possible: Finn never works Night')

    def test_what_was_written_is_taken_back_where_it_is_seen(self):
        fields = next(
            fields
            for text, fields in self.buttons(self.cell("Grace", 4)).items()
            if text.endswith("  off, promised")
        )
        page = self.sends(**{name.replace(" ", "_"): value for name, value in fields.items()})
        self.assertIn("Take it back</button>", page)
        buttons = self.buttons(self.cell("Grace", 4))
        self.assertIn("later plans keep it", page)
        back = buttons["what was promised for this day: swaps and later plans may change it"]
        self.sends(**back)
        self.assertNotIn("what was promised", self.cell("Grace", 4))
        text, swap = next(
            (text, fields)
            for text, fields in self.buttons(self.cell("Chen", 4)).items()
            if " takes it" in text
        )
        cells = self.cells()
        self.sends(**{name.replace(" ", "_"): value for name, value in swap.items()})
        self.assertNotEqual(self.cells(), cells)
        for nurse in ("Chen", swap["other"]):
            back = next(
                fields
                for text, fields in self.buttons(self.cell(nurse, 4)).items()
                if text.startswith("the swap with ")
            )
        page = self.sends(**{name.replace(" ", "_"): value for name, value in back.items()})
        self.assertIn("this takes their swap back", page)
        self.assertEqual(self.cells(), cells)

    def test_a_nurse_who_is_away_can_be_back(self):
        self.rows["plan"][3][5] = "ill"
        self.write()
        buttons = self.buttons(self.cell("Chen", 4))
        self.assertEqual(
            {**buttons["she is back from this day on (ill)"], "stamp": ""},
            {"verb": "back", "nurse": "Chen", "first": DATES[4], "stamp": ""},
        )
        self.assertNotIn("ill", buttons)

    def test_the_question_of_a_week_says_what_its_corrections_are(self):
        page = html.unescape(
            self.asks("POST", form="verb=over&corrections=Chen+Fri+ill,+Grace+Thu+off")[1]
        )
        self.assertIn("Chen, Fri 4 Dec: ill instead of Night Nurse\n", page)
        self.assertIn("Grace, Thu 3 Dec: off instead of Day Nurse\n", page)
        self.assertIn(
            "as it was planned</pre>", self.asks("POST", form="verb=over&corrections=")[1]
        )

    def test_what_exceeds_a_maximum_that_holds_is_written_only_all_the_same(self):
        # Full contracts have at most ten shifts, and Bruno has ten; he worked on Saturday too.
        self.rows["contracts"][1][1:3] = ["8", "10!"]
        self.write()
        before = self.stamp
        page = self.sends(verb="over", corrections="Bruno Sat Late")
        self.assertIn("Bruno has 11 shifts of at most 10", page)
        self.assertEqual(self.stamp, before)
        form = next(
            form
            for form in re.findall("<form.*?</form>", page, re.S)
            if "Write it all the same" in form
        )
        fields = {
            html.unescape(name): html.unescape(value)
            for name, value in re.findall('name="([^"]*)" value="([^"]*)"', form)
        }
        self.assertEqual((fields["verb"], fields["corrections"]), ("over", "Bruno Sat Late"))
        self.assertIn(
            "week 1 (calendar week 49) is over",
            self.sends(**{name.replace(" ", "_"): value for name, value in fields.items()}),
        )

    def test_a_page_without_its_script_has_none(self):
        self.assertNotIn("<script", self.cell("Chen", 4))


class Read(ServedPage):
    """The spreadsheet is read only if it has changed."""

    def setUp(self):
        super().setUp()
        self.write_plan()
        self.number = 0

        def counted(*words):
            self.number += 1
            return read_book(*words)

        patched = mock.patch.object(ward_folder, "read_book", counted)
        patched.start()
        self.addCleanup(patched.stop)

    def make_old(self):
        """A minute passes."""
        then = time.time() - 60
        for path in self.ward.rglob("*"):
            if path.is_file():
                os.utime(path, (then, then))
        self.addCleanup(setattr, time, "time_ns", time.time_ns)
        now = time.time_ns
        time.time_ns = lambda: now() + 60_000_000_000

    def test_many_looks_at_once_read_it_once(self):
        self.make_old()
        threads = [threading.Thread(target=self.asks) for _ in range(20)]
        for thread in threads:
            thread.start()
        for thread in threads:
            thread.join()
        self.assertEqual(self.number, 1)
        # Neither does a click, a question or another page read it again.
        for words in (
            {"path": f"{self.site.path}?nurse=Chen&day=4"},
            {"path": f"{self.site.path}wall"},
        ):
            self.assertEqual(self.asks(**words)[0], 200)
        self.asks("POST", form=f"verb=away&nurse=Chen&first={DATES[4]}&reason=ill")
        self.assertEqual(self.number, 1)

    def test_a_change_is_seen_at_once(self):
        self.make_old()
        self.asks()
        self.rows["plan"][3][5] = "leave"
        self.write()
        self.assertIn("leave", self.asks(path=f"{self.site.path}?nurse=Chen&day=4")[1])
        # So is a plan that another program has changed.
        path = self.last() / "plan.json"
        text = path.read_text()
        path.write_text("{")
        self.assertIn(
            "this line was changed, and is no JSON any more: correct it, or type undo",
            self.asks()[1],
        )
        path.write_text(text)
        self.assertIn("<table", self.asks()[1])

    def test_a_change_within_the_same_step_of_the_clock(self):
        kept = Kept()
        path = self.folder / "file"
        values = iter(range(9))
        for wanted in range(3):
            path.write_text(str(wanted))
            self.assertEqual(kept.of([path], (), lambda: next(values)), wanted)
        with self.assertRaises(ValueError):
            kept.of([path], (), lambda: int("x"))


if __name__ == "__main__":
    unittest.main()
