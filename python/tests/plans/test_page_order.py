"""Tests of what the local page shows where: the roster first and whole, a panel below it, and who did
what."""

import re
import unittest
from html import unescape

from served_page import ServedPage


class Order(ServedPage):
    def setUp(self):
        super().setUp()
        self.write_plan()

    def places(self, page, *texts):
        """Where each of these texts begins on the page."""
        for text in texts:
            self.assertIn(text, page)
        return [page.index(text) for text in texts]

    def test_the_roster_comes_before_all_that_is_said_and_can_be_done(self):
        cell = f"{self.site.path}?nurse=Grace&day=0"
        for path, inside in (
            (self.site.path, "Click a nurse's day"),
            (cell, '<section id="cell">'),
        ):
            page = unescape(self.asks(path=path)[1])
            places = self.places(
                page, '<table class="roster', "</table>", 'class="panel"', inside, 'class="legend"'
            )
            self.assertEqual(places, sorted(places))
            self.assertNotIn("<p>", page[page.index("<main>") : places[0]])
        # The cell that was clicked comes into view in the table, which stays where it is.
        self.assertIn("scroll-initial-target: nearest", page)

    def test_a_question_is_below_the_roster_and_yes_has_not_the_focus(self):
        page = self.asks("POST", form="verb=undo")[1]
        places = self.places(page, "</table>", 'class="panel"', "Undo?", "Yes, write it")
        self.assertEqual(places, sorted(places))
        self.assertEqual(re.findall("<([a-z0-9]+)[^>]* autofocus", page), ["section"])

    def test_the_legend_has_the_signs_of_the_table(self):
        plan = self.jobs.verbs().current()
        self.does("set", "Grace", "Mon", "Day", "--do", "--time", "0")
        page = self.asks(path=self.site.path)[1]
        self.assertIn("<li>\u2713 = promised: swaps and later plans keep it</li>", page)
        marks = {
            mark for week in plan.view().weeks for row in week.cells for mark in week.marks(row)
        }
        self.assertEqual(marks, {"!"})
        self.assertIn("<li>! = a request to be off was not granted</li>", page)

    def test_who_did_what_is_a_list_from_which_each_is_taken_back_in_order(self):
        self.does("page")
        self.sends(verb="set", nurse="Grace", first="2026-12-07", shift="off", seconds="0")
        self.asks("POST", form="verb=set&nurse=Grace&first=2026-12-08&shift=off&seconds=0&sure=1",
                  X_Real_IP="192.0.2.7")  # fmt: skip
        self.ended()
        done = self.done()
        self.assertEqual(
            [re.sub(", [0-9-]{10} [0-9:]{5}", "", line) for line in done],
            [
                "set Grace 2026-12-08 off (on the page, from 192.0.2.7) Take this back",
                "set Grace 2026-12-07 off (on the page)",
                "page, at a terminal",
                "plan, at a terminal",
            ],
        )
        self.sends(verb="undo")
        first, second, *_ = self.done()
        self.assertTrue(first.endswith(" (taken back)"), first)
        self.assertTrue(second.endswith(" Take this back"), second)

    def done(self):
        """The lines of the list."""
        part = self.asks(path=self.site.path)[1].partition('<details id="done">')[2]
        items = re.findall("(?s)<li[^>]*>(.*?)</li>", part.partition("</ol>")[0])
        return [" ".join(re.sub("<[^>]*>", " ", item).split()) for item in items]

    def test_only_a_proxy_of_this_machine_says_where_a_form_comes_from(self):
        for said, sender in (
            ("192.0.2.7", "192.0.2.7"),
            ("2001:db8::1", "2001:db8::1"),
            ("127.0.0.1", ""),
            ("<script>", ""),
            ("", ""),
        ):
            form = "verb=set&nurse=Grace&first=2026-12-07&shift=off&seconds=0&sure=1"
            self.asks("POST", form=form, X_Real_IP=said)
            self.ended()
            text = f" from {sender}" if sender else ""
            self.assertIn(f"(on the page{',' if text else ''}{text})", self.done()[0])
            self.does("undo")


if __name__ == "__main__":
    unittest.main()
