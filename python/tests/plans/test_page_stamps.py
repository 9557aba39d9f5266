"""Tests of the local page: a form that was shown for an older plan writes nothing."""

import fcntl
import re
import unittest
from unittest import mock
from urllib.parse import urlencode

from served_page import ServedPage
from test_plans import DATES
from ward import run

from inrc2pb.plans import planning
from inrc2pb.plans.searching import Found

SAYS = (
    '<pre role="alert" class="fault">this form was shown for an older plan, so nothing was written'
    " by it: look at the plan below"
)
BUSY = "another verb was running, so this button did nothing"


def fields_of(page, button):
    """The fields of the form with this button."""
    form = next(
        form for form in re.findall("<form.*?</form>", page, re.S) if f">{button}</button>" in form
    )
    return dict(
        re.findall(
            'name="([^"]*)" (?:type="[^"]*" )?value="([^"]*)"', form.replace('type="hidden" ', "")
        )
    )


class Stamps(ServedPage):
    def test_forms_that_write_have_the_stamp(self):
        self.assertEqual(fields_of(self.asks()[1], "Undo")["stamp"], "none")
        self.write_plan()
        page = self.asks()[1]
        for button in (
            "Plan",
            "Write an absence",
            "Back",
            "Look",
            "End the week",
            "Publish",
            "Undo",
        ):
            self.assertEqual(fields_of(page, button)["stamp"], self.stamp, button)
        self.assertNotIn("stamp", fields_of(page, "Read the spreadsheet"))
        # The question does not show it.
        asked = self.asks("POST", form="verb=undo")[1]
        self.assertIn("<h2>Undo?</h2>", asked)
        self.assertEqual(fields_of(asked, "Yes, write it")["stamp"], self.stamp)

    def test_two_tabs_end_one_week_and_undo_one_verb(self):
        self.write_plan()
        for verb, after in (("over", ["0001", "0002"]), ("undo", ["0001"])):
            questions = [self.asks("POST", form=f"verb={verb}")[1] for _ in range(2)]
            answers = [urlencode(fields_of(page, "Yes, write it")) for page in questions]
            self.assertEqual(self.asks("POST", form=answers[0])[0], 303)
            self.assertNotIn(SAYS, self.ended())
            self.assertEqual(self.asks("POST", form=answers[1])[0], 303)
            page = self.ended()
            self.assertIn(SAYS, page)
            self.assertIn("End the week</button>", page)
            self.assertEqual(self.plans(), after, verb)

    def answers(self, verb):
        """The question whether to do this verb, answered by yes."""
        return urlencode(fields_of(self.asks("POST", form=f"verb={verb}")[1], "Yes, write it"))

    def test_each_tab_shows_what_became_of_its_own_form(self):
        self.write_plan()
        first = self.answers("over")
        second = self.answers("undo")
        with open(self.ward / "plans" / "lock", "w") as lock:
            fcntl.flock(lock, fcntl.LOCK_EX)
            self.asks("POST", form=first)
            of_first = self.shown
            # The first verb waits for the lock, so it still runs.
            self.asks("POST", form=second)
            of_second = self.shown
            self.assertIn(BUSY, self.asks(path=of_second)[1])
            self.assertNotIn(BUSY, self.asks(path=of_first)[1])
            fcntl.flock(lock, fcntl.LOCK_UN)
        self.ended()
        # The first one has written a plan, so the question of the second one was for an older plan.
        for _ in range(2):
            page = self.asks(path=of_second)[1]
            self.assertTrue(
                SAYS in page
                and BUSY not in page
                and "week 1 (calendar week 49) is over" not in page
            )
            page = self.asks(path=of_first)[1]
            self.assertTrue(
                "week 1 (calendar week 49) is over" in page and 'class="fault"' not in page
            )
        self.assertEqual(self.plans(), ["0001", "0002"])

    def test_a_form_that_is_refused_names_what_was_not_written(self):
        self.write_plan()
        chen = {"nurse": "Chen", "first": DATES[4], "sure": "yes", "stamp": self.stamp}
        forms = (
            ({**chen, "verb": "away", "reason": "ill"}, "the absence of Chen was not written"),
            ({**chen, "verb": "back"}, "it was not written that Chen is back"),
            (
                {**chen, "verb": "swap", "other": "Zoë_O", "write it": "yes"},
                "the swap of Chen and Zoë O was not written",
            ),
            ({**chen, "verb": "plan"}, "a new plan was not written"),
            ({**chen, "verb": "page"}, "the plan was not published"),
            ({**chen, "verb": "undo"}, "nothing was taken back"),
            # This one was sent twice, and the first of the two is written.
            ({"verb": "over", "corrections": "", "sure": "yes", "stamp": self.stamp}, None),
            (
                {**chen, "verb": "over", "corrections": "Chen Fri off"},
                "the end of the week was not written",
            ),
        )
        with open(self.ward / "plans" / "lock", "w") as lock:
            fcntl.flock(lock, fcntl.LOCK_EX)
            self.asks("POST", form=urlencode(forms[-2][0]))
            for fields, says in forms:
                self.asks("POST", form=urlencode(fields))
                refused = re.search('class="fault">([^<]*)</pre>', self.asks()[1])[1].splitlines()
                self.assertEqual(
                    (refused[0][: len(BUSY)], refused[1:]), (BUSY, [says] if says else [])
                )
            fcntl.flock(lock, fcntl.LOCK_UN)
        # There is another plan since.
        page = self.ended()
        self.assertTrue(SAYS in page and "the end of the week was not written" in page)

    def test_a_form_that_another_verb_kept_waiting_can_be_sent_again(self):
        self.write_plan()
        with open(self.ward / "plans" / "lock", "w") as lock:
            fcntl.flock(lock, fcntl.LOCK_EX)
            self.asks("POST", form="verb=check&sure=yes")
            # No question is asked, and nothing is written, while a verb runs.
            self.assertEqual(self.asks("POST", form="verb=over")[0], 303)
            fcntl.flock(lock, fcntl.LOCK_UN)
        self.assertIn(BUSY, self.ended())
        self.assertEqual(self.asks("POST", form="verb=over")[0], 200)
        self.assertEqual(self.plans(), ["0001"])

    def test_a_question_is_a_page_that_can_be_loaded_again_until_it_is_answered(self):
        self.write_plan()
        answer = self.answers("over")
        of_question = self.shown
        for _ in range(2):
            self.assertIn(
                "<h2>The week is over: Mon 30 Nov to Sun 6 Dec?</h2>",
                self.asks(path=of_question)[1],
            )
        self.asks("POST", form=answer)
        self.assertEqual(self.shown, self.site.path)
        self.assertIn("week 1 (calendar week 49) is over", self.ended())
        # The button back of the browser leads to it, and it asks no more.
        page = self.asks(path=of_question)[1]
        self.assertTrue(
            "week 1 (calendar week 49) is over" in page
            and "Yes, write it" not in page
            and 'class="fault"' not in page
        )
        # The answer that is sent again writes nothing, and another tab still shows the result of
        # the first one.
        self.asks("POST", form=answer)
        self.assertIn(SAYS, self.ended())
        self.assertIn("week 1 (calendar week 49) is over", self.asks(path=self.site.path)[1])
        self.assertEqual(self.plans(), ["0001", "0002"])

    def test_the_page_of_a_form_that_is_known_no_more(self):
        self.write_plan()
        for number in ("7", "x", "-1"):
            self.assertEqual(self.asks(path=f"{self.site.path}?sent={number}")[0], 200)

    def test_an_old_button_asks_nothing(self):
        self.write_plan()
        page = self.asks()[1]
        old = fields_of(page, "Publish")
        self.assertEqual(run("plan", self.ward, "over")[0], 0)
        for form in (f"verb=page&stamp={old['stamp']}", "verb=page&stamp=", "verb=undo&stamp=x"):
            self.assertEqual(self.asks("POST", form=form)[0], 303)
            page = self.asks()[1]
            self.assertIn(SAYS, page)
            # The page shows the plan that holds now.
            self.assertEqual(fields_of(page, "Publish")["stamp"], self.stamp)
        self.assertEqual(self.plans(), ["0001", "0002"])

    def test_an_old_offer_writes_no_other_swap(self):
        self.write_plan()
        cells = self.cells()
        nurse, day = next(key for key in sorted(cells) if 7 <= key[1])
        page = self.asks(path=f"{self.site.path}?nurse={nurse}&day={day}")[1]
        button = re.search(">([^<]* takes it[^<]*)</button>", page)[1]
        offer = urlencode({**fields_of(page, button), "verb": "swap"})
        looked = f"verb=swap&nurse={nurse}&first={DATES[day]}"
        self.asks("POST", form=looked)
        self.jobs.wait()
        self.assertEqual(run("plan", self.ward, "over")[0], 0)
        self.assertEqual(self.asks("POST", form=offer)[0], 303)
        self.assertIn(SAYS, self.asks()[1])
        self.assertEqual(self.plans(), ["0001", "0002"])
        # A new look has a button for the plan that holds.
        other = fields_of(page, button)["other"]
        self.asks("POST", form=f"{looked}&other={other}&stamp=old")
        self.jobs.wait()
        self.assertEqual(fields_of(self.asks()[1], "Write this swap")["stamp"], self.stamp)


class Answers(ServedPage):
    """What was said is shown as long as it holds."""

    def setUp(self):
        super().setUp()
        self.write_plan()

    def test_an_answer_is_not_shown_above_a_plan_that_was_written_elsewhere(self):
        page = self.sends(verb="over", corrections="")
        says = "week 1 (calendar week 49) is over"
        self.assertRegex(page, "<p>Asked on this page: over \\(on the page\\), [0-9: -]+</p>")
        self.assertTrue(says in page and "Take it back" in page)
        self.assertRegex(page, "Last written: over \\(on the page\\), [0-9: -]+\\. <a ")
        self.assertEqual(run("plan", self.ward, "undo")[0], 0)
        page = self.asks()[1]
        self.assertFalse(says in page or "Asked on this page" in page or "Take it back" in page)
        self.assertIn("Last written: plan, 2026-11-28 12:00. <a ", page)
        self.assertEqual(run("plan", self.ward, "page")[0], 0)
        self.assertRegex(self.asks()[1], "Last written: page, [0-9: -]+, at a terminal\\. <a ")

    def test_what_was_written_is_told_until_another_plan_holds(self):
        says = "week 1 (calendar week 49) is over"
        self.assertIn(says, self.sends(verb="over", corrections=""))
        self.save()
        self.assertIn(says, self.asks()[1])

    def test_what_was_read_is_told_until_the_spreadsheet_is_saved(self):
        says = "7 nurses, "
        self.assertIn(says, self.sends(verb="check"))
        self.assertIn(says, self.asks()[1])
        self.save()
        self.assertNotIn(says, self.asks()[1])

    def save(self):
        """Saves the spreadsheet with another wish."""
        self.rows["plan"][7].append("")
        self.rows["plan"][7][13] = "" if self.rows["plan"][7][13] else "wish"
        self.write()

    def searched(self, old, _asked, _progress):
        """A plan without the shift of Grace on Friday."""
        self.searches += 1
        return Found(old.with_cells(cell for cell in old.cells if cell[:2] != ("Grace", 4)))

    def test_a_plan_that_was_found_before_the_spreadsheet_was_saved_is_asked_about_again(self):
        form = urlencode({"verb": "away", "reason": "ill", "nurse": "Grace", "first": DATES[4]})
        self.searches = 0
        with mock.patch.object(planning, "search_plan", self.searched):
            self.asks("POST", form=form)
            found = fields_of(self.ended(), "Yes, write it")
            self.save()
            # Nothing is asked any more that would not be written.
            page = self.asks()[1]
            self.assertIn("the spreadsheet was saved since this plan was found", page)
            self.assertNotIn("Yes, write it", page)
            # An older page still asks.
            for _ in range(2):
                self.asks("POST", form=urlencode(found))
                again = fields_of(self.ended(), "Yes, write it")
            self.assertEqual((self.plans(), self.searches), (["0001"], 3))
            self.asks("POST", form=urlencode(again))
            self.assertIn("Take it back", self.ended())
        self.assertEqual((self.plans(), self.searches), (["0001", "0002"], 3))

    def test_a_search_that_waits_while_the_spreadsheet_is_saved_asks_again(self):
        form = urlencode({"verb": "away", "reason": "ill", "nurse": "Grace", "first": DATES[4]})
        self.searches = 0
        with mock.patch.object(planning, "search_plan", self.searched):
            self.asks("POST", form=form)
            found = fields_of(self.ended(), "Yes, write it")
            with open(self.ward / "plans" / "lock", "w") as lock:
                fcntl.flock(lock, fcntl.LOCK_EX)
                self.asks("POST", form=urlencode(found))
                self.save()
                fcntl.flock(lock, fcntl.LOCK_UN)
            self.assertIn("Yes, write it", self.ended())
        self.assertEqual((self.plans(), self.searches), (["0001"], 2))

    def test_a_price_that_was_asked_before_the_spreadsheet_was_saved_is_asked_again(self):
        form = urlencode({"verb": "set", "nurse": "Grace", "first": DATES[4], "shift": "off"})
        asked = self.asks("POST", form=form)[1]
        self.save()
        status, page = self.asks("POST", form=urlencode(fields_of(asked, "Yes, write it")))
        self.assertEqual((status, "Yes, write it" in page, self.plans()), (200, True, ["0001"]))
        self.asks("POST", form=urlencode(fields_of(page, "Yes, write it")))
        self.ended()
        self.assertEqual(self.plans(), ["0001", "0002"])


if __name__ == "__main__":
    unittest.main()
