"""Tests of the local page of `inrc2pb-plan`: its requests, and what it refuses."""

import fcntl
import html
import io
import re
import select
import socket
import struct
import threading
import unittest
from dataclasses import replace
from unittest import mock
from urllib.parse import urlencode

from served_page import ServedPage
from test_plans import DATED, DATES
from ward import HAS_CBC, run

from inrc2pb.plans import planning
from inrc2pb.page.forms import FORMS, event_of, form_markup
from inrc2pb.plans.verb import Event


class Page(ServedPage):
    def test_who_does_not_know_the_address_is_refused(self):
        before = set(self.ward.rglob("*"))
        for status, words in (
            (403, {"path": "/"}),
            (403, {"path": f"{self.site.path[:-2]}x/"}),
            (403, {"Host": f"evil.example:{self.site.port}"}),
            (404, {"path": f"{self.site.path}../../etc/passwd"}),
            (403, {"method": "POST", "form": "verb=plan", "path": "/"}),
            (403, {"method": "POST", "form": "verb=plan", "Origin": "http://evil.example"}),
            (403, {"method": "POST", "form": "verb=plan", "Origin": "null"}),
            (400, {"method": "POST", "form": "a" * 20_000}),
            (400, {"method": "POST", "form": "&".join(f"a{number}=1" for number in range(50))}),
            (501, {"method": "PUT", "form": "verb=plan"}),
        ):
            with self.subTest(words):
                self.assertEqual(self.asks(**words)[0], status)
        self.assertEqual(set(self.ward.rglob("*")), before)

    def test_no_link_is_followed_out_of_the_folder(self):
        self.write_plan()
        self.sends(verb="page")
        secret = self.folder / "secret.txt"
        calendars = self.ward / "calendars"
        secret.write_text("the secret")
        (self.ward / "worked-2026-11-02.html").symlink_to(secret)
        (calendars / "Chen.ics").unlink()
        (calendars / "Chen.ics").symlink_to(secret)
        self.assertNotIn("worked-2026-11-02.html", self.asks()[1])
        self.assertNotIn("Chen.ics", self.asks(path=f"{self.site.path}calendars")[1])
        for name in ("worked-2026-11-02.html", "calendars/Chen.ics"):
            self.assertEqual(self.asks(path=f"{self.site.path}{name}")[0], 404)
        # Nor a folder of calendars that is a link, nor the last roster if the spreadsheet has a
        # fault.
        calendars.rename(self.folder / "other")
        calendars.symlink_to(self.folder / "other")
        self.assertEqual(self.asks(path=f"{self.site.path}calendars/Finn.ics")[0], 404)
        (self.ward / "roster.html").unlink()
        (self.ward / "roster.html").symlink_to(secret)
        self.rows["plan"][1][1] = "wihs"
        self.write()
        self.assertEqual(self.asks(path=f"{self.site.path}roster.html")[0], 404)

    def test_odd_requests_print_no_traceback(self):
        with mock.patch("sys.stderr", io.StringIO()) as printed:
            for status, words in (
                (400, {"method": "POST", "form": "verb=check", "Content_Length": "²".encode()}),
                (400, {"method": "POST", "form": "verb=check", "Content_Length": "1" * 5000}),
                (400, {"method": "POST", "form": "verb=check", "Content_Length": "-1"}),
                (403, {"method": "POST", "form": "verb=check", "Origin": "http://["}),
                (403, {"path": "HTTP://["}),
            ):
                with self.subTest(words):
                    self.assertEqual(self.asks(**words)[0], status)
            self.assert_refused("is no number of seconds", {"verb": "plan", "seconds": "²"})
            self.goes_away()
        self.assertEqual(printed.getvalue(), "")

    def test_headers_that_are_said_twice_or_by_another_page(self):
        form = "verb=undo&sure=yes&stamp=x"
        post = f"POST {self.site.path} HTTP/1.0\r\nHost: {self.site.netloc}\r\n"
        length = f"Content-Length: {len(form)}\r\n"
        for status, head in (
            (
                "403",
                (
                    f"GET {self.site.path} HTTP/1.0\r\nHost: {self.site.netloc}\r\nHost:"
                    " evil.example\r\n"
                ),
            ),
            ("403", f"{post}{length}Sec-Fetch-Site: cross-site\r\n"),
            (
                "403",
                (
                    f"{post}{length}Origin: http://{self.site.netloc}\r\nOrigin:"
                    " http://evil.example\r\n"
                ),
            ),
            ("400", f"{post}{length}Content-Length: 5\r\n"),
            ("400", f"{post}{length}Transfer-Encoding: chunked\r\n"),
            (
                "303",
                (
                    f"{post}{length}Sec-Fetch-Site: same-origin\r\nOrigin:"
                    f" http://{self.site.netloc}\r\n"
                ),
            ),
        ):
            with (
                self.subTest(head),
                socket.create_connection((self.site.hostname, self.site.port)) as browser,
            ):
                browser.sendall(f"{head}\r\n{form}".encode())
                self.assertEqual(browser.makefile("rb").readline().split()[1].decode(), status)

    def goes_away(self):
        """A browser that asks for a page and resets its connection before the answer."""
        threads = threading.active_count()
        with socket.create_connection((self.site.hostname, self.site.port)) as browser:
            browser.setsockopt(socket.SOL_SOCKET, socket.SO_LINGER, struct.pack("ii", 1, 0))
            browser.sendall(
                f"GET {self.site.path} HTTP/1.1\r\nHost: {self.site.netloc}\r\n\r\n".encode()
            )
            self.waits_for(
                lambda: threading.active_count() != threads
                or select.select([browser], [], [], 0)[0]
            )
        # A thread of an earlier request may have ended too.
        self.waits_for(lambda: threading.active_count() <= threads)
        self.assertEqual(self.asks()[0], 200)

    def test_what_no_form_sends_is_a_sentence_on_the_page(self):
        for says, fields in (
            ("&#x27;rm&#x27; is no button of this page", {"verb": "rm"}),
            ("has no plan yet", {"verb": "swap", "nurse": "Chen", "first": "2026-12-04"}),
            ("is no number of seconds from 1 to 3600", {"verb": "plan", "seconds": "1e9"}),
            ("is no day: ", {"verb": "plan", "from": "<b>"}),
            ("is no reason to be away", {"verb": "away", "reason": "party"}),
            ("is no button of this page", {"nurse": "Chen"}),
        ):
            with self.subTest(fields):
                self.assert_refused(says, fields)
        self.assertEqual(list((self.ward / "plans").glob("0*")), [])
        self.write_plan()
        for says, fields in (
            ("a nurse is missing", {"verb": "away", "reason": "ill"}),
            (
                "is no nurse: ",
                {"verb": "away", "reason": "ill", "nurse": "<script>", "first": "2026-12-04"},
            ),
            (
                "is before Fri 4 Dec",
                {
                    "verb": "away",
                    "reason": "ill",
                    "nurse": "Chen",
                    "first": "2026-12-04",
                    "last": "2026-12-02",
                },
            ),
            ("a shift type is missing", {"verb": "over", "corrections": "Chen Fri"}),
            (
                "a swap that is written is of two nurses",
                {"verb": "swap", "nurse": "Grace", "first": "2026-12-04", "write_it": "yes"},
            ),
        ):
            with self.subTest(fields):
                self.assert_refused(says, fields)
        self.assertEqual([path.name[:4] for path in (self.ward / "plans").glob("0*")], ["0001"])

    def assert_refused(self, says, fields):
        """The page says this as a fault."""
        self.assertRegex(
            self.sends(**fields), '<pre role="alert" class="fault">[^<]*' + re.escape(says)
        )

    def test_a_fault_of_the_spreadsheet(self):
        self.write_plan()
        self.sends(verb="page")
        self.rows["plan"][1][1] = "wihs"
        self.write()
        says = "sheet plan, row 2, column B: &#x27;wihs&#x27; is no shift type: did you mean wish?"
        status, page = self.asks()
        self.assertEqual(status, 200)
        # The forms that need no plan stay: the spreadsheet is read again, and the last verb undone.
        self.assertRegex(page, '<pre role="alert" class="fault">[^<]*' + re.escape(says))
        self.assertEqual(re.findall('name="verb" value="([a-z]+)"', page), ["check", "undo"])
        self.assertIn(
            f'href="{self.site.path}roster.html">The roster as it was last written</a>', page
        )
        self.assertIn("<table", self.asks(path=f"{self.site.path}roster.html")[1])
        self.assertIn(says, self.sends(verb="check"))
        self.sends(verb="undo")
        page = self.sends(verb="undo")
        self.assertTrue(says in page and "there is no plan any more" in page)
        self.rows["plan"][1][1] = "wish"
        self.write()
        page = self.sends(verb="check")
        self.assertTrue(
            "Would rather be off: Amara on Mon 30 Nov and Wed 9 Dec; " in page
            and 'class="fault"' not in page
        )

    def test_a_long_text_begins_with_what_a_planner_looks_for(self):
        page = self.sends(verb="check")
        shown, folded = re.search(
            (
                r"<pre"
                r' role="status">([^<]*)</pre>\s*<details><summary>More</summary>\s*<pre>([^<]*)</pre>'
            ),
            page,
        ).groups()
        self.assertTrue("No mistake found." in shown or "warning: " in shown)
        self.assertTrue("7 nurses" in shown and "Would rather be off: " in folded, (shown, folded))

    def test_a_fault_that_was_corrected_is_said_no_more(self):
        self.write_plan()
        self.rows["plan"][1][1] = "wihs"
        self.write()
        self.assertIn("did you mean wish?", self.sends(verb="check"))
        self.assertIn("did you mean wish?", self.asks()[1])
        self.rows["plan"][1][1] = "wish"
        self.write()
        for _ in range(2):
            page = self.asks()[1]
            self.assertFalse("did you mean wish?" in page or 'class="fault"' in page)
            self.assertIn("End the week</button>", page)
        # A fault of a form stays.
        self.sends(verb="back", nurse="Chen", first="2026-12-04")
        for _ in range(2):
            self.assertIn("Chen is not away on Fri 4 Dec", self.asks()[1])

    def test_the_question_of_a_swap_has_what_it_costs(self):
        self.write_plan()
        nurse, day = next(key for key in sorted(self.cells()) if key[1] >= 7)
        form = re.search(
            "<form[^>]*>(?:(?!</form>).)* takes it.*?</form>",
            self.asks(path=f"{self.site.path}?nurse={nurse}&day={day}")[1],
        )[0]
        other = re.search('name="other" value="([^"]*)"', form)[1]
        words = re.search('name="other day" value="([^"]*)"', form)
        fields = {
            "nurse": nurse,
            "first": DATES[day],
            "other": other,
            **({"other day": words[1]} if words else {}),
        }
        says = (
            run("plan", self.ward, "swap", *fields.values())[1]
            .split("nothing is written")[0]
            .splitlines()
        )
        page = html.unescape(
            self.asks("POST", form=urlencode({"verb": "swap", **fields, "write it": "yes"}))[1]
        )
        self.assertIn("Yes, write it", page)
        days = [
            DATED.text(DATED.number(day, 0)) for day in (DATES[day], *([words[1]] if words else []))
        ]
        self.assertIn(f"<h2>Write this swap: {nurse} and {other}, {' and '.join(days)}?</h2>", page)
        self.assertIn(f"<pre>{chr(10).join(says)}</pre>", page)
        self.assertTrue(any(" to call: " in line for line in says))
        self.assertEqual([path.name[:4] for path in (self.ward / "plans").glob("0*")], ["0001"])

    def test_what_is_wrong_is_said_before_the_question(self):
        self.write_plan()
        for fields, says in (
            (
                "verb=away&nurse=Chen&first=2026-12-04&last=2026-12-02&reason=ill",
                "Wed 2 Dec is before Fri 4 Dec",
            ),
            ("verb=back&nurse=Chen&first=2026-12-04", "Chen is not away on Fri 4 Dec"),
            ("verb=over&corrections=Chen+Fri", "a shift type is missing"),
            ("verb=plan&seconds=0", "&#x27;0&#x27; is no number of seconds from 1 to 3600"),
            (
                "verb=swap&nurse=Finn&first=2026-11-30&other=Finn&write+it=yes",
                "Finn cannot swap with herself",
            ),
            # Dilek works Night on Monday, which Finn never does.
            (
                "verb=swap&nurse=Dilek&first=2026-11-30&other=Finn&write+it=yes",
                "not possible: Finn never works Night",
            ),
        ):
            with self.subTest(fields):
                self.assertEqual(self.asks("POST", form=fields)[0], 303)
                self.assertRegex(
                    self.asks()[1], '<pre role="alert" class="fault">[^<]*' + re.escape(says)
                )
        self.assertEqual(self.asks("POST", form="verb=undo")[0], 200)
        self.sends(verb="undo")
        self.assertEqual(self.asks("POST", form="verb=undo")[0], 303)
        self.assertIn("there is nothing to undo", self.asks()[1])

    def test_the_seconds_of_a_search(self):
        self.assertIn(
            'name="seconds" type="number" min="1" max="3600" placeholder="120"', self.asks()[1]
        )
        for seconds, fields in ((120.0, {}), (3.0, {"seconds": "3"})):
            for form, event in (
                ({"verb": "plan"}, Event("plan", (), seconds, on_page=True)),
                (
                    {"verb": "back", "nurse": "Chen"},
                    Event("back", ("Chen",), seconds, on_page=True),
                ),
                (
                    {"verb": "away", "reason": "ill", "nurse": "Chen"},
                    Event("ill", ("Chen",), seconds, on_page=True),
                ),
            ):
                self.assertEqual(event_of({**form, **fields}, self.jobs.seconds), event)
        self.write_plan()
        self.assertEqual(self.asks()[1].count('name="seconds"'), 4)

    def test_the_usual_seconds_of_a_search(self):
        # Twenty for each week of a plan, and thirty for a change.
        plan = self.write_plan()
        found = {
            form.verb: re.findall('placeholder="([0-9]+)"', form_markup(form, plan, "/", ""))
            for form in FORMS
        }
        self.assertEqual(
            {verb: seconds for verb, seconds in found.items() if seconds},
            {"plan": ["40"], "away": ["30"], "back": ["30"], "set": ["30"]},
        )
        ended = plan.with_state(replace(plan.state, open_week=1))
        self.assertIn('placeholder="20"', form_markup(FORMS[1], ended, "/", ""))

    def test_a_verb_that_writes_asks_first(self):
        self.write_plan()
        for fields, asks in (
            ("verb=undo", "<h2>Undo?</h2>"),
            ("verb=page", "<h2>Publish?</h2>"),
            ("verb=plan&seconds=5&free=yes", "<h2>Plan: seconds 5, all shifts may change?</h2>"),
            ("verb=over&corrections=", "<h2>The week is over: Mon 30 Nov to Sun 6 Dec?</h2>"),
        ):
            with self.subTest(fields):
                status, page = self.asks("POST", form=fields)
                self.assertEqual((status, "Yes, write it" in page), (200, True))
                self.assertIn(asks, page)
        self.assertEqual([path.name[:4] for path in (self.ward / "plans").glob("0*")], ["0001"])
        # A look for a swap writes nothing, and its form keeps what was chosen.
        self.assertEqual(self.asks("POST", form="verb=swap&nurse=Grace&first=2026-12-04")[0], 303)
        self.jobs.wait()
        page = self.asks()[1]
        self.assertIn("<h2>Grace, Fri 4 Dec: Day Nurse</h2>", page)
        self.assertIn(" takes it</button>", page)
        self.assertIn('<option value="Grace" selected="">', page)
        self.assertIn('<option value="2026-12-04" selected="">', page)

    def test_the_question_of_unpaid_days_says_what_counts_of_the_contract(self):
        # 17 * 13 / 14 shifts, rounded down; the maximum, 22, is more than the days of the plan.
        self.write_plan()
        says = (
            "Chen is away or unpaid on 1 of 14 days: contract Full counts in proportion, at least"
            " 15 shifts in place of at least 17."
        )
        for reason in ("unpaid", "ill"):
            asked = self.jobs.asked(Event(reason, ("Chen", "2026-12-04")))
            self.assertEqual(asked.lines, [says] if reason == "unpaid" else [])

    @unittest.skipUnless(HAS_CBC, "cbc is not installed")
    def test_the_question_of_an_illness_says_who_moves_where(self):
        # Chen has Night on Friday, and somebody has to take it.
        self.write_plan()
        before = self.cells()
        form = "verb=away&nurse=Chen&first=2026-12-04&last=&reason=ill&seconds=120"
        self.assertEqual(self.asks("POST", form=form)[0], 303)
        page = html.unescape(self.ended())
        self.assertIn(
            "<h2>A nurse is away: nurse Chen, day Fri 4 Dec, reason ill, seconds 120?</h2>", page
        )
        self.assertIn("Chen, Fri 4 Dec: ill instead of Night Nurse\n", page)
        moved = re.search("([A-Z][a-z]+), Fri 4 Dec: Night Nurse instead of off\n", page)
        self.assertIn(f"to call: {moved[1]}", page)
        self.assertEqual(
            (page.count("Yes, write it"), self.cells(), "Take it back" in page), (1, before, False)
        )
        # Yes writes this plan, without another search.
        with mock.patch.object(planning, "search_plan", side_effect=AssertionError):
            written = self.asks("POST", form=self.yes(page))[0], self.ended()
        self.assertEqual(written[0], 303)
        self.assertIn("Take it back", written[1])
        self.assertEqual(self.cells()[moved[1], 4], ("Night", "Nurse"))

    @unittest.skipUnless(HAS_CBC, "cbc is not installed")
    def test_no_writes_nothing_and_is_asked_no_more(self):
        self.write_plan()
        before = self.stamp
        self.asks("POST", form="verb=away&nurse=Chen&first=2026-12-04&reason=ill&seconds=120")
        self.assertIn("Yes, write it", self.ended())
        for path in (f"{self.site.path}?no", self.site.path):
            self.assertNotIn("Yes, write it", self.asks(path=path)[1])
        self.assertEqual(self.stamp, before)
        # A question for a plan that holds no more is not asked.
        self.asks("POST", form="verb=away&nurse=Chen&first=2026-12-04&reason=ill&seconds=120")
        page = self.ended()
        self.does("page")
        self.assertNotIn("Yes, write it", self.asks(path=self.site.path)[1])
        self.asks("POST", form=self.yes(page))
        self.assertIn("this form was shown for an older plan", html.unescape(self.ended()))

    def yes(self, page):
        """The form that the button Yes of a page sends."""
        section = re.search("<section [^>]*><h2>.*?</section>", page, re.S)[0]
        return urlencode({html.unescape(name): html.unescape(value) for name, value in
                          re.findall('type="hidden" name="([^"]*)" value="([^"]*)"', section)})  # fmt: skip

    def test_the_question_of_undo_names_the_verb(self):
        self.write_plan()
        self.assertIn(
            "<pre>this takes back: plan, 2026-11-28 12:00</pre>",
            self.asks("POST", form="verb=undo")[1],
        )
        self.sends(verb="over")
        self.assertRegex(
            self.asks("POST", form="verb=undo")[1],
            "<pre>this takes back: over \\(on the page\\), [0-9: -]+</pre>",
        )

    def test_a_day_of_leave_that_is_clicked(self):
        self.rows["plan"][3][1] = "leave"
        self.write()
        self.write_plan()
        page = self.asks(path=f"{self.site.path}?nurse=Chen&day=0")[1]
        self.assertIn("<h2>Chen, Mon 30 Nov: leave</h2>", page)
        self.assertIn("<li>10 points: Sat 5 Dec: on Night, and asked to be off</li>", page)

    def test_a_look_for_a_swap_has_a_button_that_writes_it(self):
        self.write_plan()
        self.asks("POST", form="verb=swap&nurse=Grace&first=2026-11-30&other=Chen&other+day=")
        self.jobs.wait()
        page = self.asks()[1]
        self.assertIn("nothing is written: the button below writes it", page)
        form = next(
            form for form in re.findall("<form.*?</form>", page) if "Write this swap" in form
        )
        fields = {
            "nurse": "Grace",
            "first": "2026-11-30",
            "other": "Chen",
            "write it": "yes",
            "verb": "swap",
            "stamp": self.stamp,
        }
        self.assertEqual(
            {
                name: value
                for name, value in re.findall(
                    'name="([^"]*)" (?:type="[^"]*" )?value="([^"]*)"', form
                )
            },
            fields,
        )
        # A swap that cannot be has no such button: Finn never works Night.
        cells = self.cells()
        nurses = [row[0] for row in self.rows["nurses"][1:]]
        nurse, day = next(
            key
            for key, cell in sorted(cells.items())
            if cell[0] == "Night" and ("Finn", key[1]) not in cells
        )
        self.assertIn("Finn", nurses)
        self.asks(
            "POST",
            form=urlencode({"verb": "swap", "nurse": nurse, "first": DATES[day], "other": "Finn"}),
        )
        self.jobs.wait()
        page = self.asks()[1]
        self.assertIn("not possible: Finn never works Night", page)
        self.assertNotIn("Write this swap", page)
        # Nobody else works nights.
        for row in self.rows["nurses"][1:]:
            row[3] = "" if row[0] == nurse else "Night"
        self.write()
        self.assertIn(
            "<p>Nobody can take it: each swap would break ",
            self.asks(path=f"{self.site.path}?nurse={nurse}&day={day}")[1],
        )

    def test_what_a_newcomer_looks_for(self):
        page = self.asks()[1]
        self.assertIn(f"The spreadsheet is {self.ward}", page)
        self.write_plan()
        self.assertNotIn("Weeks that are over", self.asks()[1])
        worked = f"{self.site.path}worked-{DATES[0]}.html"
        self.assertEqual(self.asks(path=worked)[0], 404)
        for _ in range(2):
            self.assertIn(
                f'href="{worked}">Weeks that are over, from 30 Nov 2026 on</a>',
                self.sends(verb="over"),
            )
            self.assertIn("weeks 1" if _ else "week 1", self.asks(path=worked)[1])
        # The period is over: the page says what to write into the spreadsheet, and undo goes back.
        page = self.asks()[1]
        self.assertRegex(page, '<pre role="status">[^<]*\nweek 2 \\(calendar week 50\\) is over, and with it the period is over\n'
                         "write the days of the next one, from 2026-12-14 on, into the sheet plan")  # fmt: skip
        self.assertIn("Write the days of the next period into the sheet plan of ", page)
        self.assertNotIn("Correct that", page)
        self.assertIn(f'<a href="{self.site.path}">load this page again</a>', page)
        self.assertIn("<h2>Undo?</h2>", self.asks("POST", form="verb=undo")[1])
        self.assertIn("holds again", self.sends(verb="undo"))

    def test_two_browsers(self):
        self.write_plan()
        # The first one waits for its answer, while the second one has undone the plan: the plan
        # that it asks for is gone.
        self.assertEqual(self.asks("POST", form="verb=over&corrections=")[0], 200)
        self.assertIn("there is no plan any more", self.sends(verb="undo"))
        self.assertIn("has no plan yet", self.sends(verb="over"))
        # A verb that another run keeps waiting says so, and a second browser cannot begin one
        # meanwhile.
        with open(self.ward / "plans" / "lock", "w") as lock:
            fcntl.flock(lock, fcntl.LOCK_EX)
            self.asks("POST", form="verb=check&sure=yes")
            self.waits_for(
                lambda: "another run works in" in (page := self.asks()[1])
                and "this one waits" in page
            )
            self.asks("POST", form="verb=undo&sure=yes")
            fcntl.flock(lock, fcntl.LOCK_UN)
        self.jobs.wait()
        self.assertIn(
            "another verb was running, so this button did nothing: wait for its end, or stop it",
            self.asks()[1],
        )

    def test_the_points_of_the_plan_are_above_the_roster(self):
        plan = self.write_plan()
        self.assertIn(
            f'<p class="links">{plan.view().penalty} points. Last written: plan, 2026-11-28 12:00. <a ',
            self.asks()[1],
        )
        # A plan that breaks a hard rule has none: nobody has the first night.
        path = self.last() / "roster-0.txt"
        path.write_text(
            path.read_text()
            .replace("Dilek Mon Night Nurse\n", "")
            .replace("ASSIGNMENTS = 33", "ASSIGNMENTS = 32")
        )
        page = self.asks()[1]
        self.assertIn('<p class="links">Last written: ', page)
        self.assertNotIn(" points. ", page)

    def test_the_pages_that_are_linked(self):
        self.write_plan()
        page = self.asks()[1]
        for name in ("roster", "wall", "calendars"):
            self.assertIn(f'href="{self.site.path}{name}"', page)
        self.assertTrue('href="#forms"' in page and '<section id="forms">' in page)
        self.assertEqual(self.asks(path=f"{self.site.path}calendars/Chen.ics")[0], 404)
        self.assertIn("There are none yet", self.asks(path=f"{self.site.path}calendars")[1])
        self.sends(verb="page")
        self.assertIn(
            f'href="{self.site.path}calendars/Chen.ics"',
            self.asks(path=f"{self.site.path}calendars")[1],
        )
        status, text = self.asks(path=f"{self.site.path}calendars/Chen.ics")
        self.assertEqual((status, text.split("\r\n")[0]), (200, "BEGIN:VCALENDAR"))
        wall = self.asks(path=f"{self.site.path}wall")[1]
        self.assertEqual((wall.count("<table"), "points" in wall), (1, False))
        (self.ward / "calendars" / "secret.ics").write_text("")
        for path in (
            "calendars/secret.ics",
            "calendars/../plans/lock",
            "calendars/%2e%2e/plan.csv",
            "plan.csv",
        ):
            self.assertEqual(self.asks(path=f"{self.site.path}{path}")[0], 404)

    @unittest.skipUnless(HAS_CBC, "cbc is not installed")
    def test_a_plan_an_absence_and_a_swap(self):
        self.begin()
        page = self.asks(path=f"{self.site.path}?nurse=Chen&day=4")[1]
        self.assertIn("<h2>Chen, Fri 4 Dec: ", page)
        self.assertEqual(self.asks(path=f"{self.site.path}roster")[0], 200)
        for query in ("nurse=Nobody&day=4", "nurse=Chen&day=99", "nurse=Chen&day=x", "%ff"):
            self.assertEqual(self.asks(path=f"{self.site.path}?{query}")[0], 200)
        self.sends(verb="away", nurse="Grace", first="2026-12-02", last="2026-12-03", reason="ill")
        self.assertFalse({("Grace", 2), ("Grace", 3)} & set(self.cells()))
        cells = self.cells()
        nurse, day = next(key for key in sorted(cells) if key[1] > 7)
        page = self.asks(path=f"{self.site.path}?nurse={nurse}&day={day}")[1]
        forms = [
            form
            for form in re.findall("<form.*?</form>", page)
            if form.endswith(" takes it</button></form>")
        ]
        offers = [re.search('name="other" value="([A-Za-z]+)"', form)[1] for form in forms]
        if offers:
            self.sends(verb="swap", nurse=nurse, first=DATES[day], other=offers[0], write_it="yes")
            self.assertEqual(self.cells().get((offers[0], day)), cells[nurse, day])
        self.assertIn("holds again", self.sends(verb="undo"))

    @unittest.skipUnless(HAS_CBC, "cbc is not installed")
    def test_one_verb_at_a_time_which_can_be_stopped(self):
        self.asks("POST", form="verb=plan&seconds=600&sure=yes")
        self.assertIn('http-equiv="refresh"', self.asks()[1])
        self.asks("POST", form="verb=undo&sure=yes")
        self.waits_for(lambda: " points" in self.asks()[1] or not self.jobs.runs)
        self.asks("POST", form="verb=stop")
        self.waits_for(lambda: not self.jobs.runs)
        self.assertIn("2 weeks: ", self.asks()[1])
        self.assertTrue(list((self.ward / "plans").glob("0*")))


class BehindAProxy(ServedPage):
    """A page that a proxy with TLS shows as https://ward.example."""

    origin = "https://ward.example"

    def test_only_the_name_of_the_proxy_is_known(self):
        self.assertEqual(self.address.split(self.site.path)[0], self.origin)
        self.write_plan()
        for status, words in (
            (200, {}),
            (303, {"method": "POST", "form": "verb=check"}),
            (303, {"method": "POST", "form": "verb=check", "Origin": self.origin}),
            (403, {"Host": self.site.netloc}),
            (403, {"Host": "ward.example:80"}),
            (403, {"method": "POST", "form": "verb=check", "Origin": "http://ward.example"}),
            (403, {"method": "POST", "form": "verb=check", "Origin": f"http://{self.site.netloc}"}),
        ):
            with self.subTest(words):
                self.assertEqual(self.asks(**{"Host": "ward.example", **words})[0], status)
            self.jobs.wait()


if __name__ == "__main__":
    unittest.main()
