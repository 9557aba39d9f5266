"""Tests of `inrc2pb-roster show --html` and `--ics`: the page as a whole, its charges and its
faults, and calendars."""

import re
import unittest
import xml.etree.ElementTree as ElementTree
from collections import Counter

from ward import HISTORY, ROSTER, SCENARIO, WARD, WEEK, WEEK_OPTIONS, HelperTest, files, run

from inrc2pb.shown.calendars import file_names
from inrc2pb.shown.markup import element, hidden
from inrc2pb.shown.roster_text import COLORS

MONDAY = ("--monday", "2026-11-30")
# Names that would be markup, a path, or a second line, and one whose accent is a letter of its own.
HOSTILE = {
    "Amara": "<b>\"&'</b>",
    "Chen": "../../x",
    "Grace": "Jose\u0301;\\n\x07",
    "Night": "</td><script>",
}


def words(part):
    """The text of an element, with single blanks."""
    return " ".join("".join(part.itertext()).split())


class PageTest(HelperTest):
    def page(self, *given):
        """The page of a command without a fault."""
        status, printed, said = run("roster", "show", "--html", *given)
        self.assertEqual((status, said), (0, ""))
        self.assertTrue(printed.startswith('<!DOCTYPE html>\n<html lang="en">'))
        return ElementTree.fromstring(printed)

    def caption(self, page, begin):
        """The only table whose caption begins so, as rows of texts."""
        found = [one for one in page.iter("table") if words(one.find("caption")).startswith(begin)]
        self.assertEqual(len(found), 1, begin)
        return [[words(cell) for cell in row] for row in found[0].iter("tr")]

    def hostile(self, path, name):
        """The file with hostile names."""
        text = path.read_text()
        for old, new in HOSTILE.items():
            text = re.sub(rf"\b{old}\b", lambda _, new=new: new, text)
        target = self.folder / name
        target.write_text(text)
        return target

    def hostile_week(self):
        paths = [self.hostile(path, path.name) for path in (SCENARIO, HISTORY, WEEK, ROSTER)]
        return "--sce", paths[0], "--his", paths[1], "--week", paths[2], "--roster", paths[3]


class Markup(unittest.TestCase):
    def test_elements(self):
        self.assertEqual(
            element("td", "a<b", hidden("&"), class_='x"y'),
            '<td class="x&quot;y">a&lt;b<span class="hidden">&amp;</span></td>',
        )
        self.assertEqual(element("meta", charset="utf-8", name=None), '<meta charset="utf-8"/>')
        self.assertEqual(element("p", "\x00\x1b\udce4"), "<p>\ufffd\ufffd\ufffd</p>")


class Page(PageTest):
    def test_each_table_can_be_heard(self):
        page = self.page(
            *WEEK_OPTIONS,
            *MONDAY,
            "--old",
            ROSTER,
            "--roster",
            self.changed(ROSTER, "Grace Mon Day Nurse", "Chen Mon Late Nurse"),
        )
        tables = list(page.iter("table"))
        self.assertEqual(len(tables), 5)
        for one in tables:
            self.assertTrue(words(one.find("caption")))
            self.assertTrue(
                all(head.get("scope") in ("col", "colgroup", "row") for head in one.iter("th"))
            )
            self.assertTrue(all(row[0].get("scope") == "row" for row in one.find("tbody")))
        self.assertEqual(
            [
                part.tag
                for part in page.iter()
                if part.get("src") or part.get("href") or part.tag in ("script", "link", "img")
            ],
            [],
        )
        self.assertNotIn("url(", page.find("head/style").text)
        # A mark for eyes has its words next to it.
        marks = [
            part for part in page.iter("td") if any(inner.get("class") == "mark" for inner in part)
        ]
        self.assertGreater(len(marks), 3)
        self.assertTrue(
            all(any(inner.get("class") == "hidden" for inner in part) for part in marks)
        )

    def test_places_with_fewer_nurses_than_best_have_a_fold_after_the_nurses(self):
        roster = self.folder / "few.txt"
        roster.write_text(
            ROSTER.read_text()
            .replace("Bruno Mon Day Nurse\n", "")
            .replace("ASSIGNMENTS = 33", "ASSIGNMENTS = 32")
        )
        *others, places = [
            words(part) for part in self.page(*WEEK_OPTIONS, "--roster", roster).iter("details")
        ]
        self.assertEqual(
            places,
            "Places with fewer nurses than best: 30 (S1 30)30 (S1) Day Nurse, Mon: 1 of 2 nurses",
        )
        self.assertFalse([text for text in others if "S1" in text])

    def test_absences_in_tables_of_text(self):
        ill = self.away("Amara=Thu")
        self.assertRegex(
            run("roster", "show", "--sce", SCENARIO, "--week", ill, "--roster", ROSTER)[1],
            r"(?m)^Amara  (Day..... +){3}away +\.  ",
        )
        later = self.changed(ROSTER, "0 ward", "1 ward", "later.txt")
        printed = run(
            "roster",
            "show",
            "--sce",
            SCENARIO,
            "--week",
            ill,
            "--week",
            WARD / "week-1.txt",
            "--roster",
            ROSTER,
            later,
        )[1]
        self.assertRegex(
            printed, r"(?m)^Amara  D  D  D  -  \.  \| D  D   \|\|  D  D  D! \.  \.  \|"
        )
        self.assertIn("\n- = away\n", printed)

    def test_colors_are_printed(self):
        style = self.page("--roster", ROSTER).find("head/style").text
        printed = style[style.index("@media print {") :]
        self.assertIn("print-color-adjust: exact", printed)
        self.assertNotIn("background", printed[: printed.index("\n}\n")])
        self.assertIn(f".s0 {{ background: {COLORS[0]}; color: #000000 }}", style)

    def test_hostile_names(self):
        page = self.page(*self.hostile_week(), *MONDAY)
        names = [words(head) for head in page.iter("th")]
        self.assertIn("<b>\"&'</b>", names)
        self.assertIn("</td><script>", names)
        self.assertEqual(list(page.iter("script")), [])
        self.assertIn("Jose\u0301;\\n\ufffd", names)

    def test_faults(self):
        week = (*WEEK_OPTIONS, "--roster", ROSTER)
        none = self.folder / "none" / "page.html"
        for given, line in (
            (
                ("--html", *MONDAY, "--out", none),
                f"{none}: No such file or directory: look at its name and folder",
            ),
            (
                ("--html", "--out", self.folder),
                f"{self.folder}: Is a directory: this is a folder: name a file in it",
            ),
            (
                ("--html", "--out", ROSTER),
                f"{ROSTER} is read, so the table cannot be written to it: choose another file",
            ),
            (
                ("--html", "--monday", "2026-12-01"),
                "--monday 2026-12-01: this is a Tuesday: give a Monday, such as 2026-11-30",
            ),
            (
                ("--html", "--monday", "30.11.2026"),
                (
                    "--monday 30.11.2026: this is no date: give year, month and day, such as"
                    " 2026-11-30"
                ),
            ),
            (
                ("--html", "--monday", "2026-13-01"),
                (
                    "--monday 2026-13-01: this is no date: give year, month and day, such as"
                    " 2026-11-30"
                ),
            ),
            (
                ("--html", "--monday", "9999-12-27"),
                "--monday 9999-12-27: give a date of this century, such as 2026-11-30",
            ),
            (MONDAY, "--monday is for --html and --ics: give one of them"),
            (("--times", "Day=06:00-14:00"), "--times is for --html and --ics: give one of them"),
            (
                ("--ics", self.folder),
                "--ics needs --monday: give the date of the first Monday, such as 2026-11-30",
            ),
            (("--only-table",), "--only-table is for --html: give both"),
            (
                ("--html", "--times", "Day"),
                "--times Day: give a shift type, its start and its end, such as Early=06:00-14:15",
            ),
            (
                ("--html", "--times", "Day=6-14"),
                (
                    "--times Day=6-14: give a shift type, its start and its end, such as"
                    " Early=06:00-14:15"
                ),
            ),
            (
                ("--html", "--times", "Day=06:00-24:30"),
                (
                    "--times Day=06:00-24:30: 24:30 is no time of a day: give hours from 0 to 24"
                    " and minutes from 00 to 59"
                ),
            ),
            (
                ("--html", "--times", "Day=06:60-14:00"),
                (
                    "--times Day=06:60-14:00: 06:60 is no time of a day: give hours from 0 to 24"
                    " and minutes from 00 to 59"
                ),
            ),
            (
                ("--html", "--times", "Dy=06:00-14:00"),
                "--times Dy=06:00-14:00: 'Dy' is no shift type: did you mean Day?",
            ),
            (
                ("--html", *["--times", "Day=06:00-14:00"] * 2),
                "--times Day=06:00-14:00: Day has two times: give one",
            ),
            (
                ("--html", "--times", "Day=06:00-14:00"),
                (
                    "--times has no times of Late, Night: give them too, such as --times"
                    " Late=06:00-14:15"
                ),
            ),
        ):
            with self.subTest(given):
                self.assertEqual(
                    run("roster", "show", *week, *given)[1:], ("", f"inrc2pb-roster: {line}\n")
                )
        self.assertEqual(list(self.folder.iterdir()), [])

    def test_an_older_page_stays_after_a_fault(self):
        page = self.folder / "page.html"
        page.write_text("older")
        self.assertEqual(
            run(
                "roster",
                "show",
                *WEEK_OPTIONS,
                "--html",
                "--out",
                page,
                "--roster",
                self.folder / "none.txt",
            )[0],
            3,
        )
        self.assertEqual(page.read_text(), "older")
        self.assertEqual(
            run("roster", "show", *WEEK_OPTIONS, "--html", "--out", page, "--roster", ROSTER),
            (0, "", ""),
        )
        ElementTree.fromstring(page.read_text())


class Calendars(PageTest):
    def calendars(self, *given):
        """The lines of each calendar, unfolded."""
        folder = self.folder / "calendars"
        self.assertEqual(
            run("roster", "show", "--html", *MONDAY, "--ics", folder, *given)[::2], (0, "")
        )
        found = {}
        for path in sorted(folder.iterdir()):
            data = path.read_bytes()
            self.assertEqual(data.count(b"\n"), data.count(b"\r\n"))
            self.assertTrue(data.endswith(b"END:VCALENDAR\r\n"))
            self.assertTrue(all(len(line) <= 75 for line in data.split(b"\r\n")))
            found[path.name] = data.decode().replace("\r\n ", "").split("\r\n")[:-1]
        return found

    def test_the_events_are_the_shifts(self):
        found = self.calendars(
            "--times",
            "Late=13:00-21:15",
            "--times",
            "Day=06:00-14:15",
            "--times",
            "Night=22:00-06:15",
            "--roster",
            ROSTER,
        )
        rows = files.read_solution(ROSTER).cells
        self.assertEqual(
            {name: lines.count("BEGIN:VEVENT") for name, lines in found.items()},
            Counter(f"{row.nurse}.ics" for row in rows),
        )
        chen = found["Chen.ics"]
        for lines in (
            ("DTSTART:20261202T130000", "DTEND:20261202T211500", "SUMMARY:Late Nurse"),
            ("DTSTART:20261206T220000", "DTEND:20261207T061500", "SUMMARY:Night Nurse"),
        ):
            begin = chen.index(lines[0])
            self.assertEqual(chen[begin : begin + len(lines)], list(lines))
        numbers = [line for lines in found.values() for line in lines if line.startswith("UID:")]
        self.assertEqual(len(set(numbers)), len(rows))
        self.assertTrue(all("DTSTAMP:20261130T000000Z" in lines for lines in found.values()))
        self.assertEqual(
            found,
            self.calendars(
                "--times",
                "Late=13:00-21:15",
                "--times",
                "Day=06:00-14:15",
                "--times",
                "Night=22:00-06:15",
                "--roster",
                ROSTER,
            ),
        )

    def test_shifts_of_the_older_roster_are_cancelled_on_their_dates(self):
        later = self.changed(ROSTER, "0 ward", "1 ward", "later.txt")
        old = self.changed(later, "Grace Mon Day Nurse", "Chen Mon Late Nurse", "old.txt")
        new = self.changed(later, "Grace Fri Day Nurse", "Chen Tue Late Nurse", "new.txt")
        found = self.calendars("--old", ROSTER, "--old", old, "--roster", ROSTER, new)
        cancelled = {
            name: [day for day, line in zip(lines, lines[1:]) if line == "STATUS:CANCELLED"]
            for name, lines in found.items()
        }
        # The second week begins on 7 December.
        self.assertEqual(
            {name: days for name, days in cancelled.items() if days},
            {
                "Chen.ics": ["DTSTART;VALUE=DATE:20261207"],
                "Grace.ics": ["DTSTART;VALUE=DATE:20261211"],
            },
        )

    def test_a_nurse_without_shifts_and_hostile_names(self):
        found = self.calendars(*self.hostile_week())
        self.assertEqual(
            sorted(found),
            sorted(
                [
                    "_b__&'__b_.ics",
                    "_._.._x.ics",
                    "Jose\u0301;_n_.ics",
                    *(f"{name}.ics" for name in ("Bruno", "Dilek", "Ewa", "Finn")),
                ]
            ),
        )
        self.assertIn("SUMMARY:</td><script> Nurse", found["Ewa.ics"])
        roster = self.solution(
            "Grace Mon Day Nurse", "Ben Sun Late \u00e9" + "\u00e9" * 60 + ";\\x", name="rows.txt"
        )
        found = self.calendars("--roster", roster)
        self.assertIn("SUMMARY:Late " + "\u00e9" * 61 + "\\;\\\\x", found["Ben.ics"])
        found = self.calendars("--sce", SCENARIO, "--roster", self.solution(name="none.txt"))
        event = found["Finn.ics"]
        self.assertEqual(
            event[-6:-2],
            [
                "DTSTART;VALUE=DATE:20261130",
                "DTEND;VALUE=DATE:20261207",
                "TRANSP:TRANSPARENT",
                "SUMMARY:no shift",
            ],
        )

    def test_names_that_differ_in_case_or_signs_only(self):
        self.assertEqual(list(file_names(["Ann", "ann", "ANN", "a/b", "a:b", ".", "x" * 99, "x" * 98]).values()), [
            "Ann.ics", "ann-2.ics", "ANN-3.ics", "a_b.ics", "a_b-2.ics", "_.ics", f"{'x' * 60}.ics", f"{'x' * 60}-2.ics"])  # fmt: skip

    def test_a_folder_that_cannot_be_written(self):
        blocked = self.folder / "blocked"
        blocked.write_text("no folder")
        ran = run("roster", "show", "--csv", *MONDAY, "--ics", blocked, "--roster", ROSTER)
        self.assert_fault(
            ran,
            f"inrc2pb-roster: {blocked}: File exists: choose another name, or remove this file",
            3,
        )
        inside = self.folder / "calendars" / "Chen.ics"
        inside.mkdir(parents=True)
        ran = run(
            "roster",
            "show",
            "--csv",
            *MONDAY,
            "--ics",
            self.folder / "calendars",
            "--roster",
            ROSTER,
        )
        self.assert_fault(
            ran, f"inrc2pb-roster: {inside}: Is a directory: this is a folder: name a file in it", 3
        )


if __name__ == "__main__":
    unittest.main()
