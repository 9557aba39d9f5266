"""Tests of absences: how they are written and read, and that a search keeps them."""

import unittest
from dataclasses import replace

from ward import (
    ENOUGH,
    HAS_CBC,
    HAS_CLASP,
    ROSTER,
    SCENARIO,
    WEEK,
    WEEK_FILES,
    WEEK_OPTIONS,
    HelperTest,
    files,
    run,
    writing,
)

from inrc2pb.judging.absences import (
    MARK,
    MOST_REQUESTS,
    ROWS,
    absences_of,
    in_words,
    way_out,
    wishes_of,
    with_requests,
    working_while_away,
)
from inrc2pb.search.best_plan import BestPlan
from inrc2pb.search.planned_weeks import PeriodFiles, PlannedWeeks
from inrc2pb.search.roster_file import RosterFile
from inrc2pb.programs.program import penalty_of
from inrc2pb.week.facts import Choice, Claim, facts_text
from inrc2pb.week.records import Absence, Cell, Request

WARD = files.read_scenario(SCENARIO)
DATA = files.read_week(WEEK, files.read_scenario(SCENARIO))
AWAY = Absence("Chen", 4, None)


class Writing(unittest.TestCase):
    def test_what_is_written_is_read(self):
        added = [AWAY, Absence("Ewa", 0, "Night")]
        written = with_requests(WARD, DATA, added)
        self.assertEqual(absences_of(written.data), set(added))
        self.assertEqual(wishes_of(written.data), DATA.requests)
        self.assertEqual(
            (written.requests, len(written.data.requests)),
            (MOST_REQUESTS, len(DATA.requests) + 2 * MOST_REQUESTS),
        )

    def test_all_absences_have_the_same_number(self):
        once = replace(DATA, requests=(*DATA.requests, *[Request("Chen", None, 4)] * MARK))
        twice = with_requests(WARD, once, [Absence("Ewa", 0, None)])
        self.assertEqual(len(twice.data.requests), len(DATA.requests) + 2 * twice.requests)

    def test_absences_of_facts_need_no_requests(self):
        data = replace(DATA, absences=frozenset({AWAY}))
        self.assertEqual((absences_of(data), wishes_of(data)), ({AWAY}, DATA.requests))

    def test_thirty_equal_requests_are_an_absence_and_fewer_are_a_wish(self):
        for number, found in ((MARK - 1, set()), (MARK, {AWAY})):
            data = replace(DATA, requests=(Request("Chen", None, 4),) * number)
            self.assertEqual(absences_of(data), found)

    def test_more_than_the_rows_allow(self):
        every = [Absence(nurse, day, None) for nurse in WARD.nurses for day in range(7)]
        self.assertEqual(with_requests(WARD, DATA, every).requests, ROWS // len(every))

    def test_rows_that_break_absences(self):
        rows = [
            Cell("Chen", 4, "Late", "Nurse"),
            Cell("Ewa", 0, "Day", "Nurse"),
            Cell("Chen", 3, "Late", "Nurse"),
        ]
        away = {AWAY, Absence("Chen", 3, None), Absence("Ewa", 0, "Night")}
        self.assertEqual(working_while_away(away, rows), [rows[0], rows[2]])
        self.assertEqual(in_words(rows), "Chen works Late on Thu and Fri, Ewa works Day on Mon")

    def test_the_way_out(self):
        broken = [Cell("Chen", 4, "Day", "Charge")]
        held = [
            Cell("Amara", 4, "Late", "Nurse"),
            Cell("Grace", 4, "Late", "Nurse"),
            Cell("Bruno", 3, "Day", "Charge"),
        ]
        self.assertEqual(
            way_out(WARD, held, broken),
            "hold fewer shifts with --fix; these nurses have the skill: Amara Fri Late",
        )
        self.assertIn(
            "type inrc2pb-roster check with the same files and --why-none: ",
            way_out(WARD, held[1:], broken),
        )


class Kept(HelperTest):
    def test_a_search_prefers_a_roster_that_keeps_absences(self):
        away = Absence("Chen", 6, None)
        given = self.folder / "given.txt"
        given.write_text(facts_text("ward", [Claim(Choice(1, "Chen", 6, None))]))
        weeks = PlannedWeeks(PeriodFiles.of_week(replace(WEEK_FILES, given=given)))
        costly, cheap = (
            files.read_solution(path).cells for path in (self.swapped("Chen", "Grace"), ROSTER)
        )
        self.assertFalse(working_while_away({away}, costly))
        self.assertLess(
            penalty_of(WEEK_FILES, ROSTER), penalty_of(WEEK_FILES, self.folder / "start.txt")
        )
        for offers in ((costly, cheap), (cheap, costly)):
            best = BestPlan(weeks, RosterFile(weeks, self.folder / "best.txt", ()))
            for offer in offers:
                best.offer(offer, "test")
            kept = files.read_solution(self.folder / "best.txt").cells
            self.assertEqual((set(kept), best.keeps_all), (set(costly), True))

    @unittest.skipUnless(HAS_CBC, "needs cbc")
    def test_rows_keep_absences_unless_no_roster_can(self):
        target = self.folder / "roster.txt"
        for away, kept in (
            ({AWAY, Absence("Grace", 6, "Day")}, True),
            ({Absence(nurse, 4, None) for nurse in ("Amara", "Bruno", "Ewa")}, False),
        ):
            writing.write_text(
                self.folder / "away.txt", files.week_text(with_requests(WARD, DATA, away).data)
            )
            status, report, said = run(
                "solve", *WEEK_OPTIONS[:4], "--week", self.folder / "away.txt", "--out", target
            )
            self.assertEqual(status, 0, said)
            self.assertEqual(
                working_while_away(away, files.read_solution(target).cells) == [], kept
            )
            self.assertEqual("no roster was found that keeps every absence: " in said, not kept)
            self.assertIn(
                "no roster that keeps all absences costs less" if kept else "no roster costs less",
                report,
            )
            self.assertEqual(
                (
                    "--why-none" in said,
                    report.endswith("no roster costs less, but this one breaks an absence\n"),
                ),
                (not kept, not kept),
            )

    def test_a_roster_that_breaks_an_absence_is_a_mistake(self):
        words = (*WEEK_OPTIONS[:4], "--week", self.away("Chen=Mon,Wed"))
        status, printed, _ = run("roster", "check", *words, "--roster", ROSTER)
        self.assertEqual((status, printed), (1, f"{ROSTER}: Chen works Late on Wed, and is away\n"))
        fix = self.solution("Chen Mon Day Nurse")
        status, printed, _ = run("roster", "check", *words, "--fix", fix)
        self.assertEqual(
            (status, printed),
            (1, f"{fix}: Chen is away on Mon, and Day is held: remove one of the two\n"),
        )

    @unittest.skipUnless(HAS_CLASP, "needs clasp")
    def test_who_works_is_named_if_no_roster_keeps_all_absences(self):
        away = self.away("Amara=Fri", "Bruno=Fri", "Ewa=Fri")
        words = (
            *WEEK_OPTIONS[:4],
            "--week",
            away,
            "--solver",
            "clasp",
            "--time",
            ENOUGH,
            "--out",
            self.folder / "roster.txt",
        )
        _, _, said = run("solve", *words)
        self.assertRegex(
            said,
            r"no roster was found that keeps every absence: (Amara|Bruno|Ewa) works Day on Fri\n",
        )


if __name__ == "__main__":
    unittest.main()
