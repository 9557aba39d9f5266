"""Tests of `inrc2pb-roster next` on weeks and rosters made at random.

Its numbers are those of the definitions of docs/rules.md, counted here from Sunday backwards, and
`inrc2pb` reads what was written as the next week's history. Four weeks in a row go through clasp,
where that is installed. The files are formatted here: the library's writers are tested, and they
cannot write a wrong name.
"""

import random
import shutil
import subprocess
import unittest

import ward
from ward import HelperTest, program

DAYS = ["Mon", "Tue", "Wed", "Thu", "Fri", "Sat", "Sun"]
SHIFTS = ["Early", "Late", "Night"]
NURSES = ["Ann", "Bea", "Cem", "Dora"]
SCENARIO = """SCENARIO = ward
WEEKS = 4
SKILLS = 1
Nurse
SHIFT_TYPES = 3
Early (2,5)
Late (2,3)
Night (4,5)
FORBIDDEN_SHIFT_TYPES_SUCCESSIONS
Early 0
Late 1 Early
Night 2 Early Late
CONTRACTS = 1
Full (10,22) (2,5) (2,3) 2 1
NURSES = 4
Ann Full 1 Nurse
Bea Full 1 Nurse
Cem Full 1 Nurse
Dora Full 1 Nurse
"""


def history_text(number, rows):
    return f"HISTORY {number} ward NURSE_HISTORY\n" + "".join(
        f"{' '.join(map(str, row))}\n" for row in rows
    )


def solution_text(number, cells):
    rows = "".join(f"{nurse} {day} {shift} Nurse\n" for nurse, day, shift in cells)
    return f"SOLUTION {number} ward ASSIGNMENTS = {len(cells)}\n{rows}"


def run(*words, given=None):
    return subprocess.run(
        [str(word) for word in words], input=given, capture_output=True, text=True
    )


def trailing(days, has, before):
    """The days with the property up to Sunday, and those before Monday where no day of the week
    lacks it."""
    count = 0
    for shift in reversed(days):
        if not has(shift):
            return count
        count += 1
    return count + before


def wanted_row(past, days):
    nurse, assignments, weekends, last, shift_run, work_run, off_run = past
    works = [shift for shift in days if shift]
    sunday = days[6]
    return [
        nurse,
        assignments + len(works),
        weekends + (1 if days[5] or days[6] else 0),
        sunday or "None",
        (
            trailing(days, lambda shift: shift == sunday, shift_run if last == sunday else 0)
            if sunday
            else 0
        ),
        trailing(days, bool, work_run),
        trailing(days, lambda shift: not shift, off_run),
    ]


def past_row(chance, nurse):
    last = chance.choice(["None", *SHIFTS])
    run_length = chance.randint(1, 6) if last != "None" else 0
    work = run_length + chance.randint(0, 3) if last != "None" else 0
    off = 0 if last != "None" else chance.randint(0, 9)
    return [nurse, chance.randint(0, 20), chance.randint(0, 3), last, run_length, work, off]


MISFITS = {
    "another week": (0, [], 1, "not of week 0"),
    "an unknown nurse": (0, [("Eve", "Mon", "Early")], 0, "'Eve' is no nurse of NURSES"),
    "an unknown shift type": (
        0,
        [("Ann", "Mon", "Noon")],
        0,
        "'Noon' is no shift type of SHIFT_TYPES",
    ),
    "two assignments on a day": (
        0,
        [("Ann", "Mon", "Early"), ("Ann", "Mon", "Late")],
        0,
        "two assignments on this day",
    ),
    "an unknown day": (0, [("Ann", "Montag", "Early")], 0, "did you mean 'Mon'?"),
    "the last week": (3, [], 3, "is the last of 4"),
}


class Next(HelperTest):
    def setUp(self):
        super().setUp()
        self.write("sce", SCENARIO)
        self.program = program.find_program()

    def write(self, name, text):
        (self.folder / name).write_text(text)

    def next_of(self, roster="sol", *options):
        files = (
            "--sce",
            self.folder / "sce",
            "--his",
            self.folder / "his",
            "--roster",
            self.folder / roster,
        )
        return ward.run("roster", "next", *files, *options)

    def test_weeks_at_random(self):
        chance = random.Random(1)
        for number in range(60):
            with self.subTest(number):
                self.random_week(chance)

    def random_week(self, chance):
        number = chance.randint(0, 2)
        rows = [past_row(chance, nurse) for nurse in chance.sample(NURSES, 4)]
        busy = chance.choice([0, 0.3, 0.8, 1])
        same = chance.random() < 0.4
        days = {}
        for nurse in NURSES:
            one = chance.choice(SHIFTS)
            days[nurse] = [
                (one if same else chance.choice(SHIFTS)) if chance.random() < busy else None
                for _ in DAYS
            ]
        cells = [
            (nurse, DAYS[day], shift)
            for nurse, week in days.items()
            for day, shift in enumerate(week)
            if shift
        ]
        chance.shuffle(cells)
        self.write("his", history_text(number, rows))
        self.write("sol", solution_text(number, cells))
        wanted = ["HISTORY", f"{number + 1} ward", "", "NURSE_HISTORY"]
        wanted += [" ".join(map(str, wanted_row(row, days[row[0]]))) for row in rows]
        status, printed, said = self.next_of()
        self.assertEqual((status, printed.split("\n"), said), (0, [*wanted, ""], ""))
        self.write("next", printed)
        wanted[1] = "0 ward"
        wanted[4:] = [" ".join([row.split()[0], "0 0", *row.split()[3:]]) for row in wanted[4:]]
        status, printed, said = self.next_of("sol", "--new-period")
        self.assertEqual((status, printed.split("\n"), said), (0, [*wanted, ""], ""))
        self.write("wd", "WEEK_DATA ward REQUIREMENTS SHIFT_OFF_REQUESTS = 0\n")
        files = (
            "--sce",
            self.folder / "sce",
            "--his",
            self.folder / "next",
            "--week",
            self.folder / "wd",
        )
        ran = run(self.program, "encode", *files)
        self.assertEqual((ran.returncode, ran.stderr), (0, ""))

    @unittest.skipUnless(shutil.which("clasp"), "needs clasp")
    def test_four_weeks_in_a_row(self):
        chance = random.Random(2)
        self.write("his", history_text(0, [[nurse, 0, 0, "None", 0, 0, 0] for nurse in NURSES]))
        for number in range(4):
            needs = "\n".join(
                f"{shift} Nurse " + " ".join(f"(0,{chance.randint(0, 2)})" for _ in DAYS)
                for shift in SHIFTS
            )
            self.write("wd", f"WEEK_DATA ward REQUIREMENTS\n{needs}\nSHIFT_OFF_REQUESTS = 0\n")
            files = [
                "--sce",
                self.folder / "sce",
                "--his",
                self.folder / "his",
                "--week",
                self.folder / "wd",
            ]
            self.write("opb", run(self.program, "encode", *files).stdout)
            answer = run("clasp", "--time-limit=1", self.folder / "opb")
            ran = run(
                self.program, "decode", *files, "--sol", self.folder / "sol", given=answer.stdout
            )
            self.assertEqual((ran.returncode, ran.stderr), (0, ""))
            status, printed, said = self.next_of()
            if number < 3:
                self.assertEqual((status, said), (0, ""))
                self.write("his", printed)
        self.assertEqual((status, printed), (1, ""))
        self.assertIn("is the last of 4", said)
        status, printed, _ = self.next_of("sol", "--new-period")
        self.assertEqual((status, printed[:15]), (0, "HISTORY\n0 ward\n"))

    def test_files_that_do_not_belong_to_one_week(self):
        for what, (number, cells, solved, told) in MISFITS.items():
            with self.subTest(what):
                self.write(
                    "his",
                    history_text(number, [[nurse, 0, 0, "None", 0, 0, 0] for nurse in NURSES]),
                )
                self.write("sol", solution_text(solved, cells))
                status, printed, said = self.next_of()
                self.assertEqual((status, printed), (1, ""))
                self.assertIn(told, said)

    def test_a_file_that_is_not_there(self):
        self.write("his", history_text(0, [[nurse, 0, 0, "None", 0, 0, 0] for nurse in NURSES]))
        status, _, said = self.next_of("unwritten")
        self.assertEqual(status, 3)
        self.assertIn("unwritten: No such file", said)
