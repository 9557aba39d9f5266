"""Tests of `inrc2pb-roster check`."""

import os
import unittest

from ward import HISTORY, ROSTER, SCENARIO, WEEK, WEEK_OPTIONS, HelperTest, run

# A file of the ward, a change, the file's option, the line of the fault, and a part of its message.
MISTAKES = [
    (
        SCENARIO,
        "Chen Full",
        "Chen Ful",
        "--sce",
        26,
        "'Ful' is no contract of CONTRACTS: did you mean 'Full'?",
    ),
    (
        SCENARIO,
        "Chen Full 1 Nurse",
        "Chen Full 1 nurse",
        "--sce",
        26,
        "'nurse' is no skill of SKILLS: did you mean 'Nurse'?",
    ),
    (
        SCENARIO,
        "NURSES = 7",
        "NURSES = 8",
        "--sce",
        30,
        "'NURSES = 8' on line 23 announces 8, and 7 lines follow it",
    ),
    (
        SCENARIO,
        "NURSES = 7",
        "NURSES = 6",
        "--sce",
        30,
        "'NURSES = 6' on line 23 announces 6, and 7 lines follow it",
    ),
    (
        SCENARIO,
        "SKILLS = 2",
        "SKILLS = 3",
        "--sce",
        9,
        "'SKILLS = 3' on line 5 announces 3, and 2 lines follow it",
    ),
    (
        SCENARIO,
        "(2,5)",
        "(2-5)",
        "--sce",
        10,
        "'2-5' where the minimum of consecutive Day shifts should be, a whole number",
    ),
    (
        SCENARIO,
        "(17,21)",
        "(17,5,21)",
        "--sce",
        20,
        "',' where ')' should be; '(17,5,21)' is no pair of two whole numbers",
    ),
    (
        SCENARIO,
        "Day 0\n",
        "",
        "--sce",
        18,
        "'CONTRACTS' where a shift type should be; no line begins with Day",
    ),
    (
        SCENARIO,
        "Night 2 Day Late",
        "Night 2 Day",
        "--sce",
        19,
        "Night announces 2 shift types, and the line has 1",
    ),
    (
        SCENARIO,
        "Late 1 Day",
        "Late 2 Day",
        "--sce",
        17,
        "Late announces 2 shift types, and the line has 1",
    ),
    (
        SCENARIO,
        "Chen Full 1 Nurse",
        "Chen Full 2 Nurse",
        "--sce",
        27,
        "Chen announces 2 skills, and the line has 1",
    ),
    (
        SCENARIO,
        "Amara Full 2",
        "Amara Full 1",
        "--sce",
        25,
        "Amara announces 1 skill, and the line has 2",
    ),
    (
        SCENARIO,
        "Chen Full",
        "Chen Li Full",
        "--sce",
        26,
        "does a name in 'Chen Li Full' have a blank? write _ for it",
    ),
    (
        SCENARIO,
        "Full (17",
        "Full Time (17",
        "--sce",
        20,
        "does a name in 'Full Time' have a blank? write _ for it",
    ),
    (
        SCENARIO,
        "Chen",
        "Chen(L)",
        "--sce",
        26,
        "'(' where a contract should be; a name may have none of ( ) , =",
    ),
    (SCENARIO, "CONTRACTS", "CONTRACT", "--sce", 19, "'CONTRACT' where 'CONTRACTS' should be"),
    (SCENARIO, "NURSES", "NURSE", "--sce", 23, "'NURSE' where 'NURSES' should be"),
    (
        SCENARIO,
        "Night 2 Day",
        "Night Day",
        "--sce",
        17,
        "; the number of shift types is missing after 'Night'",
    ),
    (
        SCENARIO,
        "Chen Full 1 Nurse",
        "Chen Full Nurse",
        "--sce",
        26,
        "; the number of skills is missing after 'Chen Full'",
    ),
    (
        SCENARIO,
        "SKILLS",
        "# the skills\nSKILLS",
        "--sce",
        5,
        "looks like a comment: the files have none, so remove it",
    ),
    (
        SCENARIO,
        "Chen Full 1 Nurse",
        "Chen Full 1 Nurse # head",
        "--sce",
        26,
        "'head' is no contract of CONTRACTS: it has Full, Half; '#' looks",
    ),
    (
        SCENARIO,
        "Chen Full 1 Nurse",
        "Chen Full 1 Nurse #head",
        "--sce",
        27,
        "'Dilek' is no contract of CONTRACTS: it has Full, Half; '#head' looks",
    ),
    (
        SCENARIO,
        "NURSES = 7",
        "NURSES = 7 # seven",
        "--sce",
        23,
        "'seven' is no contract of CONTRACTS: it has Full, Half; '#' looks like a comment",
    ),
    (
        SCENARIO,
        "WEEKS = 4",
        "WEEKS = 53",
        "--sce",
        3,
        "the number of weeks is 53: it has to be from 1 to 52",
    ),
    (
        SCENARIO,
        "Chen",
        "Bruno",
        "--sce",
        26,
        "the nurse 'Bruno' is there already: use another name",
    ),
    (
        HISTORY,
        "Grace",
        "Gracy",
        "--his",
        11,
        "'Gracy' is no nurse of NURSES: did you mean 'Grace'?; no line begins with Grace",
    ),
    (HISTORY, "Bruno 0 0", "Bruno 0 0,5", "--his", 6, "; '0,5' is no whole number"),
    (
        HISTORY,
        "Bruno 0 0 None 0 0 2",
        "Bruno 0 0 None 0 0",
        "--his",
        7,
        "; Bruno has 5 entries, and 6 are needed",
    ),
    (
        HISTORY,
        "Bruno 0 0 None 0 0 2\n",
        "",
        "--his",
        10,
        "the file ends where a nurse should come; no line begins with Bruno",
    ),
    (HISTORY, "0 ward", "4 ward", "--his", 0, "week 4 is not below WEEKS = 4: the period is over"),
    (
        WEEK,
        "Dilek Any Fri",
        "Dilek Any Friday",
        "--week",
        12,
        "'Friday' is no day of the week: did you mean 'Fri'?",
    ),
    (
        WEEK,
        "Chen Any",
        "Chen Noon",
        "--week",
        11,
        "'Noon' is no shift type of SHIFT_TYPES: it has Day, Late, Night, Any",
    ),
    (
        WEEK,
        "Grace Night Tue",
        "Grace Tue Night",
        "--week",
        13,
        "; the shift type comes first, then the day",
    ),
    (
        WEEK,
        "Day Charge (1,1)",
        "Day Charge",
        "--week",
        6,
        "'Day' where '(' should be; Day Charge has 6 pairs, and 7 are needed",
    ),
    (
        WEEK,
        "Day Charge",
        "Day Charge (1,1)",
        "--week",
        5,
        "'(' where a shift type should be; Day Charge has 8 pairs, and 7 are needed",
    ),
    (
        WEEK,
        WEEK.read_text()[WEEK.read_text().index("SHIFT_OFF") :],
        "",
        "--week",
        8,
        "without requests write SHIFT_OFF_REQUESTS = 0",
    ),
    (
        ROSTER,
        "ASSIGNMENTS = 33",
        "ASSIGNMENTS = 32",
        "--roster",
        37,
        "announces 32, and 33 lines follow it",
    ),
    (
        ROSTER,
        "Amara Mon Day Charge\n",
        "Amara Day Mon Charge\n",
        "--roster",
        5,
        "; the day comes first, then the shift type",
    ),
    (
        ROSTER,
        "Amara Mon Day Charge",
        "Amara Mon Day Charg",
        "--roster",
        5,
        "did you mean 'Charge'?",
    ),
    (
        WEEK,
        "Chen Any Sat",
        "Chen K Any Sat",
        "--week",
        11,
        "has a nurse, a shift type and a day, and the line has 4 words; does a name",
    ),
    (
        WEEK,
        "Chen Any Sat",
        "Chen Any Sat # ill",
        "--week",
        11,
        "'#' looks like a comment: the files have none, so remove it",
    ),
    (
        WEEK,
        "Chen Any Sat",
        "Chen Any",
        "--week",
        12,
        "; a request has a nurse, a shift type and a day, and the line has 2 words",
    ),
    (
        ROSTER,
        "Amara Mon Day Charge",
        "Amara Mon Day",
        "--roster",
        6,
        "; a row has a nurse, a day, a shift type and a skill, and the line has 3 words",
    ),
    (
        ROSTER,
        "SOLUTION",
        "PK\x03\x04\0\1",
        "--roster",
        1,
        ": this is no text file: save it as plain text, or give a spreadsheet to inrc2pb-plan",
    ),
    (
        ROSTER,
        "SOLUTION",
        "{\\rtf1 SOLUTION",
        "--roster",
        1,
        ": this is no text file: save it as plain text",
    ),
]


class Mistakes(HelperTest):
    def test_each_mistake_is_named_with_its_line(self):
        for path, old, new, option, line, message in MISTAKES:
            with self.subTest(message):
                changed = self.changed(path, old, new)
                words = {"--sce": SCENARIO, "--his": HISTORY, "--week": WEEK, **{option: changed}}
                status, printed, said = run(
                    "roster", "check", *(word for pair in words.items() for word in pair)
                )
                self.assertEqual((status, said), (1, ""))
                where = f"{changed} line {line}: " if line else f"{changed}: "
                self.assertTrue(printed.startswith(where), printed)
                self.assertIn(message, printed.splitlines()[0])

    def test_each_verb_says_that_a_row_is_missing(self):
        roster = self.changed(ROSTER, "Amara Mon Day Charge\n", "")
        said = (
            f"{roster} line 36: the file ends where a nurse should come; 'ASSIGNMENTS = 33' on line"
            " 4 announces 33, and 32 lines follow it"
        )
        self.assertEqual(
            run("roster", "check", "--sce", SCENARIO, "--roster", roster), (1, said + "\n", "")
        )
        for words in (("next", "--sce", SCENARIO, "--his", HISTORY), ("show",)):
            self.assert_fault(run("roster", *words, "--roster", roster), f"inrc2pb-roster: {said}")

    def test_one_line_follows(self):
        fix = self.solution("Chen Mon Day Nurse")
        _, printed, _ = run(
            "roster", "check", "--sce", SCENARIO, "--fix", self.changed(fix, "= 1", "= 2")
        )
        self.assertIn("'ASSIGNMENTS = 2' on line 4 announces 2, and 1 line follows it\n", printed)

    def test_other_encodings(self):
        text = SCENARIO.read_text()
        path = self.folder / "ward.txt"
        for encoding, message in (
            ("utf-8-sig", "begins with a byte order mark (BOM)"),
            ("utf-16", "UTF-16"),
            ("utf-16-le", "UTF-16"),
        ):
            path.write_text(text, encoding=encoding)
            status, printed, _ = run("roster", "check", "--sce", path)
            self.assertEqual((status, message in printed), (1, True), printed)

    @unittest.skipUnless(os.path.exists("/dev/zero"), "needs /dev/zero")
    def test_a_file_without_end(self):
        self.assertEqual(
            run("roster", "check", "--sce", "/dev/zero"),
            (1, "/dev/zero: the file has more than 4194304 bytes\n", ""),
        )

    def test_a_heading_that_is_misspelled_has_no_other_hint(self):
        for heading in ("SHIFT_TYPES", "CONTRACTS", "NURSES"):
            status, printed, _ = run(
                "roster",
                "check",
                "--sce",
                self.changed(SCENARIO, f"{heading} =", f"{heading[:-1]} ="),
            )
            self.assertTrue(
                printed.endswith(f": '{heading[:-1]}' where '{heading}' should be\n"), printed
            )
        _, printed, _ = run(
            "roster",
            "check",
            "--sce",
            SCENARIO,
            "--week",
            self.changed(WEEK, "SHIFT_OFF_REQUESTS =", "SHIFT_OFF_REQUEST ="),
        )
        self.assertNotIn("pairs", printed)

    def test_other_blanks_of_unicode_are_letters(self):
        for name in ("Chen\u3000Li", "Chen\u00a0Li"):
            ward, past = (
                self.changed(path, "Chen", name, f"new-{path.name}") for path in (SCENARIO, HISTORY)
            )
            self.assertEqual(
                run("roster", "check", "--sce", ward, "--his", past)[1], "No mistake found.\n"
            )
            past.write_text(past.read_text().replace("Dilek 0", "Dilak 0"))
            _, printed, _ = run("roster", "check", "--sce", ward, "--his", past)
            self.assertEqual(
                printed,
                (
                    f"{past} line 8: 'Dilak' is no nurse of NURSES: did you mean 'Dilek'?; no line"
                    " begins with Dilek\n"
                ),
            )

    def test_a_name_that_begins_like_a_comment(self):
        ward, past = (
            self.changed(path, "Chen", "#1", f"new-{path.name}") for path in (SCENARIO, HISTORY)
        )
        past.write_text(past.read_text().replace("#1 0", "#12 0"))
        _, printed, _ = run("roster", "check", "--sce", ward, "--his", past)
        self.assertIn(
            (
                f"{past} line 7: '#12' is no nurse of NURSES: did you mean '#1'?; '#12' looks like"
                " a comment"
            ),
            printed,
        )

    def test_a_row_that_is_made_a_comment(self):
        for path, option in ((HISTORY, "--his"), (WEEK, "--week")):
            _, printed, _ = run(
                "roster", "check", "--sce", self.changed(SCENARIO, "Chen", "#Chen"), option, path
            )
            self.assertIn(
                (
                    "'Chen' is no nurse of NURSES: did you mean '#Chen'?; '#Chen' looks like a"
                    " comment: the files have none, so remove it"
                ),
                printed,
            )

    def test_signs_of_spreadsheets_and_other_keyboards(self):
        for path, old, new, said in (
            (
                SCENARIO,
                "Chen Full 1 Nurse",
                "Chen;Full;1;Nurse",
                "write blanks for the semicolons; inrc2pb-plan reads spreadsheets",
            ),
            (
                SCENARIO,
                "Chen Full 1 Nurse",
                "Chen,Full,1,Nurse",
                "write blanks for the commas; inrc2pb-plan reads spreadsheets",
            ),
            (
                SCENARIO,
                "SCENARIO = ward",
                "SCENARIO;=;ward",
                "write blanks for the semicolons; inrc2pb-plan reads spreadsheets",
            ),
            (SCENARIO, "(17,21)", '"(17,21)"', "remove the quotation marks"),
            (SCENARIO, "Day (2,5)", "Day [2,5]", "write ( and ) for other brackets"),
            (
                SCENARIO,
                "Chen Full",
                "Chen\u00a0Full",
                (
                    "it has a blank of another kind, such as a no-break space: type the blanks"
                    " again, or _ in a name"
                ),
            ),
            (HISTORY, "Chen 0", "Chen O", "write the digit 0 for the letter O"),
            (HISTORY, "Chen 0", "Chen l", "write the digit 1 for the letter l"),
        ):
            with self.subTest(new):
                words = ("--his", self.changed(path, old, new)) if path == HISTORY else ()
                status, printed, _ = run(
                    "roster",
                    "check",
                    "--sce",
                    SCENARIO if words else self.changed(path, old, new),
                    *words,
                )
                self.assertEqual(
                    (
                        status,
                        printed.splitlines()[0].endswith(f"; {said}")
                        or printed.splitlines()[0].endswith(f": {said}"),
                    ),
                    (1, True),
                    printed,
                )

    def test_files_that_are_swapped(self):
        status, printed, _ = run(
            "roster", "check", "--sce", SCENARIO, "--his", WEEK, "--week", HISTORY
        )
        history = f"{WEEK} line 1: 'WEEK_DATA' where 'HISTORY' should be"
        week = f"{HISTORY} line 1: 'HISTORY' where 'WEEK_DATA' should be"
        self.assertEqual(
            (status, printed),
            (
                1,
                (
                    f"{history}: this is a week's file: give it with --week\n{week}: this is a"
                    " history: give it with --his\n"
                ),
            ),
        )

    def test_letters_that_are_composed_otherwise(self):
        ward, past = (
            self.changed(path, "Chen", name, f"new-{path.name}")
            for path, name in ((SCENARIO, "G\u00fcl"), (HISTORY, "Gu\u0308l"))
        )
        _, printed, _ = run("roster", "check", "--sce", ward, "--his", past)
        self.assertIn("it looks like 'G\u00fcl', and has other letters: copy that name", printed)

    def test_a_pipe_is_no_file(self):
        pipe = self.folder / "pipe"
        os.mkfifo(pipe)
        line = f"inrc2pb-roster: {pipe} is a pipe, which can be read only once: give a file"
        self.assert_fault(run("roster", "check", *WEEK_OPTIONS, "--roster", pipe), line)

    def test_a_path_that_leads_nowhere_is_one_mistake(self):
        wrong = self.folder / ("r" * 300)
        broken = self.changed(ROSTER, "Amara Mon Day Charge", "Amara Mon Dai Charge")
        status, printed, said = run(
            "roster", "check", *WEEK_OPTIONS, "--roster", wrong, "--roster", broken
        )
        self.assertEqual((status, said), (1, ""))
        self.assertIn(f"{wrong}: File name too long", printed)
        self.assertIn(f"{broken} line 5: 'Dai'", printed)

    def test_a_file_that_is_not_utf8_beside_one_that_is(self):
        ward, past = (
            self.changed(path, "Chen", "J\u00fcrgen", f"new-{path.name}")
            for path in (SCENARIO, HISTORY)
        )
        for path, where in ((ward, "the scenario is"), (past, "this file is")):
            text = path.read_text()
            path.write_text(text, encoding="latin-1")
            words = ("check", "--sce", ward, "--his", past)
            _, printed, _ = run("roster", *words, errors="surrogateescape")
            self.assertIn(f"{past} line 7: 'J", printed)
            self.assertIn(
                f"rgen' is no nurse of NURSES: {where} not UTF-8: save it as UTF-8", printed
            )
            path.write_text(text)
        self.assertEqual(
            run("roster", "check", "--sce", ward, "--his", past)[1], "No mistake found.\n"
        )

    def test_good_files(self):
        self.assertEqual(
            run("roster", "check", *WEEK_OPTIONS, "--roster", ROSTER),
            (0, "No mistake found.\n", ""),
        )

    def test_without_the_program_the_rules_are_checked_too(self):
        missing = "there is no program /nowhere: correct or unset the variable INRC2PB"
        warning = f"warning: {missing}; the files were checked without it\n"
        fix = self.solution("Grace Sat Day Nurse", name="fix.txt")
        broken = self.changed(ROSTER, "Amara Tue Day Charge", "Amara Mon Late Nurse")
        for words, status, said in (
            (("--roster", ROSTER), 0, "No mistake found.\n"),
            (
                ("--roster", broken),
                1,
                f"{broken} line 6: roster breaks H1: Amara has two places on Mon\n",
            ),
            (
                ("--roster", ROSTER, "--fix", fix),
                1,
                f"{ROSTER}: roster breaks H5: the held row 'Grace Sat Day Nurse' is missing\n",
            ),
        ):
            with self.subTest(words=words):
                ran = run(
                    "roster", "check", *WEEK_OPTIONS, *words, environment={"INRC2PB": "/nowhere"}
                )
                self.assertEqual(ran, (status, warning + said, ""))

    def test_each_roster_that_breaks_a_rule_is_named(self):
        one = self.changed(ROSTER, "Amara Tue Day Charge", "Amara Mon Late Nurse", "one.txt")
        other = self.changed(ROSTER, "Bruno Mon Day Nurse", "Chen Mon Day Charge", "other.txt")
        status, printed, _ = run(
            "roster", "check", *WEEK_OPTIONS, "--roster", one, "--roster", ROSTER, "--roster", other
        )
        self.assertEqual(
            (status, [line.split(":")[0] for line in printed.splitlines()]),
            (1, [f"{one} line 6", f"{other} line 10"]),
        )

    def test_rules_need_the_whole_week(self):
        status, printed, _ = run("roster", "check", "--sce", SCENARIO, "--roster", ROSTER)
        warning = (
            "warning: hard rules are not checked without the whole week: give --his and --week too"
        )
        self.assertEqual((status, printed), (0, f"{warning}\nNo mistake found.\n"))

    def test_warnings_are_no_mistakes(self):
        ward = self.changed(SCENARIO, "Day (2,5)", "Day (5,2)", "ward.txt")
        week = self.changed(WEEK, "Day Charge (1,1)", "Day Charge (5,5)", "week.txt")
        history = self.changed(
            HISTORY, "Bruno 0 0 None 0 0 2", "Bruno 0 0 None 0 1 2", "history.txt"
        )
        status, printed, _ = run("roster", "check", "--sce", ward, "--his", history, "--week", week)
        self.assertEqual(status, 0)
        for part in (
            "the minimum of (5,2) is above its maximum",
            "at least 5 are needed, and",
            "Bruno was off on Sunday",
        ):
            self.assertIn(part, printed)

    def test_no_file(self):
        line = (
            "inrc2pb-roster: no scenario is given: give --sce FILE, and the files to check; is WEEK"
            " set in this terminal?"
        )
        self.assert_fault(run("roster", "check"), line)

    def test_a_file_that_is_missing(self):
        missing = self.folder / "ward.txt"
        status, printed, _ = run("roster", "check", "--sce", missing)
        self.assertEqual(
            (status, printed),
            (1, f"{missing}: No such file or directory: look at its name and folder\n"),
        )


# Rows that no roster can have, the line of the fault, and its reason. Amara was on Day on Sunday,
# Dilek on Night.
HELD = [
    (("Amara Tue Day Charge", "Chen Mon Day Charge"), 6, "Chen does not have the skill Charge"),
    (
        ("Chen Mon Day Nurse", "Amara Tue Day Charge", "Chen Mon Late Nurse"),
        7,
        "Chen has two places on Mon",
    ),
    (
        ("Dilek Mon Late Nurse",),
        5,
        "Dilek may not work Late on Mon after Night on the Sunday before",
    ),
    (
        ("Chen Tue Day Nurse", "Chen Mon Late Nurse"),
        6,
        "Chen may not work Day on Tue after Late on Mon",
    ),
    (
        ("Chen Mon Late Nurse", "Chen Tue Day Nurse"),
        6,
        "Chen may not work Day on Tue after Late on Mon",
    ),
]


class Misfits(HelperTest):
    other_week = "line 2 has week 3, and the history has week 0: is the file of another week?"
    other_ward = "line 2 has 'icu', and the scenario is 'ward': is the file of another ward?"

    def test_a_held_row_that_no_roster_can_have(self):
        for rows, line, reason in HELD:
            with self.subTest(reason):
                fix = self.solution(*rows)
                said = f"{fix} line {line}: {reason}: no roster can have this row"
                self.assertEqual(
                    run("roster", "check", *WEEK_OPTIONS, "--fix", fix), (1, said + "\n", "")
                )
                fix = self.solution(*rows, week=3)
                self.assertEqual(
                    run("roster", "check", *WEEK_OPTIONS, "--fix", fix),
                    (1, f"{said}; {self.other_week}\n", ""),
                )

    def test_a_file_of_another_week_or_ward(self):
        for named, hint in (({"week": 3}, self.other_week), ({"ward": "icu"}, self.other_ward)):
            for option in ("--fix", "--roster"):
                with self.subTest(option, **named):
                    path = self.solution(*ROSTER.read_text().splitlines()[4:], **named)
                    ran = run("roster", "check", *WEEK_OPTIONS, option, path)
                    self.assertEqual(ran, (0, f"{path}: warning: {hint}\nNo mistake found.\n", ""))
                    path = self.solution("Amara Mon Day Charge", "Zoe Mon Day Nurse", **named)
                    status, printed, _ = run("roster", "check", *WEEK_OPTIONS, option, path)
                    self.assertEqual((status, printed.count("\n")), (1, 1), printed)
                    self.assertTrue(
                        printed.startswith(f"{path} line 6: 'Zoe' is no nurse of NURSES"), printed
                    )
                    self.assertTrue(printed.endswith(f"; {hint}\n"), printed)

    def test_a_roster_that_breaks_a_hard_rule(self):
        fix = self.solution("Grace Sat Day Nurse", name="fix.txt")
        for old, new, where, reason in (
            (
                "Amara Tue Day Charge",
                "Amara Mon Late Nurse",
                " line 6",
                "H1: Amara has two places on Mon",
            ),
            (
                "Amara Mon Day Charge",
                "Amara Thu Day Nurse",
                "",
                "H2: Mon Day Charge has 0 nurses and needs at least 1",
            ),
            (
                "Amara Mon Day Charge",
                "Amara Mon Day Nurse",
                "",
                "H2: Mon Day Charge has 0 nurses and needs at least 1",
            ),
            (
                "Bruno Mon Day Nurse",
                "Chen Mon Day Charge",
                " line 10",
                "H4: Chen does not have the skill Charge",
            ),
        ):
            with self.subTest(reason):
                roster = self.changed(ROSTER, old, new)
                said = f"{roster}{where}: roster breaks {reason}\n"
                self.assertEqual(
                    run("roster", "check", *WEEK_OPTIONS, "--roster", roster), (1, said, "")
                )
        said = f"{ROSTER}: roster breaks H5: the held row 'Grace Sat Day Nurse' is missing\n"
        self.assertEqual(
            run("roster", "check", *WEEK_OPTIONS, "--fix", fix, "--roster", ROSTER), (1, said, "")
        )


if __name__ == "__main__":
    unittest.main()
