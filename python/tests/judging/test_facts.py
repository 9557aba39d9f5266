"""Tests of facts and reasons: the files are read and written as docs/formats.md says."""

import unittest
from ward import SCENARIO, HelperTest, files

from inrc2pb.week.facts import (
    AtPlace,
    Charged,
    Choice,
    Claim,
    DayAway,
    Even,
    facts_text,
    of_weeks,
    read_facts,
    read_reasons,
    reasons_text,
)
from inrc2pb.week.faults import FileFault
from inrc2pb.week.records import Place

WARD = files.read_scenario(SCENARIO)
CLAIMS = (
    Claim(Choice(2, "Chen", 4, None)),
    Claim(Choice(1, "Ewa", 0, "Night"), False),
    Claim(AtPlace(4, Place(6, "Day", "Charge"), 1), False),
    Claim(Charged("SHIFTS", "Grace", 0)),
    Claim(Charged("WORK_DAYS", None, 3)),
    Claim(Even(), False),
)
TEXT = """FACTS
ward

ROWS = 6
HOLDS CHOICE 2 Chen Fri None
NOT CHOICE 1 Ewa Mon Night
NOT PLACE 4 Sun Day Charge 1
HOLDS CHARGES SHIFTS NURSE Grace 0
HOLDS CHARGES WORK_DAYS ALL 3
NOT EVEN
"""


class Facts(HelperTest):
    def test_what_is_written_is_read(self):
        self.assertEqual(facts_text("ward", CLAIMS), TEXT)
        self.assertEqual(read_facts("facts.txt", WARD, text=TEXT), CLAIMS)

    def test_faults_name_the_line_and_the_word(self):
        for old, new, line, said in (
            ("NOT CHOICE", "NO CHOICE", 6, "'NO' is no word of a row: did you mean 'NOT'?"),
            (
                "CHOICE 2",
                "CHOISE 2",
                5,
                "'CHOISE' is no kind of fact of a row: did you mean 'CHOICE'?",
            ),
            ("CHOICE 2", "CHOICE 5", 5, "the week of a fact is 5: it has to be from 1 to 4"),
            ("Chen Fri", "Chan Fri", 5, "'Chan' is no nurse of NURSES: did you mean 'Chen'?"),
            (
                "Mon Night",
                "Mon Nacht",
                6,
                "'Nacht' is no shift type of SHIFT_TYPES: did you mean 'Night'?",
            ),
            ("Day Charge", "Day Charg", 7, "'Charg' is no skill of SKILLS: did you mean 'Charge'?"),
            (
                "SHIFTS NURSE",
                "SHIFT NURSE",
                8,
                "'SHIFT' is no kind of charges of a fact: did you mean 'SHIFTS'?",
            ),
            (
                "NOT EVEN\n",
                "NOT EVEN\nNOT EVEN\n",
                11,
                (
                    "'NOT' comes after the last fact: remove it, or correct the number of lines"
                    " announced"
                ),
            ),
        ):
            with self.subTest(new), self.assertRaises(FileFault) as found:
                read_facts("facts.txt", WARD, 4, TEXT.replace(old, new))
            self.assertEqual(
                (found.exception.line, found.exception.message.split(";")[0]), (line, said)
            )

    def test_the_facts_of_some_weeks_of_a_period(self):
        # The weeks 1 and 2, counted from 0, are the weeks 2 and 3 of the file: the first of them
        # has a row.
        self.assertEqual(
            of_weeks(CLAIMS, 1, 2),
            (CLAIMS[0]._replace(fact=Choice(1, "Chen", 4, None)), *CLAIMS[3:]),
        )
        self.assertEqual(of_weeks(CLAIMS, 3, 1)[0].fact, AtPlace(1, Place(6, "Day", "Charge"), 1))


class Reasons(HelperTest):
    def test_what_is_written_is_read(self):
        reasons = {DayAway(1, "Chen", 4): "ill", DayAway(3, "Ewa", 0): "leave"}
        text = "REASONS\nward\n\nROWS = 2\n1 Chen Fri ill\n3 Ewa Mon leave\n"
        self.assertEqual(reasons_text("ward", reasons), text)
        self.assertEqual(read_reasons("reasons.txt", WARD, text), reasons)

    def test_a_second_reason_is_a_fault(self):
        with self.assertRaises(FileFault) as found:
            read_reasons(
                "reasons.txt", WARD, "REASONS ward ROWS = 2\n1 Chen Fri ill\n1 Chen Fri leave\n"
            )
        self.assertEqual(
            (found.exception.line, found.exception.message),
            (3, "Chen has two reasons on Fri of week 1: remove one"),
        )


if __name__ == "__main__":
    unittest.main()
