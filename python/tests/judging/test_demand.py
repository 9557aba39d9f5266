"""Tests of what `inrc2pb-roster check` counts before planning, of `--tell` and of `--why-none`."""

import itertools
import random
import unittest
from dataclasses import replace
from fractions import Fraction
from ward import (
    HAS_CBC,
    HAS_CLASP,
    HISTORY,
    ROOT,
    SCENARIO,
    WEEK,
    WEEK_OPTIONS,
    HelperTest,
    files,
    run,
)

from inrc2pb.judging.demand import (
    asked_shifts,
    demand_warnings,
    supplied_shifts,
    supply_warnings,
)
from inrc2pb.judging.leave import Counted, PartContract, part_contract
from inrc2pb.search import why_none
from inrc2pb.shown.ward_sentences import (
    history_sentences,
    limit_sentences,
    scenario_sentences,
    supply_text,
    ward_sentence,
)
from inrc2pb.shown.week_sentences import DescribedWeek, weeks_sentences
from inrc2pb.week.records import (
    Absence,
    Cell,
    Contract,
    KeptLimit,
    Limits,
    Nurse,
    Place,
    Request,
    Requirement,
    Scenario,
    ShiftType,
    WeekData,
)

WARD = files.read_scenario(SCENARIO)
DATA = files.read_week(WEEK, files.read_scenario(SCENARIO))
PAST = files.read_history(HISTORY, WARD)
EIGHT = ROOT / "examples" / "eight"


def needing(**numbers):
    """The week with these minimum numbers on Tuesday, by shift type and skill."""
    added = {
        Place(1, *name.split("_")): Requirement(number, number) for name, number in numbers.items()
    }
    return replace(DATA, requirements={**DATA.requirements, **added})


def can_be_filled(scenario, data, day):
    """Whether some choice of nurses fills the places of the day: each choice is tried."""
    places = [
        place
        for place, asked in data.requirements.items()
        if place.day == day
        for _ in range(asked.minimum)
    ]
    return any(
        all(place.skill in scenario.nurses[nurse].skills for nurse, place in zip(chosen, places))
        for chosen in itertools.permutations(scenario.nurses, len(places))
    )


class Demand(unittest.TestCase):
    def test_nurses_who_are_needed_at_once(self):
        # Three of the seven nurses have Charge.
        wanted = [
            "Tue: 4 with Charge needed at once (Day 2, Night 2), and 3 have it: no roster can meet"
            " it: lower minimum numbers by 1, or give more nurses the skill"
        ]
        self.assertEqual(
            list(demand_warnings(WARD, PAST, needing(Day_Charge=2, Night_Charge=2))), wanted
        )
        wanted = [
            "Tue: Day Charge, Day Nurse, Late Nurse and Night Nurse need 8 nurses at once, and 7"
            " could do it: no roster can meet it: lower minimum numbers by 1 in all"
        ]
        self.assertEqual(
            list(
                demand_warnings(
                    WARD, PAST, needing(Day_Charge=2, Day_Nurse=2, Late_Nurse=2, Night_Nurse=2)
                )
            ),
            wanted,
        )

    def test_nurses_who_are_away_are_not_counted(self):
        away = replace(
            DATA,
            absences=frozenset(
                {Absence("Amara", 1, None), Absence("Bruno", 1, None), Absence("Ewa", 1, "Day")}
            ),
        )
        wanted = [
            "Tue: 1 with Charge needed at once (Day 1), and 0 of the 3 who have it could do it: no"
            " roster that keeps every absence can meet it: lower minimum numbers by 1, or give more"
            " nurses the skill, or shorten an absence"
        ]
        self.assertEqual(list(demand_warnings(WARD, PAST, away)), wanted)

    def test_a_warning_says_whether_the_places_can_be_filled(self):
        chance = random.Random(7)
        shifts = {name: ShiftType(name, Limits(1, 9), ()) for name in ("Day", "Late")}
        contract = Contract("Full", Limits(0, 99), Limits(1, 9), Limits(1, 9), 9, False)
        for _ in range(150):
            skills = ("A", "B", "C")
            nurses = {
                name: Nurse(name, "Full", tuple(skill for skill in skills if chance.random() < 0.5))
                for name in "uvwx"
            }
            scenario = Scenario("s", 4, skills, shifts, {"Full": contract}, nurses)
            numbers = {
                Place(2, shift, skill): Requirement(chance.choice((0, 0, 1, 2)), 2)
                for shift in shifts
                for skill in skills
            }
            data = WeekData("s", numbers, ())
            self.assertEqual(
                not list(demand_warnings(scenario, None, data)),
                can_be_filled(scenario, data, 2),
                data,
            )

    def test_shifts_that_are_asked_for_and_supplied(self):
        # Day Charge 7, Day Nurse 5 and 10+2, Late 7, Night 7; five Full (17,21) and two Half (8,11)
        # in four weeks.
        self.assertEqual((asked_shifts(DATA), supplied_shifts(WARD, PAST)), ((26, 33), (25, 32)))

    def test_days_away_that_count_as_work_are_missing_in_their_week(self):
        # The contracts have 101 to 127 shifts. Amara has leave on five days of the second week,
        # which count as five of her 17 to 21 shifts.
        paid = [{}, {"Amara": Fraction(5)}, {}, {}]
        past = replace(
            PAST, nurses={**PAST.nurses, "Amara": replace(PAST.nurses["Amara"], assignments=5)}
        )
        # 101 / 4 and 127 / 4 in the first week. In the second one she owes nothing, and 21 / 4 - 5
        # are left for her.
        self.assertEqual(
            (supplied_shifts(WARD, past, paid), supplied_shifts(WARD, None, paid[1:])),
            ((25, 32), (21, 27)),
        )
        # All nurses have leave in the whole second week: five quarters are left for the five with
        # full contracts.
        paid[1] = dict.fromkeys(WARD.nurses, Fraction(5))
        self.assertEqual(supplied_shifts(WARD, None, paid[1:]), (0, 2))

    def test_a_week_that_asks_for_too_many_shifts(self):
        many = replace(
            DATA,
            requirements={
                place: Requirement(1, 1)
                for place in (
                    Place(d, s, k) for d in range(7) for s in WARD.shift_types for k in WARD.skills
                )
            },
        )
        self.assertIn(
            (
                "it asks for at least 42 shifts, and the contracts supply at most 32 a week: if all"
                " weeks ask for so many, each shift above costs points"
            ),
            list(demand_warnings(WARD, PAST, many)),
        )

    def test_the_weeks_to_the_end_of_the_period(self):
        # Five contracts have at most 21 shifts, two at most 11; each week asks for 26, at best 33.
        (said,) = supply_warnings(WARD, PAST, [DATA] * 4)
        self.assertTrue(
            said.startswith(
                "the best numbers ask for 132 shifts, the minimum numbers for 104, and the contracts"
                " supply at most 127 beside absences: "
            ),
            said,
        )
        many = replace(DATA, requirements={place: Requirement(3, 3) for place in DATA.requirements})
        self.assertEqual(list(supply_warnings(WARD, PAST, [many] * 3)), [])
        last = replace(PAST, week=1)
        self.assertEqual(len(list(supply_warnings(WARD, last, [many] * 3))), 1)


class Telling(HelperTest):
    def test_a_ward_in_sentences(self):
        full = (
            "17 to 21 shifts in 4 weeks; 3 to 5 days of work in a row, 2 to 3 days off; at most 2"
            " weekends with work, on both days or none"
        )
        half = (
            "8 to 11 shifts in 4 weeks; 2 to 3 days of work in a row, 2 to 5 days off; at most 2"
            " weekends with work"
        )
        self.assertEqual([ward_sentence(WARD), *scenario_sentences(WARD)], [
            "ward: 7 nurses, 4 weeks in a period.", "Day: 2 to 5 days in a row.", "Late: 2 to 4 days in a row. After Late, the next day no Day.",
            "Night: 2 to 4 days in a row. After Night, the next day no Day and no Late.",
            f"Contract Full (Amara, Bruno, Chen, Dilek and Grace): {full}.", f"Contract Half (Ewa and Finn): {half}.",
            "Charge: Amara, Bruno and Ewa.", "Nurse: Amara, Bruno, Chen, Dilek, Ewa, Finn and Grace.",
        ])  # fmt: skip

    def test_a_maximum_of_weekends_that_no_period_reaches_is_none(self):
        for most, says in (
            (3, "at most 3 weekends with work"),
            (4, "any number of weekends with work"),
        ):
            contracts = {
                name: replace(contract, max_weekends=most)
                for name, contract in WARD.contracts.items()
            }
            said = list(scenario_sentences(replace(WARD, contracts=contracts)))
            self.assertEqual(sum(f"; {says}" in line for line in said), 2, said)

    def test_equal_contracts_and_parts_of_them(self):
        full = WARD.contracts["Full"]
        part = replace(full, name="Full_25_of_28_days", assignments=Limits(15, 19))
        long_off = replace(full, name="Full_any_days_off", days_off=Limits(2, 9999))
        contracts = {one.name: one for one in (full, replace(full, name="Same"), part, long_off)}
        given = zip(
            WARD.nurses, ("Full", "Same", "Full", part.name, long_off.name, long_off.name, "Full")
        )
        ward = replace(
            WARD,
            contracts=contracts,
            nurses={name: replace(WARD.nurses[name], contract=own) for name, own in given},
        )
        found = list(scenario_sentences(ward))[3:6]
        self.assertTrue(
            found[0].startswith(
                "Contracts Full (Amara, Chen, Dilek, Ewa, Finn and Grace) and Same (Bruno): 17 to"
                " 21 shifts "
            )
        )
        self.assertEqual(found[1:], [
            "Dilek is away or unpaid on 3 of 28 days: contract Full counts in proportion, 15 to 19 shifts in place of 17 to 21.",
            "No maximum of days off in a row, since they are away for longer, or come or leave: Ewa and Finn.",
        ])  # fmt: skip
        limits = frozenset(
            {KeptLimit(nurse, "SHIFTS", 0) for nurse in ward.nurses}
            | {KeptLimit("Bruno", "WEEKENDS", 0)}
        )
        self.assertEqual(list(limit_sentences(ward, replace(DATA, limits=limits))), [
            "Amara, Chen, Ewa, Finn and Grace: never more than 21 shifts.", "Dilek: never more than 19 shifts.",
            "Same: never more than 21 shifts and 2 weekends.",
        ])  # fmt: skip

    def test_names_of_parts_of_contracts(self):
        for part, name in (
            (PartContract("A_b", 3, 28), "A_b_3_of_28_days"),
            (PartContract("A_b", any_days_off=True), "A_b_any_days_off"),
            (PartContract("A_b", 3, 28, True), "A_b_3_of_28_days_any_days_off"),
        ):
            self.assertEqual(
                (part.name, part_contract(name, ["A_b", name]), part_contract(f"{name}_", ["A_b"])),
                (name, part, part),
            )
            # A ward may have a contract with such a name.
            self.assertEqual(
                (part_contract(name, [name]), part_contract("A_b", ["A_b"])), (None, None)
            )

    def test_a_history_in_sentences(self):
        self.assertEqual(list(history_sentences(PAST)), [
            "Off on Sunday: Bruno and Grace for 2 days in a row; Chen for 1 day in a row; Ewa for 3 days in a row.",
            "Day on Sunday: Amara for 2 days in a row, with 2 days of work.", "Night on Sunday: Dilek for 2 days in a row, with 2 days of work.",
            "Late on Sunday: Finn for 1 day in a row, with 1 day of work.",
        ])  # fmt: skip
        nurses = {
            **PAST.nurses,
            **{
                name: replace(PAST.nurses[name], assignments=5, weekends=1)
                for name in ("Amara", "Chen")
            },
        }
        begins = replace(PAST.nurses["Bruno"], days_off=0)
        found = list(history_sentences(replace(PAST, nurses={**PAST.nurses, "Bruno": begins})))
        self.assertNotIn("Bruno", found[0])
        self.assertEqual(found[1], "Nothing is known of the days before Monday: Bruno.")
        nurses["Ewa"] = replace(PAST.nurses["Ewa"], assignments=2)
        nurses["Grace"] = replace(PAST.nurses["Grace"], assignments=6, weekends=1)
        counted = Counted(shifts={"Ewa": 2, "Grace": 1}, weekends={"Grace": 1})
        found = list(history_sentences(replace(PAST, week=1, nurses=nurses), counted))
        self.assertEqual(found[0], "1 week of the period is over.")
        self.assertEqual(found[-2:], [
            "In the period until now: Amara and Chen 5 shifts and 1 weekend; Grace 5 shifts and 0 weekends.",
            "For days away in the whole period: Ewa 2 shifts and 0 weekends; Grace 1 shift and 1 weekend.",
        ])  # fmt: skip

    def test_a_week_in_sentences(self):
        data = replace(
            DATA,
            absences=frozenset(
                {
                    *(Absence("Chen", day, None) for day in (2, 3, 4)),
                    *(Absence("Ewa", day, "Night") for day in range(7)),
                }
            ),
        )
        self.assertEqual(
            supply_text(WARD, PAST, data),
            "asks for 26 to 33 shifts; the contracts supply 25 to 32 a week",
        )
        self.assertEqual(list(weeks_sentences(WARD, [DescribedWeek(0, data)])), [
            "Day Charge: 1 on all days.", "Day Nurse: 1, better 2 on Mon to Fri; 0, better 1 on Sat and Sun.", "Late Nurse: 1 on all days.",
            "Night Nurse: 1 on all days.", "Never Night: Ewa.", "Away: Chen on Wed to Fri.",
            "Would rather be off: Chen on Sat; Dilek on Fri; Ewa on Sun.", "Would rather not work Late: Finn on Wed.",
            "Would rather not work Night: Grace on Tue.",
        ])  # fmt: skip

    def test_weeks_in_sentences(self):
        # One week of three needs nobody on Friday, and one has no row for nights; a nurse is away
        # over Sunday.
        fewer = replace(
            DATA, requirements={**DATA.requirements, Place(4, "Late", "Nurse"): Requirement(0, 0)}
        )
        fewer = replace(
            fewer,
            absences=frozenset(Absence("Ewa", day, None) for day in (5, 6)),
            requests=(Request("Ewa", None, 0),) * 2,
        )
        nights = {
            place: number for place, number in DATA.requirements.items() if place.shift != "Night"
        }
        other = replace(
            DATA,
            requirements=nights,
            absences=frozenset({Absence("Ewa", 0, None), Absence("Chen", 1, None)}),
            requests=(),
        )
        weeks = [DescribedWeek(3, replace(DATA, requests=())), DescribedWeek(4, fewer, {("Ewa", 5): "leave", ("Ewa", 6): "leave"}),
                 DescribedWeek(5, other, {("Ewa", 0): "leave", ("Chen", 1): "off"})]  # fmt: skip
        self.assertEqual(list(weeks_sentences(WARD, weeks, lambda days: " ".join(map(str, sorted(days)))))[2:], [
            "Late Nurse: 1 on all days; week 5: 0 on Fri.", "Night Nurse: 1 on all days; week 6: 0 on all days.",
            "Always off: Chen on Tue.", "Leave: Ewa on 12 13 14.", "Would rather be off: Ewa on 7 (2 requests).",
        ])  # fmt: skip

    def test_held_shifts_of_weeks_in_sentences(self):
        held = [Cell("Grace", 5, "Day", "Nurse"), Cell("Chen", 0, "Late", "Nurse")]
        weeks = [DescribedWeek(0, DATA), DescribedWeek(1, DATA, held=held)]
        found = list(weeks_sentences(WARD, weeks, lambda days: " ".join(map(str, sorted(days)))))
        self.assertEqual(found[-1], "For certain: Grace Day Nurse on 12; Chen Late Nurse on 7.")

    def test_check_tells_held_shifts(self):
        fix = self.solution("Grace Sat Day Nurse", "Chen Mon Late Nurse", "Grace Sun Day Nurse")
        printed = run("roster", "check", *WEEK_OPTIONS, "--fix", fix, "--tell")[1]
        self.assertIn(
            "\nFor certain: Grace Day Nurse on Sat and Sun; Chen Late Nurse on Mon.\n", printed
        )
        self.assertNotIn("For certain", run("roster", "check", *WEEK_OPTIONS, "--tell")[1])

    def test_check_tells(self):
        status, printed, said = run("roster", "check", *WEEK_OPTIONS, "--tell")
        self.assertEqual((status, said), (0, ""))
        after = "Late: 2 to 4 days in a row. After Late, the next day no Day."
        last = "Night on Sunday: Dilek for 2 days in a row, with 2 days of work."
        for line in (
            after,
            last,
            "The week asks for 26 to 33 shifts; the contracts supply 25 to 32 a week.",
            "No mistake found.",
        ):
            self.assertIn(line, printed.splitlines())


@unittest.skipUnless(HAS_CLASP or HAS_CBC, "needs clasp or cbc")
class WhyNone(HelperTest):
    def test_the_numbers_to_lower(self):
        words = (
            "--sce",
            EIGHT / "ward.txt",
            "--his",
            EIGHT / "history-1.txt",
            "--week",
            EIGHT / "week-1.txt",
        )
        status, printed, _ = run("roster", "check", *words, "--why-none")
        lines = printed.splitlines()
        self.assertEqual(
            (status, lines[0]),
            (
                0,
                (
                    "No roster meets all minimum numbers. Lower these by 1 in all; no roster can do"
                    " with less:"
                ),
            ),
        )
        self.assertRegex(lines[1], "^(Wed|Thu) (Early|Late|Night) HeadNurse: lower 1 to 0$")
        self.assertEqual({line.split()[0] for line in lines[2:]}, {"Ada", "Emil"})

    def test_a_week_that_has_a_roster(self):
        self.assertEqual(
            run("roster", "check", *WEEK_OPTIONS, "--why-none")[:2],
            (0, "A roster exists that meets all minimum numbers.\n"),
        )

    def test_a_skill_that_is_away(self):
        away = self.away("Amara=Fri", "Bruno=Fri", "Ewa=Fri")
        _, printed, _ = run("roster", "check", *WEEK_OPTIONS[:4], "--week", away, "--why-none")
        said = (
            "No roster meets all minimum numbers, and keeps every absence. Lower these by 1 in all;"
            " no roster can do with less:"
        )
        rows = [
            "Fri Day Charge: lower 1 to 0",
            "    Amara is away",
            "    Bruno is away",
            "    Ewa is away",
        ]
        self.assertEqual(printed.splitlines()[1:], [said, *rows])

    def test_faults(self):
        self.assert_fault(
            run("roster", "check", "--sce", SCENARIO, "--why-none"),
            "inrc2pb-roster: --why-none needs the whole week: give --sce, --his and --week",
        )
        fix = self.solution("Chen Mon Day Nurse", "Chen Mon Late Nurse")
        self.assertEqual(run("roster", "check", *WEEK_OPTIONS, "--fix", fix, "--why-none")[0], 1)


class Heads(unittest.TestCase):
    def test_without_a_proof_fewer_minimums_may_be_enough(self):
        short = why_none.ShortPlace(Place(0, "Day", "Nurse"), 3, 2, (), True)
        for is_proved, says in (
            (True, "no roster can do with less:"),
            (False, "fewer may be enough:"),
        ):
            self.assertTrue(
                why_none.shortage_head(why_none.Shortage((short,), (), False, is_proved)).endswith(
                    says
                )
            )


if __name__ == "__main__":
    unittest.main()
