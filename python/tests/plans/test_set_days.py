"""Tests of days that are set: what that costs and breaks, who could do it instead, and that later
plans keep them; and of days off that the spreadsheet promises."""

import json
import unittest
from test_kept_plans import KeptTest
from ward import HAS_CBC, run

from inrc2pb.plans.verb import Event, Status
from inrc2pb.plans.verbs.set_day import DaySet
from inrc2pb.plans.state import SetDay
from inrc2pb.plans.plan_files import read_record, read_state
from inrc2pb.plans.store import Means
from inrc2pb.plans.state import Swap
from inrc2pb.plans.swaps import Swaps
from inrc2pb.judging.obstacles import Obstacle
from inrc2pb.plans.table import Verbs
from inrc2pb.plans.ward_folder import WardFolder
from inrc2pb.programs.progress import Progress
from inrc2pb.week.faults import FileFault, Misuse
from inrc2pb.week.records import Cell, NurseDay

WRITE = "type it again with --do"


class SetTest(KeptTest):
    def asked(self, *words, do=False):
        verbs = Verbs(WardFolder(self.ward), Means(Progress(None), lambda line: None))
        return verbs.asked(Event("set", words, do=do))

    def said(self, *words):
        return self.asked(*words).lines(WRITE)


class Asked(SetTest):
    def test_a_shift_and_its_price(self):
        # Grace works Day from Monday to Friday, and 10 of at least 17 shifts. Saturday is a sixth
        # day of work (30), of Day (15) and half a weekend (30), leaves one day off (30), and is a
        # shift less below her minimum (20). Its place has the best number without her.
        found = self.asked("Grace", "Sat", "Day", "she", "asked", "for", "it")
        self.assertEqual(
            (type(found), found.status, found.is_written), (DaySet, Status.DONE, False)
        )
        self.assertEqual(
            (found.place, found.now), (NurseDay("Grace", 5), Cell("Grace", 5, "Day", "Nurse"))
        )
        self.assertEqual(
            found.new.state.set_days, (SetDay("Grace", 5, "she asked for it", "Day", "Nurse"),)
        )
        self.assertEqual(Swaps(found.old).day_cost(found.place, found.now), 30 + 15 + 30 + 30 - 20)
        self.assertEqual(
            {one for one in found.new.works.items() if one not in found.old.works.items()},
            {(found.place, found.now)},
        )
        said = found.lines(WRITE)
        self.assertIn("Grace, Sat 5 Dec: Day Nurse instead of off", said)
        self.assertIn("1 nurse to call: Grace", said)
        self.assertIn(
            (
                "Grace, Sat 5 Dec: Day Nurse (she asked for it): swaps and later plans keep it,"
                " until it is taken back"
            ),
            said,
        )
        self.assertIn(f"nothing is written: {WRITE}", said)
        before, now = (plan.view().penalty for plan in (found.old, found.new))
        self.assertEqual(now - before, 85)

    def test_the_price_is_the_difference_of_both_penalties(self):
        plan = self.read()
        tried = 0
        for nurse, day, shift in (("Bruno", 0, None), ("Grace", 0, None), ("Chen", 1, "Day"), ("Ewa", 0, "Late"), ("Amara", 12, "Late"),
                                  ("Dilek", 3, "Late"), ("Grace", 4, "Late"), ("Grace", 6, "Night")):  # fmt: skip
            place = NurseDay(nurse, day)
            now = Cell(nurse, day, shift, "Nurse") if shift else None
            cells = [
                *(cell for one, cell in plan.works.items() if one != place),
                *([now] if now else []),
            ]
            before = plan.view().penalty
            after = plan.with_cells(cells).view().penalty
            if after is not None:
                tried += 1
                self.assertEqual(Swaps(plan).day_cost(place, now), after - before, place)
        self.assertGreater(tried, 4)

    def test_a_day_off_and_who_could_work_instead(self):
        # Grace's Monday leaves Bruno alone on Day Nurse, of one at least and two at best.
        found = self.asked("Grace", "Mon", "off")
        self.assertEqual((found.now, found.faults), (None, ()))
        self.assertEqual({one.swap.nurse for one in found.instead}, {"Grace"})
        self.assertEqual(
            sorted(one.cost for one in found.instead), [one.cost for one in found.instead]
        )
        said = found.lines(WRITE)
        self.assertIn("Grace, Mon 30 Nov: off instead of Day Nurse", said)
        self.assertIn("other ways, and what they add to the points:", said)
        self.assertEqual(said[-1], "with the name of one of them: swap Grace 2026-11-30 NAME")
        # On Friday Finn has Late.
        self.assertTrue(
            any(
                line.endswith("Finn takes it, in exchange for Late on Fri 4 Dec")
                for line in self.said("Grace", "Fri", "off")
            )
        )

    def test_a_place_below_its_minimum(self):
        # Only Dilek has Night on Monday.
        found = self.asked("Dilek", "Mon", "off")
        self.assertEqual([(one.kind, one.number) for one in found.faults], [(Obstacle.MINIMUM, 1)])
        self.assertEqual(found.status, Status.NOT_KEPT)
        said = found.lines(WRITE)
        self.assertEqual(said[:2], ["not possible: Night Nurse on Mon 30 Nov needs at least 1 nurse, and without Dilek has fewer",
                                    "nothing is written"])  # fmt: skip

    def test_what_cannot_be(self):
        self.rows["plan"][7][1] = "Day"
        self.rows["plan"][1][2] = "ill"
        self.rows["contracts"][1][1:3] = ["8", "10!"]
        self.write()
        for words, kind, nurse in (
            ("Grace Mon off", Obstacle.HELD, "Grace"),
            ("Amara Tue Late", Obstacle.AWAY, "Amara"),
            ("Finn Wed Night", Obstacle.NEVER, "Finn"),
            # Dilek has Night on Monday.
            ("Dilek Tue Day", Obstacle.FOLLOWS, "Dilek"),
            # Bruno has ten shifts.
            ("Bruno Sat Day/Nurse", Obstacle.LIMIT, "Bruno"),
        ):
            with self.subTest(words):
                self.assertIn(
                    (kind, nurse),
                    [(one.kind, one.nurse) for one in self.asked(*words.split(), do=True).faults],
                )
                self.assertEqual(self.said(*words.split())[0][:14], "not possible: ")

    def test_who_else_could_have_a_shift(self):
        # Finn has Late on Friday. Amara is off then, and has Day on Saturday; Ewa comes from a
        # night.
        found = self.asked("Grace", "Fri", "Late")
        self.assertEqual(
            [(one.nurse, one.swap) for one in found.instead],
            [("Finn", Swap("Grace", "Finn", (4,)))],
        )
        *_, way, typed = found.lines(WRITE)
        self.assertEqual(way[6:], " Grace swaps with Finn, who has Late Nurse then")
        self.assertEqual(typed, "with the name of one of them: swap Grace 2026-12-04 NAME")
        # On Monday both are off, and have no Day on Tuesday.
        found = self.asked("Grace", "Mon", "Late")
        self.assertEqual(
            {one.nurse: one.swap for one in found.instead}, {"Chen": None, "Ewa": None}
        )
        self.assertIn("  +25  Ewa instead of Grace", found.lines(WRITE))

    def test_words_that_are_wrong(self):
        for words, says in (
            ("Grace Mon Day/Charge", "'Charge' is no skill of hers: write one of Nurse"),
            ("Grace Mon Nigth", "'Nigth' is no shift type: did you mean Night?"),
            (
                "Grace Mon",
                (
                    "a shift type is missing: write, for example, set Amara Fri Day, or set Amara"
                    " Fri off"
                ),
            ),
            (
                "Grace Mon back",
                "nothing is set for Grace on Mon 30 Nov: set it first, or type undo",
            ),
            (
                "Grace Mon back soon",
                (
                    "'soon' is a word too many: write, for example, set Amara Fri Day, or set Amara"
                    " Fri off"
                ),
            ),
            (
                "Grace 2027-02-01 Day",
                "'2027-02-01' is not in this plan: it has the days 2026-11-30 to 2026-12-13",
            ),
        ):
            with self.subTest(words), self.assertRaises(Misuse) as caught:
                self.asked(*words.split())
            self.assertEqual(str(caught.exception), says)


class Written(SetTest):
    def set(self, *words):
        return self.does("set", *words, "--do", "--time", "0")

    def test_it_is_written_with_do_only_and_taken_back(self):
        before = self.last()
        self.does("set", "Grace", "Sat", "Day")
        self.assertEqual(self.last(), before)
        printed = self.set("Grace", "Sat", "Day", "asked", "for")
        self.assertIn("swaps and later plans keep it", printed)
        self.assertEqual(self.cells()["Grace", 5], ("Day", "Nurse"))
        self.assertEqual(
            read_state(self.last()).set_days, (SetDay("Grace", 5, "asked for", "Day", "Nurse"),)
        )
        self.assertEqual(read_record(self.last()).verb, "set Grace 2026-12-05 Day")
        status, _, said = run("plan", self.ward, "set", "Grace", "Sat", "Day", "asked", "for")
        self.assertEqual(
            (status, said.split(": ")[2]), (1, "set Grace 2026-12-05 back takes that back\n")
        )
        says = (
            "Grace, Sat 5 Dec: Day Nurse (asked for): swaps and later plans may change it again\n"
        )
        self.assertIn(says, self.set("Grace", "Sat", "back"))
        self.assertEqual(
            (read_state(self.last()).set_days, self.cells()["Grace", 5]), ((), ("Day", "Nurse"))
        )

    def test_what_cannot_be_is_not_written(self):
        before = self.last()
        status, printed, _ = run("plan", self.ward, "set", "Finn", "Wed", "Night", "--do")
        self.assertEqual((status, self.last()), (6, before))
        self.assertIn("nothing is written\n", printed)

    def test_a_reason_that_no_later_verb_could_read(self):
        # An argument of a terminal without UTF-8, and one of 600 kB.
        before = self.texts()
        for reason, says in (
            (
                "M\udcfcller",
                (
                    "'M\\xfcller' has a byte that is no UTF-8: write the reason without accents, or"
                    " in a terminal with UTF-8"
                ),
            ),
            (
                "x" * 600_000,
                f"'{'x' * 20} ..' has 600000 signs: write a reason of at most 200",
            ),
            ("x" * 201, f"'{'x' * 20} ..' has 201 signs: write a reason of at most 200"),
        ):
            with self.subTest(reason[:20]):
                ran = run("plan", self.ward, "set", "Grace", "Mon", "off", reason, "--do")
                self.assertEqual(ran, (1, "", f"inrc2pb-plan: {says}\n"))
                self.assertEqual(self.texts(), before)
        self.set("Grace", "Mon", "off", "x" * 200)
        self.assertEqual(read_state(self.last()).set_days[0].reason, "x" * 200)

    def test_a_running_week_is_mended_at_once(self):
        # The page for the wall shows it, and the end of the week as it was worked.
        self.does("page")
        self.set("Grace", "Sat", "Day")
        self.assertIn("1 nurse to call: Grace", self.set("Grace", "Fri", "off"))
        self.does("over")
        history = (self.last() / "history-1.txt").read_text()
        self.assertEqual(
            next(line.split()[1] for line in history.splitlines() if line.startswith("Grace ")), "5"
        )
        self.assertEqual(read_state(self.last()).set_days, ())

    def test_a_day_of_a_week_that_is_over(self):
        self.does("over")
        status, _, said = run("plan", self.ward, "set", "Grace", "2026-12-01", "off")
        cure = "the plan goes on from Mon 7 Dec, and the verb over corrects older days"
        self.assertEqual(
            (status, said), (1, f"inrc2pb-plan: Tue 1 Dec is in a week that is over: {cure}\n")
        )

    def test_the_file_of_an_older_version(self):
        path = self.last() / "plan.json"
        values = json.loads(path.read_text())
        self.assertEqual(values.pop("set days"), [])
        path.write_text(json.dumps(values))
        self.assertEqual(read_record(self.last()).set_days, ())
        path.write_text(json.dumps({**values, "set days": [["Grace", 99, ""]]}))
        with self.assertRaises(FileFault):
            read_record(self.last())
        # What was set has the shift of the roster, or is a day off.
        path.write_text(json.dumps({**values, "set days": [["Grace", 0, "a"], ["Grace", 5, ""]]}))
        self.assertEqual(
            read_state(self.last()).set_days,
            (SetDay("Grace", 0, "a", "Day", "Nurse"), SetDay("Grace", 5)),
        )


@unittest.skipUnless(HAS_CBC, "cbc is not installed")
class Kept(SetTest):
    def test_later_plans_keep_it_also_if_all_shifts_may_change(self):
        # It costs points, which a free search would save.
        self.does("set", "Grace", "Sat", "Day", "--do")
        self.does("set", "Grace", "Mon 2", "off", "--do")
        for words in (("ill", "Dilek", "Thu"), ("plan",), ("plan", "--free")):
            with self.subTest(words):
                self.does(*words)
                cells = self.cells()
                self.assertEqual(
                    (cells.get(("Grace", 5)), cells.get(("Grace", 7))), (("Day", "Nurse"), None)
                )
                self.assertEqual(
                    [one.place for one in read_state(self.last()).set_days],
                    [("Grace", 5), ("Grace", 7)],
                )

    def test_an_illness_on_its_day_is_named(self):
        self.does("set", "Grace", "Sat", "Day", "--do")
        printed = self.does("ill", "Grace", "Sat")
        self.assertIn(
            "this breaks a promise: Grace, Sat 5 Dec: ill, promised was Day Nurse\n", printed
        )
        # The promise stays below the illness: she has the shift again if she is back.
        self.assertEqual([one.place for one in read_state(self.last()).set_days], [("Grace", 5)])
        self.assertIn(
            "Grace, Sat 5 Dec: Day Nurse instead of ill\n", self.does("back", "Grace", "Sat")
        )
        self.assertEqual(self.cells()["Grace", 5], ("Day", "Nurse"))


class Promised(KeptTest):
    def test_a_promised_day_off_of_the_spreadsheet(self):
        self.rows["plan"][7][4] = "off"
        self.write()
        plan = self.read()
        self.assertEqual(
            {one: word for one, word in plan.away.items() if word == "promised"},
            {NurseDay("Grace", 3): "promised"},
        )
        # It takes no shifts from her, and a plan keeps it as an absence.
        self.assertEqual((plan.ward.credit, plan.ward.reasons), ({}, {}))
        self.assertEqual(
            [(one.kind, one.day) for one in Swaps(plan).faults(Swap("Grace", "Dilek", (3,)))][:1],
            [(Obstacle.AWAY, 3)],
        )
        _, printed, _ = run("plan", self.ward, "check")
        self.assertIn("Promised days off: Grace on Thu 3 Dec.\n", printed)
        self.assertNotIn("Always off", printed)
        status, _, said = run("plan", self.ward, "back", "Grace", "Thu")
        promised = "the sheet plan promises her this day off: empty her cell to change that"
        self.assertEqual(
            (status, said), (1, f"inrc2pb-plan: Grace is not away on Thu 3 Dec: {promised}\n")
        )


if __name__ == "__main__":
    unittest.main()
