"""Drafts of weeks, rosters and held cells made at random, and the cases of files that they give."""

import glob
import random
import re
from types import SimpleNamespace

from drafts import ROOT, files_of, first_broken, read_week, solution_text

EXAMPLES = [
    ("n005w4", "examples/n005w4/answers/clasp.txt"),
    ("thirty", "tests/data/thirty_clasp_early.txt"),
]
ROSTERS_OF_A_WEEK = 8


# ---- files


def read(path):
    with open(path, encoding="latin-1", newline="") as file:
        return file.read()


# ---- weeks


def example_files(name):
    """The files of a folder of examples/ with one week."""
    files = (("sce", "ward"), ("his", "history-*"), ("week", "week-*"))
    return {kind: read(*glob.glob(f"{ROOT}/examples/{name}/{file}.txt")) for kind, file in files}


def example_week(name, answer):
    """A week of examples/, and the roster of a solver's answer."""
    files = example_files(name)
    week = read_week(files["sce"], files["his"], files["week"])
    true = {int(variable) for variable in re.findall(r" x(\d+)", read(f"{ROOT}/{answer}"))}
    return week, [cell for index, cell in enumerate(cells_of(week)) if index + 1 in true]


def cells_of(week):
    """All cells by their variables: by nurse, day, shift type and skill."""
    return [
        (n, d, s, k)
        for n in week.nurses
        for d in range(7)
        for s in week.shifts
        for k in week.skills
    ]


def limits(chance, most):
    """Mostly a minimum and a maximum, now and then with the minimum above the maximum."""
    pair = chance.randint(0, most), chance.randint(0, most)
    return pair if chance.random() < 0.2 else (min(pair), max(pair))


def shuffled(chance, items):
    return chance.sample(list(items), len(items))


def random_week(chance, nurses=5, shifts=3, skills=3):
    """A week of at most so many nurses, shift types and skills, with a roster that keeps its hard
    rules (mostly)."""
    week = SimpleNamespace(name="w", weeks=chance.randint(1, 4))
    week.number = week.weeks - 1 if chance.random() < 0.5 else chance.randrange(week.weeks)
    week.skills = [f"k{k}" for k in range(chance.randint(1, skills))]
    week.shifts = {f"s{s}": limits(chance, 5) for s in range(chance.randint(1, shifts))}
    week.forbidden = {(p, t) for p in week.shifts for t in week.shifts if chance.random() < 0.25}
    week.contracts = {
        f"c{c}": SimpleNamespace(
            total=limits(chance, 20),
            work=limits(chance, 6),
            off=limits(chance, 5),
            weekends=chance.randint(0, 3),
            complete=chance.randint(0, 1),
        )
        for c in range(chance.randint(1, 3))
    }
    week.nurses = {
        f"n{n}": SimpleNamespace(
            contract=chance.choice(list(week.contracts)),
            skills=[k for k in week.skills if chance.random() < 0.8],
        )
        for n in range(chance.randint(1, nurses))
    }
    week.history = {
        nurse: SimpleNamespace(
            assignments=chance.randint(0, 12),
            weekends=chance.randint(0, 4),
            last=chance.choice(["None", *week.shifts]),
            same=chance.randint(0, 5),
            work=chance.randint(0, 6),
            off=chance.randint(0, 5),
        )
        for nurse in shuffled(chance, week.nurses)
    }
    week.requests = [
        (
            chance.choice(list(week.nurses)),
            chance.choice(["Any", *week.shifts]),
            chance.randrange(7),
        )
        for _ in range(chance.randint(0, 8))
    ]
    week.requests += [
        chance.choice(week.requests) for _ in range(chance.randint(0, 2)) if week.requests
    ]
    roster = legal_roster(chance, week)
    week.required = random_requirements(chance, week, roster)
    return week, roster


def random_requirements(chance, week, roster):
    """Requirements that the roster mostly meets; rows of some shift types and skills are left
    out."""
    required = {}
    most = chance.choice([0, 1, 3])
    for shift, skill in shuffled(chance, [(s, k) for s in week.shifts for k in week.skills]):
        if chance.random() < 0.2:
            continue
        for day in range(7):
            number = sum(cell[1:] == (day, shift, skill) for cell in roster)
            least = chance.randint(0, number) if chance.random() < 0.4 else 0
            required[day, shift, skill] = least + (chance.random() < 0.003), chance.randint(0, most)
    return required


# ---- rosters


def legal_days(chance, week, nurse):
    """Cells of a nurse that break no rule of her own."""
    skills = week.nurses[nurse].skills
    before = week.history[nurse].last
    likely = chance.choice([0.2, 0.5, 0.8, 1])
    for day in range(7):
        allowed = [shift for shift in week.shifts if (before, shift) not in week.forbidden]
        before = None
        if skills and allowed and chance.random() < likely:
            before = chance.choice(allowed)
            yield nurse, day, before, chance.choice(skills)


def legal_roster(chance, week):
    return [cell for nurse in week.nurses for cell in legal_days(chance, week, nurse)]


def any_cell(chance, week):
    day = chance.choice([0, 0, *range(7)])  # on Monday more often: there the history has a say
    return (
        chance.choice(list(week.nurses)),
        day,
        chance.choice(list(week.shifts)),
        chance.choice(week.skills),
    )


def changed_roster(chance, week, roster):
    """The roster with a change that may break a rule: a cell less, one more, another one, other
    days of a nurse."""
    kind = chance.randrange(5)
    if kind == 0 or not roster:
        return roster + [any_cell(chance, week)]
    index = chance.randrange(len(roster))
    nurse, day, shift, skill = roster[index]
    if kind == 1:
        return roster[:index] + roster[index + 1 :]
    if kind == 2:
        return (
            roster[:index]
            + roster[index + 1 :]
            + [(nurse, day, chance.choice(list(week.shifts)), skill)]
        )
    if kind == 3:
        return (
            roster[:index] + roster[index + 1 :] + [(nurse, day, shift, chance.choice(week.skills))]
        )
    return [cell for cell in roster if cell[0] != nurse] + list(legal_days(chance, week, nurse))


def random_roster(chance, week, roster):
    """The roster after some changes, mostly such that it keeps the hard rules; no row stands
    twice."""
    for _ in range(chance.choice([0, 1, 2, 4, 8])):
        other = changed_roster(chance, week, roster)
        if chance.random() < 0.3 or not first_broken(week, other):
            roster = other
    return shuffled(chance, dict.fromkeys(roster))


def random_held(chance, week, roster):
    """Cells of the roster; now and then one more."""
    held = [cell for cell in roster if chance.random() < 0.2]
    if chance.random() < 0.3:
        held = changed_roster(chance, week, held)
    return shuffled(chance, dict.fromkeys(held))


def random_cases(seed, number):
    """A week, the first ones of examples/, and rosters of it: each case has the texts of its files
    by the program's options; one with `--early` has that name too."""
    chance = random.Random(f"{seed} {number}")
    week, roster = (
        example_week(*EXAMPLES[number]) if number < len(EXAMPLES) else random_week(chance)
    )
    files = files_of(week)
    for _ in range(ROSTERS_OF_A_WEEK):
        cells = random_roster(chance, week, roster)
        case = dict(files, roster=solution_text(week, cells))
        if chance.random() < 0.5:
            case["fix"] = solution_text(week, random_held(chance, week, cells))
        if chance.random() < 0.5:
            case["early"] = ""
        yield case
