"""The files of a week: one reader and one writer of scenario, history, week data and solution
files.

The readers accept exactly the files that `inrc2pb` accepts, and report a fault on the same line;
docs/formats.md has the layouts. The values that they return are those of `records`. A `text` is
what the file holds, if it was read already.
"""

from typing import Iterable

from .faults import FileFault, Misuse
from .records import (
    ANY,
    DAYS,
    NONE,
    Cell,
    Contract,
    History,
    Limits,
    Nurse,
    NurseHistory,
    Place,
    Request,
    Requirement,
    Scenario,
    ShiftType,
    Solution,
    Week,
    WeekData,
    week_name,
)
from .slots import (
    MAX_CONTRACTS,
    MAX_NURSES,
    MAX_SHIFTS,
    MAX_SKILLS,
    MAX_WEEKS,
    PathLike,
    Slots,
    Token,
)
from .writing import write_text


def read_scenario(path: PathLike, text: str | None = None) -> Scenario:
    """Reads a scenario."""
    slots = Slots(path, text)
    slots.words("SCENARIO", "=")
    name = slots.any_word("the scenario's name").text
    slots.words("WEEKS", "=")
    weeks = slots.number("the number of weeks", 1, MAX_WEEKS)
    slots.words("SKILLS", "=")
    skills: dict[str, None] = {}
    for _ in range(slots.number("the number of skills", 1, MAX_SKILLS)):
        skills[slots.new_name("skill", skills)] = None
    shift_types = _shift_types(slots)
    contracts = _contracts(slots)
    slots.words("NURSES", "=")
    nurses: dict[str, Nurse] = {}
    for _ in range(slots.number("the number of nurses", 1, MAX_NURSES)):
        nurse = slots.new_name("nurse", nurses)
        contract = slots.known_name("contract", contracts, "CONTRACTS").text
        count = slots.number(f"the number of skills of {nurse}", 0, len(skills))
        nurses[nurse] = Nurse(
            nurse, contract, _names_once(slots, count, "skill", tuple(skills), "SKILLS")
        )
    slots.end("nurse")
    return Scenario(
        name, weeks, tuple(skills), shift_types=shift_types, contracts=contracts, nurses=nurses
    )


def _shift_types(slots: Slots) -> dict[str, ShiftType]:
    slots.words("SHIFT_TYPES", "=")
    limits: dict[str, Limits] = {}
    for _ in range(slots.number("the number of shift types", 1, MAX_SHIFTS)):
        shift = slots.new_name("shift type", [*limits, NONE, ANY])
        limits[shift] = slots.pair(f"consecutive {shift} shifts")
    slots.words("FORBIDDEN_SHIFT_TYPES_SUCCESSIONS")
    after: dict[str, tuple[str, ...]] = {}
    with slots.line_for_each(limits, "FORBIDDEN_SHIFT_TYPES_SUCCESSIONS"):
        for _ in limits:
            token = slots.known_name("shift type", limits, "SHIFT_TYPES")
            _only_once(slots, token, after, f"the successions of '{token.text}' are")
            count = slots.number(
                f"the number of shift types that may not follow {token.text}", 0, len(limits)
            )
            after[token.text] = _names_once(slots, count, "shift type", limits, "SHIFT_TYPES")
    return {shift: ShiftType(shift, limits[shift], after[shift]) for shift in limits}


def _contracts(slots: Slots) -> dict[str, Contract]:
    slots.words("CONTRACTS", "=")
    contracts: dict[str, Contract] = {}
    for _ in range(slots.number("the number of contracts", 1, MAX_CONTRACTS)):
        name = slots.new_name("contract", contracts)
        contracts[name] = Contract(
            name,
            slots.pair(f"assignments of {name}"),
            slots.pair(f"working days of {name}"),
            days_off=slots.pair(f"days off of {name}"),
            max_weekends=slots.number(f"the maximum of weekends of {name}"),
            complete_weekends=slots.number(f"complete weekends of {name}", 0, 1) == 1,
        )
    return contracts


def _names_once(
    slots: Slots, count: int, kind: str, names: Iterable[str], source: str
) -> tuple[str, ...]:
    known = list(names)
    taken: list[str] = []
    for _ in range(count):
        token = slots.known_name(kind, known, source)
        _only_once(slots, token, taken, f"the {kind} '{token.text}' is")
        taken.append(token.text)
    return tuple(taken)


def _only_once(
    slots: Slots, token: Token, taken: Iterable[object], what: str, key: object = None
) -> None:
    if (token.text if key is None else key) in taken:
        slots.fault(token, "repeated", f"{what} listed twice: remove one")


def read_history(path: PathLike, scenario: Scenario, text: str | None = None) -> History:
    """Reads a history of this scenario. The week's number is compared with WEEKS by
    `check_week_number`."""
    slots = Slots(path, text)
    slots.words("HISTORY")
    week = slots.number("the week's number")
    name = slots.any_word("the scenario's name").text
    slots.words("NURSE_HISTORY")
    nurses: dict[str, NurseHistory] = {}
    with slots.line_for_each(scenario.nurses, "NURSE_HISTORY"):
        for _ in scenario.nurses:
            token = slots.known_name("nurse", scenario.nurses, "NURSES")
            _only_once(slots, token, nurses, f"the history of '{token.text}' is")
            nurses[token.text] = _nurse_history(slots, token.text, scenario)
    slots.end("nurse's history")
    return History(week, name, nurses)


def _nurse_history(slots: Slots, nurse: str, scenario: Scenario) -> NurseHistory:
    assignments = slots.number(f"the assignments of {nurse}")
    weekends = slots.number(f"the weekends of {nurse}")
    last = slots.known_name("shift type", scenario.shift_types, "SHIFT_TYPES", (NONE,)).text
    runs = [
        slots.number(f"the consecutive {what} of {nurse}")
        for what in ("assignments to one shift type", "working days", "days off")
    ]
    return NurseHistory(nurse, assignments, weekends, None if last == NONE else last, *runs)


def check_week_number(path: PathLike, history: History, scenario: Scenario) -> None:
    """Raises FileFault if the history's week is none of the scenario's weeks."""
    if history.week >= scenario.weeks:
        over = "the period is over, begin a new one with inrc2pb-roster next --new-period"
        raise FileFault(
            path,
            0,
            f"week {history.week} is not below WEEKS = {scenario.weeks}: {over}",
            "week not below WEEKS",
        )


def check_weeks_left(count: int, history: History, scenario: Scenario) -> None:
    """Raises Misuse if the period has not this number of weeks left, with the week of the
    history."""
    left = scenario.weeks - history.week
    if count > left:
        raise Misuse(
            f"{count} weeks are given, and {left} {'is' if left == 1 else 'are'} left from"
            f" {week_name(history.week)} of {scenario.weeks}: give only the files of weeks that are"
            " not planned yet"
        )


def read_week(path: PathLike, scenario: Scenario, text: str | None = None) -> WeekData:
    """Reads the week data of this scenario."""
    slots = Slots(path, text)
    slots.words("WEEK_DATA")
    name = slots.any_word("the scenario's name").text
    slots.words("REQUIREMENTS")
    requirements: dict[Place, Requirement] = {}
    ending = "SHIFT_OFF_REQUESTS"
    while True:
        token = slots.known_name("shift type", scenario.shift_types, "SHIFT_TYPES", (ending,))
        if token.text == ending:
            break
        skill = slots.known_name("skill", scenario.skills, "SKILLS")
        _only_once(
            slots,
            skill,
            requirements,
            f"the row {token.text} {skill.text} is",
            Place(0, token.text, skill.text),
        )
        for day, named in enumerate(DAYS):
            pair = slots.pair(f"{token.text} {skill.text} on {named}")
            requirements[Place(day, token.text, skill.text)] = Requirement(*pair)
    slots.words("=")
    requests = []
    for _ in range(slots.number("the number of requests")):
        nurse = slots.known_name("nurse", scenario.nurses, "NURSES").text
        shift = slots.known_name("shift type", scenario.shift_types, "SHIFT_TYPES", (ANY,)).text
        requests.append(Request(nurse, None if shift == ANY else shift, _day(slots)))
    slots.end("request")
    return WeekData(name, requirements, tuple(requests))


def read_files(scenario: PathLike, history: PathLike, week: PathLike) -> Week:
    """Reads the three files of a week, and checks that its number is below WEEKS."""
    ward = read_scenario(scenario)
    past = read_history(history, ward)
    data = read_week(week, ward)
    check_week_number(history, past, ward)
    return Week(ward, past, data)


def _day(slots: Slots) -> int:
    return DAYS.index(slots.known_name("day", DAYS, "the week").text)


def read_solution(
    path: PathLike, scenario: Scenario | None = None, text: str | None = None
) -> Solution:
    """Reads a solution or fix file; with a scenario each name has to be one of its names."""
    slots = Slots(path, text)
    slots.words("SOLUTION")
    week = slots.number("the week's number")
    name = slots.any_word("the scenario's name").text
    slots.words("ASSIGNMENTS", "=")
    rows: dict[Cell, None] = {}
    for _ in range(slots.number("the number of assignments")):
        nurse = (
            slots.known_name("nurse", scenario.nurses, "NURSES")
            if scenario
            else slots.any_word("a nurse")
        )
        day = _day(slots)
        shift = (
            slots.known_name("shift type", scenario.shift_types, "SHIFT_TYPES")
            if scenario
            else slots.any_word("a shift type")
        )
        skill = (
            slots.known_name("skill", scenario.skills, "SKILLS")
            if scenario
            else slots.any_word("a skill")
        )
        row = Cell(nurse.text, day, shift.text, skill.text)
        _only_once(slots, skill, rows, f"the row '{row.row()}' is", row)
        rows[row] = None
    slots.end("assignment")
    return Solution(week, name, tuple(rows))


def _row(*words: object) -> str:
    return " ".join(
        f"({word.minimum},{word.maximum})" if isinstance(word, Limits) else str(word)
        for word in words
    )


def scenario_text(scenario: Scenario) -> str:
    """The text of a scenario file."""
    types = scenario.shift_types.values()
    contracts = scenario.contracts.values()
    nurses = scenario.nurses.values()
    lines = [f"SCENARIO = {scenario.name}", "", f"WEEKS = {scenario.weeks}"]
    lines += ["", f"SKILLS = {len(scenario.skills)}", *scenario.skills]
    lines += [
        "",
        f"SHIFT_TYPES = {len(types)}",
        *(_row(shift.name, shift.consecutive) for shift in types),
    ]
    lines += ["", "FORBIDDEN_SHIFT_TYPES_SUCCESSIONS"]
    lines += [_row(shift.name, len(shift.forbidden_next), *shift.forbidden_next) for shift in types]
    lines += ["", f"CONTRACTS = {len(contracts)}"]
    lines += [
        _row(
            contract.name,
            contract.assignments,
            contract.working_days,
            contract.days_off,
            contract.max_weekends,
            int(contract.complete_weekends),
        )
        for contract in contracts
    ]
    lines += [
        "",
        f"NURSES = {len(nurses)}",
        *(_row(nurse.name, nurse.contract, len(nurse.skills), *nurse.skills) for nurse in nurses),
    ]
    return "\n".join(lines) + "\n"


def week_text(data: WeekData) -> str:
    """The text of a week's file."""
    lines = ["WEEK_DATA", data.name, "", "REQUIREMENTS"]
    for shift, skill in dict.fromkeys((place.shift, place.skill) for place in data.requirements):
        pairs = [
            data.requirements.get(Place(day, shift, skill), Requirement(0, 0))
            for day in range(len(DAYS))
        ]
        lines.append(
            _row(shift, skill, *(Limits(required.minimum, required.optimal) for required in pairs))
        )
    lines += ["", f"SHIFT_OFF_REQUESTS = {len(data.requests)}"]
    lines += [
        _row(request.nurse, request.shift or ANY, DAYS[request.day]) for request in data.requests
    ]
    return "\n".join(lines) + "\n"


def solution_text(solution: Solution) -> str:
    """The text of a solution or fix file."""
    rows = "".join(f"{cell.row()}\n" for cell in solution.cells)
    return (
        f"SOLUTION\n{solution.week} {solution.scenario}\n\nASSIGNMENTS ="
        f" {len(solution.cells)}\n{rows}"
    )


def history_text(history: History) -> str:
    """The text of a history file."""
    rows = "".join(
        f"{past.nurse} {past.assignments} {past.weekends} {past.last_shift or NONE} "
        f"{past.consecutive_shifts} {past.working_days} {past.days_off}\n"
        for past in history.nurses.values()
    )
    return f"HISTORY\n{history.week} {history.scenario}\n\nNURSE_HISTORY\n{rows}"


def write_solution(path: PathLike, solution: Solution) -> None:
    """Writes a solution or fix file."""
    write_text(path, solution_text(solution))


def write_history(path: PathLike, history: History) -> None:
    """Writes a history file."""
    write_text(path, history_text(history))
