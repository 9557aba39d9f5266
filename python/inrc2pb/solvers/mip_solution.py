"""Reads the results of solvers, as answers that `inrc2pb decode` reads.

Known are the files of cbc, glpsol and HiGHS, Gurobi's list of names and values, and what SYMPHONY
and toulbar2 print.
"""

import os
import re
from array import array
from dataclasses import dataclass, field
from typing import Callable, Iterable, Iterator, List, Optional, TextIO, Tuple

from ..week.faults import Misuse
from ..week.slots import PathLike

# How a solver ended, and the status of its answer.
STATUSES = {
    "optimal": "OPTIMUM FOUND",
    "stopped": "SATISFIABLE",
    "infeasible": "UNSATISFIABLE",
    "unknown": "UNKNOWN",
}
# A value may be off by a millionth; the factor allows for the rounding of binary numbers.
TOLERANCE = 1e-6 * (1 + 1e-9)
# A value that is off by no more is an integer by some solver's tolerance, such as Gurobi's own of
# 1e-5.
SOLVER_TOLERANCE = 1e-3
# A larger file is no result of a model: the longest one has some megabytes.
MAX_BYTES = 1 << 28
MAX_LINE = 1 << 26
# An objective of more than 17 digits is not kept.
MAX_OBJECTIVE = 1e17
LITERALS_PER_LINE = 20
_VARIABLE = re.compile(r"x([1-9][0-9]{0,8})")
# How the lines of an answer begin, as pseudo-Boolean solvers print it.
_OF_ANSWER = re.compile("s [A-Z]|o -?[0-9]|v ")
_NUMBER = re.compile(r"[+-]?(?:[0-9]+\.?[0-9]*|\.[0-9]+)(?:[eE][+-]?[0-9]+)?")

Line = Tuple[int, str]


class SolutionFault(Misuse):
    """A file that is no solution of a model."""


class NotInteger(SolutionFault):
    """A variable with another value than 0 and 1."""


@dataclass
class Answer:
    """A solver's answer: its status, its objective if it is known, and the variables that are
    true."""

    status: str
    objective: Optional[int] = None
    variables: "array[int]" = field(default_factory=lambda: array("L"))

    def write(self, target: TextIO) -> None:
        """Writes the `s`, `o` and `v` lines. Variables that no line names are false."""
        target.write(f"s {self.status}\n")
        if self.status not in ("OPTIMUM FOUND", "SATISFIABLE"):
            return
        if self.objective is not None:
            target.write(f"o {self.objective}\n")
        for index in range(0, len(self.variables), LITERALS_PER_LINE):
            target.write(
                "v"
                + "".join(
                    f" x{number}" for number in self.variables[index : index + LITERALS_PER_LINE]
                )
                + "\n"
            )


def check_size(path: PathLike) -> None:
    """Raises SolutionFault if a file is too long for an answer, before it is read."""
    if os.path.isfile(path) and os.path.getsize(path) > MAX_BYTES:
        raise SolutionFault(f"{path} has more than {MAX_BYTES >> 20} MiB: this is no answer")


def read_answer(solution: TextIO, ended: Optional[str] = None) -> Answer:
    """The answer in a result file. `ended`, a key of STATUSES, counts if the file does not say how
    the solver ended."""
    lines = (
        (number, line) for number, line in enumerate(map(str.strip, _limited(solution)), 1) if line
    )
    first = next(lines, None)
    if first is None:
        return (
            Answer(STATUSES[ended or "unknown"])
            if ended in (None, "infeasible", "unknown")
            else _no_values()
        )
    for begins, reader in _READERS:
        if begins.match(first[1]):
            answer = reader(first, lines, ended or "stopped")
            break
    else:
        if _OF_ANSWER.match(first[1]):
            raise SolutionFault(
                f"line {first[0]} shows that this is an answer already: {first[1][:60]}: give it to"
                " inrc2pb decode as it is"
            )
        raise SolutionFault(f"line {first[0]} is of no known result file: {first[1][:60]}")
    if answer.status in ("OPTIMUM FOUND", "SATISFIABLE") and not answer.variables:
        _no_values()
    return answer


def _limited(solution: TextIO) -> Iterator[str]:
    """The lines of a file. Raises SolutionFault if a line or the file is too long for an answer: a
    pipe or a device may be endless."""
    left = MAX_BYTES
    while line := solution.readline(MAX_LINE + 1):
        left -= len(line)
        if left < 0 or len(line) > MAX_LINE:
            raise SolutionFault(
                f"a line or the file is longer than {MAX_LINE >> 20} or {MAX_BYTES >> 20} MiB: this"
                " is no answer"
            )
        yield line


def _no_values() -> Answer:
    raise SolutionFault(
        "the solution has no variable that is 1, not even the unit variable: the file is cut, or of"
        " another model"
    )


def _objective(text: str) -> Optional[int]:
    """The objective, if the text is a number that is an integer but for rounding."""
    if not _NUMBER.fullmatch(text):
        return None
    value = float(text)
    if abs(value) >= MAX_OBJECTIVE or abs(value - round(value)) > SOLVER_TOLERANCE:
        return None
    return round(value)


def _put_value(line: int, name: str, text: str, variables: "array[int]") -> None:
    """Keeps the variable if its value is 1."""
    match = _VARIABLE.fullmatch(name)
    if not match:
        raise SolutionFault(
            f"line {line}: '{name[:40]}' is no variable of the model: is this a solution of another"
            " model?"
        )
    if not _NUMBER.fullmatch(text):
        raise SolutionFault(f"line {line}: '{text[:40]}' is no value for {name}")
    value = float(text)
    off = min(abs(value), abs(value - 1))
    if off > SOLVER_TOLERANCE:
        raise NotInteger(
            f"line {line}: {name} is {text}, neither 0 nor 1: let the solver solve the model with"
            " integers"
        )
    if off > TOLERANCE:
        advice = (
            "give the solver a smaller integrality tolerance (Gurobi: IntFeasTol=1e-9; HiGHS:"
            " mip_feasibility_tolerance = 1e-9)"
        )
        raise SolutionFault(
            f"line {line}: {name} is {text}, off by more than a millionth: {advice}"
        )
    if value > 0.5:
        variables.append(int(match.group(1)))


def _values(rows: Iterable[Tuple[int, List[str]]], name: int = 0, value: int = 1) -> "array[int]":
    """The true variables of rows that have the name and the value at these indices."""
    variables = array("L")
    for number, words in rows:
        if len(words) <= value:
            raise SolutionFault(f"line {number} has no value: the file is cut")
        _put_value(number, words[name], words[value], variables)
    return variables


def _words(lines: Iterable[Line]) -> Iterator[Tuple[int, List[str]]]:
    return ((number, line.split()) for number, line in lines)


def _of_cbc(first: Line, lines: Iterator[Line], _ended: str) -> Answer:
    """`Optimal - objective value 320.0`, then index, name, value and reduced cost; `**` marks an
    infeasible row."""
    says, _, objective = first[1].partition(" - objective value")
    if "nfeasible" in says:
        return Answer("UNSATISFIABLE")
    if says not in ("Optimal", "Optimal (within gap tolerance)") and not re.fullmatch(
        r"Stopped on [a-zA-Z -]+", says
    ):
        return Answer("UNKNOWN")
    rows = ((number, [word for word in words if word != "**"]) for number, words in _words(lines))
    try:
        return Answer(
            STATUSES["optimal" if says == "Optimal" else "stopped"],
            _objective(objective.strip()),
            _values(rows, 1, 2),
        )
    except NotInteger:
        if says.startswith("Optimal"):
            raise
        # cbc was stopped before it had a roster, and wrote the values that it had.
        return Answer("UNKNOWN")


_GLPSOL = {
    "INTEGER OPTIMAL": "OPTIMUM FOUND",
    "INTEGER NON-OPTIMAL": "SATISFIABLE",
    "INTEGER EMPTY": "UNSATISFIABLE",
    "INTEGER UNDEFINED": "UNKNOWN",
}


def _of_glpsol(_first: Line, lines: Iterator[Line], _ended: str) -> Answer:
    """The printed form, `glpsol -o`: a table of rows, then one of columns: number, name, `*`, value
    and bounds."""
    status = ""
    objective = None
    for _number, line in lines:
        key, _, value = line.partition(":")
        if key == "Status":
            status = value.strip()
        elif key == "Objective":
            objective = _objective(value.partition("=")[2].split("(")[0].strip())
        elif "Column name" in line:
            break
    if status not in _GLPSOL:
        raise SolutionFault(
            f"the solution's status is '{status}': let glpsol solve the model with integers"
        )
    if status not in ("INTEGER OPTIMAL", "INTEGER NON-OPTIMAL"):
        return Answer(_GLPSOL[status])
    return Answer(_GLPSOL[status], objective, _values(_columns(lines), 1, 2))


def _columns(lines: Iterator[Line]) -> Iterator[Tuple[int, List[str]]]:
    """The rows of the table of columns, without `*`."""
    for number, words in _words(lines):
        if words[0].isdigit():
            yield number, [word for word in words if word != "*"]
        elif not words[0].startswith("--"):
            return


def _of_highs(_first: Line, lines: Iterator[Line], _ended: str) -> Answer:
    """`Model status`, the status, and the section of the columns."""
    says = next(lines, (0, ""))[1]
    if says in ("Infeasible", "Primal infeasible or unbounded", "Unbounded or infeasible"):
        return Answer("UNSATISFIABLE" if says == "Infeasible" else "UNKNOWN")
    objective = None
    feasible = False
    for _number, line in lines:
        words = line.split()
        if line == "Feasible":
            feasible = True
        elif words[0] == "Objective" and len(words) == 2:
            objective = _objective(words[1])
        elif line.startswith("# Columns"):
            break
        elif line == "None" or line == "Infeasible":
            return Answer("UNKNOWN")
    if not feasible:
        return Answer("UNKNOWN")
    return Answer(
        STATUSES["optimal" if says == "Optimal" else "stopped"],
        objective,
        _values(_until_comment(lines)),
    )


def _until_comment(lines: Iterator[Line]) -> Iterator[Tuple[int, List[str]]]:
    for number, words in _words(lines):
        if words[0].startswith("#"):
            return
        yield number, words


def _of_list(first: Line, lines: Iterator[Line], ended: str) -> Answer:
    """Names and values, as Gurobi and others write them; `# Objective value = ..` in front, if at
    all."""
    objective = None
    while first[1].startswith("#"):
        key, _, value = first[1].lstrip("# ").partition("=")
        objective = _objective(value.strip()) if key.strip() == "Objective value" else objective
        first = next(lines, (0, ""))
    rows = [first] if first[1] else []
    return Answer(
        STATUSES[ended], objective, _values(_words(line for part in (rows, lines) for line in part))
    )


def _of_symphony(_first: Line, lines: Iterator[Line], _ended: str) -> Answer:
    """What `symphony -L week.lp` prints: how it ended, between lines of stars, and the values that
    are not 0."""
    says = ""
    objective = None
    rows = []
    for number, line in lines:
        words = line.split()
        if line.startswith("* ") and not line.startswith("* Now "):
            says = line.strip("* ")
        elif line.startswith("Solution Cost:"):
            objective = _objective(words[-1])
        elif len(words) == 2 and _VARIABLE.fullmatch(words[0]):
            rows.append((number, words))
    if "Infeasible" in says:
        return Answer("UNSATISFIABLE")
    status = STATUSES["optimal" if says == "Optimal Solution Found" else "stopped"]
    return Answer(status, objective, _values(rows)) if rows else Answer("UNKNOWN")


def _of_toulbar2(_first: Line, lines: Iterator[Line], _ended: str) -> Answer:
    """What `toulbar2 week.opb -s=3` prints: after each `New solution: 320 (..)` a line
    `x1=v0 x2=v1 ..`, of which the last one counts."""
    says = "stopped"
    objective = None
    last = (0, "")
    for number, line in lines:
        if line.startswith("New solution: "):
            objective = _objective(line.split()[2])
        elif line.startswith("Optimum: "):
            says = "optimal"
        elif line.startswith("No solution"):
            says = "infeasible"
        elif re.match("x[0-9]+=v", line):
            last = (number, line)
    if objective is not None and not last[1]:
        raise SolutionFault("toulbar2 printed no names of variables: give it the option -s=3")
    if not last[1]:
        return Answer(STATUSES["infeasible" if says == "infeasible" else "unknown"])
    return Answer(
        STATUSES[says], objective, _values((last[0], word.split("=v")) for word in last[1].split())
    )


_READERS: List[Tuple["re.Pattern[str]", Callable[[Line, Iterator[Line], str], Answer]]] = [
    (re.compile(r"Model status$"), _of_highs),
    (re.compile(r"Problem:"), _of_glpsol),
    (re.compile(r".* - objective value"), _of_cbc),
    (re.compile(r"==  Welcome to the SYMPHONY"), _of_symphony),
    (re.compile(r"c .*\btoulbar2\b"), _of_toulbar2),
    (re.compile(r"#|x[0-9]+\s"), _of_list),
]
