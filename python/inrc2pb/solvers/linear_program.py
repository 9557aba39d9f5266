"""Converts an OPB model to an LP file, the format that MIP solvers read.

The model is read and written in pieces, so that a model of any length needs little memory.
Constraint N of the model is the row `cN` of the LP file.
"""

import functools
import math
import re
from dataclasses import dataclass
from pathlib import Path
from typing import Callable, Iterator, List, Optional, TextIO, Tuple

from ..week.faults import Misuse
from ..week.writing import replacing

# A term has at most 31 characters: a sign, 17 digits, a blank, `x` and 10 digits, and a blank. A
# line may have 560. Models of `inrc2pb` have at most 10 and 8 digits.
TERMS_PER_LINE = 16
CHUNK = 1 << 18
# The most characters of the first line, and of a constraint or a term: those of `inrc2pb` have far
# fewer.
MAX_HEADER = 100
MAX_STATEMENT = 1 << 23
_HEADER = re.compile(r"\* #variable= ([0-9]{1,10}) #constraint= ([0-9]{1,10})\s*")
_TERMS = re.compile(r"(?:\s*[+-][0-9]{1,17}\s+x[1-9][0-9]{0,9}(?!\S))*\s*")
_DEGREE = re.compile(r"\s*([+-]?[0-9]{1,17})\s*")


# Called before each piece of a model: an exception that it raises ends the conversion.
Check = Optional[Callable[[], None]]


class ModelFault(Misuse):
    """A text that is not a model as `inrc2pb encode` writes it."""


@dataclass(frozen=True)
class ModelSize:
    """The size of a model. `step` divides each value of the objective; it is 0 if the model has no
    objective."""

    variables: int
    constraints: int
    step: int


def write_linear_program(opb: TextIO, lp: TextIO, check: Check = None) -> ModelSize:
    """Writes the model in the file `opb` to the file `lp`."""
    header = opb.readline(MAX_HEADER)
    match = _HEADER.fullmatch(header)
    if not match:
        raise ModelFault(
            "the model does not begin with `* #variable= V #constraint= C`: give a file that"
            " `inrc2pb encode` wrote"
        )
    variables = int(match.group(1))
    constraints = int(match.group(2))
    lp.write("Minimize\n obj:")
    step, found = _write_statements(_pieces(opb, check), lp, f"x{variables}")
    if found != constraints:
        raise ModelFault(
            f"the model has {found} constraints and announces {constraints}: it is cut, so encode"
            " the week again"
        )
    _write_binaries(variables, lp)
    return ModelSize(variables, constraints, step)


def _write_statements(pieces: Iterator[Tuple[str, bool]], lp: TextIO, last: str) -> Tuple[int, int]:
    """Writes the objective and the constraints; returns the objective's step, and the number of
    constraints. `last` is the last variable."""
    step = number = 0
    in_objective = has_terms = False
    for text, ends in pieces:
        start = text.lstrip()
        if number == 0 and not in_objective and start.startswith("min:"):
            in_objective = True
            text = start[len("min:") :]
        if in_objective:
            words = _terms(text, last)
            step = functools.reduce(math.gcd, map(int, set(words[::2])), step)
            has_terms = has_terms or bool(words)
            lp.writelines(f" {line}\n" for line in _lines(words))
            if ends:
                in_objective = False
                number = 1
                lp.write("Subject To\n" if has_terms else " +0 x1\nSubject To\n")
            continue
        if number == 0:
            number = 1
            lp.write(" 0 x1\nSubject To\n")
        _write_constraint(number, text, lp, last)
        number += 1
    return step, max(0, number - 1)


def _pieces(opb: TextIO, check: Check) -> Iterator[Tuple[str, bool]]:
    """The statements in pieces: each with whether its statement ends there. A piece ends between
    two terms.

    Only the objective comes in pieces: a constraint is short.
    """
    rest = ""
    long = False
    for chunk in iter(lambda: opb.read(CHUNK), ""):
        if check:
            check()
        *whole, rest = (rest + chunk).split(";")
        for statement in whole:
            yield statement, True
            long = False
        cut = max(rest.rfind("+"), rest.rfind("-"))
        if cut > 0 and (long or rest.lstrip().startswith("min:")):
            yield rest[:cut], False
            rest = rest[cut:]
            long = True
        if len(rest) > MAX_STATEMENT:
            raise ModelFault("a statement is too long: give a file that `inrc2pb encode` wrote")
    if rest.strip():
        raise ModelFault(
            "the model ends in the middle of a statement: it is cut, so encode the week again"
        )


def _terms(text: str, last: str) -> List[str]:
    """The words of the terms: coefficients and variables in turn, none after the last one."""
    found = _TERMS.match(text)
    end = found.end() if found else 0
    if end < len(text):
        raise ModelFault(
            "no linear terms as `inrc2pb encode` writes them:"
            f" {' '.join(text[end : end + 200].split())[:60]}"
        )
    words = text.split()
    variables = words[1::2]
    # A longer word has a greater number; words of one length have the order of their numbers.
    length = max(map(len, variables), default=0)
    if length > len(last) or (
        length == len(last) and max(word for word in variables if len(word) == length) > last
    ):
        raise ModelFault(
            f"the model has variables after {last}, the last that it announces: encode the week"
            " again"
        )
    return words


def _lines(words: List[str]) -> List[str]:
    """The terms, some on each line."""
    return [
        " ".join(words[index : index + 2 * TERMS_PER_LINE])
        for index in range(0, len(words), 2 * TERMS_PER_LINE)
    ]


def _write_constraint(number: int, text: str, lp: TextIO, last: str) -> None:
    terms, _, degree = text.partition(">=")
    match = _DEGREE.fullmatch(degree)
    if not match:
        raise ModelFault(
            f"constraint {number} has no `>=` with a degree of 17 digits or less: give a model that"
            " `inrc2pb encode` wrote"
        )
    # A row without terms is legal in OPB, but not in an LP file.
    lines = "\n ".join(_lines(_terms(terms, last))) or "0 x1"
    lp.write(f" c{number}: {lines} >= {match.group(1)}\n")


def _write_binaries(variables: int, lp: TextIO) -> None:
    lp.write("Binary\n")
    for first in range(1, variables + 1, TERMS_PER_LINE):
        lp.write(
            "".join(
                f" x{number}" for number in range(first, min(first + TERMS_PER_LINE, variables + 1))
            )
            + "\n"
        )
    lp.write("End\n")


def convert(model: Path, lp: Path, check: Check = None) -> ModelSize:
    """Converts the file `model` to the file `lp`, in the way of `replacing`."""
    with open(model, encoding="ascii", errors="replace") as opb, replacing(lp) as target:
        return write_linear_program(opb, target, check)
