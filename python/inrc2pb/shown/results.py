"""A table of the reports of many runs of `inrc2pb-solve`, each of one week or period."""

import re
from pathlib import Path
from typing import Iterable, NamedTuple, Sequence

from ..week.faults import Misuse, printable
from ..week.slots import text_of

# The content of a report: the penalty of a week or the sum of a period, the lower bound, and the
# words of a proof.
_PENALTY = re.compile(r"^(?:penalty|period) +([0-9]+)\b", re.MULTILINE)
_BOUND = re.compile(r"^lower bound ([0-9]+)\b", re.MULTILINE)
_PROVED = re.compile(r"^(?:no roster|lower bound ).*costs less, proved$", re.MULTILINE)
_HEAD = ("report", "penalty", "lower bound", "gap %", "the best", "seconds")


class Result(NamedTuple):
    """What a report says: its name, the penalty and the lower bound, whether it is proved that no
    roster costs less, and the seconds of the run, if they are known."""

    name: str
    penalty: int | None
    bound: int | None
    is_proved: bool
    seconds: float | None = None


def result_of(name: str, text: str, seconds: float | None = None) -> Result:
    """The result in the text of a report; the last numbers of each kind count."""
    penalties = _PENALTY.findall(text)
    bounds = _BOUND.findall(text)
    penalty, bound = (int(numbers[-1]) if numbers else None for numbers in (penalties, bounds))
    return Result(name, penalty, bound, _PROVED.search(text) is not None, seconds)


def read_results(reports: Sequence[Path], log: Path | None) -> list[Result]:
    """The results of reports. `log` is the log of GNU parallel that has their seconds, in the order
    of the reports' names."""
    seconds = _seconds_of(log) if log else {}
    return [result_of(str(path), text_of(path), seconds.get(_number_of(path))) for path in reports]


def _number_of(report: Path) -> str:
    """The number that the name of a report has, as parallel counts its jobs."""
    match = re.search(r"([0-9]+)\D*$", report.stem)
    return match[1].lstrip("0") if match else ""


def _seconds_of(log: Path) -> dict[str, float]:
    """The seconds of each job by its number, in a file of `parallel --joblog`."""
    head, *lines = [line.split("\t") for line in text_of(log).splitlines()] or [[""]]
    if head[:1] != ["Seq"]:
        raise Misuse(
            f"{log} is no log of parallel: give the file that its option --joblog has written"
        )
    try:
        return {words[0]: float(words[3]) for words in lines}
    except (IndexError, ValueError):
        raise Misuse(f"{log} has a line that parallel did not write") from None


def results_table(results: Iterable[Result]) -> list[str]:
    """The lines of the table: one for each report, and one for all."""
    known = list(results)
    rows = [_HEAD, *map(_row, known)]
    widths = [max(map(len, column)) for column in zip(*rows)]
    lines = [
        "  ".join(
            [
                row[0].ljust(widths[0]),
                *(cell.rjust(width) for cell, width in zip(row[1:], widths[1:])),
            ]
        ).rstrip()
        for row in rows
    ]
    solved = [result for result in known if result.penalty is not None]
    sums = f"penalty {sum(result.penalty or 0 for result in solved)} in all"
    proved = sum(result.is_proved for result in solved)
    return [
        *lines,
        f"reports: {len(known)}; with a roster: {len(solved)}, proved the best: {proved}; {sums}",
    ]


def _row(result: Result) -> Sequence[str]:
    gap = "-"
    if result.penalty is not None and result.bound is not None:
        gap = (
            f"{100 * max(0, result.penalty - result.bound) / result.penalty:.1f}"
            if result.penalty
            else "0.0"
        )
    penalty, bound = (
        "-" if number is None else str(number) for number in (result.penalty, result.bound)
    )
    best = "proved" if result.is_proved else "no" if result.penalty is not None else "no roster"
    return (
        printable(result.name),
        penalty,
        bound,
        gap,
        best,
        "-" if result.seconds is None else f"{result.seconds:.1f}",
    )
