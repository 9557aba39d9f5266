#!/usr/bin/env python3
"""Measures the program on made-up weeks, next to `dd` and `cat` of the same bytes.

usage: run.py [PROGRAM] [--growth] [--picture FILE]

  PROGRAM         crates/inrc2pb/out/inrc2pb if it is left out
  --growth        measure only the weeks of 10 to 1000 nurses
  --picture FILE  draw their times as an SVG picture

README.md in this folder explains each line. Needs Linux, and GNU time at /usr/bin/time.
"""

import argparse
import os
import re
import subprocess
import sys
import tempfile
import time
from pathlib import Path
from typing import Dict, List, NamedTuple, Optional, Sequence, Union

import picture
import weeks
import worst

HERE = Path(__file__).resolve().parent
NOTHING = Path(os.devnull)
RUNS = 5
FEW_RUNS = 2
SHORT_RUNS = 40
GNU_TIME = "/usr/bin/time"
MEGABYTE = 1_000_000

Words = Sequence[Union[str, Path]]


class Run(NamedTuple):
    """A command with its streams, and the exit status that it must have."""

    words: Words
    stdin: Path = NOTHING
    stdout: Path = NOTHING
    status: int = 0

    def seconds(self) -> float:
        """Runs it once."""
        with self.stdin.open("rb") as source, self.stdout.open("wb") as target:
            began = time.perf_counter()
            status = subprocess.run(
                self.words, stdin=source, stdout=target, stderr=subprocess.DEVNULL
            ).returncode
            took = time.perf_counter() - began
        if status != self.status:
            sys.exit(f"{' '.join(map(str, self.words))}: status {status}")
        return took

    def minimum_seconds(self, runs: int = RUNS) -> float:
        """The shortest time of this number of runs."""
        return min(self.seconds() for _ in range(runs))

    def maximum_memory(self) -> int:
        """The most memory that it uses, in bytes."""
        with tempfile.NamedTemporaryFile("r") as report:
            self._replace(
                words=[GNU_TIME, "-q", "-f", "%M", "-o", report.name, *self.words]
            ).seconds()
            return int(report.read().split()[-1]) * 1024


def measure(
    title: str, files: Sequence[Path], run: Run, copy_to: Path = NOTHING, runs: int = RUNS
) -> None:
    """Prints a line for the run, next to `dd` and `cat` of these files. The three take turns, so
    that a slow moment of the machine slows all of them."""
    copies = {"cat": Run(["cat", *files], stdout=copy_to)}
    if len(files) == 1:
        copies["dd"] = Run(["dd", f"if={files[0]}", "bs=4096", "status=none"], stdout=copy_to)
    times: Dict[str, List[float]] = {name: [] for name in ("program", *copies)}
    for _ in range(runs):
        for name, each in {"program": run, **copies}.items():
            times[name].append(each.seconds())
    shortest = {name: min(seconds) for name, seconds in times.items()}
    own = shortest.pop("program")
    ratios = "".join(
        f"{own / shortest[name]:>6.1f} {name}" if name in shortest else f"{'':>9}"
        for name in ("dd", "cat")
    )
    size = sum(file.stat().st_size for file in files) / MEGABYTE
    memory = run.maximum_memory() / MEGABYTE
    print(
        (
            f"{title:<45}{size:>8.1f} MB{own:>8.3f} s{size / own:>7.0f} MB/s"
            f"{ratios}{memory:>7.1f} MB held"
        ),
        flush=True,
    )


class WeekFolder:
    """The files of a week in a folder. If `late` is set, its history is of a week that the scenario
    does not have."""

    def __init__(self, folder: Path, late: bool = False) -> None:
        self.scenario = folder / "scenario.txt"
        self.week = folder / "week.txt"
        self.history = folder / ("late.txt" if late else "history.txt")

    def files(self) -> List[Path]:
        """The three files."""
        return [self.scenario, self.history, self.week]

    def command(self, program: Path, name: str, *more: Union[str, Path]) -> Words:
        """The command of the program, such as `encode`, on this week."""
        return [
            program,
            name,
            "--sce",
            self.scenario,
            "--his",
            self.history,
            "--week",
            self.week,
            *more,
        ]


def bench_week(program: Path, name: str, room: Path) -> None:
    """Measures each command on a week of this size."""
    folder = room / name
    model = room / f"{name}.opb"
    copy = room / f"{name}.copy"
    weeks.write_files(weeks.SIZES[name], str(folder))
    week = WeekFolder(folder)
    late = WeekFolder(folder, late=True)
    measure(
        f"{name}: read the files (a late week)",
        late.files(),
        Run(late.command(program, "encode"), status=1),
    )
    subprocess.run(week.command(program, "encode", "--opb", model), check=True)
    measure(f"{name}: encode to /dev/null", [model], Run(week.command(program, "encode")))
    measure(
        f"{name}: encode to a file",
        [model],
        Run(week.command(program, "encode", "--opb", copy)),
        copy_to=copy,
    )
    copy.unlink()
    bench_answers(program, name, model, room)
    model.unlink()


def bench_answers(program: Path, name: str, model: Path, room: Path) -> None:
    """Measures `decode` and `extend` on a week of this size."""
    week = WeekFolder(room / name)
    answer, solution, unknown, extended = (
        room / f"{name}.{kind}" for kind in ("answer", "solution", "unknown", "extended")
    )
    weeks.write_answer(weeks.SIZES[name], str(model), str(answer))
    unknown.write_text(answer.read_text().replace("s SATISFIABLE", "s UNKNOWN", 1))
    decode = week.command(program, "decode", "--sol", solution)
    extend = week.command(program, "extend", "--from", solution)
    measure(
        f"{name}: read the answer (status UNKNOWN)",
        [unknown],
        Run([*decode, "--answer", unknown], status=5),
    )
    measure(f"{name}: decode, the answer from a file", [answer], Run([*decode, "--answer", answer]))
    measure(f"{name}: decode, from standard input", [answer], Run(decode, stdin=answer))
    Run(extend, stdout=extended).seconds()
    measure(f"{name}: extend to /dev/null", [extended], Run(extend))
    measure(
        f"{name}: decode of lines of ten literals", [extended], Run([*decode, "--answer", extended])
    )


def bench_greatest(program: Path, room: Path) -> None:
    """Measures `encode` on the week with the longest model. A run takes seconds, so there are
    few."""
    folder = room / "greatest"
    model = room / "greatest.opb"
    weeks.write_greatest(str(folder))
    week = WeekFolder(folder)
    subprocess.run(week.command(program, "encode", "--opb", model), check=True)
    measure(
        "greatest: encode to /dev/null",
        [model],
        Run(week.command(program, "encode")),
        runs=FEW_RUNS,
    )
    model.unlink()


def bench_worst(program: Path, room: Path) -> None:
    """Measures the worst files and answers."""
    for title, folder in worst.write_weeks(room / "worst"):
        week = WeekFolder(folder)
        measure(title, week.files(), Run(week.command(program, "encode")))
    plain = room / "plain"
    answer = room / "answer"
    worst.write_texts(plain, worst.week_of_names(["Ann"]))
    decode = WeekFolder(plain).command(
        program, "decode", "--sol", room / "solution", "--answer", answer
    )
    for title, write, status in worst.answers():
        with answer.open("w") as file:
            write(file)
        measure(title, [answer], Run(decode, status=status))


class Growth(NamedTuple):
    """A week of a growing ward: the terms of its model, the bytes of its files, and nanoseconds for
    each of them. The time of a byte is missing if reading takes less than a tenth of the time that
    the program needs to start.
    """

    nurses: int
    terms: int
    size: int
    per_term: float
    per_byte: Optional[float]

    def __str__(self) -> str:
        per_byte = "-" if self.per_byte is None else f"{self.per_byte:.2f}"
        return (
            f"{self.nurses:>7}{self.terms:>12}{self.per_term:>12.2f}{self.size:>12}{per_byte:>12}"
        )


def growth(program: Path, room: Path, nurses: int, start: float) -> Growth:
    """Measures a week of this number of nurses. `start` is the time that the program needs to
    start."""
    folder = room / f"growth{nurses}"
    weeks.write_files(weeks.GROWTH[nurses], str(folder))
    week = WeekFolder(folder)
    late = WeekFolder(folder, late=True)
    model = subprocess.run(
        week.command(program, "encode"), stdout=subprocess.PIPE, check=True
    ).stdout
    terms = len(re.findall(rb"x\d", model))
    size = sum(file.stat().st_size for file in week.files())
    encoding = Run(week.command(program, "encode")).minimum_seconds(SHORT_RUNS)
    reading = Run(late.command(program, "encode"), status=1).minimum_seconds(SHORT_RUNS)
    per_byte = (reading - start) / size * 1e9 if reading > 1.1 * start else None
    return Growth(nurses, terms, size, max(0.0, encoding - reading) / terms * 1e9, per_byte)


def bench_growth(program: Path, room: Path, drawing: Optional[Path]) -> None:
    """Prints a table of growing weeks, and draws it."""
    start = Run([program, "--version"]).minimum_seconds(SHORT_RUNS)
    print(f"a start of the program: {start * 1000:.1f} ms", flush=True)
    print(f"{'nurses':>7}{'terms':>12}{'ns a term':>12}{'bytes read':>12}{'ns a byte':>12}")
    rows = []
    for nurses in weeks.GROWTH:
        rows.append(growth(program, room, nurses, start))
        print(rows[-1], flush=True)
    if drawing:
        lines: Dict[str, picture.Line] = {
            "a term written": [row.per_term for row in rows],
            "a byte read": [row.per_byte for row in rows],
        }
        drawing.write_text(
            picture.picture("nanoseconds", "nurses in the week", lines, list(weeks.GROWTH))
        )


def main() -> None:
    """Reads the command line."""
    parser = argparse.ArgumentParser(
        description=__doc__,
        formatter_class=argparse.RawDescriptionHelpFormatter,
        usage=argparse.SUPPRESS,
    )
    parser.add_argument(
        "program",
        metavar="PROGRAM",
        nargs="?",
        type=Path,
        default=HERE.parent / "crates/inrc2pb/out/inrc2pb",
    )
    parser.add_argument("--growth", action="store_true")
    parser.add_argument("--picture", metavar="FILE", type=Path)
    words = parser.parse_args()
    program = words.program.resolve()
    with tempfile.TemporaryDirectory(prefix="inrc2pb-bench-") as folder:
        room = Path(folder)
        if not words.growth:
            for name in weeks.SIZES:
                bench_week(program, name, room)
            bench_greatest(program, room)
            bench_worst(program, room)
        bench_growth(program, room, words.picture)


if __name__ == "__main__":
    main()
