#!/usr/bin/env python3
"""Plans some weeks and periods from nothing, one after another, and writes each search to
docs/search.md, and a row for each kind of them to docs/solvers.md.

    bench/solvers.py [--time SECONDS] [--only-print] [NAME ..]

Without names all are planned, in about half an hour. The program is out/inrc2pb, or the one that
INRC2PB names.
"""

import argparse
import contextlib
import ctypes
import os
import platform
import re
import subprocess
import sys
import tempfile
import time
from dataclasses import replace
from pathlib import Path
from typing import Dict, List, NamedTuple, Sequence, TextIO, Tuple

ROOT = Path(__file__).resolve().parents[1]
sys.path[:0] = [str(ROOT / "python"), str(ROOT / "bench")]

import make_weeks  # noqa: E402
from inrc2pb.programs.program import WeekFiles, penalty_of, run_program  # noqa: E402
from inrc2pb.search.bounds import PROOF, find_prover  # noqa: E402
from inrc2pb.week.faults import ProgramFault  # noqa: E402

PAGE = ROOT / "docs" / "search.md"
SUMMARY = ROOT / "docs" / "solvers.md"
SOLVE = ROOT / "python" / "inrc2pb-solve"
BEGIN = "<!-- measured -->"
END = "<!-- end of measured -->"
BEGIN_SUMMARY = "<!-- summed up -->"
END_SUMMARY = "<!-- end of summed up -->"
EXAMPLES = ROOT / "examples"
# Last weeks of planned periods, with the numbers of their files, and the nurses of the large wards.
LAST_WEEKS = {"last12": 3, "last60": 3, "last120": 3, "second60": 1, "second120": 1}
LARGE = (250, 500, 1000)
# The nurses of wide weeks, the number of their shift types and skills, and the seed.
WIDE = ((100, 8, 1),)
# Periods: the nurses, weeks, percentage of the demand, seed, and the most seconds.
PERIODS = {
    "p12w4": (12, 4, 100, 501, 120),
    "p20w4": (20, 4, 90, 502, 120),
    "p40w4": (40, 4, 100, 503, 120),
    "p60w4": (60, 4, 95, 504, 120),
    "p80w4": (80, 4, 95, 509, 120),
    "p100w4": (100, 4, 95, 510, 120),
    "p120w4": (120, 4, 95, 511, 120),
    "p16w8": (16, 8, 100, 505, 300),
    "p30w8": (30, 8, 95, 506, 300),
    "p40w8": (40, 8, 95, 507, 300),
    "p60w8": (60, 8, 95, 508, 300),
}
MONTH_SECONDS = 300
# The kinds of searches, each with a pattern of their names: the first that fits counts.
KINDS = {
    "eight weeks of 16 to 60 nurses": r".*, 8 weeks",
    "four weeks of 12 to 120 nurses": r"month|.*, 4 weeks",
    "a week of 100 nurses, 8 shift types and 8 skills": r".* x .*",
    "a week of 250, 500 and 1000 nurses": r"[0-9]+ nurses",
    "a week of 5 to 120 nurses": r".*",
}
# Linux's number of the option by which a process gets the children of those that end.
SET_CHILD_SUBREAPER = 36


class Work(NamedTuple):
    """The files of a week or of a period, whose first history has the number `first`, and the most
    seconds of a run."""

    scenario: Path
    history: Path
    weeks: Sequence[Path]
    seconds: float
    first: int = 0

    def options(self) -> List[str]:
        """The files as options of `inrc2pb-solve` and of `inrc2pb-bound`."""
        words = ["--sce", str(self.scenario), "--his", str(self.history)]
        return words + [word for week in self.weeks for word in ("--week", str(week))]


class Run(NamedTuple):
    """The penalty of the rosters, as `inrc2pb extend` has it, and the lower bound; whether it is
    proved that no plan costs less; the seconds by the clock and of processors, the memory in MB,
    and what proved or computed the bound.
    """

    penalty: str
    bound: str
    proved: str
    seconds: float
    processor: float
    memory: int
    by: str


def works(folder: Path, seconds: float) -> Dict[str, Work]:
    """All weeks and periods by the names in the table. Weeks have these seconds."""
    found = {
        name: Work(files.scenario, files.history, [files.week], seconds)
        for name, files in weeks(folder).items()
    }
    return {**found, **periods(folder)}


def periods(folder: Path) -> Dict[str, Work]:
    """The files of all periods."""
    found = {"month": period_in(EXAMPLES / "month", MONTH_SECONDS)}
    for name, (nurses, number, percent, seed, seconds) in PERIODS.items():
        make_weeks.period(folder, name, nurses, number, percent, seed)
        found[f"{nurses} nurses, {number} weeks"] = period_in(folder / name, seconds)
    return found


def period_in(home: Path, seconds: float) -> Work:
    """The period of all weeks of a folder."""
    return Work(home / "ward.txt", home / "history-0.txt", sorted(home.glob("week-*.txt")), seconds)


def weeks(folder: Path) -> Dict[str, WeekFiles]:
    """The files of all weeks by the names in the table."""
    found = {}
    for name, number in (("n005w4", 0), ("eight", 1), ("thirty", 3)):
        found[name] = named(EXAMPLES / name, name, number)
    middle = folder / "middle.txt"
    middle.write_text(
        found["thirty"].history.read_text().replace("\n3 thirty\n", "\n1 thirty\n", 1)
    )
    found["thirty, second week"] = replace(found["thirty"], history=middle)
    subprocess.run(
        [sys.executable, str(ROOT / "bench/weeks.py"), "files", "ward", str(folder / "ward")],
        check=True,
    )
    ward = folder / "ward"
    found["ward of 120"] = WeekFiles(ward / "scenario.txt", ward / "history.txt", ward / "week.txt")
    for name, number in LAST_WEEKS.items():
        home = EXAMPLES / name
        found[name] = WeekFiles(
            home / "ward.txt", home / f"history-{number}.txt", home / f"week-{number}.txt"
        )
    for nurses in LARGE:
        subprocess.run(
            [sys.executable, str(ROOT / "bench/make_weeks.py"), str(folder), str(nurses)],
            check=True,
        )
        found[f"{nurses} nurses"] = named(folder / f"ward{nurses}", f"ward{nurses}", 3)
    for nurses, kinds, seed in WIDE:
        subprocess.run(
            [
                sys.executable,
                str(ROOT / "bench/wide_weeks.py"),
                str(folder),
                str(nurses),
                str(kinds),
                str(seed),
            ],
            check=True,
        )
        found[f"{nurses} nurses, {kinds} x {kinds}"] = named(
            folder / f"wide{kinds}x{seed}", "wide", 3
        )
    return found


def named(home: Path, name: str, number: int) -> WeekFiles:
    """The files of a week with the competition's names."""
    return WeekFiles(home / "ward.txt", home / f"history-{number}.txt", home / f"week-{number}.txt")


def run(work: Work, folder: Path, seed: int = 1, command: Path = SOLVE) -> Run:
    """Plans a week or a period from nothing in this folder, by `inrc2pb-solve` or a copy of it. Its
    rosters are checked by `inrc2pb`, and the bound is that of `inrc2pb-bound` by the certificate,
    if there is such a program."""
    is_week = len(work.weeks) == 1
    proof = folder / "certificate.txt"
    target = ["--out", str(folder / "roster-0.txt" if is_week else folder)]
    limits = [
        "--time",
        f"{work.seconds:g}",
        "--seed",
        str(seed),
        "--proof",
        str(proof),
    ]
    for old in (*folder.glob("roster-*.txt"), proof):
        old.unlink(missing_ok=True)
    words = [sys.executable, str(command), *work.options(), *target, *limits]
    with open(folder / "said.txt", "w+") as said:
        took, used, memory = measured(words, said)
        said.seek(0)
        text = said.read()
    none = re.search(r"no rosters? keeps? the hard rules", text)
    penalty, bound, proved, by = checked(work, folder, text)
    return Run(
        "none exists" if none else penalty, bound, "yes" if none else proved, took, used, memory, by
    )


def measured(words: Sequence[str], said: TextIO) -> Tuple[float, float, int]:
    """Runs a command, whose output goes to a file: its seconds by the clock and of processors, and
    its memory in MB. The seconds of all processes that it leaves behind count, too: they become
    children of this one."""
    ctypes.CDLL(None).prctl(SET_CHILD_SUBREAPER, 1, 0, 0, 0)
    began = time.monotonic()
    running = subprocess.Popen(words, stdout=said, stderr=subprocess.STDOUT)
    _, _, used = os.wait4(running.pid, 0)
    took = time.monotonic() - began
    seconds = used.ru_utime + used.ru_stime
    with contextlib.suppress(ChildProcessError):
        while True:
            left = os.wait4(-1, 0)[2]
            seconds += left.ru_utime + left.ru_stime
    return took, seconds, used.ru_maxrss >> 10


def checked(work: Work, folder: Path, said: str) -> Tuple[str, str, str, str]:
    """The penalty of the rosters of a folder, the lower bound, whether no plan costs less, and what
    proved or computed the bound."""
    rosters = [folder / f"roster-{number}.txt" for number in range(len(work.weeks))]
    if not all(roster.exists() for roster in rosters):
        return "none", "", "no", ""
    histories = [
        work.history,
        *(folder / f"history-{number}.txt" for number in range(1, len(work.weeks))),
    ]
    penalty = sum(
        penalty_of(WeekFiles(work.scenario, *of_week[:2]), of_week[2])
        for of_week in zip(histories, work.weeks, rosters)
    )
    line = re.search(r"^lower bound ([0-9]+)[^(]*\((.*?)\)", said, re.MULTILINE)
    bound, by = (line[1], line[2]) if line else ("", "")
    prover = find_prover()
    if prover and PROOF in run_program("--help", program=prover):
        given = [word for roster in rosters for word in ("--roster", str(roster))]
        try:
            answer = run_program(
                *work.options(), PROOF, str(folder / "certificate.txt"), *given, program=prover
            )
            bound = answer.split()[2]
            by = prover.name
            assert f"penalty {penalty}\n" in answer
        except ProgramFault as fault:
            by = f"{prover.name}: {fault.message}"
    return str(penalty), bound, "yes" if bound and int(bound) >= penalty else "no", by


def machine() -> str:
    """This machine in words."""
    info = Path("/proc/cpuinfo")
    model = (
        re.search(r"^model name\s*: (.*)$", info.read_text(), re.MULTILINE)
        if info.exists()
        else None
    )
    used = f"{len(os.sched_getaffinity(0))} of its {os.cpu_count()} processors"
    return f"{model[1].strip() if model else platform.machine()}, {used}, {platform.system()}"


def table(runs: Dict[str, Run]) -> str:
    """The table of these runs."""
    lines = [
        "| week or period | penalty | lower bound | the best | seconds | of processors | MB |",
        "|---|---:|---:|---|---:|---:|---:|",
    ]
    for name, run in runs.items():
        lines.append(
            f"| `{name}` | {run.penalty} | {run.bound} | {run.proved} | {run.seconds:.1f} |"
            f" {run.processor:.1f} | {run.memory} |"
        )
    return "\n".join(lines)


def summary(lines: Sequence[str]) -> str:
    """A row for each kind of the searches in the lines of a table."""
    kinds: Dict[str, List[List[str]]] = {kind: [] for kind in reversed(KINDS)}
    for line in lines:
        name, *cells = (cell.strip(" `") for cell in line.strip("|").split("|"))
        kind = next(kind for kind, names in KINDS.items() if re.fullmatch(names, name))
        kinds[kind].append(cells)
    head = [
        "| search | how many | proved the best | seconds of these | gap of the others |",
        "|---|---:|---:|---:|---:|",
    ]
    return "\n".join([*head, *(_of_kind(kind, found) for kind, found in kinds.items() if found)])


def _of_kind(kind: str, searches: Sequence[Sequence[str]]) -> str:
    """The row of the searches of a kind, each with its penalty, its bound, whether it is proved,
    and its seconds."""
    seconds = [float(cells[3]) for cells in searches if cells[2] == "yes"]
    gaps = [
        100 * (int(cells[0]) - int(cells[1])) / int(cells[0])
        for cells in searches
        if cells[2] == "no" and cells[1]
    ]
    cells = (len(searches), len(seconds), _range(seconds), _range(gaps, " %"))
    return f"| {kind} | {' | '.join(map(str, cells))} |"


def _range(numbers: Sequence[float], unit: str = "") -> str:
    """The lowest and the highest of the numbers."""
    ends = (
        dict.fromkeys(f"{number:.1f}" for number in (min(numbers), max(numbers))) if numbers else {}
    )
    return " to ".join(ends) + unit if ends else ""


def write_page(page: Path, begin: str, end: str, text: str) -> None:
    """Puts the text into a page, between its markers."""
    before, _, rest = page.read_text().partition(begin)
    page.write_text(f"{before}{begin}\n\n{text}\n\n{end}{rest.partition(end)[2]}")


def main() -> None:
    """Plans the weeks and periods."""
    options = argparse.ArgumentParser(
        description=__doc__, formatter_class=argparse.RawDescriptionHelpFormatter
    )
    options.add_argument("names", nargs="*", metavar="NAME", help="only these weeks and periods")
    options.add_argument(
        "--time",
        type=float,
        default=120,
        metavar="SECONDS",
        help="the most seconds for a week (default: 120)",
    )
    options.add_argument("--only-print", action="store_true", help="leave the page as it is")
    given = options.parse_args()
    runs: Dict[str, Run] = {}
    with tempfile.TemporaryDirectory() as room:
        found = works(Path(room), given.time)
        folder = Path(room, "plan")
        folder.mkdir()
        chosen: List[str] = given.names or list(found)
        for name in chosen:
            runs[name] = run(found[name], folder)
            print(f"{name}: {runs[name]}", flush=True)
    text = f"Measured on {machine()}.\n\n{table(runs)}"
    if given.only_print:
        print(text)
    else:
        write_page(PAGE, BEGIN, END, text)
        write_page(SUMMARY, BEGIN_SUMMARY, END_SUMMARY, summary(table(runs).splitlines()[2:]))


if __name__ == "__main__":
    main()
