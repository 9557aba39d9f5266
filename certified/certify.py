#!/usr/bin/env python3
"""Looks for the best roster of each instance of docs/benchmark.md, and for the certificate of a
lower bound, and keeps what is better than before: the rosters and the certificate in
certified/known, and the rest in certified/table.txt.

    certified/certify.py [--time SECONDS] [NAME ..]     all instances, or these
    certified/certify.py --page                         writes the families to docs/benchmark.md

The programs are out/inrc2pb and out/inrc2pb-bound, or the one that INRC2PB names and the one beside
it.
"""

import argparse
import hashlib
import itertools
import re
import shutil
import subprocess
import sys
import tempfile
import time
from dataclasses import replace
from pathlib import Path
from typing import Dict, List, NamedTuple, Optional

sys.path.insert(0, str(Path(__file__).resolve().parent))

from instances import INSTANCES, Instance, make, named, options_of  # noqa: E402

from inrc2pb.programs.program import find_program, run_program  # noqa: E402
from inrc2pb.search.bounds import EXISTS_NONE, PROOF, find_prover  # noqa: E402
from inrc2pb.search.planned_weeks import PeriodFiles  # noqa: E402

HERE = Path(__file__).resolve().parent
ROOT = HERE.parent
TABLE = HERE / "table.txt"
KNOWN = HERE / "known"
PAGE = ROOT / "docs" / "benchmark.md"
BEGIN = "<!-- certified -->"
END = "<!-- end of certified -->"
CERTIFICATE = "certificate.txt"
# The most seconds of a search for a week, and for a period.
WEEK_SECONDS = 120.0
PERIOD_SECONDS = 240.0
NONE = "none"
UNKNOWN = "-"
HEAD = "# name nurses weeks variables constraints sum-of-files sum-of-model best bound seconds"
# The families of instances by the beginning of their names: how the rest of a name is made, and
# its special property.
FAMILIES = {
    "small": (
        "N-..",
        "three shift types, two skills; the first, second or last week of a scenario",
    ),
    "first": ("N", "four shift types, four skills; the first week of a scenario"),
    "last": ("N", "the same; the last week, in which the totals of all weeks count"),
    "tight": ("N", "nearly twice the usual demand: most nurses work more than they should"),
    "full": ("N", "three times the usual demand"),
    "early": ("N", "`--early`: totals are charged as soon as they are exceeded"),
    "fix": ("N", "`--fix`: shifts that are held"),
    "early-fix": ("N", "both"),
    "wide": ("NxK", "K shift types and K skills"),
    "large": ("N", "many nurses"),
    "none": ("N", "no roster exists: two days ask for more head nurses than there are"),
    "period": ("NxW", "W weeks, 2 to 8, which are planned together"),
}


class Row(NamedTuple):
    """A row of the table. The model of a period is that of its first week; `best` is `none` if no
    roster exists."""

    name: str
    nurses: int
    weeks: int
    variables: int
    constraints: int
    files: str
    model: str
    best: str
    bound: str
    seconds: str


def rows() -> Dict[str, Row]:
    """The rows of the table by their names."""
    lines = TABLE.read_text().splitlines() if TABLE.exists() else []
    cells = [line.split() for line in lines if not line.startswith("#")]
    return {
        words[0]: Row(words[0], *map(int, words[1:5]), *words[5:])  # type: ignore[arg-type]
        for words in cells
    }


def write_rows(found: Dict[str, Row]) -> None:
    """Writes the table, in the order of the instances."""
    lines = [" ".join(map(str, found[one.name])) for one in INSTANCES if one.name in found]
    TABLE.write_text("\n".join([HEAD, *lines]) + "\n")


def sum_of(files: PeriodFiles) -> str:
    """The SHA-256 sum of the files of an instance, one after another."""
    return hashlib.sha256(b"".join(path.read_bytes() for path in files.all())).hexdigest()


def model_of(files: PeriodFiles) -> List[str]:
    """The numbers of variables and constraints of the model of the first week, and its SHA-256
    sum."""
    words = ["encode", *options_of(replace(files, weeks=files.weeks[:1]))]
    total = hashlib.sha256()
    head = b""
    with subprocess.Popen([str(find_program()), *words], stdout=subprocess.PIPE) as encoding:
        assert encoding.stdout
        while piece := encoding.stdout.read(1 << 20):
            head = head or piece[:100]
            total.update(piece)
    numbers = re.match(rb"\* #variable= ([0-9]+) #constraint= ([0-9]+)\n", head)
    assert numbers and encoding.returncode == 0
    return [numbers[1].decode(), numbers[2].decode(), total.hexdigest()]


class Proved(NamedTuple):
    """What `inrc2pb-bound` says: the bound, or that no roster exists, and the penalty of the
    rosters, if there are some."""

    bound: str
    penalty: Optional[int]


def proved(files: PeriodFiles, folder: Path) -> Optional[Proved]:
    """What the certificate and the rosters of a folder prove; None without them."""
    prover = find_prover()
    rosters = sorted(folder.glob("roster-*.txt"), key=lambda path: int(path.stem.partition("-")[2]))
    if prover is None:
        sys.exit("certify.py: there is no inrc2pb-bound beside inrc2pb: type make")
    if not (folder / CERTIFICATE).exists():
        return None
    words = [*options_of(files), PROOF, str(folder / CERTIFICATE)]
    if not rosters:
        none = run_program(*words, "--minimums", program=prover).startswith(EXISTS_NONE)
        return Proved(NONE, None) if none else None
    said = run_program(
        *words, *(word for roster in rosters for word in ("--roster", str(roster))), program=prover
    )
    values = dict(line.rsplit(" ", 1) for line in said.splitlines() if line != "optimal")
    return Proved(values["lower bound"], int(values["penalty"]))


def search(one: Instance, files: PeriodFiles, folder: Path, seconds: float) -> None:
    """Plans an instance in this folder, which gets its rosters and its certificate."""
    target = (
        folder if one.weeks > 1 else folder / f"roster-{files.history.stem.partition('-')[2]}.txt"
    )
    limits = ["--time", f"{seconds:g}", "--proof", str(folder / CERTIFICATE)]
    words = [
        sys.executable,
        str(ROOT / "python/inrc2pb-solve"),
        *options_of(files),
        "--out",
        str(target),
        *limits,
    ]
    subprocess.run(words, stdout=subprocess.DEVNULL, stderr=subprocess.DEVNULL)


def keep(one: Instance, files: PeriodFiles, new: Path, seconds: float) -> Optional[Row]:
    """Keeps what is better than before, and returns the row of the table; None if nothing was
    found."""
    old = KNOWN / one.name
    found = proved(files, new)
    before = proved(files, old) if old.exists() else None
    if found and (before is None or (found.penalty or 0) < (before.penalty or 0)):
        old.mkdir(parents=True, exist_ok=True)
        for roster in new.glob("roster-*.txt"):
            shutil.copy(roster, old)
    if found and (
        before is None or int(found.bound.replace(NONE, "0")) > int(before.bound.replace(NONE, "0"))
    ):
        shutil.copy(new / CERTIFICATE, old)
    best = proved(files, old) if old.exists() else None
    if best is None:
        return None
    variables, constraints, model = model_of(files)
    penalty = NONE if best.penalty is None else str(best.penalty)
    sums = sum_of(files), model
    return Row(
        one.name,
        one.nurses,
        one.weeks,
        int(variables),
        int(constraints),
        *sums,
        penalty,
        best.bound,
        f"{seconds:.1f}",
    )


def certify(one: Instance, seconds: float) -> Optional[Row]:
    """Looks for the best roster and a bound of an instance."""
    with tempfile.TemporaryDirectory() as room:
        files = make(one, Path(room))
        plan = Path(room, "plan")
        plan.mkdir()
        began = time.monotonic()
        search(one, files, plan, seconds)
        return keep(one, files, plan, time.monotonic() - began)


def family_of(row: Row) -> str:
    """The family of an instance."""
    return "-".join(itertools.takewhile(str.isalpha, row.name.split("-")))


def is_known(row: Row) -> bool:
    """Whether the best roster is proved the best, or that none exists."""
    return row.best in (NONE, row.bound)


def table(found: Dict[str, Row]) -> str:
    """The table of the page: a row for each family."""
    families = {
        name: [row for row in found.values() if family_of(row) == name] for name in FAMILIES
    }
    lines = [
        "| name | how many | solved | nurses (N) | variables | what is special |",
        "|---|---:|---:|---:|---:|---|",
    ]
    for name, rows_of_family in families.items():
        rest, special = FAMILIES[name]
        cells = [
            f"`{name}-{rest}`",
            str(len(rows_of_family)),
            str(sum(map(is_known, rows_of_family))),
            _range([row.nurses for row in rows_of_family]),
            _range([row.variables for row in rows_of_family]),
            special,
        ]
        lines.append(f"| {' | '.join(cells)} |")
    return "\n".join([*lines, "", *_open_lines(list(found.values()))])


def _range(numbers: List[int]) -> str:
    """The lowest and the highest of the numbers."""
    return f"{min(numbers)}-{max(numbers)}"


def _open_lines(known: List[Row]) -> List[str]:
    """The table of the instances whose optimum is not known."""
    return [
        "| open | best known | lower bound |",
        "|---|---:|---:|",
        *(f"| `{row.name}` | {row.best} | {row.bound} |" for row in known if not is_known(row)),
    ]


def write_page(found: Dict[str, Row]) -> None:
    """Puts the tables into the page, between its markers."""
    before, _, rest = PAGE.read_text().partition(BEGIN)
    PAGE.write_text(f"{before}{BEGIN}\n\n{table(found)}\n\n{END}{rest.partition(END)[2]}")


def main() -> None:
    """Certifies instances, or writes the page."""
    options = argparse.ArgumentParser(
        description=__doc__, formatter_class=argparse.RawDescriptionHelpFormatter
    )
    options.add_argument("names", metavar="NAME", nargs="*")
    options.add_argument(
        "--time",
        type=float,
        metavar="SECONDS",
        help=f"default: {WEEK_SECONDS:.0f} for a week, {PERIOD_SECONDS:.0f} else",
    )
    options.add_argument("--page", action="store_true")
    given = options.parse_args()
    for one in [] if given.page else map(named, given.names) if given.names else INSTANCES:
        row = certify(one, given.time or (WEEK_SECONDS if one.weeks == 1 else PERIOD_SECONDS))
        # Others may have written rows in the meantime.
        if row:
            write_rows({**rows(), row.name: row})
        print(row or f"{one.name}: nothing was found", flush=True)
    if given.page:
        write_page(rows())


if __name__ == "__main__":
    main()
