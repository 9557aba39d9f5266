#!/usr/bin/env python3
"""Draws the pictures of the pages anew.

    bench/pictures.py [ward | search | tree]

`ward` is the pictures of the ward of docs/your_ward.md, by headless Chromium: docs/sheet.png and
docs/sheets.png, its spreadsheet; docs/wall.png, its first plan as it hangs on the wall; and
docs/page.png, its page with a nurse's day. The plan is printed and its folder kept, so that the
lines which the page shows after it can be typed for the same plan. `search` is docs/search.svg, the penalty and the
bound during a search for four weeks of 12 nurses. `tree` is docs/tree.svg, the cases of the month's
certificate. All need the programs that `make` leaves in out.
"""

import datetime
import os
import re
import subprocess
import sys
import tempfile
from collections.abc import Callable, Sequence
from math import log10
from pathlib import Path
from typing import NamedTuple

ROOT = Path(__file__).resolve().parents[1]
sys.path[:0] = [str(ROOT / "bench"), str(ROOT / "python")]

import make_weeks  # noqa: E402
from sheet_picture import Sheet, page_of_sheets  # noqa: E402
from tree_picture import tree_picture  # noqa: E402

from inrc2pb.commands.ward import new  # noqa: E402

DOCS = ROOT / "docs"
SEARCH = DOCS / "search.svg"
TREE = DOCS / "tree.svg"
# The day on which the ward of the page is made, and the day and the nurse that are clicked.
MADE = datetime.date(2026, 11, 28)
CLICKED = "nurse=Finn&day=2"
# The windows of the pictures.
WINDOWS = {"sheet": "1240,215", "sheets": "915,605", "wall": "1230,390", "page": "1366,740"}
MOST_BYTES = 180_000
STEP = 100
PROGRESS = re.compile(r" *([\d.]+) s  penalty (\d+)(?:  bound (\d+))?")
PROVED = re.compile(r"lower bound (\d+)")

WIDTH = 720
HEIGHT = 330
LEFT = 60
RIGHT = 640
TOP = 60
BOTTOM = 270
STYLE = """<style>
.page { fill: #ffffff } .ink { fill: #1a1a1a } .grid { stroke: #dddddd } .curve { fill: none; stroke-width: 2.5 }
.penalty { stroke: #a40e26 } .bound { stroke: #0550ae } .of-penalty { fill: #a40e26 } .of-bound { fill: #0550ae }
@media (prefers-color-scheme: dark) {
.page { fill: #14171c } .ink { fill: #e8e8e8 } .grid { stroke: #3a404a }
.penalty { stroke: #ff8f8f } .bound { stroke: #79b8ff } .of-penalty { fill: #ff8f8f } .of-bound { fill: #79b8ff }
}
</style>"""


class Value(NamedTuple):
    """What is known from this second of a search on."""

    second: float
    points: int


def programs() -> dict[str, str]:
    """The environment in which commands are those of this clone."""
    return {
        **os.environ,
        "PATH": os.pathsep.join([str(ROOT / "out"), str(ROOT / "python"), os.environ["PATH"]]),
    }


def run(*words: str, folder: str = ".") -> "subprocess.CompletedProcess[str]":
    """Runs a command with the programs of this clone."""
    return subprocess.run(
        words,
        cwd=folder,
        env=programs(),
        stdout=subprocess.PIPE,
        stderr=subprocess.PIPE,
        text=True,
        check=True,
    )


def shoot(address: str, name: str) -> None:
    """Draws the page of an address as the picture with this name."""
    picture = DOCS / f"{name}.png"
    run(
        "chromium",
        "--headless",
        "--no-sandbox",
        "--hide-scrollbars",
        "--force-device-scale-factor=1.25",
        f"--window-size={WINDOWS[name]}",
        f"--screenshot={picture}",
        address,
    )
    if picture.stat().st_size > MOST_BYTES:
        sys.exit(f"pictures.py: {picture} has more than {MOST_BYTES} bytes")


def files(folder: Path, weeks: int, histories: int = 1) -> list[str]:
    """The options that name the files of the first weeks of a ward."""
    return [
        "--sce",
        str(folder / "ward.txt"),
        "--his",
        *(str(folder / f"history-{number}.txt") for number in range(histories)),
        "--week",
        *(str(folder / f"week-{number}.txt") for number in range(weeks)),
    ]


def draw_ward() -> None:
    """Draws the spreadsheet, the wall and the page of a ward, whose folder is kept."""
    folder = tempfile.mkdtemp(prefix="pictures-")
    ward = Path(folder, "my ward")
    new(ward, MADE)
    for name, sheets in {
        "sheet": [Sheet("plan", 11)],
        "sheets": [
            Sheet("shifts", 5),
            Sheet("contracts", 9),
            Sheet("nurses", 12),
            Sheet("needs", 10),
        ],
    }.items():
        page = Path(folder, f"{name}.html")
        page.write_text(page_of_sheets(ward / "ward.ods", sheets), encoding="utf-8")
        shoot(page.as_uri(), name)
    print(run("inrc2pb-plan", "my ward", "plan", folder=folder).stdout)
    run("inrc2pb-plan", "my ward", "page", "--do", folder=folder)
    shoot((ward / "wall.html").as_uri(), "wall")
    with subprocess.Popen(
        ["inrc2pb-plan", "my ward", "serve"],
        cwd=folder,
        env=programs(),
        stdout=subprocess.PIPE,
        text=True,
    ) as server:
        assert server.stdout
        address = next(line for line in server.stdout if "http://" in line).split()[-1]
        shoot(f"{address}?{CLICKED}", "page")
        server.terminate()
    print(f"type the other lines of docs/your_ward.md in {folder}")


def searched() -> dict[str, list[Value]]:
    """The penalty and the bound of a search, as they become known."""
    with tempfile.TemporaryDirectory() as folder:
        make_weeks.period(Path(folder), "ward", 12, 4, 100, 501)
        ended = run(
            "inrc2pb-solve", *files(Path(folder) / "ward", 4), "--out", folder, "--time", "30"
        )
    known: dict[str, list[Value]] = {"penalty": [], "bound": []}
    for second, penalty, bound in PROGRESS.findall(ended.stderr):
        known["penalty"].append(Value(float(second), int(penalty)))
        if bound:
            known["bound"].append(Value(float(second), int(bound)))
    last = PROVED.search(ended.stdout)
    if last:
        end = max(value.second for values in known.values() for value in values) + 1
        known["bound"].append(Value(end, int(last.group(1))))
    return known


def across(second: float, last: float) -> float:
    """The column of a second: the first seconds have as much room as the later ones."""
    return LEFT + log10(1 + second) / log10(1 + last) * (RIGHT - LEFT)


def up(points: int, low: int, high: int) -> float:
    """The row of a number of points."""
    return BOTTOM - (points - low) / (high - low) * (BOTTOM - TOP)


def curve(name: str, values: Sequence[Value], last: float, low: int, high: int) -> list[str]:
    """A line that stays level until something better is known, and its name."""
    places: list[str] = []
    for before, value in zip((None, *values), values):
        column = across(value.second, last)
        if before:
            places.append(f"{column:.1f},{up(before.points, low, high):.1f}")
        places.append(f"{column:.1f},{up(value.points, low, high):.1f}")
    end = up(values[-1].points, low, high)
    places.append(f"{RIGHT},{end:.1f}")
    label = end - 10 if name == "penalty" else end + 20
    return [
        f'<polyline class="curve {name}" points="{" ".join(places)}"/>',
        (
            f'<text class="of-{name}" x="{RIGHT}" y="{label:.1f}"'
            f' text-anchor="end">{name} {values[-1].points}</text>'
        ),
    ]


def search_picture(known: dict[str, list[Value]]) -> str:
    """The picture of a search."""
    last = max(value.second for values in known.values() for value in values) * 1.1
    points = [value.points for values in known.values() for value in values]
    low = STEP * (min(points) // STEP)
    high = STEP * -(-max(points) // STEP)
    parts = [
        (
            f'<svg xmlns="http://www.w3.org/2000/svg" viewBox="0 0 {WIDTH} {HEIGHT}"'
            ' font-family="sans-serif" font-size="13">'
        ),
        STYLE,
        f'<rect class="page" width="{WIDTH}" height="{HEIGHT}"/>',
        (
            f'<text class="ink" x="{LEFT}" y="28" font-size="15">points of the best plan so far,'
            " and points that every plan costs</text>"
        ),
        (
            f'<text class="ink" x="{(LEFT + RIGHT) // 2}" y="{HEIGHT - 16}"'
            ' text-anchor="middle">seconds of the search</text>'
        ),
    ]
    for mark in range(low, high + 1, STEP):
        row = up(mark, low, high)
        parts.append(f'<line class="grid" x1="{LEFT}" x2="{RIGHT}" y1="{row:.1f}" y2="{row:.1f}"/>')
        parts.append(
            f'<text class="ink" x="{LEFT - 8}" y="{row + 4:.1f}" text-anchor="end">{mark}</text>'
        )
    for second in (0, 1, 2, 5, 10, 20, 50, 100, 200):
        if second <= last:
            parts.append(
                f'<text class="ink" x="{across(second, last):.1f}" y="{BOTTOM + 18}"'
                f' text-anchor="middle">{second}</text>'
            )
    for name, values in known.items():
        parts += curve(name, values, last, low, high)
    return "\n".join([*parts, "</svg>"]) + "\n"


def draw_tree() -> None:
    """Draws the cases of the month's certificate."""
    month = ROOT / "examples" / "month"
    os.environ.update(programs())
    certificate = (month / "two_cases.txt").read_text()
    TREE.write_text(
        tree_picture(
            "All rosters of the month, divided into two cases", files(month, 4), certificate
        )
    )


def main(words: Sequence[str]) -> int:
    draw: dict[str, Callable[[], object]] = {
        "ward": draw_ward,
        "search": lambda: SEARCH.write_text(search_picture(searched())),
        "tree": draw_tree,
    }
    if set(words) - set(draw):
        sys.exit(__doc__)
    for name in words or draw:
        draw[name]()
    return 0


if __name__ == "__main__":
    sys.exit(main(sys.argv[1:]))
