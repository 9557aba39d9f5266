"""Draws the tree of cases of a certificate as an SVG picture, each case with the bound that
`inrc2pb-bound` proves for it.

A leaf is proved on its own: the facts on the way to it are given (`--given`), and its prices and
surcharges are a certificate of one leaf. The bound of a case that is divided is the lower one of
its two parts.
"""

import subprocess
import tempfile
from pathlib import Path
from typing import Iterator, List, NamedTuple, Sequence, Tuple

MARGIN = 20
APART = 230
TOP = 60
LEVEL = 112
HALF = 105
LINE = 17
FACT_WORDS = {"CHOICE": 5, "PLACE": 6, "CHARGES": 4, "EVEN": 1}
KINDS = {
    "SHIFT_RUNS": "charges for runs of a shift type",
    "WORK_DAYS": "charges for days of work in a row",
    "SHIFTS": "charges for too many shifts",
    "WEEKENDS": "charges for too many weekends",
}
STYLE = """<style>
.page { fill: #ffffff } .ink { fill: #1a1a1a } .branch { stroke: #888888; stroke-width: 1.5 }
.case { fill: #eef3fb; stroke: #0550ae } .leaf { fill: #e9f5ec; stroke: #116329 } .bound { font-weight: bold; fill: #1a1a1a }
@media (prefers-color-scheme: dark) {
.page { fill: #14171c } .ink { fill: #e8e8e8 } .bound { fill: #e8e8e8 } .branch { stroke: #8a8f98 }
.case { fill: #1b2a41; stroke: #79b8ff } .leaf { fill: #18301f; stroke: #7ee787 }
}
</style>"""

# The facts of a case, as lines of a file of facts.
Facts = Tuple[str, ...]


class Drawn(NamedTuple):
    """A case of the tree: the fact that divides it (none: a leaf), its bound, its column, and how
    many facts it has."""

    fact: Tuple[str, ...]
    bound: int
    column: float
    depth: int
    parts: Tuple["Drawn", ...]


class Tree:
    """The words of a certificate's tree, which are read from the first to the last. The options
    `files` name the weeks' files."""

    def __init__(self, files: Sequence[str], certificate: str) -> None:
        self.files = files
        self.prices, _, tree = certificate.partition("LEAVES")
        self.words = tree.replace("=", " = ").split()[2:]
        self.leaves = 0

    def _take(self, number: int) -> Tuple[str, ...]:
        taken = tuple(self.words[:number])
        del self.words[:number]
        return taken

    def case(self, facts: Facts = ()) -> Drawn:
        """The case with these facts, which is next in the file."""
        if self.words[0] == "LEAF":
            leaf = self._take(5 + int(self.words[4]))
            self.leaves += 1
            return Drawn((), self._bound(leaf, facts), self.leaves - 1, len(facts), ())
        length = FACT_WORDS[self.words[1]] + (
            self.words[1] == "CHARGES" and self.words[3] == "NURSE"
        )
        fact = self._take(1 + length)[1:]
        parts = tuple(self.case((*facts, f"{word} {' '.join(fact)}")) for word in ("HOLDS", "NOT"))
        return Drawn(
            fact,
            min(part.bound for part in parts),
            sum(part.column for part in parts) / 2,
            len(facts),
            parts,
        )

    def _bound(self, leaf: Sequence[str], facts: Facts) -> int:
        with tempfile.TemporaryDirectory() as folder:
            given = Path(folder, "facts.txt")
            proof = Path(folder, "leaf.txt")
            given.write_text("\n".join([f"FACTS case ROWS = {len(facts)}", *facts]) + "\n")
            proof.write_text(f"{self.prices}LEAVES = 1\n{' '.join(leaf)}\n")
            words = ["inrc2pb-bound", *self.files, "--given", str(given), "--proof", str(proof)]
            ended = subprocess.run(words, stdout=subprocess.PIPE, text=True, check=True)
        return int(ended.stdout.splitlines()[0].rpartition(" ")[2])


def question(fact: Sequence[str]) -> List[str]:
    """The lines of the question by which a case is divided."""
    kind, *words = fact
    if kind == "EVEN":
        return ["Is the number of charges", "for runs of a shift type even?"]
    if kind == "CHOICE":
        week, nurse, day, shift = words
        return [
            f"Has {nurse} on {day} of week {week}",
            "a day off?" if shift == "None" else f"the shift {shift}?",
        ]
    if kind == "PLACE":
        week, day, shift, skill, most = words
        return [f"{shift} {skill} on {day} of week {week}:", f"at most {most} nurses?"]
    whose = "" if words[1] == "ALL" else f" for {words[2]}"
    return [f"Are there at most {words[-1]}", f"{KINDS[words[0]]}{whose}?"]


def across(drawn: Drawn) -> float:
    """The column of the middle of a case in the picture."""
    return MARGIN + HALF + APART * drawn.column


def box(drawn: Drawn) -> Iterator[str]:
    """A case, and the lines to its parts below it."""
    x = across(drawn)
    y = TOP + LEVEL * drawn.depth
    lines = question(drawn.fact) if drawn.parts else []
    tall = 14 + LINE * (1 + len(lines))
    for part, answer in zip(drawn.parts, ("yes", "no")):
        below = TOP + LEVEL * part.depth
        yield (
            f'<line class="branch" x1="{x:.0f}" y1="{y + tall}" x2="{across(part):.0f}"'
            f' y2="{below}"/>'
        )
        middle = (x + across(part)) / 2
        side = -8 if answer == "yes" else 8
        anchor = "end" if answer == "yes" else "start"
        yield (
            f'<text class="ink" x="{middle + side:.0f}" y="{(y + tall + below) / 2:.0f}"'
            f' text-anchor="{anchor}">{answer}</text>'
        )
    yield (
        f'<rect class="{"case" if lines else "leaf"}" x="{x - HALF:.0f}" y="{y}" width="{2 * HALF}"'
        f' height="{tall}" rx="6"/>'
    )
    for number, line in enumerate(lines):
        yield (
            f'<text class="ink" x="{x:.0f}" y="{y + LINE * (number + 1) + 2}"'
            f' text-anchor="middle">{line}</text>'
        )
    yield (
        f'<text class="bound" x="{x:.0f}" y="{y + tall - 10}" text-anchor="middle">at least'
        f" {drawn.bound} points</text>"
    )


def cases(drawn: Drawn) -> Iterator[Drawn]:
    """A case and all below it."""
    yield drawn
    for part in drawn.parts:
        yield from cases(part)


def tree_picture(title: str, files: Sequence[str], certificate: str) -> str:
    """The picture of the tree of a certificate."""
    root = Tree(files, certificate).case()
    every = list(cases(root))
    wide = 2 * (MARGIN + HALF) + APART * max(case.column for case in every)
    tall = TOP + LEVEL * (1 + max(case.depth for case in every)) - 40
    return "\n".join(
        [
            (
                f'<svg xmlns="http://www.w3.org/2000/svg" viewBox="0 0 {wide:.0f} {tall}"'
                ' font-family="sans-serif" font-size="13">'
            ),
            STYLE,
            f'<rect class="page" width="{wide:.0f}" height="{tall}"/>',
            f'<text class="ink" x="{MARGIN}" y="30" font-size="15">{title}</text>',
            *(line for case in every for line in box(case)),
            "</svg>\n",
        ]
    )
