#!/usr/bin/env python3
"""Compares the lists of docs/definitions.md, and their sums on docs/reading.md, with the definitions
that the contracts of the runs rest on.

usage: reading.py [--fix]

A contract cites definitions, and these rest on others: a list has the files that are reached
through the imports of specs/. The first list begins with the meaning of a model and the text of
one, the last one with the ends of the programs in their laws, each other list with the definitions
that its contracts cite. A file is in one list only, and comes after the files that it rests on. No
other file defines a name of the lists. Each definition has a comment above it.

For two statements the page says which files of the other lists they rest on, by the names in their
definitions (reach.py), for readers who want no more than these statements.

The first page gives the lines of each file; for each list its files, their lines, and the lines of
definitions (without imports, comments and blank lines). The other one gives for each belief the
files to read for it, and the number of public definitions in the first two lists. All of this --fix
writes.
"""

import argparse
import re
import sys
import textwrap
from itertools import groupby
from pathlib import Path
from typing import Dict, Iterable, Iterator, List, NamedTuple, Set, Tuple

sys.path.insert(0, str(Path(__file__).resolve().parent))
import reach  # noqa: E402

ROOT = Path(__file__).resolve().parents[2]
CRATES = ROOT / "crates"
PAGE = ROOT / "docs" / "definitions.md"
BELIEFS_PAGE = ROOT / "docs" / "reading.md"
EXACT = CRATES / "rota_pb/specs/ExactModel.antt"
ENCODE = ("rota_pb/src/encoding.rt", "run_encode")
DECODE = ("rota_pb/src/decoding.rt", "run_decode")
EXTEND = ("rota_pb/src/extending.rt", "run_extend")
PERFORM = ("inrc2pb_program/src/job_run.rt", "perform")
PROGRAM = ("inrc2pb_program/src/run.rt", "program")
EXACT_ANSWERS = CRATES / "rota_bound_run/specs/ExactAnswers.antt"
BOUND = ("rota_bound_run/src/run.rt", "run_bound")
BOUND_PERFORM = ("inrc2pb_bound_program/src/job_run.rt", "perform")
BOUND_PROGRAM = ("inrc2pb_bound_program/src/run.rt", "program")


class FileList(NamedTuple):
    """A list of the page: words of its heading, the files and the calls that it begins with, and
    where it stops."""

    heading: str
    files: List[str]
    calls: List[Tuple[str, str]]
    stops: Set[Path]


LISTS = [
    FileList(
        "The meaning of a model",
        ["rota_pb/specs/Meaning.antt", "opb_text/specs/ModelText.antt"],
        [],
        set(),
    ),
    FileList("The files and the run", [], [ENCODE], {EXACT}),
    FileList("The exact text", [], [ENCODE], set()),
    FileList("Decode and extend", [], [DECODE, EXTEND], set()),
    FileList("The whole program", [], [PERFORM, PROGRAM], set()),
    FileList("The meaning of a bound", ["rota_bound_run/specs/Claims.antt"], [], set()),
    FileList("A proved bound", [], [BOUND, BOUND_PERFORM, BOUND_PROGRAM], {EXACT_ANSWERS}),
    FileList("The exact bound", [], [BOUND], set()),
    FileList(
        "The laws",
        ["inrc2pb_program/specs/CommandEnds.antt", "inrc2pb_bound_program/specs/BoundEnds.antt"],
        [],
        set(),
    ),
]
# The beliefs of a reader, and the number of the first lists that say them.
BELIEFS = [
    ("The model of a week means its rules.", 1),
    ("`encode` writes such a model, or names the first fault.", 2),
    ("Each byte of the model is the specified one.", 3),
    ("`decode` and `extend` keep their promises.", 4),
    ("`inrc2pb` keeps the contract of `program`, from its words to its status.", 5),
]
# Below the heading of a list: the statement for which the page says what else it rests on.
RESTING = {
    "The meaning of a bound": ("rota_bound_run/specs/Claims.antt", "IsTrue"),
    "A proved bound": (
        "inrc2pb_bound_program/specs/BoundPrograms.antt",
        "BoundProgramOutcome",
    ),
}
# The same of these statements: in words, the lists in words, and the place of the statement.
BOUND_BELIEFS = [
    (
        "A bound holds for all plans, and a given penalty is right.",
        "list 6, and what it names of 1 and 2",
        (CRATES / RESTING["The meaning of a bound"][0], RESTING["The meaning of a bound"][1]),
    ),
    (
        "All of `inrc2pb-bound` keeps its promise.",
        "lists 6 to 8, and what they name of 1 to 5",
        (CRATES / RESTING["A proved bound"][0], RESTING["A proved bound"][1]),
    ),
]
COLUMNS = 140
# Names that two files define, one of them in the lists: these and no more.
NAMES_OF_TWO = {"EndsInTurn", "answer_in", "check", "roster_in", "week_in", "◌>>=◌"}
USE = re.compile(
    r"(?m)^ *(?:pub )?(?:ghost )?use Rattle\.(\w+)\.specs\.([\w.]+?)(?:\.\{([^}]*)\})?(?: as"
    r" \w+)?;?$"
)
FIRST_LISTS = 2
DEFINED = re.compile(r"(The\s+first\s+two\s+lists\s+have\s+)(\d+)(\s+public\s+definitions)")
COUNTED = re.compile(r"(?ms)^\d+ files, [\d,]+ lines, [\d,]+ of definitions\..*\Z")
BELIEVED = re.compile(r"(?m)^\| you want to believe \| .*\n(?:\|.*\n)*")
RESTS = re.compile(r"(?m)^\| of the list \| read \|\n(?:\|.*\n)*")
NO_DEFINITION = re.compile(r" *(--|(pub )?use |$)")
DEFINITION = re.compile(r"(?:abbrev |unfoldable )?pub (?!use )(?:record |data )?(\S+)")
NAME = re.compile(
    r"(?m)^ *(?:pub )?(?:abbrev|unfoldable|opaque|lemma|record|data) (?:pub )?([^\s:(){}]+)"
)


def imports(text: str) -> Iterator[Tuple[Path, Set[str]]]:
    """The files of specs/ that a text imports, each with the names that it takes."""
    for crate, module, names in USE.findall(text):
        file = CRATES / crate / "specs" / (module.replace(".", "/") + ".antt")
        if file.exists():
            yield file, {name.split(" as ")[-1].strip() for name in names.split(",")}


def cited(source: str, call: str) -> List[Path]:
    """The files that the contract of a call cites: those of the names in it."""
    text = (CRATES / source).read_text(encoding="utf-8")
    found = re.search(rf"(?ms)^pub fn {call}\b.*?^\{{$", text)
    if not found:
        sys.exit(f"FAILED: {source} has no function {call}")
    words = set(re.findall(r"\w+", found.group()))
    return [file for file, names in imports(text) if names & words]


def reached(files: Iterable[Path], stops: Set[Path]) -> List[Path]:
    """The files that are reached from these, with these, but none that is reached only through a
    stop."""
    found: List[Path] = []
    todo = list(files)
    while todo:
        file = todo.pop()
        if file not in found and file not in stops:
            found.append(file)
            todo += [other for other, _ in imports(file.read_text(encoding="utf-8"))]
    return found


def read_lines(file: Path) -> List[str]:
    """The lines of a file."""
    return file.read_text(encoding="utf-8").splitlines()


def length(file: Path) -> int:
    """The number of lines of a file."""
    return len(read_lines(file))


def total(files: List[Path]) -> str:
    """The counts of a list, as the page gives them."""
    lines = [line for file in files for line in read_lines(file)]
    defining = sum(not NO_DEFINITION.match(line) for line in lines)
    return f"{len(files)} files, {len(lines):,} lines, {defining:,} of definitions"


def defined(files: Iterable[Path]) -> int:
    """The number of public definitions in these files."""
    return sum(bool(DEFINITION.match(line)) for file in files for line in read_lines(file))


def name(file: Path) -> str:
    """The path of a file below crates/."""
    return str(file.relative_to(CRATES))


def section(page: str, heading: str) -> Tuple[int, int]:
    """Where the text below a heading with these words begins and ends."""
    begin = re.search(rf"(?m)^## .*{heading}.*$", page)
    if not begin:
        sys.exit(f"FAILED: docs/definitions.md has no heading with the words '{heading}'")
    end = page.find("\n## ", begin.end())
    return begin.end(), end if end >= 0 else len(page)


def in_order(files: List[Path]) -> List[Path]:
    """The files, each after those that it rests on, and next to others of its crate if it can be."""
    left = sorted(files)
    ordered: List[Path] = []
    while left:
        ready = [file for file in left if not rests_on_one_of(file, left)]
        crate = crate_of(ordered[-1]) if ordered else ""
        ordered.append(min(ready, key=lambda file: (crate_of(file) != crate, ready.index(file))))
        left.remove(ordered[-1])
    return ordered


def rests_on_one_of(file: Path, others: List[Path]) -> bool:
    """Whether the file imports another one of these."""
    return any(other in others for other, _ in imports(file.read_text(encoding="utf-8")))


def crate_of(file: Path) -> str:
    """The crate of a file."""
    return file.relative_to(CRATES).parts[0]


def rows(files: List[Path]) -> str:
    """The files of a list in their order, a line for those of a crate that follow each other: each
    with its path below specs/ and its lines."""
    lines = []
    for crate, group in groupby(in_order(files), crate_of):
        names = (f"{short_name(file)} {length(file)}" for file in group)
        line = f"- `{crate}`: {', '.join(names)}"
        lines += textwrap.wrap(line, COLUMNS, subsequent_indent="  ", break_on_hyphens=False)
    return "\n".join(lines)


def short_name(file: Path) -> str:
    """The path of a file below specs/ of its crate, without its ending."""
    return "/".join(file.relative_to(CRATES).with_suffix("").parts[2:])


def counted(files: List[Path]) -> str:
    """The counts of a list and its rows, which end its section."""
    return f"{total(files)}.\n\n{rows(files)}\n"


def beliefs() -> str:
    """The table of what a reader may want to believe, with the files to read for it."""
    every = [wanted for _, wanted, _ in lists()]
    needs = [(text, first_lists(count), set().union(*every[:count])) for text, count in BELIEFS]
    needs += [(text, where, reach.reached([start])) for text, where, start in BOUND_BELIEFS]
    needs.append(
        (
            "All of this, and the two laws about the files at your paths.",
            first_lists(len(every)),
            set().union(*every),
        )
    )
    lines = (f"| {text} | {where} | {files_and_lines(files)} |\n" for text, where, files in needs)
    return f"| you want to believe | read | files | lines |\n|---|---|---:|---:|\n{''.join(lines)}"


def first_lists(count: int) -> str:
    """The numbers of the first lists, in words."""
    return {1: "list 1", 2: "lists 1 and 2"}.get(count, f"lists 1 to {count}")


def files_and_lines(files: Set[Path]) -> str:
    """The numbers of these files and of their lines, as two cells of a table."""
    return f"{len(files)} | {sum(map(length, files)):,}"


def named(files: List[Path], among: List[Path]) -> str:
    """The files by their names, with their crates where another one of these has the same name."""
    others = {file.stem for file in among if file not in files}
    names = (name(file) if file.stem in others else file.stem for file in files)
    return ", ".join(f"`{one}`" for one in sorted(set(names)))


def files_read(wanted: List[Path], files: Set[Path]) -> str:
    """Which files of a list are among these, in a few words."""
    read = [file for file in wanted if file in files]
    unread = [file for file in wanted if file not in files]
    if len(unread) < len(read):
        return f"all but {named(unread, wanted)}" if unread else "all"
    return named(read, wanted)


def rests(heading: str) -> str:
    """The table of the files of other lists on which the statement of this list rests."""
    source, definition = RESTING[heading]
    files = reach.reached([(CRATES / source, definition)])
    lines = [
        f"| {other} | {files_read(wanted, files)} |\n"
        for other, wanted, _ in lists()
        if other != heading and files & set(wanted)
    ]
    return f"| of the list | read |\n|---|---|\n{''.join(lines)}"


def uncommented(file: Path) -> Iterator[str]:
    """The public definitions of a file that have no comment above them."""
    before = ""
    for line in read_lines(file):
        found = DEFINITION.match(line)
        if found and not before.startswith("--"):
            yield f"{name(file)} has no comment above {found.group(1)}"
        if not line.startswith("infix"):
            before = line


def defined_twice(files: Iterable[Path]) -> Iterator[str]:
    """The names of these files that another file of specs/ defines too. `rota_certificate` shares
    some names with other crates."""
    owners: Dict[str, List[Path]] = {}
    for file in sorted(
        set(CRATES.glob("*/specs/**/*.antt")) - set(CRATES.glob("rota_certificate/specs/**/*.antt"))
    ):
        for word in set(NAME.findall(file.read_text(encoding="utf-8"))):
            owners.setdefault(word, []).append(file)
    for word, found in sorted(owners.items()):
        if len(found) > 1 and set(found) & set(files) and word not in NAMES_OF_TWO:
            yield f"{word} is defined in {' and in '.join(map(name, found))}"


def fixed(page: str, heading: str, wanted: List[Path]) -> str:
    """The page with the right counts and rows in a list."""
    first, last = section(page, heading)
    text = page[first:last].rstrip("\n") + "\n"
    text = COUNTED.sub(counted(wanted), text)
    if heading in RESTING:
        text = RESTS.sub(rests(heading), text, count=1)
    return page[:first] + text + page[last:]


def right_lists(page: str) -> str:
    """The page of the lists with all that --fix writes."""
    for heading, wanted, _ in lists():
        page = fixed(page, heading, wanted)
    return page


def right_sums(page: str, first_files: List[Path]) -> str:
    """The page of beliefs with all that --fix writes."""
    page = BELIEVED.sub(beliefs(), page, count=1)
    return DEFINED.sub(rf"\g<1>{defined(first_files)}\g<3>", page)


def misses(page: str) -> Iterator[str]:
    """What --fix needs on the page, and does not find: it would leave the page without it."""
    for heading, wanted, _ in lists():
        first, last = section(page, heading)
        if counted(wanted).strip() not in page[first:last]:
            yield f"the list '{heading}' has {total(wanted)}, and other rows"
        if heading in RESTING and rests(heading) not in page[first:last]:
            yield f"the list '{heading}' rests on other files"


def misses_sums(page: str, first_files: List[Path]) -> Iterator[str]:
    """The same of the page of beliefs."""
    if beliefs() not in page:
        yield "the table of what to believe has other files or lines"
    found = DEFINED.search(page)
    if not found or int(found.group(2)) != defined(first_files):
        yield f"the first two lists have {defined(first_files)} public definitions"


def lists() -> Iterator[Tuple[str, List[Path], List[Path]]]:
    """Each list of the page: the words of its heading, its files, and those of the lists before
    it."""
    before: List[Path] = []
    for one in LISTS:
        starts = [CRATES / file for file in one.files] + [
            file for source, call in one.calls for file in cited(source, call)
        ]
        wanted = [file for file in reached(starts, one.stops) if file not in before]
        yield one.heading, wanted, before
        before = before + wanted


def main() -> int:
    """Compares, or with --fix writes the lists and then compares; the exit status is 1 if something
    is wrong."""
    parser = argparse.ArgumentParser(description=(__doc__ or "").split("\n")[0])
    parser.add_argument("--fix", action="store_true", help="write the lists on the page")
    every = [wanted for _, wanted, _ in lists()]
    first_files = sum(every[:FIRST_LISTS], [])
    if parser.parse_args().fix:
        PAGE.write_text(right_lists(PAGE.read_text(encoding="utf-8")), encoding="utf-8")
        sums = right_sums(BELIEFS_PAGE.read_text(encoding="utf-8"), first_files)
        BELIEFS_PAGE.write_text(sums, encoding="utf-8")
    files = [file for wanted in every for file in wanted]
    wrong = [*misses(PAGE.read_text(encoding="utf-8"))]
    wrong += misses_sums(BELIEFS_PAGE.read_text(encoding="utf-8"), first_files)
    wrong += [line for file in files for line in uncommented(file)]
    wrong += defined_twice(files)
    for line in wrong:
        print("FAILED:", line)
    print(f"{total(files)}, {len(wrong)} failed")
    return 1 if wrong else 0


sys.exit(main())
