"""The worst files and answers within the limits: those that cost a reader most for their bytes."""

from pathlib import Path
from typing import Callable, Dict, Iterable, Iterator, Sequence, TextIO, Tuple

# The limit of a file's size, in bytes.
LARGEST_FILE = 4_194_304
MILLION = 1_000_000

SCENARIO = """SCENARIO = {name}
WEEKS = {weeks}
SKILLS = 1
Nurse
SHIFT_TYPES = 1
Day (1,9)
FORBIDDEN_SHIFT_TYPES_SUCCESSIONS
Day 0
CONTRACTS = 1
Full (1,9) (1,9) (1,9) 9 0
NURSES = {count}
{nurses}"""
HISTORY = "HISTORY\n0 s1\nNURSE_HISTORY\n{rows}"
WEEK = "WEEK_DATA\ns1\nREQUIREMENTS\nSHIFT_OFF_REQUESTS = {count}\n{rows}"

# The texts of a week's files, by the files' names.
Texts = Dict[str, str]
# Writes an answer to a file.
Writer = Callable[[TextIO], None]


def week_of_names(
    nurses: Sequence[str], requests: Sequence[str] = (), name: str = "s1", weeks: str = "2"
) -> Texts:
    """A week of these nurses. Each word of `requests` names a nurse who asks for a day off."""
    rows = "".join(f"{nurse} Full 1 Nurse\n" for nurse in nurses)
    return {
        "scenario": SCENARIO.format(name=name, weeks=weeks, count=len(nurses), nurses=rows),
        "history": HISTORY.format(rows="".join(f"{nurse} 0 0 None 0 0 0\n" for nurse in nurses)),
        "week": WEEK.format(
            count=len(requests), rows="".join(f"{nurse} Any Mon\n" for nurse in requests)
        ),
    }


def filled(text: str, piece: str) -> str:
    """The text, followed by the piece as often as the limit of a file allows."""
    return text + piece * ((LARGEST_FILE - len(text)) // len(piece))


def weeks() -> Iterator[Tuple[str, Texts]]:
    """The kinds of weeks: a description, and the texts."""
    plain = week_of_names(["Ann"])
    yield "a name of four megabytes", week_of_names(["Ann"], name="n" * (LARGEST_FILE - 300))
    yield "a nurse's name of a million bytes", week_of_names(["n" * MILLION], ["n" * MILLION] * 3)
    yield "four megabytes of blanks", {**plain, "scenario": filled(plain["scenario"], " ")}
    yield "two million empty lines", {**plain, "week": filled(plain["week"], " \n")}
    yield "four megabytes of digits", week_of_names(["Ann"], weeks="0" * (LARGEST_FILE - 400) + "2")
    alike = [f"{'n' * 396}{number:04}" for number in range(1000)]
    yield "1000 nurses whose names differ at the end", week_of_names(alike)
    yield "9999 requests with long names", week_of_names(
        alike, [alike[request * 7 % 1000] for request in range(9999)]
    )
    short = [f"n{number}" for number in range(1000)]
    yield "9999 requests with short names", week_of_names(
        short, [short[request * 7 % 1000] for request in range(9999)]
    )


def repeated(start: str, piece: str, times: int) -> Writer:
    """A function that writes `start`, then the piece this number of times."""

    def write(file: TextIO) -> None:
        file.write(start)
        file.writelines(piece for _ in range(times))

    return write


def objective_lines(file: TextIO) -> None:
    """A million `o` lines, then a valid answer."""
    file.write("o 123456\n" * MILLION + "s SATISFIABLE\nv x8\n")


def answers() -> Iterator[Tuple[str, Writer, int]]:
    """The kinds of answers to the week of one nurse: a description, the writer, and the exit status
    of `decode`."""
    yield "a million o lines", objective_lines, 0
    yield "a skipped line of 100 MB", repeated("c", "x" * MILLION, 100), 1
    yield "a literal of 100 MB", repeated("v x", "0" * MILLION, 100), 1
    yield "50 million skipped lines", repeated("", "c\n" * MILLION, 50), 1
    yield "100 million empty lines", repeated("", "\n" * MILLION, 100), 1


def write_texts(folder: Path, texts: Texts) -> None:
    """Writes the files of a week."""
    folder.mkdir(parents=True, exist_ok=True)
    for name, text in texts.items():
        (folder / f"{name}.txt").write_text(text)


def write_weeks(folder: Path) -> Iterable[Tuple[str, Path]]:
    """Writes the weeks, and yields the description and the folder of each."""
    for number, (description, texts) in enumerate(weeks()):
        write_texts(folder / str(number), texts)
        yield description, folder / str(number)
