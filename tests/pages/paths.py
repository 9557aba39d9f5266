#!/usr/bin/env python3
"""The paths of four readers: a path answers its reader's questions, and is not longer than it says.

    tests/pages/paths.py           fails if a path has too many words, or a question no answer
    tests/pages/paths.py words     prints the words of each path and of its pages
    tests/pages/paths.py READER    prints the questions of the readers whose names have this word,
                                   for somebody who tries to answer them from their pages

tests/pages/paths.txt has the paths. In tests/pages/questions.txt a line without a bar names a
reader, who may have no path, such as one who runs a server. Each line below it has a question, the
page and the heading of the section that answers it, and words of that section, with semicolons
between. A section is the text from its heading to the next one. A page that is changed gets the
question that the change answers, if one of the others may go.
"""
import re
import sys
from pathlib import Path
from typing import Dict, Iterator, List, NamedTuple, Optional, Sequence

TOP = Path(__file__).resolve().parents[2]
PATHS = TOP / "tests" / "pages" / "paths.txt"
QUESTIONS = TOP / "tests" / "pages" / "questions.txt"
FEWEST, MOST = 60, 100


class Part(NamedTuple):
    """A page of a path, and the headings that its reader is led to; None: all."""

    page: str
    headings: Optional[List[str]]


class Reader(NamedTuple):
    """A reader, the words of the path, and its pages."""

    name: str
    words: int
    parts: List[Part]


class Question(NamedTuple):
    """A question of a reader, and where it is answered."""

    reader: str
    text: str
    page: str
    heading: str
    words: List[str]


def lines_of(text: str) -> Iterator[str]:
    """The lines of a list, without comments and blank ones."""
    return (line for line in text.splitlines() if line.strip() and not line.startswith("#"))


def split(cell: str) -> List[str]:
    """The words of a cell, between semicolons."""
    return [part.strip() for part in cell.split(";")]


def readers_of(text: str) -> List[Reader]:
    """The readers of the list of paths, in their order."""
    readers: List[Reader] = []
    for line in lines_of(text):
        first, _, rest = (part.strip() for part in line.partition("|"))
        if line.startswith(" "):
            readers[-1].parts.append(Part(first, split(rest) if rest else None))
        else:
            readers.append(Reader(first, int(rest), []))
    return readers


def questions_of(text: str) -> List[Question]:
    """The questions of the list, in their order."""
    questions: List[Question] = []
    reader = ""
    for line in lines_of(text):
        if "|" not in line:
            reader = line.strip()
            continue
        question, page, heading, words = (part.strip() for part in line.split("|"))
        questions.append(Question(reader, question, page, heading, split(words)))
    return questions


def sections_of(page: str) -> Dict[str, str]:
    """The text of each section of a page by its heading, with that heading, and one blank for each
    break of a line. Headings in blocks are text."""
    sections: Dict[str, str] = {}
    heading = ""
    is_block = False
    for line in (TOP / page).read_text(encoding="utf-8").splitlines():
        is_block ^= line.startswith("```")
        found = None if is_block else re.match(r"#+ (.*)", line)
        heading = found.group(1) if found else heading
        sections[heading] = f"{sections.get(heading, '')} {' '.join(line.split())}"
    return sections


def words_of(part: Part) -> int:
    """The words of a page, or of the sections that its reader is led to."""
    sections = sections_of(part.page)
    read = sections if part.headings is None else part.headings
    return sum(len(sections[heading].split()) for heading in read)


def too_long(readers: Sequence[Reader]) -> Iterator[str]:
    """A line for each path with too many words."""
    for reader in readers:
        count = sum(map(words_of, reader.parts))
        if count > reader.words:
            yield f"the path of {reader.name} has {count} words, and should have {reader.words}"


def unanswered(question: Question, path: Sequence[str]) -> Iterator[str]:
    """Why the section does not answer the question. The path of its reader has these pages; it may
    be empty."""
    sections = sections_of(question.page)
    lost = [words for words in question.words if words not in sections.get(question.heading, "")]
    if question.heading not in sections:
        yield f'there is no heading "{question.heading}"'
    elif lost:
        yield f'"{question.heading}" does not say: {"; ".join(lost)}'
    if path and question.page not in path:
        yield f"the path of {question.reader} has no such page"


def mistakes(readers: Sequence[Reader], questions: Sequence[Question]) -> List[str]:
    """A line for each path that is too long, and for each question without an answer."""
    pages = {reader.name: [part.page for part in reader.parts] for reader in readers}
    lines = [*too_long(readers)]
    for question in questions:
        for why in unanswered(question, pages.get(question.reader, [])):
            lines.append(f"{question.page}: {question.text} {why}")
    if not FEWEST <= len(questions) <= MOST:
        lines.append(f"there are {len(questions)} questions, and not {FEWEST} to {MOST}")
    return lines


def counted(readers: Sequence[Reader]) -> Iterator[str]:
    """The words of each path and of its pages."""
    for reader in readers:
        yield f"{sum(map(words_of, reader.parts)):6} of {reader.words}  {reader.name}"
        for part in reader.parts:
            yield f"{words_of(part):6}           {part.page}"


def main(words: Sequence[str]) -> int:
    readers = readers_of(PATHS.read_text(encoding="utf-8"))
    questions = questions_of(QUESTIONS.read_text(encoding="utf-8"))
    if list(words) == ["words"]:
        print("\n".join(counted(readers)))
        return 0
    if words:
        print("\n".join(one.text for one in questions if words[0] in one.reader))
        return 0
    wrong = mistakes(readers, questions)
    print("\n".join(wrong) if wrong else f"paths.py: {len(questions)} questions are answered")
    return bool(wrong)


if __name__ == "__main__":
    sys.exit(main(sys.argv[1:]))
