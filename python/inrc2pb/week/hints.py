"""Probable reasons of a fault in a file, by the file's lines and the layouts of docs/formats.md."""

import re
import unicodedata
from typing import Callable, Collection, Iterator, Sequence

from .records import DAYS
from .words import plural, quoted

HEADINGS = (
    "SCENARIO WEEKS SKILLS SHIFT_TYPES FORBIDDEN_SHIFT_TYPES_SUCCESSIONS CONTRACTS NURSES HISTORY"
    " NURSE_HISTORY WEEK_DATA REQUIREMENTS SHIFT_OFF_REQUESTS SOLUTION ASSIGNMENTS"
).split()
_COUNTED = re.compile(
    r"\s*(?:SKILLS|SHIFT_TYPES|CONTRACTS|NURSES|SHIFT_OFF_REQUESTS|ASSIGNMENTS)"
    r"\s*=\s*([0-9]{1,9})\s*$"
)
_BEGINS = ("PK\x03\x04", "%PDF", "{\\rtf")
_IN_BRACKETS = re.compile(r"\([^()]*\)")
# Blanks that look like others, and are letters of a name.
_BLANKS = re.compile("[\u00a0\u2000-\u200b\u202f\u205f\u3000]")
_NO_DIGITS = {"O": "0", "o": "0", "l": "1", "I": "1"}
# How a file is given that begins with one of these words.
_FILES = {
    "SCENARIO": "a scenario: give it with --sce",
    "HISTORY": "a history: give it with --his",
    "WEEK_DATA": "a week's file: give it with --week",
    "SOLUTION": "a roster or a fix file: give it with --fix, --roster or --from",
    "FACTS": "a file of facts: give it with --given",
}
_PAIR = re.compile(r"\(\s*[0-9]+\s*,\s*[0-9]+\s*\)")


def words_of(row: str) -> list[str]:
    """The words of a row. They are separated as in the files: other blanks of Unicode are
    letters."""
    return re.findall(r"[^ \t\r\n]+", row)


def is_no_text(text: str) -> bool:
    """Whether the file is one of a word processor, for example, and no plain text."""
    return "\0" in text or text.startswith(_BEGINS)


def reasons(
    lines: Sequence[str], line: int, word: str, names: Collection[str] = (), heading: str = ""
) -> str:
    """The probable reasons of a fault at this word of a line (none: at the end of the file), as the
    end of its sentence.

    Each of the names should have a line below the heading.
    """
    likely = [
        *_wrong_count(lines, line),
        *_without_line(lines, names, heading),
        *_wrong_row(lines, line),
        *_wrong_number(lines[line - 1], word),
    ]
    if not word:
        likely += _no_requests(lines)
    return "".join(f"; {reason}" for reason in likely)


def _heading_of(line: str) -> str:
    """The heading with which the line begins, if it is one."""
    words = re.split(r"[\s=]+", line.strip(), maxsplit=1)
    return words[0] if words[0] in HEADINGS else ""


def _rows_below(lines: Sequence[str], above: int) -> Iterator[str]:
    """The lines below a heading, but for empty ones. A line with = is a heading too, though perhaps
    a wrong one."""
    for line in lines[above + 1 :]:
        if _heading_of(line) or "=" in line:
            return
        if words_of(line):
            yield line


def _wrong_count(lines: Sequence[str], line: int) -> Iterator[str]:
    """The last list up to this line that has another number of lines than it announces."""
    for number in reversed(range(line)):
        heading = _COUNTED.match(lines[number])
        rows = len(list(_rows_below(lines, number))) if heading else 0
        if heading and rows != int(heading.group(1)):
            follow = f"{plural(rows, 'line')} {'follows' if rows == 1 else 'follow'} it"
            yield (
                f"'{lines[number].strip()}' on line {number + 1} announces {heading.group(1)}, and"
                f" {follow}"
            )
            return


def _without_line(lines: Sequence[str], names: Collection[str], heading: str) -> Iterator[str]:
    """The names with which no line below the heading begins."""
    begins = {
        words_of(row)[0]
        for number, line in enumerate(lines)
        if heading and _heading_of(line) == heading
        for row in _rows_below(lines, number)
    }
    missing = [name for name in names if name not in begins]
    if missing:
        yield f"no line begins with {quoted(missing)}"


def _wrong_row(lines: Sequence[str], line: int) -> Iterator[str]:
    """The mistake in the row before the fault, else in the row of the fault: a wrong number of
    words, or a wrong order."""
    rows = [number for number in range(line) if words_of(lines[number])]
    for number in rows[-2:]:
        section = next(
            (heading for heading in map(_heading_of, reversed(lines[:number])) if heading), ""
        )
        reason = (
            None
            if _heading_of(lines[number]) or section not in _ROWS
            else _ROWS[section](lines[number])
        )
        if reason:
            yield reason
            return


def _wrong_number(line: str, word: str) -> Iterator[str]:
    """Brackets with something else than a pair, and a number with a comma, if a comma is where the
    fault is."""
    pairs = _IN_BRACKETS.findall(line)
    wrong = next((pair for pair in pairs if not _PAIR.fullmatch(pair)), None)
    number = re.search(r"\b[0-9]+,[0-9]+\b", _IN_BRACKETS.sub(" ", line)) if word == "," else None
    if wrong:
        yield f"'{wrong}' is no pair of two whole numbers"
    elif number:
        yield f"'{number.group()}' is no whole number"


def _no_requests(lines: Sequence[str]) -> Iterator[str]:
    if any(_heading_of(line) == "REQUIREMENTS" for line in lines):
        if not any(re.match(r"\s*SHIFT_OFF_REQUESTS\s*=\s*[0-9]", line) for line in lines):
            yield "without requests write SHIFT_OFF_REQUESTS = 0"


# ---- rows by their section


def _names_of(row: str) -> list[str]:
    """The words with which a row begins, before its first number or bracket."""
    return words_of(re.split(r"(?:^|[ \t])[0-9]|\(", row, maxsplit=1)[0])


def _blank_in(row: str, count: int) -> str | None:
    """A reason if a row begins with more words than it should have names. One with = is a heading,
    though a wrong one."""
    names = [] if "=" in row else _names_of(row)
    return (
        f"does a name in '{' '.join(names)}' have a blank? write _ for it"
        if len(names) > count
        else None
    )


def _announced(names: int, noun: str) -> Callable[[str], str | None]:
    """Rows that have some names, a number, and this number of words."""

    def reason(row: str) -> str | None:
        words = words_of(row)
        number = words[names] if len(words) > names else ""
        count = len(words) - names - 1
        if re.fullmatch("[0-9]{1,9}", number) and int(number) != count:
            return f"{words[0]} announces {plural(int(number), noun)}, and the line has {count}"
        if len(words) > names and "=" not in row and not re.search(r"\s[0-9]", row):
            return f"the number of {noun}s is missing after '{' '.join(words[:names])}'"
        return _blank_in(row, names)

    return reason


def _required(row: str) -> str | None:
    """A reason if a row has another number of pairs than days. One with = is a heading, though a
    wrong one."""
    names = "" if "=" in row else " ".join(_names_of(row))
    pairs = row.count("(")
    return (
        f"{names} has {plural(pairs, 'pair')}, and {len(DAYS)} are needed"
        if names and pairs != len(DAYS)
        else None
    )


def _requested(row: str) -> str | None:
    words = words_of(row)
    turned = len(words) == 3 and words[1] in DAYS and words[2] not in DAYS
    return (
        "the shift type comes first, then the day"
        if turned
        else _wrong_length(row, 3, "a request has a nurse, a shift type and a day")
    )


def _assigned(row: str) -> str | None:
    words = words_of(row)
    turned = len(words) == 4 and words[1] not in DAYS and words[2] in DAYS
    return (
        "the day comes first, then the shift type"
        if turned
        else _wrong_length(row, 4, "a row has a nurse, a day, a shift type and a skill")
    )


def _wrong_length(row: str, count: int, says: str) -> str | None:
    """A reason if a row has another number of words. One with = is a heading, though a wrong
    one."""
    words = words_of(row)
    if "=" in row or len(words) == count:
        return None
    return f"{says}, and the line has {plural(len(words), 'word')}" + (
        "; does a name have a blank? write _ for it" if len(words) > count else ""
    )


def _past(row: str) -> str | None:
    words = words_of(row)
    return _blank_in(row, 1) or (
        None if len(words) == 7 else f"{words[0]} has {len(words) - 1} entries, and 6 are needed"
    )


_ROWS: dict[str, Callable[[str], str | None]] = {
    "SKILLS": lambda row: _blank_in(row, 1),
    "SHIFT_TYPES": lambda row: _blank_in(row, 1),
    "FORBIDDEN_SHIFT_TYPES_SUCCESSIONS": _announced(1, "shift type"),
    "CONTRACTS": lambda row: _blank_in(row, 1),
    "NURSES": _announced(2, "skill"),
    "NURSE_HISTORY": _past,
    "REQUIREMENTS": _required,
    "SHIFT_OFF_REQUESTS": _requested,
    "ASSIGNMENTS": _assigned,
}


# ---- signs: what spreadsheets, word processors and other keyboards put in the place of plain ones


def reason_of_signs(lines: Sequence[str], line: int, word: str) -> str | None:
    """What to write in place of signs in this line or, if it became a single word, in the one
    before."""
    return next(_reasons(lines, line, word), None)


def _reasons(lines: Sequence[str], line: int, word: str) -> Iterator[str]:
    for number in (line, line - 1):
        text = lines[number - 1] if 0 < number <= len(lines) else ""
        where = "" if number == line else f"line {number}: "
        if number < line and len(text.split(" ")) > 1:
            continue
        if '"' in text or "\u201c" in text or "\u201d" in text:
            yield f"{where}remove the quotation marks"
        if ";" in text.strip(" ;\t\r"):
            yield f"{where}write blanks for the semicolons; inrc2pb-plan reads spreadsheets"
        if re.search(r"[^\s(),=],[^\s(),=]", _IN_BRACKETS.sub(" ", text)) and not re.search(
            r"[0-9],[0-9]", _IN_BRACKETS.sub(" ", text)
        ):
            yield f"{where}write blanks for the commas; inrc2pb-plan reads spreadsheets"
        if re.search(r"[\[\]{}]", text):
            yield f"{where}write ( and ) for other brackets"
        if _BLANKS.search(text):
            yield (
                f"{where}it has a blank of another kind, such as a no-break space: type the blanks"
                " again, or _ in a name"
            )
    if re.fullmatch("[0-9OolI]+", word) and not word.isdigit():
        letter = next(sign for sign in word if sign in _NO_DIGITS)
        yield f"write the digit {_NO_DIGITS[letter]} for the letter {letter}"


def of_another_kind(word: str) -> str:
    """How to give the file that begins with this word, if it is the first of a file of the ward;
    else nothing."""
    return f": this is {_FILES[word]}" if word in _FILES else ""


def composed_otherwise(word: str, names: Collection[str]) -> str | None:
    """The name that looks like this word, and has other bytes: an accent may be a part of its
    letter or a sign of its own."""
    same = unicodedata.normalize("NFC", word)
    return next(
        (name for name in names if name != word and unicodedata.normalize("NFC", name) == same),
        None,
    )
