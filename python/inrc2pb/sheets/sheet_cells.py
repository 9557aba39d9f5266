"""The cells of a sheet: their texts, as names, numbers and words, and faults that name a cell."""

import functools
import re
import unicodedata
from typing import Collection, NamedTuple, NoReturn, Sequence

from ..week.faults import FileFault, Gathering
from ..week.records import DAYS
from ..week.slots import MAX_NUMBER, SIGNS, did_you_mean
from ..week.words import quoted, readable
from .sheet_files import Book


_SEVERAL = re.compile(r"[,;/]")
# Signs without a width, which a text from a page or a message may have.
_NO_WIDTH = re.compile("[\u200b-\u200d\u2060\ufeff]")
_DATE = re.compile("[0-9]{4}-[0-9]{2}-[0-9]{2}")
# How many texts are kept: cells have the same few words many times.
_KEPT_TEXTS = 10_000
SUM = re.compile(r"=([0-9]{1,4})\+([0-9]{1,4})")
# A number with words or a sign, as `ca. 2`, `~2` or `2 nurses`.
_ABOUT = re.compile(
    r"(?:(?:[^\W\d]+(?:\. ?| ))+|[~<>?\u2264\u2265\u00b1] ?)([0-9]{1,4})|([0-9]{1,4})"
    r" ?(?:[^\W\d]+\.?|[?])"
)
# The days of the week in German, short and long.
_GERMAN = (
    "mo montag,di dienstag,mi mittwoch,do donnerstag,fr freitag,sa samstag sonnabend,so sonntag"
)
# The sign after a maximum that is never exceeded.
KEPT = "!"


@functools.lru_cache(maxsize=_KEPT_TEXTS)
def tidy(text: str) -> str:
    """The text with composed letters, and with one blank for each sequence of them, of whatever
    kind."""
    return " ".join(_NO_WIDTH.sub("", unicodedata.normalize("NFC", text)).split())


def about(text: str) -> str:
    """The only number of a text that has words or a sign beside it; nothing if it is something
    else."""
    number = _ABOUT.fullmatch(text)
    return number[1] or number[2] if number else ""


def day_meant(text: str) -> str:
    """The day of the week that a text in German means, with what follows it; nothing if it is none.
    The short names of other languages contradict these."""
    word, blank, rest = text.partition(" ")
    word = word.rstrip(".,").casefold()
    found = (day for day, names in zip(DAYS, _GERMAN.split(",")) if word in names.split())
    return next((f"{day}{blank}{rest}" for day in found), "")


def letters_of(column: int) -> str:
    """The letters of a column, counted from 0."""
    letters = ""
    while column >= 0:
        column, rest = divmod(column, 26)
        letters = chr(ord("A") + rest) + letters
        column = column - 1
    return letters


class SheetCell(NamedTuple):
    """The text of a cell, and its place."""

    text: str
    book: Book
    sheet: str
    row: int
    column: int

    @property
    def place(self) -> str:
        """Where it is, in a sentence."""
        return f"sheet {self.sheet}, row {self.row}, column {letters_of(self.column)}"

    def fault(self, message: str) -> NoReturn:
        """Raises a fault of this cell."""
        raise FileFault(self.book.path, 0, f"{self.place}: {message}")

    def parts(self) -> list["SheetCell"]:
        """The cell as several, if it has a list with commas, semicolons or slashes."""
        return [
            self._replace(text=part.strip()) for part in _SEVERAL.split(self.text) if part.strip()
        ]

    def number(
        self, default: int | None = None, most: int = MAX_NUMBER, pair: str = "", typed: str = ""
    ) -> int:
        """The whole number of the cell; an empty one has the default, if there is one. `pair` says
        how two numbers are written, if it may have them: a fault names it, and quotes what was
        `typed`, if that has more than the number.
        """
        if not self.text and default is not None:
            return default
        added = SUM.fullmatch(self.text)
        if added:
            total = int(added[1]) + int(added[2])
            if pair:
                self.fault(
                    f"'{self.text}' is a sum: write {self.text[1:]} without the sign =, or {total}"
                )
            return self._replace(text=str(total)).number(default, most)
        if _DATE.fullmatch(self.text):
            self.fault(
                f"a spreadsheet has made the date {self.text} of what was typed, such as 2-3 or"
                f" 2/3, so write {pair or 'one number'}"
            )
        digits = re.sub(r"[.,](?!000$)0*$", "", self.text)
        if not re.fullmatch("[0-9]{1,9}", digits):
            otherwise = ", or leave the cell empty" if default is not None else ""
            self.fault(
                f"'{typed or self.text}' is no whole number: {self._advice(pair, otherwise)}"
            )
        if int(digits) > MAX_NUMBER:
            self.fault(
                f"{digits} is more than {most}: a spreadsheet makes such a number of 2-3 or 2/3, so"
                f" write {pair or 'one number'}"
            )
        if int(digits) > most:
            self.fault(f"{digits} is more than {most}: write a smaller number")
        return int(digits)

    def _advice(self, pair: str, empty: str) -> str:
        """What to write in place of a text that is no whole number. `empty` says that the cell may
        be empty, if it may."""
        thousands = re.fullmatch(r"([0-9]+)[.,]000", self.text)
        if thousands:
            return f"write {thousands[1]} or {thousands[1]}000"
        if re.fullmatch("[oO0-9]+", self.text):
            return "write the digit 0"
        if self.text.endswith("%"):
            return "write the number itself, not a part of another one"
        if self.text.endswith(KEPT):
            return f"the sign {KEPT} is for shifts max, work max, weekends and max in a row"
        if not pair and re.fullmatch(r"[0-9]+[.,][0-9]+", self.text):
            return "shifts are counted, not hours"
        number = f"write {about(self.text) or 'a number such as 2'}"
        return (
            f"{number}, or {pair}"
            if pair
            else f"{number}{'' if re.search('[0-9]', self.text) else empty}"
        )

    @property
    def key(self) -> str:
        """The name that its text is, in small letters: names differ in more than that."""
        return self.text.replace(" ", "_").casefold()

    def new_name(self, kind: str, taken: Collection[str]) -> str:
        """The cell as a new name of a file, with _ for a blank. Those that are taken are in small
        letters."""
        name = self.text.replace(" ", "_")
        if not name:
            self.fault(f"the cell is empty: write the name of the {kind}, or delete the row")
        if any(sign in SIGNS for sign in name):
            self.fault(
                f"'{self.text}' has one of the signs {' '.join(SIGNS)}: write the name without it"
            )
        if name.casefold() in taken:
            self.fault(f"the {kind} '{self.text}' is there already: use another name")
        return name

    def known(
        self, kind: str, names: Collection[str], others: Sequence[str] = (), end: str = ""
    ) -> str:
        """The name that the cell has, in whatever letters. A fault names the other words that may
        be in its place too, and what else may help."""
        wanted = self.key
        written = self.text.replace(" ", "_")
        # A look through all names takes long if a ward has 1000 nurses.
        alike = [written] if written in names else names
        meant = next((name for name in alike if name.casefold() == wanted), None)
        if meant is None:
            otherwise = f"write one of {quoted([*map(readable, names), *others])}{end}"
            advice = did_you_mean(written, [*names, *others], otherwise, readable)
            self.fault(
                f"'{self.text}' is no {kind}: {advice}"
                if self.text
                else f"the cell is empty: write a {kind}, or delete the row"
            )
        return meant


def new_name(cell: SheetCell, kind: str, taken: set[str], faults: Gathering) -> str:
    """A new name, which is taken then. One that has a fault is known from now on too, since other
    sheets may have it; an empty one is none."""
    name = faults.tried(lambda: cell.new_name(kind, taken), cell.text.replace(" ", "_"))
    taken.add(name.casefold())
    return name
