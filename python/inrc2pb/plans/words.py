"""What users write after a verb, and how days are said: one grammar of nurses, days and dates."""

import itertools
import unicodedata
from typing import Collection, NoReturn, Sequence

from ..sheets.sheet_cells import tidy
from ..week.dates import MONTHS, PlanDays, is_day
from ..week.faults import Misuse, printable
from ..week.slots import did_you_mean, is_utf8
from ..week.words import quoted, readable

# Letters with a stroke or without a dot, which Unicode does not take apart.
_BARE = str.maketrans("łıøđħŧ", "liodht")
# The most signs of a reason: the roster shows it, and the file of a plan keeps all of them.
_MOST_REASON = 200
# The words of lines on the end of a period.
PERIOD_IS_OVER = "period is over"


class PeriodOver(Misuse):
    """The days of the spreadsheet are those of a period that is over."""


class Wording:
    """The words after a verb, which are taken one after another; a comma after a word counts for
    nothing. `usage` is an example of the whole line."""

    def __init__(
        self,
        words: Sequence[str],
        nurses: Collection[str],
        days: PlanDays,
        first: int,
        usage: str,
        begin: int = 0,
    ) -> None:
        self._left = [text for text in (tidy(word).rstrip(",;") for word in words) if text]
        self._nurses = nurses
        self._days = days
        self._first = first
        self._begin = begin
        self._usage = usage

    @property
    def is_over(self) -> bool:
        """Whether no word is left."""
        return not self._left

    def nurse(self) -> str:
        """A nurse: the longest name among the words up to the next day, since one nurse may be Anna
        and another one Anna Maria. All these words may be the beginning of a name that only she
        has."""
        if self.is_over:
            self._misuse("a nurse is missing")
        more = itertools.takewhile(lambda word: not is_day(word), self._left[1:])
        texts = list(itertools.accumulate([self._left[0], *more], "{} {}".format))
        whole = (text for text in reversed(texts) if _named(text, self._nurses, whole=True))
        text = texts[-1] if _named(texts[-1], self._nurses) else next(whole, texts[-1])
        del self._left[: texts.index(text) + 1]
        return self._known("nurse", text, self._nurses)

    def day(self, near: int | None = None, days: PlanDays | None = None) -> int:
        """A day of the plan, or of these days, which begin with it; a day of the week is the first
        one from the day `near` on, or from the first day that is not over."""
        if self.is_over:
            self._misuse("a day is missing")
        text = self._left.pop(0)
        if self._left and self._left[0].isdigit():
            text += f" {self._left.pop(0)}"
        if (
            text[-1:].isdigit()
            and self._left
            and self._left[0].title() in MONTHS
            and not _named(self._left[0], self._nurses)
        ):
            text += f" {self._left.pop(0)}"
        return (days or self._days).number(text, self._first if near is None else near)

    def open_day(self, near: int | None = None, days: PlanDays | None = None) -> int:
        """The same. Raises Misuse if the day is in a week that is over, or recorded."""
        day = self.day(near, days)
        if day < self._first:
            cure = (
                f"the plan goes on from {self._days.text(self._first)}, and the verb over corrects"
                " older days"
            )
            raise Misuse(f"{self._days.text(day)} is in a week that is over: {cure}")
        if day < self._begin:
            raise Misuse(
                f"{self._days.text(day)} is recorded as it was worked: the verb over corrects it"
            )
        return day

    def one_of(self, words: Collection[str]) -> str:
        """The next word, if it is one of these, or else nothing is taken."""
        if self.is_over or self._left[0].casefold() not in words:
            return ""
        return self._left.pop(0).casefold()

    def shift(self, names: Collection[str], skills: Collection[str]) -> tuple[str, str]:
        """One of these shift types, and the skill that follows it, as in `Late/Nurse`, or
        nothing."""
        if self.is_over:
            self._misuse("a shift type is missing")
        shift, _, skill = self._left.pop(0).partition("/")
        return self._known("shift type", shift, names), (
            self._known("skill of hers", skill, skills) if skill else ""
        )

    def reason(self) -> str:
        """All words that are left. Raises Misuse if no later verb could read them, or if they are
        too long."""
        text = " ".join(self._left)
        self._left = []
        if not is_utf8(text):
            raise Misuse(
                f"'{printable(text)[:40]}' has a byte that is no UTF-8: write the reason without"
                " accents, or in a terminal with UTF-8"
            )
        if len(text) > _MOST_REASON:
            raise Misuse(
                f"'{text[:20]} ..' has {len(text)} signs: write a reason of at most {_MOST_REASON}"
            )
        return text

    def end(self) -> None:
        """No word may be left."""
        if self._left:
            self._misuse(f"'{self._left[0]}' is a word too many")

    def _known(self, kind: str, text: str, names: Collection[str]) -> str:
        same = _named(text, names, whole=True)
        begun = _named(text, names)
        if len(same or begun) == 1:
            return (same or begun)[0]
        if begun:
            raise Misuse(f"'{text}' may be {quoted(map(readable, begun))}: write the whole name")
        otherwise = f"write one of {quoted(map(readable, names))}"
        raise Misuse(
            f"'{text}' is no {kind}:"
            f" {did_you_mean(text.replace(' ', '_'), names, otherwise, readable)}"
        )

    def _misuse(self, what: str) -> NoReturn:
        raise Misuse(f"{what}: write, for example, {self._usage}")


def _named(text: str, names: Collection[str], whole: bool = False) -> list[str]:
    """The names that begin with this text, or that equal it if it is a whole name; case does not
    matter, nor do accents, unless names differ in nothing else."""
    for folded in (str.casefold, _without_accents):
        wanted = folded(text.replace(" ", "_"))
        alike = [name for name in names if folded(name)[: None if whole else len(wanted)] == wanted]
        if alike:
            return alike
    return []


def _without_accents(text: str) -> str:
    """The text in small letters without accents, as a keyboard without them has it: `Łukasz` is
    `lukasz`."""
    letters = unicodedata.normalize("NFKD", text.casefold().translate(_BARE))
    return "".join(letter for letter in letters if not unicodedata.combining(letter))
