"""The tokens of a file, taken one after another, with faults that name the word and say how to fix
it."""

import contextlib
import difflib
import re
from pathlib import Path
from typing import Callable, Collection, Iterable, Iterator, NamedTuple, NoReturn

from .faults import FileFault
from .hints import (
    HEADINGS,
    composed_otherwise,
    is_no_text,
    of_another_kind,
    reason_of_signs,
    reasons,
)
from .records import Limits
from .words import quoted

MAX_FILE_LEN = 4_194_304
MAX_NUMBER = 9999
MAX_WEEKS = 52
MAX_SKILLS = 16
MAX_SHIFTS = 16
MAX_CONTRACTS = 64
MAX_NURSES = 1000
SIGNS = "(),="
# The signs to which `text_of` decodes bytes that are no UTF-8.
_NO_UTF8 = re.compile("[\udc80-\udcff]")
_TOKEN = re.compile(r"[(),=]|[^ \t\n\r(),=]+")
_COMMENT_STARTS = ("#", "//", ";", "%", "/*", "<!--", "--")

PathLike = str | Path


class Token(NamedTuple):
    """A word or sign, and its line."""

    text: str
    line: int


def text_of(path: PathLike) -> str:
    """The text of a file; bytes that are not UTF-8 survive as surrogates, and `bytes_of` turns them
    back. Raises FileFault if it is too long, or UTF-16, or begins with a byte order mark."""
    with open(path, "rb") as file:
        data = file.read(MAX_FILE_LEN + 1)
    if len(data) > MAX_FILE_LEN:
        raise FileFault(path, 0, f"the file has more than {MAX_FILE_LEN} bytes", "out of limits")
    if data[:2] in (b"\xff\xfe", b"\xfe\xff") or (b"\0" in data[:2] and data[:1] != b"\n"):
        raise FileFault(
            path, 1, "this is UTF-16 text: save the file as UTF-8", "another word expected"
        )
    if data[:3] == b"\xef\xbb\xbf":
        message = "the file begins with a byte order mark (BOM): save it as UTF-8 without one"
        raise FileFault(path, 1, message, "another word expected")
    return data.decode("utf-8", errors="surrogateescape")


def tokens_of(text: str) -> list[Token]:
    """The words and signs of a text with their lines; blanks are space, tab, LF and CR."""
    tokens = []
    for number, line in enumerate(text.split("\n"), 1):
        tokens += [Token(token, number) for token in _TOKEN.findall(line)]
    return tokens


def is_utf8(word: str) -> bool:
    """Whether no byte of the word was decoded to a surrogate by `text_of`."""
    return word.isascii() or not _NO_UTF8.search(word)


def _comment_hint(word: str) -> str:
    """The end of a sentence, if the word begins like a comment."""
    return (
        f"; '{word}' looks like a comment: the files have none, so remove it"
        if word.startswith(_COMMENT_STARTS)
        else ""
    )


def _other_encoding(word: str, names: Iterable[str]) -> str:
    """What to do if either the file with the word or the one with the names is not UTF-8. The names
    are those of the scenario."""
    special = [name for name in names if not name.isascii()]
    if word.isascii() or not special or is_utf8(word) == all(map(is_utf8, special)):
        return ""
    return ("the scenario" if is_utf8(word) else "this file") + " is not UTF-8: save it as UTF-8"


def closest(word: str, names: Iterable[str]) -> str | None:
    """The name that the word most likely means, also if only its case differs."""
    words = list(names)
    low = word.lower()
    same = [name for name in words if name.lower() == low]
    longer = [
        name
        for name in words
        if len(name) > 2
        and low.startswith(name.lower())
        or len(low) > 2
        and name.lower().startswith(low)
    ]
    return next(iter(same or difflib.get_close_matches(word, words, 1) or longer), None)


def did_you_mean(
    word: str, names: Iterable[str], otherwise: str, shown: Callable[[str], str] = str
) -> str:
    """A question with the name that the word most likely means, as it is shown; without one, what
    else to do."""
    meant = closest(word, names)
    return f"did you mean {shown(meant)}?" if meant else otherwise


class Slots:
    """The tokens of a file. Each method takes the next ones, or raises the fault that `inrc2pb`
    would report."""

    def __init__(self, path: PathLike, text: str | None = None) -> None:
        self.path = Path(path)
        self.text = text_of(path) if text is None else text
        self.tokens = tokens_of(self.text)
        self.at = 0
        self._names: Collection[str] = ()
        self._heading = ""

    @contextlib.contextmanager
    def line_for_each(self, names: Collection[str], heading: str) -> Iterator[None]:
        """Within the block a fault also says which of the names have no line below the heading."""
        self._names = names
        self._heading = heading
        yield
        self._names = ()
        self._heading = ""

    def fault(self, token: Token, fault: str, message: str) -> NoReturn:
        """Raises a fault at this token, with its probable reasons."""
        comment = next(
            filter(None, (_comment_hint(word.text) for word in (token, *self._before(token)))), ""
        )
        lines = self.text.split("\n")
        signs = reason_of_signs(lines, token.line, token.text)
        if is_no_text(self.text):
            message = "this is no text file: save it as plain text" + (
                ", or give a spreadsheet to inrc2pb-plan" if self.text.startswith("PK") else ""
            )
        elif signs:
            message += f"; {signs}"
        elif self._is_in_a_name(token):
            message += "; a name may have none of ( ) , ="
        elif comment:
            message += comment
        else:
            message += reasons(lines, token.line, token.text, self._names, self._heading)
        raise FileFault(self.path, token.line, message, fault)

    def _before(self, token: Token) -> Iterator[Token]:
        """The token before this one, if it may be a comment that was taken for a name: it is only a
        sign, or on an earlier line."""
        if self.at > 1 and self.tokens[self.at - 1] is token:
            before = self.tokens[self.at - 2]
            if before.text in _COMMENT_STARTS or before.line < token.line:
                yield before

    def _is_in_a_name(self, token: Token) -> bool:
        """Whether the token is the sign that was taken last, and follows a name without a blank."""
        if self.at < 2 or token.text not in tuple(SIGNS) or self.tokens[self.at - 1] is not token:
            return False
        name = self.tokens[self.at - 2].text
        is_name = name not in SIGNS and not name.isdigit() and name not in HEADINGS
        return is_name and name + token.text in self.text.split("\n")[token.line - 1]

    def next(self, wanted: str) -> Token:
        """The next token, of any kind."""
        if self.at == len(self.tokens):
            line = self.tokens[-1].line if self.tokens else 1
            self.fault(Token("", line), "end of file", f"the file ends where {wanted} should come")
        self.at += 1
        return self.tokens[self.at - 1]

    def ends(self) -> bool:
        """Whether no token is left."""
        return self.at == len(self.tokens)

    def end(self, after: str) -> None:
        """No token may be left."""
        if not self.ends():
            token = self.tokens[self.at]
            message = (
                f"'{token.text}' comes after the last {after}: remove it, or correct the number of"
                " lines announced"
            )
            self.fault(token, "text after the end", message)

    def words(self, *wanted: str) -> None:
        """Exactly these words and signs."""
        for word in wanted:
            token = self.next(f"'{word}'")
            if token.text != word:
                other = of_another_kind(token.text) if self.at == 1 else ""
                self.fault(
                    token,
                    "another word expected",
                    f"'{token.text}' where '{word}' should be{other}",
                )

    def any_word(self, what: str) -> Token:
        """A word that no list restricts."""
        token = self.next(what)
        if token.text in SIGNS:
            self.fault(token, "another word expected", f"'{token.text}' where {what} should be")
        return token

    def number(self, what: str, minimum: int = 0, most: int = MAX_NUMBER) -> int:
        """A number in decimal digits within its limits."""
        token = self.next(what)
        if not re.fullmatch("[0-9]+", token.text):
            self.fault(
                token, "number expected", f"'{token.text}' where {what} should be, a whole number"
            )
        digits = token.text.lstrip("0") or "0"
        if len(digits) > 9 or not minimum <= int(digits) <= most:
            self.fault(
                token,
                "out of limits",
                f"{what} is {token.text[:20]}: it has to be from {minimum} to {most}",
            )
        return int(digits)

    def pair(self, what: str) -> Limits:
        """`(minimum,maximum)`."""
        self.words("(")
        minimum = self.number(f"the minimum of {what}")
        self.words(",")
        maximum = self.number(f"the maximum of {what}")
        self.words(")")
        return Limits(minimum, maximum)

    def new_name(self, kind: str, taken: Collection[str]) -> str:
        """A name that is not in the list yet."""
        token = self.any_word(f"the name of a {kind}")
        if token.text in taken:
            self.fault(
                token, "repeated", f"the {kind} '{token.text}' is there already: use another name"
            )
        return token.text

    def known_name(
        self, kind: str, names: Collection[str], source: str, others: tuple[str, ...] = ()
    ) -> Token:
        """A name of this list, or one of the other words that may be in its place."""
        token = self.any_word(f"a {kind}")
        if token.text not in names and token.text not in others:
            self.unknown(token, kind, [*names, *others], source)
        return token

    def unknown(self, token: Token, kind: str, names: Collection[str], source: str) -> NoReturn:
        """Raises the fault of a name that is not in its list, with the closest one that is."""
        if token.text in HEADINGS:
            self.fault(token, "unknown name", f"'{token.text}' where a {kind} should be")
        encoding = _other_encoding(token.text, names)
        if encoding:
            self.fault(
                token, "unknown name", f"'{token.text}' is no {kind} of {source}: {encoding}"
            )
        same = composed_otherwise(token.text, names)
        if same:
            self.fault(
                token,
                "unknown name",
                (
                    f"'{token.text}' is no {kind} of {source}: it looks like '{same}', and has"
                    " other letters: copy that name"
                ),
            )
        advice = did_you_mean(token.text, names, f"it has {quoted(names)}", "'{}'".format)
        message = f"'{token.text}' is no {kind} of {source}: {advice}"
        hint = "" if _comment_hint(token.text) else _comment_hint(closest(token.text, names) or "")
        self.fault(token, "unknown name", message + hint)
