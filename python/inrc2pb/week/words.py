"""Names, numbers and lists as people read them in a sentence."""

from typing import Iterable

# The word for a nurse's day without a shift.
OFF = "off"


def readable(name: str) -> str:
    """A name as it was in a spreadsheet, with blanks."""
    return name.replace("_", " ")


def wish_text(shift: str | None) -> str:
    """What a nurse has asked for: to be off, or not to work this shift type."""
    return f"no {readable(shift)}" if shift else OFF


def joined(words: Iterable[str]) -> str:
    """The words of a list in a sentence, as `Fri, Sat and Sun`."""
    *first, last = words
    return f"{', '.join(first)} and {last}" if first else last


def plural(count: int, noun: str) -> str:
    """The number and its noun, as `1 line` or `2 lines`."""
    return f"{count} {noun}{'' if count == 1 else 's'}"


def quoted(names: Iterable[str], limit: int = 12) -> str:
    """The names in a sentence, the first ones if there are many."""
    words = list(names)
    more = f", .. ({len(words)} in all)" if len(words) > limit else ""
    return ", ".join(words[:limit]) + more if words else "none"
