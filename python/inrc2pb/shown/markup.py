"""Elements of XML and HTML as text: what is no markup yet is escaped."""

import html
import re

# All but the characters that XML allows. A byte that is not UTF-8 is a surrogate.
_NOT_IN_XML = re.compile("[^\t\n\r\x20-\ud7ff\ue000-\ufffd\U00010000-\U0010ffff]")
_EMPTY = ("br", "col", "input", "meta")


class Markup(str):
    """Text that is markup already."""


def allowed(text: str) -> str:
    """The text with a replacement for each character that XML does not allow."""
    return _NOT_IN_XML.sub("\ufffd", text)


def escaped(text: str) -> Markup:
    """The text as markup."""
    return text if isinstance(text, Markup) else Markup(html.escape(allowed(text)))


def joined(*parts: str) -> Markup:
    """Texts and markup one after another."""
    return Markup("".join(map(escaped, parts)))


def element(tag: str, *inside: str, **attributes: str | None) -> Markup:
    """An element. In the names of attributes a line is written `_`, as in `aria_label`, and a last
    one is left out, as in `class_`. Attributes that are None are left out too."""
    words = [
        f' {name.rstrip("_").replace("_", "-")}="{escaped(value)}"'
        for name, value in attributes.items()
        if value is not None
    ]
    start = f"<{tag}{''.join(words)}"
    return Markup(f"{start}/>" if tag in _EMPTY else f"{start}>{joined(*inside)}</{tag}>")


def hidden(text: str) -> Markup:
    """Text for screen readers only."""
    return element("span", text, class_="hidden")


def shown(text: str, **attributes: str | None) -> Markup:
    """Text for eyes only: `hidden` says the same in words."""
    return element("span", text, aria_hidden="true", **attributes)
