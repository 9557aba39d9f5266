"""Reads the sheets of an XLSX file, as Excel and LibreOffice write it."""

import datetime
import posixpath
import re
from typing import NamedTuple, Sequence
from xml.etree.ElementTree import Element

from .sheet_parts import (
    MAIN_SPACES,
    SHEETS,
    Grid,
    Look,
    Parts,
    formula_text,
    new_grid,
    number_text,
)

_LINK = (
    "{http://schemas.openxmlformats.org/officeDocument/2006/relationships}id",
    "{http://purl.oclc.org/ooxml/officeDocument/relationships}id",
)
_RANGE = re.compile("([A-Z]{1,3})([0-9]{1,7}):([A-Z]{1,3})([0-9]{1,7})")
# The number of the first day after the year 9999.
_MOST_DAYS = 2_957_000
# The formats of dates and times that each program knows by their numbers.
_BUILT_IN = {
    **{str(number): "date" for number in (14, 15, 16, 17, 22)},
    **{str(number): "time" for number in (18, 19, 20, 21)},
}
# What is no sign of a format: texts, colors and languages, and the sign after a backslash.
_NO_SIGNS = re.compile(r'"[^"]*"|\[[^\]]*\]|\\.')
_DAY_ZERO = datetime.date(1899, 12, 30)
_DAY_ZERO_1904 = datetime.date(1904, 1, 1)


class _Texts(NamedTuple):
    """The strings of a book, which of them are struck through, the looks of its formats, the kinds
    of values that these show, and the day with the number 0."""

    shared: Sequence[str]
    struck: Sequence[bool]
    looks: Sequence[Look]
    kinds: Sequence[str]
    zero: datetime.date


def grids(parts: Parts) -> dict[str, Grid]:
    """The sheets by their names in small letters."""
    items = (
        _all(parts.read("xl/sharedStrings.xml"), "si") if parts.has("xl/sharedStrings.xml") else []
    )
    texts = _Texts(
        list(map(_text, items)),
        list(map(_is_struck, items)),
        looks=_looks(parts),
        kinds=_kinds(parts),
        zero=day_zero(parts),
    )
    targets = {
        link.get("Id", ""): _path(link.get("Target", ""))
        for link in parts.read("xl/_rels/workbook.xml.rels")
    }
    found: dict[str, Grid] = {}
    for sheet in _all(parts.read("xl/workbook.xml"), "sheet"):
        target = targets[next(filter(None, map(sheet.get, _LINK)), "")]
        if "worksheets" in target:
            grid = new_grid(sheet.get("name", ""), parts, found)
            grid.is_shown = sheet.get("state", "visible") == "visible"
            if grid.name in SHEETS:
                _read(parts.read(target), grid, texts)
                _read_comments(target, grid, parts)
    return found


def day_zero(parts: Parts) -> datetime.date:
    """The day with the number 0."""
    book = parts.read("xl/workbook.xml")
    from_1904 = any(
        part.get("date1904") in ("1", "true", "on") for part in _all(book, "workbookPr")
    )
    return _DAY_ZERO_1904 if from_1904 else _DAY_ZERO


def _path(target: str) -> str:
    """The name of a part: a link begins in the folder xl or, with a slash, at the top."""
    return target[1:] if target.startswith("/") else f"xl/{target}"


def _all(element: Element, name: str) -> list[Element]:
    return [part for space in MAIN_SPACES for part in element.iter(space + name)]


def _read(sheet: Element, grid: Grid, texts: _Texts) -> None:
    """Reads the rows of a sheet. A row or cell without a number follows the one before."""
    for part in (part for part in _all(sheet, "col") if part.get("hidden") in ("1", "true")):
        grid.hide(range(int(part.get("min", "1")) - 1, int(part.get("max", "1"))))
    number = -1
    for row in _all(sheet, "row"):
        number = int(row.get("r", number + 2)) - 1
        if row.get("hidden") in ("1", "true"):
            grid.hidden.append(number + 1)
        column = -1
        for cell in _all(row, "c"):
            column = _column(cell.get("r", "")) if cell.get("r") else column + 1
            place = (range(number, number + 1), range(column, column + 1))
            value = _value(cell, texts)
            grid.put(*place, value)
            grid.mark(*place, _look(cell, texts), bool(value.strip()))
    for merged in _all(sheet, "mergeCell"):
        corners = _RANGE.fullmatch(merged.get("ref", "").upper())
        if corners:
            first, top, last, bottom = corners.groups()
            grid.merge(range(int(top) - 1, int(bottom)), range(_column(first), _column(last) + 1))


def _read_comments(target: str, grid: Grid, parts: Parts) -> None:
    """Reads which cells of a sheet have a comment."""
    folder, _, name = target.rpartition("/")
    links = f"{folder}/_rels/{name}.rels"
    if not parts.has(links):
        return
    for link in parts.read(links):
        if link.get("Type", "").endswith("/comments"):
            path = posixpath.normpath(posixpath.join("/", folder, link.get("Target", "")))[1:]
            for comment in _all(parts.read(path), "comment"):
                place = comment.get("ref", "")
                row = re.search("[0-9]{1,7}$", place)
                grid.marks.commented.add((int(row.group()) - 1 if row else 0, _column(place)))


def _look(cell: Element, texts: _Texts) -> Look:
    """The look of a cell: that of its format, and of its text."""
    number = cell.get("s", "")
    text = "".join(part.text or "" for part in _all(cell, "v")) if cell.get("t") == "s" else ""
    look = (
        texts.looks[int(number)] if number.isdigit() and int(number) < len(texts.looks) else Look()
    )
    in_text = bool(text) and texts.struck[int(text)] or any(map(_is_struck, _all(cell, "is")))
    return look._replace(struck=look.struck or in_text)


def _column(place: str) -> int:
    """The number of the column of a place such as C7, from 0."""
    letters = re.match("[A-Z]+", place.upper())
    number = 0
    for letter in letters.group() if letters else "":
        number = 26 * number + ord(letter) - ord("A") + 1
    return number - 1


def _value(cell: Element, texts: _Texts) -> str:
    """What the cell has: a number, a date, a time, a text, or what stands for a formula."""
    kind = cell.get("t", "n")
    parts = _all(cell, "v")
    formulas = _all(cell, "f")
    value = "".join(part.text or "" for part in parts)
    if kind == "s":
        return texts.shared[int(value)] if value else ""
    if kind == "inlineStr":
        return "".join(_text(item) for item in _all(cell, "is"))
    if kind == "n":
        style = cell.get("s", "")
        shows = texts.kinds[int(style)] if style.isdigit() and int(style) < len(texts.kinds) else ""
        value = _shown(number_text(value), shows, texts.zero)
    has_value = kind == "str" and bool(parts)
    return formula_text(formulas[0].text or "", value) if formulas and not has_value else value


def _text(item: Element) -> str:
    """The text of a string and its runs, without the signs that say how it is spoken."""
    spoken = {part for phonetic in _all(item, "rPh") for part in _all(phonetic, "t")}
    return "".join(part.text or "" for part in _all(item, "t") if part not in spoken)


def _looks(parts: Parts) -> list[Look]:
    """The looks of the cell formats of an XLSX file, by their numbers."""
    if not parts.has("xl/styles.xml"):
        return []
    styles = parts.read("xl/styles.xml")
    fonts = _children(styles, "fonts", "font")
    struck = [_is_struck(font) for font in fonts]
    white = [any(map(_is_white, _all(font, "color"))) for font in fonts]
    colored = [any(_is_solid(part) for part in fill) for fill in _children(styles, "fills", "fill")]
    formats = _children(styles, "cellXfs", "xf")
    return [
        Look(
            _at(struck, of_cell.get("fontId", "")),
            _at(colored, of_cell.get("fillId", "")),
            _at(white, of_cell.get("fontId", "")),
        )
        for of_cell in formats
    ]


def _kinds(parts: Parts) -> list[str]:
    """What the cell formats of an XLSX file make of numbers: a `date`, a `time`, or nothing."""
    if not parts.has("xl/styles.xml"):
        return []
    styles = parts.read("xl/styles.xml")
    own = {
        part.get("numFmtId", ""): _kind(part.get("formatCode", ""))
        for part in _children(styles, "numFmts", "numFmt")
    }
    return [
        own.get(number, "") or _BUILT_IN.get(number, "")
        for number in (
            of_cell.get("numFmtId", "") for of_cell in _children(styles, "cellXfs", "xf")
        )
    ]


def _kind(code: str) -> str:
    """What a format with this code makes of a number."""
    signs = _NO_SIGNS.sub("", code).casefold()
    if set("dy") & set(signs):
        return "date"
    return "time" if set("hs") & set(signs) else ""


def _shown(number: str, kind: str, zero: datetime.date) -> str:
    """A number as a cell of this kind shows it. One that is no day or time stays as it is."""
    try:
        days = float(number)
    except ValueError:
        return number
    if kind == "date" and 0 < days < _MOST_DAYS:
        return str(zero + datetime.timedelta(days=int(days)))
    if kind == "time" and 0 <= days < 1:
        minutes = round(24 * 60 * days)
        return f"{minutes // 60:02}:{minutes % 60:02}"
    return number


def _is_white(color: Element) -> bool:
    """Whether a color is white: by itself, or as the first one of the theme or of the palette."""
    rgb = color.get("rgb", "").upper()
    return rgb.endswith("FFFFFF") or color.get("theme") == "0" or color.get("indexed") in ("1", "9")


def _is_struck(text: Element) -> bool:
    """Whether a font, or a part of a text, is struck through."""
    strikes = [part for space in MAIN_SPACES for part in text.iter(space + "strike")]
    return any(part.get("val", "1") not in ("0", "false") for part in strikes)


def _is_solid(pattern: Element) -> bool:
    return pattern.get("patternType", "none") not in ("none", "gray125")


def _children(styles: Element, group: str, name: str) -> list[Element]:
    """The members of a group of styles."""
    return [
        part
        for space in MAIN_SPACES
        for members in styles.findall(space + group)
        for part in members.findall(space + name)
    ]


def _at(values: list[bool], number: str) -> bool:
    return number.isdigit() and int(number) < len(values) and values[int(number)]
