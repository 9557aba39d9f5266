"""Reads the sheets of an ODS file, as LibreOffice writes it."""

import re
from typing import Iterator, Sequence
from xml.etree.ElementTree import Element

from .sheet_parts import (
    SHEETS,
    Grid,
    Look,
    Parts,
    formula_text,
    new_grid,
    number_text,
    ods_space,
)

# A time of day, and its hours and minutes.
_CLOCK = re.compile("PT[0-2][0-9]H[0-5][0-9]M")
_CLOCK_PARTS = slice(2, 4), slice(5, 7)
_TABLE, _TEXT, _OFFICE, _STYLE, _FO = map(
    ods_space, ("table", "text", "office", "style", "xsl-fo-compatible")
)


def grids(parts: Parts) -> dict[str, Grid]:
    """The sheets by their names in small letters."""
    found: dict[str, Grid] = {}
    content = parts.read("content.xml")
    looks = _looks(content)
    concealed = _concealed(content)
    for book in content.iter(_OFFICE + "spreadsheet"):
        for table in book.findall(_TABLE + "table"):
            grid = new_grid(table.get(_TABLE + "name", ""), parts, found)
            grid.is_shown = table.get(_TABLE + "style-name", "") not in concealed
            if grid.name in SHEETS:
                _read_columns(table, grid)
                _read(table, grid, looks)
    return found


def _rows(element: Element) -> Iterator[Element]:
    """The rows of a sheet, also those of groups and of heads that are repeated on each page."""
    return _parts(element, "row", ("row-group", "header-rows", "rows"))


def _parts(element: Element, name: str, groups: Sequence[str]) -> Iterator[Element]:
    """The parts of a sheet with this name, also those of these groups."""
    for part in element:
        if part.tag == f"{_TABLE}table-{name}":
            yield part
        elif part.tag in (f"{_TABLE}table-{group}" for group in groups):
            yield from _parts(part, name, groups)


def _read_columns(table: Element, grid: Grid) -> None:
    """Reads which columns are hidden."""
    number = 0
    for column in _parts(table, "column", ("column-group", "header-columns", "columns")):
        end = number + int(column.get(_TABLE + "number-columns-repeated", "1"))
        if column.get(_TABLE + "visibility", "visible") != "visible":
            grid.hide(range(number, end))
        number = end


def _concealed(content: Element) -> set[str]:
    """The styles of sheets that are hidden."""
    return {
        style.get(_STYLE + "name", "")
        for style in content.iter(_STYLE + "style")
        for part in style.findall(_STYLE + "table-properties")
        if part.get(_TABLE + "display") == "false"
    }


def _read(table: Element, grid: Grid, looks: dict[str, Look]) -> None:
    """Reads the rows of a sheet. Empty ones at its end may be repeated a million times."""
    number = 0
    for row in _rows(table):
        rows = range(number, number + int(row.get(_TABLE + "number-rows-repeated", "1")))
        number = rows.stop
        column = 0
        has_values = False
        for cell in row:
            if cell.tag not in (_TABLE + "table-cell", _TABLE + "covered-table-cell"):
                continue
            columns = range(column, column + int(cell.get(_TABLE + "number-columns-repeated", "1")))
            column = columns.stop
            if cell.tag == _TABLE + "table-cell":
                value = _value(cell)
                has_values = has_values or bool(value)
                grid.put(rows, columns, value)
                look = looks.get(cell.get(_TABLE + "style-name", ""), Look())
                look = look._replace(struck=look.struck or _is_struck(cell, looks))
                grid.mark(rows, columns, look, bool(value.strip()))
                if cell.find(_OFFICE + "annotation") is not None:
                    grid.marks.commented.add((rows.start, columns.start))
                _merge(cell, rows, columns, grid)
        if has_values and row.get(_TABLE + "visibility", "visible") != "visible":
            grid.hidden += [row + 1 for row in rows]


def _merge(cell: Element, rows: range, columns: range, grid: Grid) -> None:
    """Merges the cells that this one covers."""
    height, width = (
        int(cell.get(_TABLE + name, "1"))
        for name in ("number-rows-spanned", "number-columns-spanned")
    )
    if height > 1 or width > 1:
        grid.merge(
            range(rows.start, rows.start + height), range(columns.start, columns.start + width)
        )


def _value(cell: Element) -> str:
    """What the cell has, not how it is shown: a number, a date, the paragraphs of a text, or what
    stands for a formula."""
    kind = cell.get(_OFFICE + "value-type", "")
    if kind == "float":
        value = number_text(cell.get(_OFFICE + "value", ""))
    elif kind == "date":
        value = cell.get(_OFFICE + "date-value", "")[:10]
    elif kind == "time" and _CLOCK.match(cell.get(_OFFICE + "time-value", "")):
        value = ":".join(cell.get(_OFFICE + "time-value", "")[part] for part in _CLOCK_PARTS)
    else:
        value = "\n".join("".join(_text(paragraph)) for paragraph in cell.findall(_TEXT + "p"))
    formula = cell.get(_TABLE + "formula")
    return (
        value
        if formula is None or (kind == "string" and not value)
        else formula_text(formula, value)
    )


def _text(element: Element) -> Iterator[str]:
    """The text of a paragraph and its parts. Blanks and breaks are elements."""
    yield element.text or ""
    for part in element:
        if part.tag in (_TEXT + "s", _TEXT + "tab", _TEXT + "line-break"):
            yield " "
        else:
            yield from _text(part)
        yield part.tail or ""


def _looks(content: Element) -> dict[str, Look]:
    """The looks of the styles of an ODS file, by their names."""
    looks: dict[str, Look] = {}
    for style in content.iter(_STYLE + "style"):
        texts = style.findall(_STYLE + "text-properties")
        lines = {part.get(_STYLE + "text-line-through-style", "none") for part in texts}
        colors = {
            part.get(_FO + "background-color", "transparent")
            for part in style.findall(_STYLE + "table-cell-properties")
        }
        looks[style.get(_STYLE + "name", "")] = Look(
            bool(lines - {"none"}),
            bool(colors - {"transparent", "#ffffff"}),
            any(part.get(_FO + "color", "").lower() == "#ffffff" for part in texts),
        )
    return looks


def _is_struck(cell: Element, looks: dict[str, Look]) -> bool:
    """Whether a part of the text of a cell is struck through."""
    return any(
        looks.get(part.get(_TEXT + "style-name", ""), Look()).struck
        for part in cell.iter(_TEXT + "span")
    )
