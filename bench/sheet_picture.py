"""Sheets of a spreadsheet as a page: cells with the letters of their columns and the numbers of their
rows, as a spreadsheet program shows them."""

import zipfile
from collections.abc import Iterator, Sequence
from html import escape
from pathlib import Path
from typing import NamedTuple
from xml.etree import ElementTree

TABLE = "{urn:oasis:names:tc:opendocument:xmlns:table:1.0}"
TEXT = "{urn:oasis:names:tc:opendocument:xmlns:text:1.0}"
STYLE = """
body { margin: 8px; background: #fff; font: 13px sans-serif }
h1 { font-size: 13px; margin: 10px 0 3px }
table { border-collapse: collapse }
th, td { border: 1px solid #c8c8c8; padding: 1px 5px; height: 17px; white-space: nowrap; text-align: left }
th { background: #eee; color: #555; font-weight: normal; text-align: center }
"""


class Sheet(NamedTuple):
    """A sheet, and the number of its first columns that are shown."""

    name: str
    columns: int


def page_of_sheets(spreadsheet: Path, sheets: Sequence[Sheet]) -> str:
    """A page with these sheets of an ODS file, one below the other."""
    with zipfile.ZipFile(spreadsheet) as archive:
        content = ElementTree.fromstring(archive.read("content.xml"))
    tables = {table.get(f"{TABLE}name"): table for table in content.iter(f"{TABLE}table")}
    parts = (
        f"<h1>{escape(sheet.name)}</h1>\n{_table(tables[sheet.name], sheet.columns)}"
        for sheet in sheets
    )
    return f"<!DOCTYPE html>\n<meta charset=utf-8><style>{STYLE}</style>\n" + "\n".join(parts)


def _table(table: ElementTree.Element, columns: int) -> str:
    """The first columns of a sheet."""
    heads = "".join(f"<th>{chr(ord('A') + number)}</th>" for number in range(columns))
    rows = (
        f"<tr><th>{number}</th>{''.join(_cells(row, columns))}</tr>"
        for number, row in enumerate(table.iter(f"{TABLE}table-row"), 1)
    )
    return f"<table><tr><th></th>{heads}</tr>{''.join(rows)}</table>"


def _cells(row: ElementTree.Element, columns: int) -> Iterator[str]:
    """The first cells of a row, with empty ones up to the last column."""
    cells = list(row.iter(f"{TABLE}table-cell"))[:columns]
    for cell in cells:
        yield f"<td>{escape(cell.findtext(f'{TEXT}p') or '')}</td>"
    yield "<td></td>" * (columns - len(cells))
