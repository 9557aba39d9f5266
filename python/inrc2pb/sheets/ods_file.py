"""Writes the sheets of an ODS file, which LibreOffice and Excel open."""

import datetime
import zipfile
from typing import BinaryIO, Sequence
from xml.sax.saxutils import escape, quoteattr

from ..week.records import DAYS

_TYPE = "application/vnd.oasis.opendocument.spreadsheet"
_NAMES = {
    "office": "office",
    "table": "table",
    "text": "text",
    "manifest": "manifest",
    "style": "style",
    "number": "datastyle",
    "fo": "xsl-fo-compatible",
}
_SPACES = " ".join(
    f'xmlns:{short}="urn:oasis:names:tc:opendocument:xmlns:{name}:1.0"'
    for short, name in _NAMES.items()
)
# How a cell shows a date, as Mon 2026-11-30, and a column that is wide enough for it.
_DATE_STYLE = (
    '<style:style style:name="wide" style:family="table-column"><style:table-column-properties'
    ' style:column-width="2.9cm"/></style:style>'
    '<number:date-style style:name="days"><number:day-of-week/><number:text> </number:text>'
    '<number:year number:style="long"/><number:text>-</number:text><number:month'
    ' number:style="long"/><number:text>-</number:text><number:day'
    ' number:style="long"/></number:date-style><style:style style:name="day"'
    ' style:family="table-cell" style:data-style-name="days"/>'
)
_HEAD = '<?xml version="1.0" encoding="UTF-8"?>\n'
# With one of these a program may take a text for a formula.
_FORMULA = ("=", "+", "-", "@")
# The time of all parts, so that equal sheets are equal files.
_TIME = (1980, 1, 1, 0, 0, 0)


def no_formula(text: str) -> str:
    """The text of a cell that no spreadsheet takes for a formula."""
    return f"'{text}" if text.startswith(_FORMULA) else text


def color_style(name: str, background: str, ink: str) -> str:
    """The style of cells with these colors."""
    return (
        f'<style:style style:name="{name}" style:family="table-cell"><style:table-cell-properties'
        f' fo:background-color="{background}"/><style:text-properties fo:color="{ink}"/>'
        "</style:style>"
    )


def sheet(name: str, rows: Sequence[Sequence[str]], dates: int = 0) -> str:
    """A sheet of rows of cells, of whose columns so many are wide enough for dates."""
    wide = (
        "<table:table-column/>"
        f'<table:table-column table:style-name="wide" table:number-columns-repeated="{dates}"/>'
        if dates
        else ""
    )
    columns = wide or f'<table:table-column table:number-columns-repeated="{len(rows[0])}"/>'
    text = "".join(f"<table:table-row>{''.join(row)}</table:table-row>" for row in rows)
    return f"<table:table table:name={quoteattr(name)}>{columns}{text}</table:table>"


def cell(value: object, style: str = "") -> str:
    """A cell with a number, a date, a text, or nothing."""
    if value == "":
        return "<table:table-cell/>"
    kind = 'office:value-type="string"'
    shown = str(value)
    if isinstance(value, datetime.date):
        kind = f'office:value-type="date" office:date-value="{value}"'
        style = style or "day"
        shown = f"{DAYS[value.weekday()]} {value}"
    elif isinstance(value, (int, float)):
        kind = f'office:value-type="float" office:value="{value}"'
    styled = f'table:style-name="{style}" ' if style else ""
    return f"<table:table-cell {styled}{kind}><text:p>{escape(shown)}</text:p></table:table-cell>"


def write_sheets(file: BinaryIO, sheets: str, styles: str = "") -> None:
    """Writes a file with these sheets, whose cells have these styles."""
    manifest = f'<manifest:file-entry manifest:full-path="/" manifest:media-type="{_TYPE}"/>'
    manifest += (
        '<manifest:file-entry manifest:full-path="content.xml" manifest:media-type="text/xml"/>'
    )
    body = f"<office:body><office:spreadsheet>{sheets}</office:spreadsheet></office:body>"
    content = f"<office:automatic-styles>{_DATE_STYLE}{styles}</office:automatic-styles>{body}"
    parts = {
        "META-INF/manifest.xml": (
            f'<manifest:manifest {_SPACES} manifest:version="1.3">{manifest}</manifest:manifest>'
        ),
        "content.xml": (
            f'<office:document-content {_SPACES} office:version="1.3">{content}'
            "</office:document-content>"
        ),
    }
    with zipfile.ZipFile(file, "w", zipfile.ZIP_DEFLATED) as archive:
        archive.writestr(zipfile.ZipInfo("mimetype", _TIME), _TYPE)
        for name, text in parts.items():
            part = zipfile.ZipInfo(name, _TIME)
            part.compress_type = zipfile.ZIP_DEFLATED
            archive.writestr(part, _HEAD + text)
