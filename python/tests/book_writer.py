"""Writes spreadsheets in both formats, as LibreOffice and Excel do, with what a look at a sheet does
not show: hidden parts, merged cells, comments, white text, and dates and times as values."""

import datetime
import zipfile
from typing import NamedTuple
from xml.sax.saxutils import escape, quoteattr

from inrc2pb.sheets.sheet_cells import letters_of

ODS_SPACES = " ".join(
    f'xmlns:{short}="urn:oasis:names:tc:opendocument:xmlns:{name}:1.0"'
    for short, name in (
        ("office", "office"),
        ("table", "table"),
        ("text", "text"),
        ("style", "style"),
        ("fo", "xsl-fo-compatible"),
    )
)
ODS_STYLES = (
    '<office:automatic-styles><style:style style:name="gone" style:family="table">'
    '<style:table-properties table:display="false"/></style:style><style:style style:name="white"'
    ' style:family="table-cell"><style:text-properties fo:color="#ffffff"/></style:style>'
    "</office:automatic-styles>"
)
MAIN = 'xmlns="http://schemas.openxmlformats.org/spreadsheetml/2006/main"'
LINKS = 'xmlns="http://schemas.openxmlformats.org/package/2006/relationships"'
TYPES = "http://schemas.openxmlformats.org/officeDocument/2006/relationships"
# The formats 1 to 3: white text, a date, and a time.
XLSX_STYLES = (
    f"<styleSheet {MAIN}><numFmts><numFmt numFmtId='170' formatCode='[$-407]d.\\ mmm\\ yyyy'/>"
    '</numFmts><fonts><font/><font><color rgb="FFFFFFFF"/></font></fonts><fills><fill/></fills>'
    '<cellXfs><xf fontId="0" fillId="0"/><xf fontId="1" fillId="0"/><xf fontId="0" fillId="0"'
    ' numFmtId="170"/><xf fontId="0" fillId="0" numFmtId="20"/></cellXfs></styleSheet>'
)


class Sheet(NamedTuple):
    """A sheet: cells are texts, numbers, dates or times. Hidden rows, and the places of comments
    and white texts, are counted from 1 and by letters, as `C4`; merged ranges as `C4:C5`."""

    name: str
    rows: list
    is_hidden: bool = False
    hidden_rows: tuple = ()
    hidden_columns: tuple = ()
    merged: tuple = ()
    comments: tuple = ()
    white: tuple = ()


def write_book(path, sheets):
    """Writes the sheets, in the format that the name has."""
    parts = (_ods if path.suffix == ".ods" else _xlsx)(sheets)
    with zipfile.ZipFile(path, "w", zipfile.ZIP_DEFLATED) as archive:
        for name, text in parts.items():
            archive.writestr(name, f'<?xml version="1.0" encoding="UTF-8"?>\n{text}')
    return path


def _place(row, column):
    return f"{letters_of(column)}{row + 1}"


def _spans(sheet):
    """The first places of merged ranges, with their rows and columns."""
    spans = {}
    for text in sheet.merged:
        (left, top), (right, bottom) = ((part[0], int(part[1:])) for part in text.split(":"))
        spans[f"{left}{top}"] = bottom - top + 1, ord(right) - ord(left) + 1
    return spans


def _ods(sheets):
    tables = ""
    for sheet in sheets:
        width = max(map(len, sheet.rows))
        spans = _spans(sheet)
        hide = ' table:visibility="collapse"'
        columns = "".join(
            f"<table:table-column{hide if letters_of(column) in sheet.hidden_columns else ''}/>"
            for column in range(width)
        )
        rows = "".join(
            f"<table:table-row{hide if number + 1 in sheet.hidden_rows else ''}>"
            + "".join(
                _ods_cell(value, _place(number, column), sheet, spans)
                for column, value in enumerate(row)
            )
            + "</table:table-row>"
            for number, row in enumerate(sheet.rows)
        )
        style = ' table:style-name="gone"' if sheet.is_hidden else ""
        tables += (
            f"<table:table table:name={quoteattr(sheet.name)}{style}>{columns}{rows}</table:table>"
        )
    return {
        "content.xml": f"<office:document-content {ODS_SPACES}>{ODS_STYLES}<office:body>"
        f"<office:spreadsheet>{tables}</office:spreadsheet></office:body></office:document-content>"
    }


def _ods_cell(value, place, sheet, spans):
    style = ' table:style-name="white"' if place in sheet.white else ""
    height, width = spans.get(place, (1, 1))
    if (height, width) != (1, 1):
        style += f' table:number-rows-spanned="{height}" table:number-columns-spanned="{width}"'
    comment = "<office:annotation><text:p>ill</text:p></office:annotation>"
    inside = comment if place in sheet.comments else ""
    if isinstance(value, datetime.date):
        kind = f' office:value-type="date" office:date-value="{value}"'
        text = f"{value:%d.%m.%y}"
    elif isinstance(value, datetime.time):
        kind = f' office:value-type="time" office:time-value="PT{value:%HH%MM%SS}"'
        text = f"{value:%H:%M:%S}"
    elif isinstance(value, int):
        kind = f' office:value-type="float" office:value="{value}"'
        text = value
    else:
        kind = ' office:value-type="string"' if value else ""
        text = value
    text = f"<text:p>{escape(str(text))}</text:p>" if text != "" else ""
    return f"<table:table-cell{style}{kind}>{inside}{text}</table:table-cell>"


def _xlsx(sheets):
    parts = {"xl/styles.xml": XLSX_STYLES}
    named = links = ""
    for number, sheet in enumerate(sheets, 1):
        state = ' state="hidden"' if sheet.is_hidden else ""
        named += (
            f'<sheet name={quoteattr(sheet.name)} sheetId="{number}"{state} r:id="rId{number}"/>'
        )
        target = f"worksheets/sheet{number}.xml"
        links += f'<Relationship Id="rId{number}" Type="{TYPES}/worksheet" Target="{target}"/>'
        hidden = ' hidden="1"'
        columns = "".join(
            f'<col min="{ord(name) - 64}" max="{ord(name) - 64}"{hidden}/>'
            for name in sheet.hidden_columns
        )
        rows = "".join(
            f'<row r="{line + 1}"{hidden if line + 1 in sheet.hidden_rows else ""}>'
            + "".join(
                _xlsx_cell(value, _place(line, column), sheet) for column, value in enumerate(row)
            )
            + "</row>"
            for line, row in enumerate(sheet.rows)
        )
        merged = "".join(f'<mergeCell ref="{text}"/>' for text in sheet.merged)
        parts[f"xl/{target}"] = (
            f"<worksheet {MAIN}>{f'<cols>{columns}</cols>' if columns else ''}"
            f"<sheetData>{rows}</sheetData><mergeCells>{merged}</mergeCells></worksheet>"
        )
        if sheet.comments:
            parts[f"xl/worksheets/_rels/sheet{number}.xml.rels"] = (
                f'<Relationships {LINKS}><Relationship Id="rId1" Type="{TYPES}/comments"'
                f' Target="../comments{number}.xml"/></Relationships>'
            )
            parts[f"xl/comments{number}.xml"] = (
                f"<comments {MAIN}><commentList>"
                + "".join(
                    f'<comment ref="{place}"><text><t>ill</t></text></comment>'
                    for place in sheet.comments
                )
                + "</commentList></comments>"
            )
    parts[
        "xl/workbook.xml"
    ] = f'<workbook {MAIN} xmlns:r="{TYPES}"><sheets>{named}</sheets></workbook>'
    parts["xl/_rels/workbook.xml.rels"] = f"<Relationships {LINKS}>{links}</Relationships>"
    return parts


def _xlsx_cell(value, place, sheet):
    if isinstance(value, datetime.date):
        number = (value - datetime.date(1899, 12, 30)).days
        return f'<c r="{place}" s="2"><v>{number}</v></c>'
    if isinstance(value, datetime.time):
        return f'<c r="{place}" s="3"><v>{(60 * value.hour + value.minute) / 1440}</v></c>'
    style = ' s="1"' if place in sheet.white else ""
    if isinstance(value, int):
        return f'<c r="{place}"{style}><v>{value}</v></c>'
    inside = f"<is><t>{escape(value)}</t></is>" if value else ""
    return (
        f'<c r="{place}"{style} t="inlineStr">{inside}</c>' if value else f'<c r="{place}"{style}/>'
    )
