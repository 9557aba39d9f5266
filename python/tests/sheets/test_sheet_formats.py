"""Tests of spreadsheets that LibreOffice wrote, of files like those of Excel, of CSV files, and of
files that are no spreadsheets."""

import copy
import csv
import datetime
import io
import re
import unittest
import zipfile
from example_sheets import DATA, SHEETS, changed, texts
from pathlib import Path
from ward import HelperTest
from xml.etree import ElementTree
from xml.sax.saxutils import escape

from inrc2pb.sheets.plan_days import read_days
from inrc2pb.sheets.sheet_facts import look_warnings
from inrc2pb.sheets.sheet_files import Book, read_book
from inrc2pb.sheets.sheet_parts import Grid
from inrc2pb.sheets.ward import ward_of
from inrc2pb.sheets.sheet_cells import letters_of
from inrc2pb.sheets.ward_template import write_template
from inrc2pb.week.faults import FileFault
from inrc2pb.week.records import DAYS

MONDAY = datetime.date(2026, 11, 30)


def excel(path, sheets, dates=False):
    """Writes an XLSX file as Excel does: shared strings, one of them in two runs; inline strings;
    cells without a place; a merged head."""
    shared = []
    parts = {}
    links = []
    named = []
    for number, (name, rows) in enumerate(sheets.items(), 1):
        xml = ""
        for line, row in enumerate(rows, 1):
            cells = ""
            for column, text in enumerate(row):
                place = f'r="{letters_of(column)}{line}"'
                if not text:
                    continue
                if text.isdigit():
                    cells += f"<c {place}><v>{text}</v></c>"
                elif name == "plan":
                    cells += (
                        f'<c {place} t="inlineStr"><is><t xml:space="preserve">'
                        f" {escape(text)} </t></is></c>"
                    )
                else:
                    shared.append(
                        f"<si><r><t>{escape(text[:1])}</t></r><r><t>{escape(text[1:])}</t></r><rPh"
                        " sb='0' eb='1'><t>spoken</t></rPh></si>"
                    )
                    cells += f'<c {place} t="s"><v>{len(shared) - 1}</v></c>'
            xml += f'<row r="{line}">{cells}</row>'
        space = 'xmlns="http://schemas.openxmlformats.org/spreadsheetml/2006/main"'
        parts[
            f"xl/worksheets/sheet{number}.xml"
        ] = f"<worksheet {space}><sheetData>{xml}</sheetData></worksheet>"
        links.append(
            f'<Relationship Id="rId{number}" Target="/xl/worksheets/sheet{number}.xml"/>'
            if number % 2
            else f'<Relationship Id="rId{number}" Target="worksheets/sheet{number}.xml"/>'
        )
        named.append(f'<sheet name="{name.title()}" sheetId="{number}" r:id="rId{number}"/>')
    relation = "http://schemas.openxmlformats.org/officeDocument/2006/relationships"
    parts[
        "xl/workbook.xml"
    ] = f'<workbook {space} xmlns:r="{relation}"><sheets>{"".join(named)}</sheets></workbook>'
    parts["xl/_rels/workbook.xml.rels"] = (
        "<Relationships"
        f" xmlns=\"http://schemas.openxmlformats.org/package/2006/relationships\">{''.join(links)}</Relationships>"
    )
    parts["xl/sharedStrings.xml"] = f"<sst {space}>{''.join(shared)}</sst>"
    with zipfile.ZipFile(path, "w", zipfile.ZIP_DEFLATED) as archive:
        for name, text in parts.items():
            archive.writestr(name, f'<?xml version="1.0" encoding="UTF-8"?>\n{text}')


# A sheet with text in elements that are nested too deep.
DEEP = (
    '<x xmlns:table="urn:oasis:names:tc:opendocument:xmlns:table:1.0"'
    ' xmlns:text="urn:oasis:names:tc:opendocument:xmlns:text:1.0" '
    'xmlns:office="urn:oasis:names:tc:opendocument:xmlns:office:1.0">'
    "<office:spreadsheet><table:table"
    f' table:name="plan"><table:table-row><table:table-cell><text:p>{"<text:span>" * 3000}{"</text:span>" * 3000}</text:p>'
    "</table:table-cell></table:table-row></table:table></office:spreadsheet></x>"
)


class Formats(HelperTest):
    def setUp(self):
        super().setUp()
        self.wanted = texts(SHEETS)

    def assert_same(self, path):
        book = read_book(path)
        self.assertEqual(ward_of(book, "ward", reasons=()).texts, self.wanted)

    def test_a_merged_cell_at_the_right_edge_adds_no_column(self):
        grid = Grid("plan", None)
        for row, column, text in ((0, 0, "a"), (0, 2, "b"), (1, 2, "x")):
            grid.put(range(row, row + 1), range(column, column + 1), text)
        grid.merge(range(1, 2), range(2, 5))
        self.assertEqual([list(row) for row in grid.rows()], [["a", "", "b"], ["", "", "x"]])

    def test_files_that_libreoffice_wrote(self):
        # Their row of one week is of the first.
        self.wanted = texts(changed("needs", 6, 0, "1"))
        for name in ("libreoffice.ods", "libreoffice.xlsx"):
            self.assert_same(DATA / name)

    def test_a_file_like_one_of_excel(self):
        sheets = copy.deepcopy(SHEETS)
        # A title, blank rows, a head over two columns with the row below it, and dates as numbers
        # with the days below them.
        head = sheets["contracts"][0]
        two = [
            ["contract", "shifts", "", "work", "", "off", "", *head[7:]],
            ["", "min", "max", "min", "max", "min", "max"],
        ]
        sheets["contracts"] = [["Contracts of ward 3"], [], *two, [], *sheets["contracts"][1:]]
        first = (MONDAY - datetime.date(1899, 12, 30)).days
        sheets["plan"] = [
            ["nurse", *(str(first + day) for day in range(14))],
            ["", *(day for _ in "12" for day in DAYS)],
            *sheets["plan"][1:],
        ]
        sheets["needs"][1][3] = "1.0"
        path = self.folder / "ward.xlsx"
        excel(path, sheets)
        self.assert_same(path)
        self.assertEqual(read_days(read_book(path)).monday, MONDAY)

    def test_csv_files_with_other_signs_and_encodings(self):
        for separator, encoding, end in (
            (";", "utf-8", "\r\n"),
            (",", "utf-8-sig", "\n"),
            ("\t", "utf-16", "\r\n"),
            (";", "cp1252", "\r\n"),
        ):
            folder = self.folder / f"{encoding}{ord(separator)}"
            folder.mkdir()
            for name, rows in SHEETS.items():
                text = io.StringIO()
                csv.writer(text, delimiter=separator, lineterminator=end).writerows(
                    [[cell.replace("Chen", "Jürgen") for cell in row] for row in rows]
                )
                (folder / f"ward-{name.title()}.csv").write_bytes(text.getvalue().encode(encoding))
            book = read_book(folder)
            found = ward_of(book, "ward", reasons=()).texts
            self.assertEqual(
                found, {name: text.replace("Chen", "Jürgen") for name, text in self.wanted.items()}
            )

    def test_decomposed_letters_and_other_blanks(self):
        sheets = copy.deepcopy(SHEETS)
        sheets["plan"][1][0] = " Ama\u0308ra\u00a0 Koch"
        sheets["nurses"][1][0] = "Amära Koch"
        self.assertIn("Amära_Koch Full 2 Charge Nurse\n", texts(sheets)["ward.txt"])

    def test_files_that_are_no_spreadsheets(self):
        many = (
            "the spreadsheet has more than 2000000 elements of XML: delete what is no part of the"
            " ward"
        )
        good = (DATA / "libreoffice.ods").read_bytes()
        with zipfile.ZipFile(DATA / "libreoffice.ods") as archive:
            begin = archive.getinfo("content.xml").header_offset + 60
        flipped = good[:begin] + bytes(200) + good[begin + 200 :]
        bomb = '<!DOCTYPE x [<!ENTITY a "aaaaaaaaaa"><!ENTITY b "&a;&a;&a;&a;">]><x>&b;</x>'
        for name, data, said in (
            (
                "old.xls",
                b"\xd0\xcf\x11\xe0" + bytes(600),
                (
                    "this is an old Excel file, or one with a password: save it without one as"
                    " .xlsx or .ods"
                ),
            ),
            (
                "text.ods",
                b"nurse;contract\n",
                "this is no spreadsheet: give an .ods or .xlsx file, or a folder of .csv files",
            ),
            (
                "cut.ods",
                good[:3000],
                (
                    "the spreadsheet is damaged or has a password: open it in its program, and save"
                    " it again without one"
                ),
            ),
            (
                "flipped.ods",
                flipped,
                (
                    "the spreadsheet is damaged or has a password: open it in its program, and save"
                    " it again without one"
                ),
            ),
            (
                "other.zip",
                {"a.txt": "a"},
                "this file has no sheets: give an .ods or .xlsx file, or a folder of .csv files",
            ),
            (
                "bomb.ods",
                {"content.xml": bomb},
                (
                    "the spreadsheet has a document type, which no program writes: save it again"
                    " with LibreOffice or Excel"
                ),
            ),
            (
                "bomb16.ods",
                {"content.xml": bomb.encode("utf-16")},
                (
                    "the spreadsheet has a document type, which no program writes: save it again"
                    " with LibreOffice or Excel"
                ),
            ),
            (
                "wrong.ods",
                {"content.xml": "<x>"},
                (
                    "the spreadsheet is damaged or has a password: open it in its program, and save"
                    " it again without one"
                ),
            ),
            (
                "deep.ods",
                {"content.xml": DEEP},
                (
                    "the spreadsheet is damaged or has a password: open it in its program, and save"
                    " it again without one"
                ),
            ),
            (
                "large.ods",
                {"content.xml": "<x>" + " " * 33_554_432 + "</x>"},
                (
                    "the spreadsheet has more than 33554432 bytes of XML: delete what is no part of"
                    " the ward"
                ),
            ),
            # A small file that needs all memory: many empty elements, with attributes or without,
            # and many attributes of one.
            ("elements.ods", {"content.xml": f"<x>{'<a/>' * 2_000_001}</x>"}, many),
            ("named.ods", {"content.xml": "<x>" + '<a b="" c="" d=""/>' * 500_001 + "</x>"}, many),
            (
                "attributes.ods",
                {
                    "content.xml": (
                        "<x " + " ".join(f'a{number}=""' for number in range(150_000)) + "/>"
                    )
                },
                many,
            ),
        ):
            path = self.folder / name
            if isinstance(data, bytes):
                path.write_bytes(data)
            else:
                with zipfile.ZipFile(path, "w", zipfile.ZIP_DEFLATED) as archive:
                    for part, text in data.items():
                        archive.writestr(part, text)
            with self.subTest(name), self.assertRaises(FileFault) as caught:
                read_book(path)
            self.assertEqual(str(caught.exception), f"{path}: {said}")

    def in_parts(self, path, **changes):
        """The spreadsheet with changed parts, each given as an old text and a new one, or as a new
        part."""
        with zipfile.ZipFile(path) as archive:
            parts = {
                name: archive.read(name).decode()
                for name in archive.namelist()
                if name.endswith(".xml") or name.endswith(".rels")
            }
        for name, change in changes.items():
            part = next((one for one in parts if one.endswith(f"{name}.xml")), f"xl/{name}.xml")
            if isinstance(change, str):
                parts[part] = change
            for old, new in () if isinstance(change, str) else change:
                self.assertEqual(parts[part].count(old), 1, old)
                parts[part] = parts[part].replace(old, new)
        target = self.folder / f"looks{path.suffix}"
        with zipfile.ZipFile(target, "w") as archive:
            for name, text in parts.items():
                archive.writestr(name, text)
        return target

    def test_words_that_only_a_look_says(self):
        path = self.folder / "book.xlsx"
        excel(path, SHEETS)
        # Formats 1 to 3: text struck through, a color, and a pattern that is none. All nurses have
        # a color on the first day, for the eye.
        styles = (
            "<styleSheet"
            ' xmlns="http://schemas.openxmlformats.org/spreadsheetml/2006/main"><fonts><font/><font><strike/></font></fonts><fills><fill><patternFill'
            ' patternType="gray125"/></fill><fill><patternFill'
            ' patternType="solid"/></fill></fills><cellXfs><xf fontId="0" fillId="0"/><xf'
            ' fontId="1" fillId="0"/><xf fontId="0" fillId="1"/></cellXfs></styleSheet>'
        )
        plan = [
            ('<c r="G4" t=', '<c r="G4" s="1" t='),
            ('<row r="3">', '<row r="3"><c r="B3" s="2"/><c r="D3" s="2"/><c r="E3" s="0"/>'),
        ]
        plan += [
            (f'<row r="{row}">', f'<row r="{row}"><c r="B{row}" s="2"/>') for row in (2, 4, 5, 6)
        ]
        looks = self.in_parts(path, styles=styles, sheet5=plan)
        book = read_book(looks)
        self.assertEqual(list(look_warnings(book, read_days(book))), [
            "sheet plan, row 4, column G: 'wish' is struck through, and counts: delete it",
            "sheet plan, row 3, column D: a color without a word counts for nothing: write leave or wish, for example",
        ])  # fmt: skip
        self.assertEqual(list(look_warnings(read_book(path), read_days(book))), [])

    def test_looks_of_an_ods_file(self):
        path = self.folder / "ward.ods"
        write_template(path, MONDAY)
        style = (
            '<office:automatic-styles><style:style style:name="old"><style:text-properties'
            ' style:text-line-through-style="solid"/></style:style><style:style'
            ' style:name="red"><style:table-cell-properties'
            ' fo:background-color="#ff0000"/></style:style>'
        )
        content = [("<office:automatic-styles>", style)]
        content += [
            (
                "<text:p>training</text:p>",
                '<text:p><text:span text:style-name="old">training</text:span></text:p>',
            )
        ]
        content += [("<text:p>Grace</text:p></table:table-cell><table:table-cell/>",
                     '<text:p>Grace</text:p></table:table-cell><table:table-cell table:style-name="red"/>')]  # fmt: skip
        book = read_book(self.in_parts(path, content=content))
        self.assertEqual(list(look_warnings(book, read_days(book))), [
            "sheet plan, row 7, column Z: 'training' is struck through, and counts: delete it",
            "sheet plan, row 8, column B: a color without a word counts for nothing: write leave or wish, for example",
        ])  # fmt: skip

    def test_the_manifest_of_the_example_names_its_parts(self):
        path = self.folder / "ward.ods"
        write_template(path, MONDAY)
        with zipfile.ZipFile(path) as archive:
            first, *names = archive.namelist()
            manifest = ElementTree.fromstring(archive.read("META-INF/manifest.xml"))
        self.assertEqual(first, "mimetype")
        parts = [
            next(value for name, value in entry.items() if name.endswith("full-path"))
            for entry in manifest
        ]
        self.assertEqual(
            parts, ["/", *(name for name in names if not name.startswith("META-INF/"))]
        )

    def test_struck_cells_are_named_from_top_to_bottom(self):
        path = self.folder / "ward.ods"
        write_template(path, MONDAY)
        sheets = read_book(path)
        marks = sheets.marks["plan"]._replace(
            struck={(row, 0) for row in range(len(sheets.sheets["plan"]))}
        )
        lines = list(look_warnings(sheets._replace(marks={"plan": marks}), read_days(sheets)))
        rows = [int(re.search("row ([0-9]+)", line)[1]) for line in lines]
        self.assertEqual(rows, sorted(rows))
        self.assertEqual(len(rows), len(sheets.sheets["plan"]))

    def test_a_hidden_row_of_an_ods_file(self):
        path = self.folder / "ward.ods"
        write_template(path, MONDAY)
        row = '<table:table-row><table:table-cell office:value-type="string"><text:p>Full</text:p>'
        content = [
            (row, row.replace("<table:table-row>", '<table:table-row table:visibility="collapse">'))
        ]
        self.assertEqual(read_book(path).hidden["contracts"], [])
        self.assertEqual(read_book(self.in_parts(path, content=content)).hidden["contracts"], [2])

    def test_odd_files_of_each_kind(self):
        paths = sorted(path for path in (DATA / "odd").iterdir() if path.suffix != ".csv")
        self.assertEqual(len(paths), 11)
        for path in paths:
            wanted = next(
                other
                for other in (path.with_name(f"{path.name}.csv"), path.with_suffix(".csv"))
                if other.exists()
            )
            with self.subTest(path.name), open(wanted, encoding="utf-8", newline="") as file:
                self.assertEqual(read_book(path).sheets["plan"], list(csv.reader(file)))
        self.assertEqual(
            read_book(DATA / "odd" / "dates_1904.xlsx").day_zero, datetime.date(1904, 1, 1)
        )

    def test_formulas_of_a_ward(self):
        for text, said in (
            (
                "=A1+1",
                (
                    "the value of the formula =A1+1 is not in the file: open the file in a"
                    " spreadsheet program, and save it again, or write the value"
                ),
            ),
            ("#REF!", "a formula has the fault #REF!: correct it, or write its value in its place"),
            (
                "Err:502",
                "a formula has the fault Err:502: correct it, or write its value in its place",
            ),
            ("=2+1", "'=2+1' is a sum: write 2+1 without the sign =, or 3"),
        ):
            with self.subTest(text), self.assertRaises(FileFault) as caught:
                texts(changed("needs", 2, 3, text))
            self.assertEqual(caught.exception.message, f"sheet needs, row 2, column D: {said}")
        self.assertIn("Full (8,11)", texts(changed("contracts", 2, 2, "=5+6"))["ward.txt"])

    def test_hidden_rows_and_empty_days(self):
        book = Book(Path("ward.ods"), changed("needs", 2, 5, ""), {"nurses": [4, 90], "plan": [2]})
        warnings = ward_of(book, "ward", reasons=()).warnings
        self.assertIn("sheet nurses: row 4 hidden, and counted: show it, or delete it", warnings)
        self.assertIn(
            "sheet needs, row 2: Wed empty, and counted as 0: write 0 if nobody is needed", warnings
        )
        self.assertEqual(
            [line for line in warnings if "hidden" in line or "empty" in line], warnings[:3]
        )

    def test_folders_that_have_no_sheets(self):
        with self.assertRaises(FileFault) as caught:
            read_book(self.folder)
        self.assertEqual(
            caught.exception.message,
            "this folder has no .csv files: save each sheet as one, such as shifts.csv",
        )
        for name in ("plan.csv", "ward-plan.csv"):
            (self.folder / name).write_text("nurse;Mon\n")
        with self.assertRaises(FileFault) as caught:
            read_book(self.folder)
        self.assertEqual(
            caught.exception.message,
            "plan.csv and ward-plan.csv are both the sheet plan: leave one of them",
        )


if __name__ == "__main__":
    unittest.main()
