"""Tables of letters that are pasted, or workbooks."""
from __future__ import annotations

import datetime
import io
import zipfile
from typing import Any

import pytest

from oldstyle_web import workbooks
from oldstyle_web.problems import Problem

ROWS: list[list[Any]] = [["letter", "place", "date"], [1, "GB", "11 February 1731"], [],
                         [2.5, "Köln, \"x\"", None, "more"], [3, "RU", datetime.date(1918, 2, 14)]]
TABLE = ('letter,place,date\n1,GB,11 February 1731\n2.5,"Köln, ""x""",,more\n3,RU,1918-02-14\n')


def xlsx_of(rows: list[list[Any]]) -> bytes:
    openpyxl = pytest.importorskip("openpyxl")
    book, file = openpyxl.Workbook(), io.BytesIO()
    for row in rows:
        book.active.append(row)
    book.create_sheet("other").append(["another sheet"])
    book.save(file)
    return file.getvalue()


def ods_of(rows: list[list[Any]]) -> bytes:
    pytest.importorskip("odf")
    from odf.opendocument import OpenDocumentSpreadsheet
    from odf.table import Table, TableCell, TableRow
    from odf.text import P
    book, file = OpenDocumentSpreadsheet(), io.BytesIO()
    sheet = Table(name="letters")
    for row in [*rows, []]:
        element = TableRow(numberrowsrepeated=1 if row else 1_000_000)
        for value in row:
            kind = {"valuetype": "float", "value": value} if isinstance(value, (int, float)) else \
                {"valuetype": "date", "datevalue": value.isoformat()} \
                if isinstance(value, datetime.date) else {"valuetype": "string"}
            cell = TableCell(**kind) if value is not None else TableCell()
            if value is not None:
                cell.addElement(P(text="shown otherwise" if "value" in kind else str(value)))
            element.addElement(cell)
        element.addElement(TableCell(numbercolumnsrepeated=16_000))
        sheet.addElement(element)
    book.spreadsheet.addElement(sheet)
    book.write(file)
    return file.getvalue()


@pytest.mark.parametrize("book_of", [xlsx_of, ods_of])
def test_the_first_sheet_is_a_table(book_of: Any) -> None:
    table = workbooks.as_csv(io.BytesIO(book_of(ROWS)), 1_000_000)
    assert table
    table.seek(0)
    assert table.read().decode() == TABLE


@pytest.mark.parametrize("book_of", [xlsx_of, ods_of])
def test_a_workbook_is_answered_as_its_table(client: Any, book_of: Any) -> None:
    rows = [row[:3] for row in ROWS if row]
    table = TABLE.replace(",more", "").encode()
    expected = client.post("/letters", data=table, content_type="text/csv", buffered=True)
    form = {"table": (io.BytesIO(book_of(rows)), "my.xlsx"), "separator": "semicolon"}
    found = client.post("/letters", data=form, content_type="multipart/form-data", buffered=True)
    assert (found.status_code, found.data) == (200, expected.data)
    assert 'filename="my-found.csv"' in found.headers["Content-Disposition"]
    bare = client.post("/letters", data=book_of(rows), content_type="text/csv", buffered=True)
    assert bare.data == expected.data


def packed(**files: str) -> bytes:
    file = io.BytesIO()
    with zipfile.ZipFile(file, "w", zipfile.ZIP_DEFLATED) as book:
        for name, text in files.items():
            book.writestr(name.replace("_", "/").replace("|", "."), text)
    return file.getvalue()


@pytest.mark.parametrize("content", [packed(**{name: "<"}) for name in (
    "xl_workbook|xml", "content|xml")] + [packed(**{"content|xml": "<a/>"})])
def test_a_broken_workbook_is_refused(client: Any, content: bytes) -> None:
    reply = client.post("/letters", data=content, content_type="text/csv")
    assert reply.status_code == 422 and reply.text == (
        "The workbook can't be read: save the table as CSV UTF-8.\n")


def test_another_archive_is_no_table(client: Any) -> None:
    reply = client.post("/letters", data=packed(other="x"), content_type="text/csv")
    assert reply.status_code == 422 and "not UTF-8" in reply.text


def test_a_workbook_that_is_too_large_is_refused() -> None:
    with pytest.raises(Problem) as why:
        workbooks.as_csv(io.BytesIO(packed(**{"content|xml": " " * 17_000_000})), 1_000_000)
    assert why.value.code == 413
    with pytest.raises(Problem) as why:
        workbooks.as_csv(io.BytesIO(ods_of([["place"], *[["x" * 100]] * 200])), 10_000)
    assert why.value.code == 413


def test_a_cell_that_is_repeated_too_often_is_refused() -> None:
    book = ods_of([["place"]])
    with zipfile.ZipFile(io.BytesIO(book)) as archive:
        files = {name: archive.read(name) for name in archive.namelist()}
    files["content.xml"] = files["content.xml"].replace(
        b"<table:table-cell ", b'<table:table-cell table:number-columns-repeated="999999999" ', 1)
    made = io.BytesIO()
    with zipfile.ZipFile(made, "w") as changed:
        for name, data in files.items():
            changed.writestr(name, data)
    with pytest.raises(Problem) as why:
        workbooks.as_csv(made, 1_000_000)
    assert why.value.code == 422


def test_rows_are_pasted(client: Any) -> None:
    rows = "letter\tplace\tdate\r\n1\tGB\t11 February 1731\r\n"
    expected = client.post("/letters", data=rows.encode(), content_type="text/csv", buffered=True)
    form = {"table": (io.BytesIO(b""), ""), "pasted": rows}
    found = client.post("/letters", data=form, content_type="multipart/form-data", buffered=True)
    assert found.status_code == 200 and found.data == expected.data and b"\tFriday\t" in found.data
    form = {"table": (io.BytesIO(b""), ""), "pasted": " \r\n"}
    reply = client.post("/letters", data=form, content_type="multipart/form-data")
    assert reply.status_code == 400 and "paste its rows" in reply.text
