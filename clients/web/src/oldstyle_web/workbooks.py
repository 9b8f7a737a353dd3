"""Tables of letters that are workbooks: the first sheet of an .xlsx or .ods file as CSV."""
from __future__ import annotations

import csv
import io
import tempfile
import threading
import zipfile
from datetime import date, datetime, time
from typing import IO, Any, Callable, Iterable, Iterator

from .problems import N_, Problem, busy

MOST_COLUMNS = 16_384
Row = list[str]
# The libraries hold much of a workbook in memory, so that one is read at a time.
ONE, WAIT = threading.Lock(), 10


def kind_of(file: IO[bytes]) -> Callable[[IO[bytes]], Iterable[Row]] | None:
    """What reads the rows of a workbook, or None for another file."""
    file.seek(0)
    try:
        with zipfile.ZipFile(file) as packed:
            names, size = packed.namelist(), sum(one.file_size for one in packed.infolist())
    except (zipfile.BadZipFile, OSError, ValueError):
        return None
    for name, rows_of, most in KINDS:
        if name in names:
            if size > most:
                raise Problem(413, N_("The workbook is too large: save the table as CSV UTF-8."))
            return rows_of
    return None


def as_csv(file: IO[bytes], most: int) -> IO[bytes] | None:
    """The first sheet of a workbook as CSV with commas, or None for another file."""
    if (rows_of := kind_of(file)) is None:
        return None
    file.seek(0)
    if not ONE.acquire(timeout=WAIT):
        raise busy(N_("Other workbooks are read just now. Try again in a moment."))
    table: IO[bytes] = tempfile.TemporaryFile()
    try:
        write_rows(rows_of(file), table, most)
    except Problem:
        raise
    except ImportError:
        raise Problem(422, N_("This page reads no workbook of that kind: save the table as CSV "
                             "UTF-8.")) from None
    except Exception as why:  # (the libraries raise whatever a broken file leads them to)
        raise Problem(422, N_("The workbook can't be read: save the table as CSV UTF-8.")) from why
    finally:
        ONE.release()
    return table


def write_rows(rows: Iterable[Row], table: IO[bytes], most: int) -> None:
    """Writes the rows that are not empty, each as long as the first one or longer."""
    text = io.TextIOWrapper(table, encoding="utf-8", newline="", write_through=True)
    writer, width = csv.writer(text, lineterminator="\n"), 0
    for row in rows:
        if any(row):
            width = width or len(row)
            writer.writerow(row + [""] * (width - len(row)))
            if table.tell() > most:
                raise Problem(413, N_("The sheet is too large: save the table as CSV UTF-8."))
    text.detach()


def rows_of_xlsx(file: IO[bytes]) -> Iterator[Row]:
    """The rows of the first sheet, as a library of spreadsheets reads them."""
    from openpyxl import load_workbook
    book = load_workbook(file, read_only=True, data_only=True)
    sheet = book.worksheets[0]
    sheet.reset_dimensions()  # (those of the file may be wrong)
    for row in sheet.iter_rows(values_only=True):
        yield trimmed(map(text_of, row))
    book.close()


def rows_of_ods(file: IO[bytes]) -> Iterator[Row]:
    """The rows of the first sheet; a cell or row that comes several times is written once there."""
    from odf.opendocument import load
    from odf.table import Table, TableRow
    sheet = load(file).spreadsheet.getElementsByType(Table)[0]
    for element in sheet.getElementsByType(TableRow):
        row = trimmed(cells_of(element))
        for _ in range(int(element.getAttribute("numberrowsrepeated") or 1) if row else 0):
            yield row


def cells_of(row: Any) -> Iterator[str]:
    """The texts of the cells of a row in an .ods file. Empty ones come at the end in thousands."""
    from odf.teletype import extractText
    empty = width = 0
    for cell in row.childNodes:
        count = int(cell.getAttribute("numbercolumnsrepeated") or 1)
        width += count
        kind = cell.getAttribute("valuetype")
        text = text_of(float(cell.getAttribute("value"))) if kind == "float" else \
            str(cell.getAttribute("datevalue")) if kind == "date" else \
            "\n".join(map(extractText, cell.childNodes))
        if not text:
            empty += count
            continue
        if width > MOST_COLUMNS:
            raise ValueError("a row has too many cells")
        yield from [""] * empty + [text] * count
        empty = 0


def text_of(value: Any) -> str:
    """The text of a value. A day has no time, and a whole number no fraction."""
    if isinstance(value, datetime):
        return text_of(value.date()) if value.time() == time() else value.isoformat(" ")
    if isinstance(value, date):
        return value.isoformat()
    if isinstance(value, float) and value.is_integer():
        return str(int(value))
    return "" if value is None else str(value)


def trimmed(row: Iterable[str]) -> Row:
    """A row without the empty cells at its end."""
    cells = list(row)
    while cells and not cells[-1]:
        cells.pop()
    return cells


# A file in workbooks of a kind, what reads their rows, and how large they are at most, unpacked.
KINDS = [("xl/workbook.xml", rows_of_xlsx, 16 * 1024 * 1024),
         ("content.xml", rows_of_ods, 4 * 1024 * 1024)]
