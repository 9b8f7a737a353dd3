"""Tables of letters: what is sent, the rows as they come, and how a run of `letters` ends."""
from __future__ import annotations

import io
import tempfile
import threading
from pathlib import Path
from typing import IO, Callable

import pytest
from conftest import SAMPLES

from oldstyle_web import tables
from oldstyle_web.letters import found_name
from oldstyle_web.problems import Problem
from oldstyle_web.settings import Settings
from oldstyle_web.tables import Tables

TEXT = "place,date\nKöln,1 May 1700\n"


def table_of(content: bytes) -> IO[bytes]:
    table = tempfile.TemporaryFile()
    table.write(content)
    return table


@pytest.mark.parametrize("content", [
    TEXT.encode("cp1252"), TEXT.encode("utf-16"), TEXT.encode("utf-16-le"), b"PK\3\4\0\0",
    b"K\xc3"])
def test_a_table_that_is_not_utf_8_is_refused(content: bytes) -> None:
    with pytest.raises(Problem) as why:
        tables.byte_order_mark(io.BytesIO(content))
    assert why.value.code == 422


def test_a_byte_order_mark_is_kept() -> None:
    assert tables.byte_order_mark(io.BytesIO(TEXT.encode("utf-8-sig"))) == b"\xef\xbb\xbf"
    assert tables.byte_order_mark(io.BytesIO(TEXT.encode())) == b""


def content_of(rows: IO[bytes]) -> bytes:
    rows.seek(0)
    with rows:
        return rows.read()


def test_all_rows_come_and_the_place_is_given_back(script: Callable[[str], str]) -> None:
    work = Tables(Settings(SAMPLES, script("exec cat"), tables=1))
    content = b"place,date\n" + b"GB,1731\n" * 500_000
    unread = work.rows({}, table_of(content), None)
    marked = b"\xef\xbb\xbf" + content
    assert content_of(work.rows({}, table_of(marked), None)) == b"\xef\xbb\xbf" + marked
    assert content_of(unread) == content


def test_a_table_that_is_late_is_reported(script: Callable[[str], str]) -> None:
    work = Tables(Settings(SAMPLES, script("exec sleep 60"), tables=1, table_seconds=0.2))
    with pytest.raises(Problem) as why:
        work.rows({}, table_of(b"place,date\n"), None)
    assert why.value.code == 503 and "took too long" in str(why.value.description)
    work = Tables(Settings(SAMPLES, script("echo row; exec sleep 60"), tables=1, table_seconds=0.5))
    rows = content_of(work.rows({}, table_of(b"place,date\n"), None))
    assert rows == b"row\nthe table took too long, and was ended\n"
    assert work.places.acquire(blocking=False)


def test_a_run_is_ended_once_the_tables_are_closed(script: Callable[[str], str]) -> None:
    work = Tables(Settings(SAMPLES, script("exec sleep 60"), tables=1))
    threading.Timer(0.5, work.close).start()
    for _ in range(2):
        with pytest.raises(Problem) as why:
            work.rows({}, table_of(b"place,date\n"), None)
        assert why.value.code == 503 and not work.running


def test_a_line_of_the_journal_that_is_just_written_is_awaited(
        tmp_path: Path, script: Callable[[str], str]) -> None:
    once = tmp_path / "once"
    program = script(f"[ -e {once} ] && exec cat; touch {once}\n"
                     "echo 'oldstyle: journal line 9: 32 NotJson' >&2; exit 1")
    rows = Tables(Settings(SAMPLES, program)).rows({}, table_of(b"place,date\n"), None)
    assert content_of(rows) == b"place,date\n"


def test_too_many_tables_are_refused(script: Callable[[str], str]) -> None:
    work = Tables(Settings(SAMPLES, script("exec cat"), tables=1, question_seconds=0.1))
    work.places.acquire()
    with pytest.raises(Problem) as why:
        work.rows({}, table_of(b"place,date\n"), None)
    assert why.value.code == 503


def test_a_missing_program_is_reported_without_its_path() -> None:
    work = Tables(Settings(SAMPLES, "/none/of/it", tables=1))
    with pytest.raises(Problem) as why:
        work.rows({}, table_of(b"place,date\n"), None)
    assert why.value.code == 503 and "/" not in str(why.value.description)
    assert work.places.acquire(blocking=False)


@pytest.mark.parametrize("message, of_the_page", [
    ("no column date: name yours with --date",
     "no column date: name yours in the field “Column of dates” (column_date)"),
    ("no column place: name yours with --place, or the place of all rows with --in",
     "no column place: name yours in the field “Column of places” (column_place)"),
    ("the column jdn is already there: remove it, rename it, or replace all twelve with --replace",
     "the column jdn is already there: remove it or rename it")])
def test_a_fault_of_the_table_is_reported_in_terms_of_the_page(
        script: Callable[[str], str], message: str, of_the_page: str) -> None:
    program = script(f"echo 'oldstyle: line 1: {message}' >&2; exit 1")
    with pytest.raises(Problem) as why:
        Tables(Settings(SAMPLES, program)).rows({}, table_of(b"x\n"), None)
    assert why.value.code == 422
    assert str(why.value.description).endswith(of_the_page)


@pytest.mark.parametrize("report, last", [("1", b'\x1e{"status": 1, "message": "a fault"}'),
                                          ("", b"a fault\n")])
def test_a_fault_after_the_first_rows_is_the_last_line(script: Callable[[str], str], report: str,
                                                       last: bytes) -> None:
    work = Tables(Settings(SAMPLES, script("echo row; echo 'oldstyle: a fault' >&2; exit 1")))
    assert content_of(work.rows({"report": report}, table_of(b"x\n"), None)) == b"row\n" + last


@pytest.mark.parametrize("fields", [{"separator": "x"}, {"order": "x"},
                                    {"column_place": "x" * 201}])
def test_wrong_options_are_refused(fields: dict[str, str]) -> None:
    with pytest.raises(Problem):
        tables.options_of(fields)


def test_the_name_of_what_is_saved_is_harmless() -> None:
    assert found_name('a/b\\my "letters"; x.csv') == "my letters x-found.csv"
    assert found_name("") == "letters-found.csv"
