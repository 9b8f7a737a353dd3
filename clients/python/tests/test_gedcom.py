"""Dates of GEDCOM as other programs write them."""
from __future__ import annotations

import argparse
from typing import List

import pytest

from oldstyle.commands import Context
from oldstyle.gedcom import fill
from oldstyle.gedcom_dates import standard_form


def fill_date(date: str, version: str, context: Context, is_gregorian: bool = False) -> List[str]:
    """The lines that a date becomes which was written in London."""
    lines = ["0 HEAD", "1 GEDC", f"2 VERS {version}", "1 CHAR UTF-8", "0 @I1@ INDI", "1 BIRT",
             "2 PLAC London", f"2 DATE {date}", "0 TRLR", ""]
    data = "\n".join(lines).encode()
    options = argparse.Namespace(gregorian=is_gregorian)
    text = fill(data, context, options)
    assert fill(text, context, options) == text
    return text.decode().split("\n")[7:-2]


@pytest.mark.parametrize("date, expected", [
    ("1731-02-11", "11 FEB 1731"),
    ("1731-2-1", "1 FEB 1731"),
    ("Abt. 1731-02-11", "ABT 11 FEB 1731"),
    ("Bet. 1731-02-11 - 1732-05-05", "BET 11 FEB 1731 AND 5 MAY 1732"),
    ("FROM 1731-02-11 TO 1732", "FROM 11 FEB 1731 TO 1732"),
])
def test_a_date_of_numbers_has_the_form_of_the_standard(date: str, expected: str) -> None:
    assert standard_form(date) == expected


@pytest.mark.parametrize("date", [
    "1731-13-11", "1731-00-11", "1731-02", "1731/1732-02-11", "1731-02-11-12", "11-02-1731",
    "1731-02-111"])
def test_numbers_that_are_no_such_date_are_left(date: str) -> None:
    assert standard_form(date) == date


def test_a_date_of_numbers_is_marked_as_one_with_a_month_is(context: Context) -> None:
    assert fill_date("1731-02-11", "5.5.1", context) == ["2 DATE @#DJULIAN@ 11 FEB 1731/32"]
    about = fill_date("Abt. 1731-02-11", "5.5.1", context)
    assert about == ["2 DATE ABT @#DJULIAN@ 11 FEB 1731/32"]
    assert fill_date("1752-09-14", "5.5.1", context) == ["2 DATE 14 SEP 1752"]
    assert fill_date("1731-02-11", "7.0", context) == ["2 DATE JULIAN 11 FEB 1732",
                                                  "3 PHRASE 1731-02-11"]
    gregorian = fill_date("1731-02-11", "5.5.1", context, True)
    assert gregorian == ["2 DATE INT 22 FEB 1732 (1731-02-11)"]


def test_a_day_of_numbers_that_is_no_day_is_left(context: Context) -> None:
    assert fill_date("1752-09-05", "5.5.1", context) == ["2 DATE 1752-09-05"]
    assert [what for _, what in context.remarks] == ["1752-09-05 (GB): skipped"] * 2


def test_keywords_in_small_letters_are_those_of_the_standard(context: Context) -> None:
    assert fill_date("From 1 Feb 1731 to 5 May 1732", "7.0", context) == [
        "2 DATE FROM JULIAN 1 FEB 1732 TO JULIAN 5 MAY 1732",
        "3 PHRASE From 1 Feb 1731 to 5 May 1732"]
    assert fill_date("From 1 Feb 1731 to 5 May 1732", "5.5.1", context) == [
        "2 DATE FROM @#DJULIAN@ 1 FEB 1731/32 TO @#DJULIAN@ 5 MAY 1732"]


@pytest.mark.parametrize("date", ["From 14 Sep 1752 to 5 May 1753", "abt 14 Sep 1752", "from 1731"])
def test_a_gregorian_date_or_a_year_stays_in_its_letters(context: Context, date: str) -> None:
    for version in ("5.5.1", "7.0"):
        assert fill_date(date, version, context) == [f"2 DATE {date}"]
    assert not context.remarks
