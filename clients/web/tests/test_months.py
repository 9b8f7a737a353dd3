"""Months and years: their neighbours, Gregorian days, and why days are missing."""
from __future__ import annotations

import re
import subprocess
from html import unescape
from typing import Any

import pytest
from conftest import SAMPLES

from oldstyle_web.texts import gap_text


def text_of(client: Any, path: str) -> str:
    """The text of a page, each piece between two tags without blanks around it."""
    main = client.get(path).text.partition("<main")[2].partition("</main>")[0]
    return " ".join(unescape(re.sub(r"<[^>]*>", " ", main)).split())


@pytest.mark.parametrize("query, expected", [
    ("GB&year=1731&month=3", ["month 3 of 1730", "month 4 of 1731", "month 2 of 1731",
                              "month 3 of 1732"]),
    ("GB&year=1731&month=12", ["month 11 of 1731", "month 1 of 1731"]),
    ("GB&year=9999&month=12", ["month 11 of 9999"])])
def test_the_months_before_and_after(client: Any, query: str, expected: list[str]) -> None:
    text = client.get(f"/month?code={query}").text
    parts = re.findall(r'aria-label="The months before and after">(.*?)</nav>', text, re.S)
    links = re.findall(r"year=(\d+)&amp;month=(\d+)", " ".join(parts))
    assert [f"month {month} of {year}" for year, month in links] == expected


def test_a_month_has_its_gregorian_days(client: Any) -> None:
    text = client.get("/month?code=GB&year=1752&month=9").text
    assert re.findall(r"<small[^>]*>(.*?)</small>", text) == ["12 Sep", "13"]
    assert 'aria-label="Tuesday 1 September 1752, 12 September 1752 Gregorian"' in text
    text = client.get("/month?code=GB&year=1752&month=10").text
    assert "<small" not in text and "Gregorian day" not in text


@pytest.mark.parametrize("query, sentence", [
    ("GB&year=1731&month=3", "Years ran there from 25 March, which is in this month: its days are "
     "at the beginning of the year 1731 and at its end."),
    ("GB&year=1752&month=9", "Wednesday 2 September 1752 was followed by Thursday 14 September "
     "1752. 11 dates left out."),
    ("GB&year=1751&month=1", "The year\u2019s beginning changed: until then years from 25 March")])
def test_why_a_month_is_as_it_is(client: Any, query: str, sentence: str) -> None:
    assert sentence.replace("\u2019", "'") in text_of(client, f"/month?code={query}")


@pytest.mark.parametrize("left_out, twice, sentence", [
    (11, 0, "11 dates left out."), (1, 0, "1 date left out."), (0, 0, ""),
    (0, 2, "2 dates come twice."), (0, 1, "1 date comes twice."),
    (None, None, "By the calendar before, no day has that date.")])
def test_how_many_dates_a_change_left_out_or_repeated(left_out: int | None, twice: int | None,
                                                      sentence: str) -> None:
    assert gap_text(left_out, twice) == sentence


@pytest.mark.parametrize("path", ["/day?code=GB&day=632287", "/?code=GB&date=11+February+1731"])
def test_the_gregorian_date_is_as_large_as_the_title(client: Any, path: str) -> None:
    assert '<p class="day">22 February 1732 Gregorian</p>' in client.get(path).text


@pytest.mark.parametrize("code, year", [("GB", 1731), ("GB", 1751), ("GB", 1752), ("SE", 1712),
                                        ("RU", 1918), ("RM", 1), ("GB", 9999)])
def test_a_year_is_as_the_place_counted_it(client: Any, program: str, code: str, year: int) -> None:
    text = text_of(client, f"/year?code={code}&year={year}")
    lines = subprocess.run([program, "year", SAMPLES, code, str(year)], text=True, check=True,
                           capture_output=True).stdout.splitlines()
    months = [re.fullmatch(r"(.+?) to (.+?)    (.+) Gregorian    (\d+) days", line)
              for line in lines]
    for month in filter(None, months):
        assert " ".join(month.groups()) in text
    for line in lines:
        if feast := re.match(r"([A-Z][\w ]+): (.+?)    (.+) Gregorian .* day (\d+)    JDN", line):
            assert " ".join(feast.groups()) in text
        elif " was followed by " in line:
            assert re.sub(r" \(day \d+\)", "", line).replace(": ", ". ") in text
        elif line.startswith("the year") and " ran there " in line:
            first, last = re.findall(r"(?:from|to) (.+?) \(day", line)
            assert f"It ran from {first} to {last} ." in text


def test_a_year_without_days_says_so(client: Any) -> None:
    assert "No Easter fell in that year." in text_of(client, "/year?code=GB&year=1668")
