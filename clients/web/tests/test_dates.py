"""Which days a date means on its page, and what is said of a text that is not read."""
from __future__ import annotations

import json
import subprocess
from pathlib import Path
from typing import Any, Callable

import pytest

from oldstyle import Day
from oldstyle_web.dates import ADVICE, RANGE_ADVICE, DateFound, date_found, in_order
from oldstyle_web.register import Asking, Register
from oldstyle_web.settings import Settings

ANSWERED: dict[str, Any] = {"kind": "day", "reason": None, "weekday": None, "named_weekday": None,
                            "other_calendar": False, "read_as": [], "runs": [{}]}


def found(reason: str | None, kind: str = "none", weekday: str = "", **members: Any) -> DateFound:
    answered = {**ANSWERED, "kind": kind, "reason": reason, **members}
    return DateFound("GB", "Great Britain", "x", weekday, "", answered, [], [], [])


@pytest.mark.parametrize("named, given, text", [
    (None, "", "Friday"), ("Friday", "", "Friday, as stated"),
    (None, "Friday", "Friday, as stated"), ("Monday", "Friday", "Friday, not Monday"),
    ("Friday", "Sunday", "Friday, not Sunday"), ("Friday", "Friday", "Friday, as stated")])
def test_whether_a_day_is_of_the_weekdays_that_are_given(named: str | None, given: str,
                                                         text: str) -> None:
    day = Day(1, "", "", 1, "", "", "Friday")
    assert found(None, "day", given, named_weekday=named).agreement(day) == text


def test_a_date_is_named_as_it_was_read() -> None:
    assert found(None, "day", read_as=["11 February 1731/2"]).read_as == "11 February 1731/2"
    assert found(None, "set", read_as=["1 May 1640", "3 May 1640"]).read_as == "x"
    assert found("malformed date").read_as == "x"


@pytest.mark.parametrize("date, day_first, month_first", [
    ("11/2/1731", "11.2.1731", "2.11.1731"), ("11 2 1731", "11.2.1731", "2.11.1731"),
    ("Friday 11-2-1731/2", "Friday 11.2.1731/2", "Friday 2.11.1731/2"),
    ("11/2 1731", "11.2.1731", "2.11.1731"), ("11 February 1731", None, None),
    ("1731-02-11", None, None)])
def test_the_order_of_three_numbers(date: str, day_first: str | None,
                                    month_first: str | None) -> None:
    assert in_order(date, "dmy") == (day_first or date)
    assert in_order(date, "mdy") == (month_first or date)
    assert in_order(date, "") == date


def test_a_text_that_is_not_read_has_advice() -> None:
    assert found("year of one or two digits").advice == (
        "A year of one or two digits needs leading zeros, such as 0045.")
    assert found("skipped", "day").advice == found(None, "year").advice == ""
    assert found("no month from 1 to 12").advice == "A month is 1 to 12."


def test_a_range_of_years_with_a_short_one_has_advice_on_it() -> None:
    written = {**ANSWERED, "kind": "none", "reason": "no month from 1 to 12"}
    short = DateFound("GB", "Great Britain", "1640-45", "", "", written, [], [], [])
    assert short.advice == ("A month is 1 to 12. In a range of years write the later year in full, "
                            "such as 1640-1645.")


@pytest.fixture
def easter_style(tmp_path: Path) -> str:
    """A journal with Great Britain, and a place whose years began at Easter."""
    lines = [{"journal": 2},
             {"op": "add_land", "code": "GB", "name": "GB", "calendar": "julian",
              "style": "annunciation", "rule": "julian"},
             {"op": "add_land", "code": "FR", "name": "FR", "calendar": "julian",
              "style": "easter", "rule": "julian"}, {"op": "publish"}]
    path = tmp_path / "easter.journal"
    path.write_text("".join(f"{json.dumps(line)}\n" for line in lines))
    return str(path)


@pytest.mark.parametrize("date, reason", [
    ("nothing", "malformed date"), ("1731/3", "not the year that follows"),
    ("11 February 10001", "no year from 0 to 10000"), ("1640-45", "no month from 1 to 12"),
    ("1731-02-32", "no day from 1 to 31"), ("n.d.", "no date"),
    ("11 February 31", "year of one or two digits"), ("173..", "year with an open digit"),
    ("11/2/1731", "open between day and month"), ("22 Dec./1 Jan. 1675", "day by both calendars"),
    ("3/13 June 1675 O.S.", "one calendar for the dates of both"),
    ("Lady Day 1640", "a feast, not read"), ("x February 1731", "a Roman numeral, not read"),
    ("winter 1675", "an open part of a date, not read")])
def test_the_advice_is_that_of_the_program(asking: Asking, date: str, reason: str) -> None:
    answered, = asking.answers([{"op": "written", "code": "GB", "date": date}])
    assert (answered["kind"], answered["reason"]) == ("none", reason)
    settings = asking.register.settings
    printed = subprocess.run([settings.program, "read", settings.journal, "GB", date], text=True,
                             check=False, capture_output=True)
    assert ADVICE[reason] in printed.stderr and not printed.stdout
    assert (RANGE_ADVICE in printed.stderr) == (date == "1640-45")


@pytest.mark.parametrize("code, date, weekday", [
    ("GB", "11 February 1731", "Friday"), ("GB", "11 February 1731", "Monday"),
    ("FR", "1 April 1543", "Tuesday"), ("FR", "1 April 1543", "Monday"),
    ("FR", "Tuesday 1 April 1543", "")])
def test_days_and_their_weekdays_are_those_of_the_printed_page(
        program: str, easter_style: str, code: str, date: str, weekday: str) -> None:
    register = Register(Settings(easter_style, program))
    found = date_found(Asking(register), code, code, date, weekday, "")
    register.close()
    words = ["--weekday", weekday] if weekday else []
    lines = subprocess.run([program, "read", easter_style, code, date, *words], text=True,
                           check=True, capture_output=True).stdout.splitlines()[1:]
    verdicts = [(int(number), verdict.strip()) for number, verdict in (
        line.partition("    day ")[2].split("    JDN ") for line in lines)]
    assert [day.found.day for day in found.days] == [number for number, _ in verdicts]
    for day, (_, verdict) in zip(found.days, verdicts):
        expected = verdict.partition(" ")[2].replace("ok", "as stated")
        assert found.agreement(day.found) == f"{day.found.weekday}, {expected}"


def test_the_source_of_a_change_is_cited(journal_of: Callable[..., str], program: str) -> None:
    regime = {"code": "GB", "calendar": "julian", "style": "january", "rule": "julian"}
    journal = journal_of({"op": "add_land", "name": "GB", **regime},
                         {"op": "add_change", "day": 639797, **regime, "calendar": "gregorian",
                          "source": "24 Geo. II c. 23"})
    register = Register(Settings(journal, program))
    found = date_found(Asking(register), "GB", "GB", "3 September 1752", "", "")
    register.close()
    assert found.sources == ["24 Geo. II c. 23"] and not found.reason_sentence
    assert found.remarks == [
        "Wednesday 2 September 1752 was followed by Thursday 14 September 1752. 11 dates left out. "
        "Source: 24 Geo. II c. 23."]
