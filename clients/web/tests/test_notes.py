"""What is remarked of a written date, from the answer of the service."""
from __future__ import annotations

import re
import subprocess
from typing import Any

import pytest
from conftest import SAMPLES

from oldstyle_web.notes import notes_of
from oldstyle_web.register import Asking

SKIPPED = ["Tuesday 31 December 1751 was followed by Wednesday 1 January 1752.",
           "The year's beginning changed: until then years from 25 March, from then on years from "
           "1 January.", "Nearest: Thursday 10 January 1750/1.", "Nearest: Friday 10 January 1752."]
YEAR = "That year ran there from Monday 25 March 1700 to Monday 24 March 1700/1."
READ_AS = "Read as New Style, as the date says."
NOT_SOUGHT = "Friday is not compared: the date is not written as a day."


def notes(asking: Asking, date: str, weekday: str = "") -> list[str]:
    question = {"op": "written", "code": "GB", "date": date}
    written, = asking.answers([{**question, "weekday": weekday} if weekday else question])
    changes = asking.changes_on("GB", written["skipped"])
    return notes_of("Great Britain", written, changes, weekday)


@pytest.mark.parametrize("date, expected", [
    ("11 February 1731", []), ("Friday 11 February 1731/2", []), ("March 1731", []), ("1731", []),
    ("[Feb. 1640?]", []), ("1640-1645", []), ("11/2/1731", []), ("nothing", []),
    ("10 January 1751", SKIPPED),
    ("3 September 1752", ["Wednesday 2 September 1752 was followed by Thursday 14 September 1752. "
                          "11 dates left out."]),
    ("29 February 1700", [YEAR, "Nearest: Thursday 29 February 1699/700."]),
    ("1 May 1700/1", ["Not with both years: Wednesday 1 May 1700."]),
    ("30 February 1731", ["No calendar of the place has that day of the month."]),
    ("1645-1640", ["The first date is after the last one."]),
    ("3 May 1640 to 30 February 1641", ["The last date of the range has no day.",
                                        "No calendar of the place has that day of the month."]),
    ("11 July 841", ["Year of three digits."]),
    ("18-26 March 1675", ["Ends in the next year."]),
    ("10 January 1751/2", ["Not counted double there: the place wrote only the later year."]),
    ("11 February 1731 N.S.", [f"{READ_AS} Great Britain itself dated that day 31 January "
                               "1730/1."]),
    ("February 1731 N.S.", [f"{READ_AS} Great Britain itself dated these days as they are written "
                            "above."]),
    ("3 September 1752 N.S.", [f"{READ_AS} Great Britain itself dated that day 23 August 1752."]),
    ("Friday March 1731", [NOT_SOUGHT])])
def test_the_remarks_on_a_date(asking: Asking, date: str, expected: list[str]) -> None:
    assert notes(asking, date) == expected


def test_a_weekday_is_not_looked_for_in_a_month(asking: Asking) -> None:
    assert notes(asking, "March 1731", "Friday") == [NOT_SOUGHT]
    assert notes(asking, "11 February 1731", "Friday") == []


def test_two_weekdays_are_remarked(asking: Asking) -> None:
    assert notes(asking, "Friday 11 February 1731", "Friday") == []
    assert notes(asking, "Friday 11 February 1731", "Monday") == [
        "The date names Friday: write one weekday, or the same one twice."]


@pytest.mark.parametrize("date", [
    "10 January 1751", "29 February 1700", "1 May 1700/1", "29 February 1751/2", "31 April 1700",
    "February 1750/1", "1 January 0", "31 December 9999 O.S.", "before 1 January 1 N.S."])
def test_the_days_named_are_those_that_the_program_prints(asking: Asking, program: str,
                                                          date: str) -> None:
    printed = subprocess.run([program, "read", SAMPLES, "GB", date], text=True, check=False,
                             capture_output=True).stdout
    named = re.findall(r"(?:nearest|not with both years): (.+?) \(day \d+\)", printed)
    found: list[Any] = [re.fullmatch(r"(?:Nearest|Not with both years): (.+)\.", note)
                        for note in notes(asking, date)]
    assert [one[1] for one in found if one] == named
