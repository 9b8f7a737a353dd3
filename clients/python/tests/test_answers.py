"""Readings, made of the answers of the program of this version and of an older one."""
from __future__ import annotations

from typing import Any, Dict

from oldstyle.answers import Day, Run, reading_of

DAY: Dict[str, Any] = {"day": 1, "dual": "d", "gregorian": "0001-01-01", "jdn": 1721426,
                       "julian": "j", "label": "l", "weekday": "Monday"}
RUN = {"first": DAY, "last": DAY}
OLDER: Dict[str, Any] = {
    "approximate": False, "kind": "day", "other_calendar": True, "reason": None, "runs": [RUN],
    "supplied": False, "uncertain": False, "weekday": None}
NEWER = {"ends_in_next_year": True, "named_calendar": "New Style", "named_weekday": "Monday",
         "nearest": [DAY], "not_counted_double": True, "read_as": ["Monday 1 January 0001 N.S."],
         "skipped": [7], "three_digits": True, "year": [RUN]}


def reading(answer: Dict[str, Any]) -> Any:
    return reading_of("GB", "d", {"answer": answer, "edition": 1, "reader": 1})


def test_a_reading_has_the_members_of_its_answer() -> None:
    found = reading({**OLDER, **NEWER})
    assert found.read_as == ("Monday 1 January 0001 N.S.",)
    assert (found.named_calendar, found.named_weekday) == ("New Style", "Monday")
    assert (found.not_counted_double, found.three_digits, found.skipped) == (True, True, (7,))
    assert found.ends_in_next_year
    assert found.nearest == (Day(**DAY),) and found.year == (Run(Day(**DAY), Day(**DAY)),)


def test_an_older_program_gives_less() -> None:
    found = reading(OLDER)
    assert found.other_calendar and found.runs[0].first.day == 1
    assert (found.read_as, found.named_calendar, found.nearest, found.year) == ((), None, (), ())
