"""The year as a territory counted it: its months, changes and feasts, and its figures."""
from __future__ import annotations

from dataclasses import dataclass
from typing import Any

from oldstyle import Change, Day, Feast, Run
from oldstyle.answers import from_members, run_of

from .months import sources_of
from .register import Asking
from .words import year_in


@dataclass(frozen=True)
class YearFound:
    """A year as the place counted it. Its months are in the order in which they came, each with its
    number; the feasts are those that the place dated in it."""

    year: int
    runs: list[Run]
    months: list[tuple[int, Run]]
    changes: list[Change]
    feasts: list[Feast]
    easters: list[Day]
    listed: list[Day]
    figures: dict[str, Any]
    sources: list[str]


def questions_of(code: str, year: int) -> list[dict[str, Any]]:
    """The questions for the feasts and the figures of a year, its days, and those of its months."""
    dates = [f"{year:04}", *(f"{year:04}-{month:02}" for month in range(1, 13))]
    return [{"op": "feasts", "code": code, "year": year}, {"op": "figures", "year": year},
            *({"op": "written", "code": code, "date": date} for date in dates)]


def year_found(asking: Asking, code: str, year: int) -> YearFound:
    """The days, the feasts and the figures of a year."""
    dated, figures, *written = asking.answers(questions_of(code, year))
    runs, *months = [[run_of(run) for run in answer["runs"]] for answer in written]
    feasts = [from_members(Feast, feast) for feast in dated["feasts"]]
    easters = [one.found for one in feasts if one.feast == "Easter"]
    listed = [easter for easter in asking.exceptions(code) if easter.found in easters]
    changes = [change for change in asking.changes(code) if meets(change, year)]
    sources = [*sources_of(asking.periods(code), runs), *(change.source for change in changes),
               *(easter.source for easter in listed)]
    return YearFound(
        year, runs, sorted(((month, run) for month, found in enumerate(months, 1) for run in found),
                           key=lambda one: one[1].first.day),
        changes, feasts, easters, [easter.found for easter in listed], figures,
        list(filter(None, sources)))


def meets(change: Change, year: int) -> bool:
    """Returns whether a change begins, interrupts, ends or skips a year."""
    first, last = sorted(year_in(found.label) for found in (change.before, change.found))
    return first <= year <= last
