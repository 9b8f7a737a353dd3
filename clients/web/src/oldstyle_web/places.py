"""A place's timeline: its periods and changes, and the years about each change."""
from __future__ import annotations

from dataclasses import dataclass

from oldstyle import Change, Day, ListedEaster, Period, Run

from .languages import date_text, gettext as _
from .register import Asking
from .texts import full
from .words import BEGINNINGS, LAST_DAY, year_in

STEPS = [10, 20, 25, 50, 100, 200, 500, 1000, 2000]
MOST_MARKS = 9


@dataclass(frozen=True)
class YearRow:
    """A year as the place counted it: its runs of days, and those that it counted double."""

    year: int
    runs: list[Run]
    double: list[Run]

    @property
    def text(self) -> str:
        """The year in words."""
        if not self.runs:
            return _("The place had no day of the year %(year)s.", year=self.year)
        text = _("The year %(year)s: %(runs)s.", year=self.year,
                 runs="; ".join(map(run_text, self.runs)))
        if self.double:
            text += " " + _("Counted double: %(runs)s.", runs="; ".join(map(run_text, self.double)))
        return text


@dataclass(frozen=True)
class Detail:
    """The years about changes that are near to one another."""

    changes: list[Change]
    rows: list[YearRow]

    @property
    def title(self) -> str:
        return _("The change: %(days)s",
                 days="; ".join(date_text(change.found.dual) for change in self.changes))


@dataclass(frozen=True)
class PeriodRow:
    """A period as a row of a table. It has no first or last day at an end of the line."""

    first: Day | None
    last: Day | None
    calendar: str
    beginning: str
    rule: str


@dataclass(frozen=True)
class PlaceFound:
    """A territory: its periods, its changes, its listed Easters, and what is drawn of it."""

    code: str
    name: str
    periods: list[Period]
    changes: list[Change]
    listed: list[ListedEaster]
    window: tuple[int, int]
    marks: list[tuple[int, int]]
    details: list[Detail]

    @property
    def sources(self) -> list[str]:
        return [period.source for period in self.periods if period.source]

    @property
    def rows(self) -> list[PeriodRow]:
        firsts = [None, *(change.found for change in self.changes)]
        lasts = [*(change.before for change in self.changes), None]
        return [PeriodRow(first, last, _(period.calendar.capitalize()),
                          _(BEGINNINGS[period.style]), _(period.rule.capitalize()))
                for period, first, last in zip(self.periods, firsts, lasts)]


def run_text(run: Run) -> str:
    return _("%(first)s to %(last)s", first=full(run.first), last=full(run.last))


def place_found(asking: Asking, code: str, name: str) -> PlaceFound:
    """What the program returns for a territory."""
    periods = asking.periods(code)
    changes = asking.changes(code)
    window = window_of(periods)
    return PlaceFound(code, name, periods, changes, asking.exceptions(code), window,
                      marks_in(asking, code, *window),
                      [Detail(group, rows_about(asking, code, group)) for group in groups(changes)])


def window_of(periods: list[Period]) -> tuple[int, int]:
    """The days that are drawn: about the changes, or all if there is none."""
    starts = [period.first for period in periods[1:]]
    if not starts:
        return 1, LAST_DAY
    room = max(20_000, (starts[-1] - starts[0]) // 3)
    return max(1, starts[0] - room), min(LAST_DAY, starts[-1] + room)


def marks_in(asking: Asking, code: str, first: int, last: int) -> list[tuple[int, int]]:
    """Round years of the window, each with the number of its first day, from the program."""
    low, high = (year_in(end.gregorian) for end in asking.days(code, (first, last)))
    step = next((step for step in STEPS if (high - low) // step < MOST_MARKS), STEPS[-1])
    years = [year for year in range(low - low % step + step, high + 1, step) if 1 <= year <= 9999]
    runs_of_years = asking.runs(code, (f"1 January {year:04} N.S." for year in years))
    return [(year, runs[0].first.day) for year, runs in zip(years, runs_of_years) if runs]


def groups(changes: list[Change]) -> list[list[Change]]:
    """Changes in groups: at most two years apart as the place counted them."""
    grouped: list[list[Change]] = []
    for change in changes:
        if grouped and year_in(change.found.label) - year_in(grouped[-1][-1].found.label) <= 2:
            grouped[-1].append(change)
        else:
            grouped.append([change])
    return grouped


def rows_about(asking: Asking, code: str, group: list[Change]) -> list[YearRow]:
    """The years from the one before the first of these changes to the one after the last."""
    start, end = group[0], group[-1]
    first = min(year_in(start.before.label), year_in(start.found.label)) - 1
    last = max(year_in(end.found.label), year_in(end.before.label)) + 1
    years = [year for year in range(first, last + 1)[:12] if 0 <= year <= 9999]
    runs_of_years = asking.runs(code, (date for year in years
                                       for date in (f"{year:04}", f"{year:04}/{year + 1:04}")))
    return [YearRow(year, runs, [run for run in double if "/" in run.first.dual])
            for year, runs, double in zip(years, runs_of_years[::2], runs_of_years[1::2])]
