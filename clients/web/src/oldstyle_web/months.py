"""The month as it was dated: its days, and the changes that it meets."""
from __future__ import annotations

from dataclasses import dataclass

from oldstyle import Change, Day, Period, Run
from oldstyle.answers import run_of

from .languages import date_text, gettext as _
from .notes import notes_of
from .register import Asking
from .texts import full
from .words import BEGINNINGS, LAST_DAY, MONTHS, WEEKDAYS

MOST_DAYS = 100
Week = list[Day | None]


@dataclass(frozen=True)
class MonthRun:
    """Days of a month that follow one another: weeks, each seven days or gaps, and the days before
    and after them, if the line has these."""

    weeks: list[Week]
    before: Day | None
    after: Day | None

    @property
    def days(self) -> list[Day]:
        return [day for week in self.weeks for day in week if day]


@dataclass(frozen=True)
class MonthFound:
    """A month of a territory: its runs, its changes, why it has no day if it has none, the
    beginnings of its years, and the sources of its periods."""

    year: int
    month: int
    runs: list[MonthRun]
    changes: list[Change]
    reasons: list[str]
    styles: list[str]
    sources: list[str]

    @property
    def parted(self) -> str:
        """Why the month is in several runs, in a sentence."""
        if len(self.runs) < 2:
            return ""
        if self.changes or len(self.styles) > 1:
            return _("A change divides it: the year reached this month more than once.")
        return _("Years ran there from %(beginning)s, which is in this month: its days are at the "
                 "beginning of the year %(year)s and at its end.",
                 beginning=_(BEGINNINGS[self.styles[0]]), year=self.year)

    @property
    def marked(self) -> set[int]:
        """The days on which a change was."""
        return {change.found.day for change in self.changes}

    @property
    def has_gregorian(self) -> bool:
        """Returns whether a day has another date by the Gregorian calendar."""
        return any(day.gregorian != day.label for run in self.runs for day in run.days)

    def title(self, name: str) -> str:
        date = date_text(f"{MONTHS[self.month - 1]} {self.year}")
        return _("%(date)s in %(name)s", date=date, name=name)

    def cited(self, title: str) -> str:
        """The contents of the page, in one line."""
        days = [day for run in self.runs for day in run.days]
        if not days:
            return _("%(title)s: no such month", title=title)
        return _("%(title)s: %(first)s to %(last)s, %(count)s days", title=title,
                 first=full(days[0]), last=full(days[-1]), count=len(days))


def sources_of(periods: list[Period], runs: list[Run]) -> list[str]:
    """The sources of the periods that have days of these runs, in their order."""
    return list(dict.fromkeys(
        period.source for period in periods if period.source and any(
            run.first.day <= period.last and period.first <= run.last.day for run in runs)))


def question_of(code: str, year: int, month: int) -> dict[str, str]:
    """The question for the runs of a month."""
    return {"op": "written", "code": code, "date": f"{year:04}-{month:02}"}


def month_found(asking: Asking, code: str, name: str, year: int, month: int) -> MonthFound:
    """The days that a territory dated in a month of its year."""
    written, = asking.answers([question_of(code, year, month)])
    days = [run_of(run) for run in written["runs"]]
    runs = [run_found(asking, code, run) for run in days]
    periods = asking.periods(code)
    numbers = {day.day for run in runs for day in run.days}
    met = [change for change in asking.changes(code)
           if numbers & {change.before.day, change.found.day}]
    reasons = notes_of(name, written, asking.changes_on(code, written["skipped"]))
    return MonthFound(year, month, runs, met, reasons, styles_of(periods, numbers),
                      sources_of(periods, days))


def run_found(asking: Asking, code: str, run: Run) -> MonthRun:
    """A run of a month, with the days around it."""
    first, last = run.first.day, run.last.day
    numbers = range(first, last + 1)[:MOST_DAYS]
    around = [number for number in (first - 1, last + 1) if 1 <= number <= LAST_DAY]
    found = {day.day: day for day in asking.days(code, [*numbers, *around])}
    return MonthRun(weeks_of([found[number] for number in numbers]), found.get(first - 1),
                    found.get(last + 1))


def styles_of(periods: list[Period], days: set[int]) -> list[str]:
    """The beginnings of years that were in force on some days."""
    return list(dict.fromkeys(period.style for period in periods
                              if any(period.first <= day <= period.last for day in days)))


def weeks_of(days: list[Day]) -> list[Week]:
    """Days that follow one another, in weeks from Sunday; None if a week has no day of them."""
    weeks: list[Week] = []
    for day in days:
        place = WEEKDAYS.index(day.weekday)
        if not weeks or place == 0:
            weeks.append([None] * 7)
        weeks[-1][place] = day
    return weeks
