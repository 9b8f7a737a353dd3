"""What is remarked of a written date: how it was read, and why it means no day, in sentences."""
from __future__ import annotations

from typing import Any, Iterator

from oldstyle import Change
from oldstyle.answers import day_of, run_of

from .languages import date_text, gettext as _
from .problems import N_
from .texts import change_text, full, sources_text
from .words import BEGINNINGS

LAST_DATE = "last date: "
STYLES = [N_("Old Style"), N_("New Style")]
# What is said of a date that has no day, besides the days near it.
REASONS = {
    "no date of its calendar": N_("No calendar of the place has that day of the month."),
    "off the line": N_("The days of the register run from 1 January 1 to 31 December 9999, by the "
                       "Gregorian calendar."),
    "first date after the last": N_("The first date is after the last one."),
    "no such feast in that year": N_("That feast did not fall in that year."),
}


def notes_of(name: str, written: dict[str, Any], changes: list[Change],
             weekday: str = "") -> list[str]:
    """The remarks on a date in a territory, from the answer to `written` and the changes that it
    names."""
    return [*reasons_of(written, changes), *remarks_of(name, written, weekday)]


def reasons_of(written: dict[str, Any], changes: list[Change]) -> Iterator[str]:
    """Why a date means no day."""
    reason = written["reason"] or ""
    if reason.startswith(LAST_DATE):
        yield _("The last date of the range has no day.")
    reason = reason.removeprefix(LAST_DATE)
    if reason in REASONS:
        yield _(REASONS[reason])
    if reason == "no such date in that year":
        yield year_text(written["year"])
    for change in changes:
        yield from skipping(change)
    if not changes or any(map(has_other_year, changes)):
        yield from nearest_days(reason, written["nearest"])


def nearest_days(reason: str, nearest: list[dict[str, Any]]) -> Iterator[str]:
    """The days that are most like a date without a day."""
    for day in map(day_of, nearest):
        if reason == "not with both years":
            yield _("Not with both years: %(day)s.", day=full(day))
        else:
            yield _("Nearest: %(day)s.", day=full(day))


def year_text(runs: list[dict[str, Any]]) -> str:
    """From which day to which a year ran that lacks a date."""
    if not runs:
        return _("The place had no day of that year.")
    return _("That year ran there from %(first)s to %(last)s.",
             first=full(run_of(runs[0]).first), last=full(run_of(runs[-1]).last))


def has_other_year(change: Change) -> bool:
    """Returns whether years began on another date from a change on."""
    return change.regime.style != change.regime_before.style


def skipping(change: Change) -> Iterator[str]:
    """A change at which a date was skipped."""
    yield f"{change_text(change)} {sources_text([change.source])}".strip()
    if has_other_year(change):
        yield _("The year's beginning changed: until then years from %(old)s, from then on years "
                "from %(new)s.", old=_(BEGINNINGS[change.regime_before.style]),
                new=_(BEGINNINGS[change.regime.style]))


def remarks_of(name: str, written: dict[str, Any], weekday: str) -> Iterator[str]:
    """How a date was read."""
    named = written["named_weekday"]
    if named and weekday and named != weekday:
        yield _("The date names %(day)s: write one weekday, or the same one twice.", day=_(named))
    if written["ends_in_next_year"]:
        yield _("Ends in the next year.")
    if written["not_counted_double"]:
        yield _("Not counted double there: the place wrote only the later year.")
    if written["three_digits"]:
        yield _("Year of three digits.")
    if written["other_calendar"]:
        style = written["named_calendar"]
        text = _("Read as %(style)s, as the date says.", style=_(style))
        yield f"{text} {own_dates(name, written)}"
    if written["kind"] not in ("day", "none"):
        if sought := named or weekday:
            yield _("%(day)s is not compared: the date is not written as a day.", day=_(sought))


def own_dates(name: str, written: dict[str, Any]) -> str:
    """How a place itself dated what a date means by another calendar."""
    runs = [run_of(run) for run in written["runs"]]
    if not runs:
        return _("By its own reckoning %(name)s has that date.", name=name)
    if len(runs) == 1 and runs[0].first == runs[0].last:
        return _("%(name)s itself dated that day %(day)s.", name=name,
                 day=date_text(runs[0].first.dual))
    return _("%(name)s itself dated these days as they are written above.", name=name)
