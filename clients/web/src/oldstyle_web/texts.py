"""Texts of days, regimes, changes and sources in the language of the request."""
from __future__ import annotations

from typing import Sequence

from oldstyle import Change, Day, Period, Regime

from .languages import date_text, gettext as _
from .words import BEGINNINGS, MONTHS


def in_words(date: str) -> str:
    """A date of the program, such as 1732-02-22, in words."""
    year, month, day = date.split("-")
    return date_text(f"{int(day)} {MONTHS[int(month) - 1]} {int(year)}")


def full(found: Day) -> str:
    """The weekday and the dual text of a day found."""
    return f"{_(found.weekday)} {date_text(found.dual)}"


def month_text(found: Day) -> str:
    """The month and the year of a day."""
    return date_text(found.dual.partition(" ")[2])


def regime_text(regime: Period | Regime) -> str:
    """A regime in words."""
    return _("%(calendar)s calendar, years from %(beginning)s, Easter by the %(rule)s rule",
             calendar=_(regime.calendar.capitalize()), beginning=_(BEGINNINGS[regime.style]),
             rule=_(regime.rule.capitalize()))


def change_text(change: Change) -> str:
    """The days about a change, and how many dates it left out or repeated."""
    text = _("%(before)s was followed by %(day)s.", before=full(change.before),
             day=full(change.found))
    return f"{text} {gap_text(change.left_out, change.twice)}".strip()


def gap_text(left_out: int | None, twice: int | None) -> str:
    """How many dates a change left out or repeated, in a sentence, or nothing."""
    if left_out is None or twice is None:
        return _("By the calendar before, no day has that date.")
    if left_out:
        return _("%(count)s dates left out.", count=left_out) if left_out > 1 else \
            _("1 date left out.")
    if twice:
        return _("%(count)s dates come twice.", count=twice) if twice > 1 else \
            _("1 date comes twice.")
    return ""


def difference(change: Change) -> str:
    """The regimes on both sides of a change, and its source."""
    text = _("Until then: %(old)s. From then on: %(new)s.", old=regime_text(change.regime_before),
             new=regime_text(change.regime))
    return f"{text} {sources_text([change.source])}".strip()


def sources_text(sources: Sequence[str | None]) -> str:
    """Sources in a sentence of their own, or nothing."""
    distinct = list(dict.fromkeys(filter(None, sources)))
    text = "; ".join(distinct).removesuffix(".")
    if len(distinct) == 1:
        return _("Source: %(text)s.", text=text)
    return _("Sources: %(text)s.", text=text) if distinct else ""
