"""Which days a written date means in a territory, and why it means none, by the days of the line.

Written from docs/PAGES.md and docs/CALENDARS.md alone, over the calendars of reference.py, for
pages.py, letters.py and dual_dates.py.
"""
import bisect
import functools
from array import array
from collections import defaultdict
from typing import NamedTuple, Optional

from lib.calendars import HIGH, MONTHS, WEEKDAYS, dates, dual_text, easter, style_year

# Dates as people write them.


class Malformed(Exception):
    """What keeps a text from being a date: form, short year, later year, year, month or day."""


class Written(NamedTuple):
    year: int
    month: int
    day: int
    is_double: bool = False
    weekday: Optional[str] = None
    has_three_digits: bool = False

    def label(self, later=0):
        return self.year + later, self.month, self.day


def number(text, digits=9):
    if not (text.isascii() and text.isdigit() and len(text) <= digits):
        raise Malformed("form")
    return int(text)


def named(names, text):
    """The place of a name among names, capital letters or not."""
    lower = [name.lower() for name in names]
    return lower.index(text.lower()) if text.isascii() and text.lower() in lower else None


def weekday_named(text):
    place = named(WEEKDAYS, text)
    return None if place is None else WEEKDAYS[place]


def years_of(text):
    """The year of a text, whether a slash and the next year follow it, and whether it has three
    digits and no zero before them."""
    first, slash, later = text.partition("/")
    year = number(first)
    if slash:
        number(later)
    if len(first) < 3:
        raise Malformed("short year")
    if year > 10_000:
        raise Malformed("year")
    if slash and not str(year + 1).zfill(len(later)).endswith(later):
        raise Malformed("later year")
    return year, bool(slash), len(first) == 3 and year >= 100


def month_of(text):
    place = named(MONTHS, text)
    if place is None:
        raise Malformed("form")
    return place + 1


def plain_date(text):
    if text.count("-") >= 2:
        first, middle, last = text.split("-", 2)
        month, day, years = number(middle, 2), number(last, 2), years_of(first)
    elif text.count(" ") >= 2 and "-" not in text:
        first, middle, last = text.split(" ", 2)
        day, month, years = number(first, 2), month_of(middle), years_of(last)
    else:
        raise Malformed("form")
    for name, value, most in (("month", month, 12), ("day", day, 31)):
        if not 1 <= value <= most:
            raise Malformed(name)
    year, is_double, has_three_digits = years
    return Written(year, month, day, is_double, None, has_three_digits)


def parse(text):
    """The date of a text; raises Malformed if it has none."""
    first, _, rest = text.partition(" ")
    weekday = weekday_named(first) if rest else None
    return plain_date(text) if weekday is None else plain_date(rest)._replace(weekday=weekday)


# The days of the line that have a month and day.


@functools.cache
def days_by_month_and_day(calendar):
    result = defaultdict(functools.partial(array, "i"))
    for day, date in enumerate(dates(calendar)[1:], 1):
        result[date[1:]].append(day)
    return dict(result)


def years_about(year):
    """The first and last day that may have the year or one next to it, in any calendar."""
    return max(1, 365 * (year - 2) - 3), min(HIGH, 366 * (year + 1) + 1)


def days_under(regime, label):
    """The days of the line that have the label, were the regime always in force."""
    year, *month_and_day = label
    days = days_by_month_and_day(regime[0]).get(tuple(month_and_day), [])
    low, high = years_about(year)
    near = days[bisect.bisect_left(days, low):bisect.bisect_right(days, high)]
    return [day for day in near if style_year(*regime[:2], day) == year]


# The place of a label in the order of a style, whether a day has it or not.

BEGINNINGS = {"january": (1, 1), "annunciation": (3, 25), "nativity": (12, 25)}
BEGINNINGS |= {"september": (9, 1), "pisan": (3, 25)}


def beginning(calendar, style, year):
    """The month and day on which a year of the style begins in a year counted from 1 January.

    For year 0, whose Easter is before the line, the days before Easter of year 1 are on it.
    """
    if style != "easter":
        return BEGINNINGS[style]
    return dates(calendar)[easter("julian", max(year, 1))][1:] if year <= 9_999 else (1, 1)


def styled_year(calendar, style, date):
    """The year of a date by the style, even if no day has it."""
    year, *month_and_day = date
    has_begun = tuple(month_and_day) >= beginning(calendar, style, year)
    if style in ("nativity", "september", "pisan"):
        return year + 1 if has_begun else year
    return year if has_begun else year - 1


def place_of(regime, label):
    """The label's year, then the first date of its month and day whose year is that or later."""
    dated = [(label[0] + more, *label[1:]) for more in (-1, 0, 1)]
    return label[0], next(date for date in dated if styled_year(*regime[:2], date) >= label[0])


class Territory:
    """A territory over its periods, of which each day of the line is dated by one."""

    def __init__(self, land):
        self.land, self.periods = land, land.periods()
        self.firsts = [first for first, _, _ in self.periods]

    def regime_at(self, day):
        return self.periods[bisect.bisect_right(self.firsts, day) - 1][2]

    def date(self, day):
        return dates(self.regime_at(day)[0])[day]

    def label(self, day):
        return style_year(*self.regime_at(day)[:2], day), *self.date(day)[1:]

    def dual(self, day):
        return dual_text(self.regime_at(day), day)

    def days_of(self, label):
        """The days that the territory dated so."""
        return sorted(day for regime in {regime[:2] for _, _, regime in self.periods}
                      for day in days_under(regime, label) if self.regime_at(day)[:2] == regime)

    def days_of_year(self, year):
        low, high = years_about(year)
        return [day for day in range(low, high + 1) if self.label(day)[0] == year]

    def days_of_month(self, year, month):
        return [day for day in self.days_of_year(year) if self.label(day)[1] == month]

    # Changes at which a label was left out.

    def is_skipped(self, label, before, after):
        change, last, new = after
        first, _, old = before
        of_old, of_new = days_under(old, label), days_under(new, label)
        left = not of_old or any(day >= change for day in of_old)
        passed = not of_new or any(day < change for day in of_new)
        is_read = any(first <= day <= last for day in self.days_of(label))
        return left and passed and bool(of_old or of_new) and not is_read

    def skipped(self, label):
        pairs = zip(self.periods, self.periods[1:])
        return [after[0] for before, after in pairs if self.is_skipped(label, before, after)]

    def is_after(self, label, day):
        return (self.label(day)[0], self.date(day)) < place_of(self.regime_at(day), label)

    def is_before(self, label, day):
        return place_of(self.regime_at(day), label) < (self.label(day)[0], self.date(day))

    def gaps(self, label):
        """The changes that left out the label: it is neither before nor after them."""
        return [change for change in self.skipped(label)
                if self.is_after(label, change - 1) and self.is_before(label, change)]

    # What a date means.

    def counted_double(self, date):
        return [day for day in self.days_of(date.label())
                if self.date(day)[0] == date.year + 1]

    def not_counted_double(self, date):
        """The days of a double date before 25 March whose year was the later one by either
        count."""
        if (date.month, date.day) >= (3, 25):
            return []
        return [day for day in self.days_of(date.label(1))
                if self.date(day)[0] == date.year + 1]

    def days_meant(self, date, weekday=None):
        """The days that a date means: those first that are of the weekday."""
        if date.is_double:
            days = self.counted_double(date) + self.not_counted_double(date)
        else:
            days = self.days_of(date.label())
        return sorted(days, key=lambda day: not has_weekday(date, weekday, day))

    def has_month_and_day(self, label):
        return any(label[1:] in days_by_month_and_day(regime[0]) for _, _, regime in self.periods)

    def absence(self, date):
        """Why a date means no day, in the words of a remark."""
        label = date.label()
        if date.is_double and self.days_of(label):
            return "not with both years"
        if not self.has_month_and_day(label):
            return "no date of its calendar"
        if self.is_before(label, 1) or self.is_after(label, HIGH):
            return "off the line"
        return "skipped" if self.gaps(label) else "no such date in that year"

    def nearest(self, date):
        """The days of the month and day in the nearest years that have some, the earlier first."""
        for years in range(1, 10_001):
            days = self.days_of(date.label(-years)) + self.days_of(date.label(years))
            if days:
                return days
        return []


def weekday_of(day):
    return WEEKDAYS[day % 7]


def has_weekday(date, weekday, day):
    return all(name in (None, weekday_of(day)) for name in (date.weekday, weekday))


def is_not_counted_double(territory, date, day):
    return date.is_double and territory.label(day)[0] != date.year
