"""The pages of read, day, month, territory and convert, line by line, over date_meaning.py.

Written from docs/PAGES.md alone, for pages.py.
"""
from typing import NamedTuple

from lib.calendars import HIGH, MONTHS, dates
from lib.date_meaning import Territory, is_not_counted_double, weekday_of

YEARS = {"january": "1 January", "annunciation": "25 March", "nativity": "25 December"}
YEARS |= {"september": "1 September", "pisan": "the 25 March before", "easter": "Easter"}


class Place(NamedTuple):
    """A territory in the form of a page."""

    name: str
    code: str
    edition: int
    territory: Territory

    def heading(self):
        return f"{self.name} ({self.code}), edition {self.edition}"


def in_words(calendar, day):
    year, month, of_month = dates(calendar)[day]
    return f"{of_month} {MONTHS[month - 1]} {year}"


def years_written(year, later):
    """Both years, the later one from its first digit that differs."""
    first, second = str(year), str(later)
    if len(first) != len(second):
        return f"{first}/{second}"
    same = 0
    while first[same] == second[same]:
        same += 1
    return f"{first}/{second[same:]}"


def date_written(date):
    years = years_written(date.year, date.year + 1) if date.is_double else str(date.year)
    zeros = "0" * (4 - len(str(date.year)))
    return f"{date.day} {MONTHS[date.month - 1]} {zeros}{years}"


def named(territory, day):
    return f"{weekday_of(day)} {territory.dual(day)}"


def numbered(territory, day):
    return f"{named(territory, day)} (day {day})"


def verdict(day, *weekdays):
    """The remark on the weekdays that were given, of which there may be none."""
    names = [name for name in weekdays if name is not None]
    others = [name for name in names if name != weekday_of(day)]
    return f" not {others[0]}" if others else " ok" if names else ""


def day_line(territory, day, remark=""):
    return (f"{named(territory, day)}    {in_words('gregorian', day)} Gregorian    "
            f"{in_words('julian', day)} Julian    day {day}    JDN {day + 1_721_425}{remark}")


# The page of a date.


def meant_lines(territory, date, weekday, day):
    yield day_line(territory, day, verdict(day, date.weekday, weekday))
    if is_not_counted_double(territory, date, day):
        yield f"not counted double there: the place wrote {territory.dual(day)}"


def nearest_lines(territory, date):
    return [f"nearest: {numbered(territory, day)}" for day in territory.nearest(date)]


def source_lines(sources, of):
    return [f"(source: {sources[of]})"] if of in sources else []


def skip_lines(territory, date, change):
    before = change - 1
    yield (f"skipped: {named(territory, before)} was followed by "
           f"{numbered(territory, change)}")
    yield from source_lines(territory.land.sources, change)
    old, new = (territory.regime_at(day)[1] for day in (before, change))
    if old != new:
        yield (f"the year's beginning changed: until then years from {YEARS[old]}, "
               f"from then on years from {YEARS[new]}")
        yield from nearest_lines(territory, date)


def year_line(territory, year):
    days = territory.days_of_year(year)
    if not days:
        return f"no such date in that year: the place had no day of the year {year}"
    return (f"no such date in that year: the year {year} ran there from "
            f"{numbered(territory, days[0])} to {numbered(territory, days[-1])}")


def why_lines(territory, date):
    why = territory.absence(date)
    if why == "not with both years":
        days = territory.days_of(date.label())
        return [f"not with both years: {numbered(territory, day)}" for day in days]
    if why == "off the line":
        return ["off the line of days: there it runs from "
                f"{numbered(territory, 1)} to {numbered(territory, HIGH)}"]
    if why == "skipped":
        return [line for change in territory.gaps(date.label())
                for line in skip_lines(territory, date, change)]
    if why == "no such date in that year":
        return [year_line(territory, date.year), *nearest_lines(territory, date)]
    return [f"{why}: {MONTHS[date.month - 1]} {month_length(territory, date.month)}"]


def month_length(territory, month):
    """How many days a month has that lacks one by all calendars of the territory."""
    if month != 2:
        return "has 30 days"
    return f"has at most {30 if territory.has_month_and_day((0, 2, 30)) else 29} days"


def three_digits_lines(date):
    return ["year of three digits"] if date.has_three_digits else []


def reading_page(place, date, weekday):
    days = place.territory.days_meant(date, weekday)
    lines = [line for day in days for line in meant_lines(place.territory, date, weekday, day)]
    return [f"{date_written(date)} in {place.heading()}",
            *(lines or why_lines(place.territory, date)), *three_digits_lines(date)]


# The pages of days, months and territories.


def period_line(territory, first, last, regime):
    calendar, style, rule = regime
    span = [f"from {numbered(territory, first)}"] if first > 1 else []
    span += [f"until {numbered(territory, last)}"] if last < HIGH else []
    return (f"{' '.join(span) or 'always'}: {calendar} calendar, {style} style "
            f"(years from {YEARS[style]}), {rule} rule")


def period_lines(territory, first, last, regime):
    """The line of a period, and that of its source."""
    yield period_line(territory, first, last, regime)
    yield from source_lines(territory.land.sources, first)


def easter_lines(territory, year, day):
    """The line of a listed Easter, and that of its source."""
    yield f"listed Easter of {year}: {numbered(territory, day)}"
    yield from source_lines(territory.land.easter_sources, year)


def day_page(place, day, weekday=None):
    territory = place.territory
    period = next(one for one in territory.periods if one[0] <= day <= one[1])
    return [f"day {day} in {place.heading()}", day_line(territory, day, verdict(day, weekday)),
            *period_lines(territory, *period)]


def territory_page(place):
    territory = place.territory
    easters = sorted(territory.land.exceptions.items())
    return [place.heading(),
            *(line for one in territory.periods for line in period_lines(territory, *one)),
            *(line for one in easters for line in easter_lines(territory, *one))]


def list_page(lands, edition):
    return [f"Territories, edition {edition}",
            *(f"{land.name} ({code})" for code, land in lands.items())]


def grid(territory, days):
    """Days that follow one another, as cal prints a month."""
    title = territory.dual(days[0]).split(" ", 1)[1]
    yield " " * ((20 - len(title)) // 2) + title
    yield "Su Mo Tu We Th Fr Sa"
    cells = ["  "] * (days[0] % 7) + [f"{territory.label(day)[2]:2}" for day in days]
    for first in range(0, len(cells), 7):
        yield " ".join(cells[first:first + 7])


def runs_of(days):
    runs = []
    for day in days:
        if runs and runs[-1][-1] + 1 == day:
            runs[-1].append(day)
        else:
            runs.append([day])
    return runs


def month_page(place, year, month):
    runs = runs_of(place.territory.days_of_month(year, month))
    lines = [line for days in runs for line in grid(place.territory, days)]
    return [place.heading(), *(lines or ["no such month"])]


def pending_lines(count):
    if count == 0:
        return []
    return [f"{count} edit{' is' if count == 1 else 's are'} not published yet"]


# The page of a conversion.


def conversion_page(day, weekday=None):
    calendars = ("gregorian", "julian", "swedish")
    words = "    ".join(f"{in_words(name, day)} {name.capitalize()}" for name in calendars)
    return [f"{weekday_of(day)}    {words}    day {day}    JDN {day + 1_721_425}"
            f"{verdict(day, weekday)}"]
