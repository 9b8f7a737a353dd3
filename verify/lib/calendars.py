"""Calendars, Easter and territories, by walks along every day and the tables of the moon.

Written from docs/CALENDARS.md alone, for reference.py and what imports it.
"""
import array
import functools

HIGH, LAST_YEAR, LAST_LABEL_YEAR = 3_652_059, 9_999, 10_000
MONTHS = (
    "January February March April May June July August September October November December"
).split()
WEEKDAYS = "Sunday Monday Tuesday Wednesday Thursday Friday Saturday".split()


# Calendars: each a list of dates, the place of a date being its day.


def is_leap(calendar, year):
    return year % 4 == 0 and (calendar != "gregorian" or year % 100 != 0 or year % 400 == 0)


# What follows some dates of the Swedish calendar.
SWEDISH = {(1700, 2, 28): (1700, 3, 1), (1712, 2, 29): (1712, 2, 30), (1712, 2, 30): (1712, 3, 1)}


def next_date(calendar, date):
    year, month, day = date
    if day < 28:
        return year, month, day + 1
    if calendar == "swedish" and date in SWEDISH:
        return SWEDISH[date]
    length = 30 if month in (4, 6, 9, 11) else 31
    if month == 2:
        length = 29 if is_leap(calendar, year) else 28
    if day < length:
        return year, month, day + 1
    return (year, month + 1, 1) if month < 12 else (year + 1, 1, 1)


@functools.cache
def dates(calendar):
    date = (1, 1, 1) if calendar == "gregorian" else (1, 1, 3)
    found = [None]
    for _ in range(HIGH):
        found.append(date)
        date = next_date(calendar, date)
    return found


def style_year(calendar, style, day):
    """The year of a day as the style counts it, `year` being the calendar's from 1 January."""
    year, month, of_month = dates(calendar)[day]
    if style == "annunciation":
        return year - 1 if (month, of_month) < (3, 25) else year
    if style == "nativity":
        return year + 1 if (month, of_month) >= (12, 25) else year
    if style == "september":
        return year + 1 if (month, of_month) >= (9, 1) else year
    if style == "pisan":
        return year + 1 if (month, of_month) >= (3, 25) else year
    if style == "easter":
        return year - 1 if day < easter("julian", year) else year
    return year


def label_of(calendar, style, day):
    return style_year(calendar, style, day), *dates(calendar)[day][1:]


def key_of(year, month, day):
    return (year * 16 + month) * 32 + day


@functools.cache
def labels(calendar, style):
    """The labels of all days as numbers, the place of a label being its day. No day is 0."""
    keys = [key_of(*label_of(calendar, style, day)) for day in range(1, HIGH + 1)]
    return array.array("i", [-1] + keys)


def places(numbers, number):
    found, start = [], 0
    while True:
        try:
            start = numbers.index(number, start) + 1
        except ValueError:
            return found
        found.append(start - 1)


def dual_text(regime, day):
    year, month, of_month = dates(regime[0])[day]
    styled = style_year(*regime[:2], day)
    text = f"{of_month} {MONTHS[month - 1]} {styled}"
    if styled >= year:
        return text
    first, second = str(styled), str(year)
    if len(first) != len(second):
        return f"{text}/{second}"
    differs = next(i for i in range(len(first)) if first[i] != second[i])
    return f"{text}/{second[differs:]}"


# Figures of a year by the tables.

JULIAN_MOONS = [
    (4, 5), (3, 25), (4, 13), (4, 2), (3, 22), (4, 10), (3, 30), (4, 18), (4, 7), (3, 27),
    (4, 15), (4, 4), (3, 24), (4, 12), (4, 1), (3, 21), (4, 9), (3, 29), (4, 17),
]
NEW_MOONS = {"*": (3, 31), "29": (4, 1), "28": (4, 2), "27": (4, 3), "26": (4, 4)}
NEW_MOONS |= {"25'": (4, 4), "25": (4, 5), "24": (4, 5)}
NEW_MOONS |= {str(31 - day): (3, day) for day in range(8, 31)}


def gregorian_epact(year):
    century = year // 100 + 1
    epact = (8 + 11 * (year % 19) - 3 * century // 4 + (8 * century + 5) // 25) % 30
    return "*" if epact == 0 else "25'" if epact == 25 and year % 19 + 1 > 11 else str(epact)


@functools.cache
def day_with(calendar, date):
    """The day of a date, which is sought from 365 days for each year before it, less a week."""
    return dates(calendar).index(date, max(0, 365 * (date[0] - 1) - 7))


@functools.cache
def easter(rule, year):
    if rule == "julian":
        moon = day_with("julian", (year, *JULIAN_MOONS[year % 19]))
    else:
        moon = day_with("gregorian", (year, *NEW_MOONS[gregorian_epact(year)])) + 13
    return next(day for day in range(moon + 1, moon + 8) if day % 7 == 0)


def letters(calendar, year):
    """The letters of the Sundays of January and of March, 29 February having none."""
    letter, found = 0, []
    date = (year, 1, 1)
    day = day_with(calendar, date) if (year, calendar) != (1, "julian") else -1
    while date[0] == year:
        if day % 7 == 0:
            if date[1] in (1, 3):
                found.append((date[1], "ABCDEFG"[letter % 7]))
        date, day = next_date(calendar, date), day + 1
        letter += date[1:] != (2, 29)
    january, march = dict(reversed(found))[1], dict(reversed(found))[3]
    return january if january == march else january + march


def figures(year):
    rules = {
        "gregorian": {"easter": easter("gregorian", year), "epact": gregorian_epact(year)},
        "julian": {"easter": easter("julian", year), "epact": 11 * (year % 19) % 30},
    }
    for rule, found in rules.items():
        found["letters"] = letters(rule, year)
    return {"golden": year % 19 + 1, "indiction": (year + 2) % 15 + 1, "year": year, **rules}


# Territories: start days with regimes, and years with days; the sources of either, if given.


class Land:
    def __init__(self, name, regime):
        self.name, self.starts, self.exceptions = name, {1: regime}, {}
        self.sources, self.easter_sources = {}, {}

    def copy(self):
        land = Land(self.name, None)
        land.starts, land.exceptions = dict(self.starts), dict(self.exceptions)
        land.sources, land.easter_sources = dict(self.sources), dict(self.easter_sources)
        return land

    def start(self, day, regime, source=None):
        """A period starts on a day, or is altered: an earlier source of it is lost."""
        self.starts[day] = regime
        cite(self.sources, day, source)

    def end_start(self, day):
        del self.starts[day]
        cite(self.sources, day, None)

    def list_easter(self, year, day, source=None):
        self.exceptions[year] = day
        cite(self.easter_sources, year, source)

    def end_easter(self, year):
        del self.exceptions[year]
        cite(self.easter_sources, year, None)

    def periods(self):
        starts = sorted(self.starts)
        ends = [start - 1 for start in starts[1:]] + [HIGH]
        return [(first, last, self.starts[first]) for first, last in zip(starts, ends)]

    def period(self, day):
        return next(p for p in self.periods() if p[0] <= day <= p[1])

    def all_labels(self):
        key = tuple(self.periods())
        if key != getattr(self, "known", None):
            self.known, self.labelled = key, array.array("i", [-1])
            for first, last, (calendar, style, _) in key:
                self.labelled += labels(calendar, style)[first : last + 1]
        return self.labelled

    def read(self, key):
        return places(self.all_labels(), key)

    def skipped(self, key):
        found, periods = [], self.periods()
        read = self.read(key)
        for (first, _, old), (change, last, new) in zip(periods, periods[1:]):
            of_old, of_new = places(labels(*old[:2]), key), places(labels(*new[:2]), key)
            left = not of_old or any(day >= change for day in of_old)
            passed = not of_new or any(day < change for day in of_new)
            is_read = any(first <= day <= last for day in read)
            if left and passed and (of_old or of_new) and not is_read:
                found.append(change)
        return found

    def easters(self, year):
        if year in self.exceptions:
            return [self.exceptions[year]]
        days = sorted({easter(rule, year) for rule in ("julian", "gregorian")})
        return [day for day in days if easter(self.period(day)[2][2], year) == day]

    def found(self, day):
        regime = self.period(day)[2]
        return {
            "day": day,
            "dual": dual_text(regime, day),
            "gregorian": written(dates("gregorian")[day]),
            "jdn": day + 1_721_425,
            "julian": written(dates("julian")[day]),
            "label": written(label_of(*regime[:2], day)),
            "weekday": WEEKDAYS[day % 7],
        }


def cite(sources, of, source):
    """Puts a source in the place of the one that there was, or None."""
    sources.pop(of, None)
    if source is not None:
        sources[of] = source


def written(date):
    return "%04d-%02d-%02d" % date
