"""Random regimes, changes and listed Easters of territories, near the days on which years begin.

The dates and Easters that it uses are laid out month by month and sought in the tables of the
computus, apart from calendars.py, so that a search over them shares no mistake with it.
"""
from array import array

from lib.calendars import HIGH, LAST_YEAR

CALENDARS = ["julian", "gregorian", "swedish"]
STYLES = ["january", "annunciation", "nativity", "september", "pisan"]
RULES = ["julian", "gregorian"]

# The style of Easter can be used with the Julian calendar and rule alone.
EASTER_STYLE = ("julian", "easter")

# Days of the line at which something happens: its ends, and the changes of the Swedish calendar.
EVENTS = [2, 3, HIGH - 1, HIGH, 620_616, 620_617, 620_618, 624_999, 625_000, 625_001, 625_002]

# The full moons of Easter by golden number, as days from 1 March: 36 is 5 April.
JULIAN_MOONS = [36, 25, 44, 33, 22, 41, 30, 49, 38, 27, 46, 35, 24, 43, 32, 21, 40, 29, 48]


def key(year, month, day):
    """A date or a label as one number."""
    return year * 10_000 + month * 100 + day


def month_length(calendar, year, month):
    if month != 2:
        return 30 if month in (4, 6, 9, 11) else 31
    if calendar == "swedish" and year in (1700, 1712):
        return 28 if year == 1700 else 30
    is_century = year % 100 == 0 and year % 400 != 0
    return 29 if year % 4 == 0 and not (calendar == "gregorian" and is_century) else 28


def chain(calendar):
    """The date of each day of the line, with nothing at place 0. Day 1 is 1 January of year 1 in
    the Gregorian calendar, and 3 January in the others."""
    dates = array("i")
    for year in range(1, LAST_YEAR + 1):
        for month in range(1, 13):
            first = key(year, month, 1)
            dates.extend(range(first, first + month_length(calendar, year, month)))
    skipped = 0 if calendar == "gregorian" else 2
    return array("i", [0]) + dates[skipped : skipped + HIGH]


def gregorian_moon(year):
    """The 14th day of the paschal moon, from 1 March: it is 13 days after the day whose label is
    the epact of the year."""
    century = year // 100 + 1
    epact = (8 + 11 * (year % 19) - 3 * century // 4 + (8 * century + 5) // 25) % 30
    if epact == 25 and year % 19 > 10:
        epact = "25'"
    labels = {day: [(31 - day) % 30] for day in range(8, 35)}
    labels[35], labels[36] = [26, "25'"], [25, 24]
    return 13 + next(day for day, epacts in labels.items() if epact in epacts)


def easter_days(rule, dates):
    """The first Sunday after the full moon of each year by the rule, `dates` being those of the
    rule's calendar."""
    days = {}
    for first_of_march, date in enumerate(dates):
        if date % 10_000 != 301:
            continue
        year = date // 10_000
        moon = JULIAN_MOONS[year % 19] if rule == "julian" else gregorian_moon(year)
        after_moon = first_of_march + moon
        days[year] = next(day for day in range(after_moon, after_moon + 7) if day % 7 == 0)
    return days


def random_regime(numbers):
    if numbers.random() < 0.25:
        return *EASTER_STYLE, "julian"
    return numbers.choice(CALENDARS), numbers.choice(STYLES), numbers.choice(RULES)


def random_start(numbers, beginnings):
    """A day on which a change may come: anywhere, at an event, or within weeks of a beginning."""
    chance = numbers.random()
    if chance < 0.1:
        return numbers.choice(EVENTS)
    if chance < 0.5:
        return max(2, numbers.choice(beginnings) + numbers.randint(-35, 35))
    return numbers.randint(2, HIGH)


def random_starts(numbers, beginnings):
    """The first days of periods with their regimes, ascending: far apart, or close together."""
    days = set()
    count = numbers.choice([0, 1, 2, 5, 10, 20, 40])
    while len(days) < count:
        day = random_start(numbers, beginnings)
        for _ in range(numbers.choice([1, 1, 1, 2, 3])):
            if day <= HIGH and len(days) < count:
                days.add(day)
            day += numbers.choice([1, 2, 10, 12, 30, 365])
    return [(day, random_regime(numbers)) for day in [1] + sorted(days)]


def random_exceptions(numbers):
    years = numbers.sample(range(1, LAST_YEAR + 1), 5)
    return {year: numbers.randint(1, HIGH) for year in years}


def days_that_begin(dates, easters):
    """The days of Easter by both rules, and 25 March of each calendar."""
    days = [day for result in easters.values() for day in result.values()]
    for line in dates.values():
        days += [day for day, date in enumerate(line) if date % 10_000 == 325]
    return sorted(days)
