"""The page of a year, line by line, over date_meaning.py.

Written from docs/PAGES.md alone, for pages.py; reference.py takes its feasts.
"""
from lib.calendars import HIGH, figures
from lib.date_meaning import days_under
from lib.page_texts import YEARS, day_line, in_words, named, numbered, runs_of, source_lines

FEASTS = {"Septuagesima": -63, "Ash Wednesday": -46, "Easter": 0, "Ascension": 39,
          "Pentecost": 49, "Trinity": 56}


def count(days):
    return "1 day" if len(days) == 1 else f"{len(days)} days"


def months_of(territory, days):
    """Consecutive days, cut at each new month."""
    months = []
    for day in days:
        if months and territory.label(months[-1][-1])[1] == territory.label(day)[1]:
            months[-1].append(day)
        else:
            months.append([day])
    return months


def month_line(territory, days):
    first, last = days[0], days[-1]
    there, gregorian = named(territory, first), in_words("gregorian", first)
    if len(days) > 1:
        there += f" to {named(territory, last)}"
        gregorian += f" to {in_words('gregorian', last)}"
    return f"{there}    {gregorian} Gregorian    {count(days)}"


def run_lines(territory, year, days):
    yield (f"the year {year} ran there from {numbered(territory, days[0])} to "
           f"{numbered(territory, days[-1])}: {count(days)}")
    if days[0] == 1:
        yield "its first day is the first of the line of days"
    if days[-1] == HIGH:
        yield "its last day is the last of the line of days"


def days_lines(territory, year):
    days = territory.days_of_year(year)
    if not days:
        return [f"the place had no day of the year {year}"]
    runs = runs_of(days)
    lines = [line for run in runs for line in run_lines(territory, year, run)]
    return lines + [month_line(territory, month)
                    for run in runs for month in months_of(territory, run)]


def day_with_date(calendar, date):
    """The day that a calendar gives a date, its year counted from 1 January."""
    return next(iter(days_under((calendar, "january", "julian"), date)), None)


def gap_text(territory, change):
    """How many dates are left out or come twice at a change."""
    same = day_with_date(territory.regime_at(change - 1)[0], territory.date(change))
    if same is None:
        return ": by the calendar before, no day has that date"
    if same > change:
        return f": {same - change} date{'' if same == change + 1 else 's'} left out"
    if same < change:
        return (f": {change - same} date comes twice" if same == change - 1
                else f": {change - same} dates come twice")
    return ""


def changes(territory, year):
    """The changes at which the year begins, continues, ends or is left out."""
    for first, _, _ in territory.periods:
        if first > 1:
            years = sorted(territory.label(day)[0] for day in (first - 1, first))
            if years[0] <= year <= years[1]:
                yield first


def change_lines(territory, change):
    before = change - 1
    yield (f"{named(territory, before)} was followed by {numbered(territory, change)}"
           f"{gap_text(territory, change)}")
    yield from source_lines(territory.land.sources, change)
    old, new = territory.regime_at(before), territory.regime_at(change)
    parts = [("the calendar", old[0], new[0]),
             ("the year's beginning", f"years from {YEARS[old[1]]}", f"years from {YEARS[new[1]]}"),
             ("the rule of Easter", old[2], new[2])]
    for part, one, other in parts:
        if one != other:
            yield f"{part} changed: until then {one}, from then on {other}"


def feasts(territory, year):
    """The feasts that the territory dated in the year, in order, each with the year from 1 January
    that has its Easter."""
    for january_year in (year - 1, year, year + 1):
        for easter in territory.land.easters(january_year) if 1 <= january_year <= 9999 else []:
            for name, after in FEASTS.items():
                day = easter + after
                if 1 <= day <= HIGH and territory.label(day)[0] == year:
                    yield name, day, january_year


def feast_lines(territory, year):
    lines, has_easter = [], False
    for name, day, january_year in feasts(territory, year):
        lines.append(f"{name}: {day_line(territory, day)}")
        if name == "Easter":
            has_easter = True
            lines += source_lines(territory.land.easter_sources, january_year)
    return lines if has_easter else [*lines, "no Easter fell in that year"]


def figure_lines(year):
    result = figures(year)
    julian, gregorian = result["julian"], result["gregorian"]
    return [f"of the year {year} counted from 1 January:",
            f"Golden number {result['golden']}, indiction {result['indiction']}",
            f"Julian epact {julian['epact']}, Sunday letter {julian['letters']}",
            f"Gregorian epact {gregorian['epact']}, Sunday letter {gregorian['letters']}"]


def year_page(place, year):
    territory = place.territory
    return [f"the year {year} in {place.heading()}", *days_lines(territory, year),
            *(line for change in changes(territory, year)
              for line in change_lines(territory, change)),
            *feast_lines(territory, year), *figure_lines(year)]
