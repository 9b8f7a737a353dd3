#!/usr/bin/env python3
"""Compares figures, months and countries with what comes from outside of this repository.

Figures of all 9,999 years: Easter by the anonymous algorithm of *Nature* (1876) for the Gregorian
rule and by Meeus, *Astronomical Algorithms*, for the Julian one; Sunday letters from the weekday of
1 January, which `datetime` gives for the Gregorian calendar.

Months: `ncal -p | examples/from_ncal.py` makes a text of the countries that ncal knows, which is
published. For each the six months about its change and three of other centuries are printed by
`month` and by `ncal -S -s`, which has a line for each weekday while `month` has one for each week:
so the rows of `month` are transposed, and compared line by line without the spaces at their ends.
The British months are compared with those of `ncal -b` too, as they are.

Countries: if `ncal -p` knows a country, the last day of its Julian calendar is that of
examples/europe.toml. It requires the Debian package ncal.
"""
import datetime
import json
import os
import re
import subprocess
import sys
import tempfile

from lib.calendars import dates
from lib.checks import check, verdict
from lib.common import TOP, CommandLine, end, need, replies, run
from lib.territory_texts import lands_of

YEARS = range(1, 10_000)
OTHER_MONTHS = [(1_100, 2), (1_700, 2), (2_000, 2)]
# The countries of ncal, and the territories of europe.toml that they are. Those of which the text
# says other things, or nothing, are left out.
IN_EUROPE = {"DE": ["DE"], "DK": ["DK"], "ES": ["ES"], "FR": ["FR"], "GB": ["GBENG", "GBSCT"],
             "HU": ["HU"], "IT": ["FLORENCE", "PISA"], "NL": ["NLZE"], "NO": ["DK"], "PL": ["PL"],
             "PT": ["PT"], "RU": ["RU"], "SE": ["SE"]}
COUNTRY = re.compile(r"\b([A-Z]{2}) \S.*? *(\d{4})-(\d\d)-(\d\d)")


# ---- figures


def julian_day(year, month, day):
    leap_day = 0 if month <= 2 else -1 if year % 4 == 0 else -2
    return -2 + 365 * (year - 1) + (year - 1) // 4 + (367 * month - 362) // 12 + leap_day + day


def gregorian_easter(year):
    a, (b, c) = year % 19, divmod(year, 100)
    (d, e), (i, k) = divmod(b, 4), divmod(c, 4)
    h = (19 * a + b - d - (b - (b + 8) // 25 + 1) // 3 + 15) % 30
    l = (32 + 2 * e + 2 * i - h - k) % 7
    month, day = divmod(h + l - 7 * ((a + 11 * h + 22 * l) // 451) + 114, 31)
    return datetime.date(year, month, day + 1).toordinal()


def julian_easter(year):
    d = (19 * (year % 19) + 15) % 30
    e = (2 * (year % 4) + 4 * (year % 7) - d + 34) % 7
    month, day = divmod(d + e + 114, 31)
    return julian_day(year, month, day + 1)


def letters(first_day, is_leap):
    january = -first_day % 7
    return "ABCDEFG"[january] + ("ABCDEFG"[january - 1] if is_leap else "")


def figures(year):
    century = year // 100 + 1
    epact = (8 + 11 * (year % 19) - 3 * century // 4 + (8 * century + 5) // 25) % 30
    text = "*" if epact == 0 else "25'" if epact == 25 and year % 19 > 10 else str(epact)
    is_leap = year % 4 == 0 and (year % 100 != 0 or year % 400 == 0)
    new_year = datetime.date(year, 1, 1).toordinal()
    return {
        "golden": year % 19 + 1,
        "gregorian": {
            "easter": gregorian_easter(year),
            "epact": text,
            "letters": letters(new_year, is_leap),
        },
        "indiction": (year + 2) % 15 + 1,
        "julian": {
            "easter": julian_easter(year),
            "epact": 11 * (year % 19) % 30,
            "letters": letters(julian_day(year, 1, 1), year % 4 == 0),
        },
        "year": year,
    }


def check_figures(program):
    requests = ('{"op":"figures","reader":1,"year":%d}' % year for year in YEARS)
    for year, reply in zip(YEARS, replies(program, requests)):
        check(f"{year}: {reply}", json.loads(reply).get("answer") == figures(year))


# ---- months


def ncal(*words):
    """What ncal prints."""
    return subprocess.run(["ncal", *words], capture_output=True, text=True, check=True).stdout


def countries():
    """The codes that ncal lists, each with the year and month of its last Julian day."""
    words = ncal("-p").replace("*", " ").split()
    for place, word in enumerate(words):
        if word.count("-") == 2:
            names = [at for at in range(place) if len(words[at]) == 2 and words[at].isupper()]
            year, month, _ = word.split("-")
            yield words[names[-1]], int(year), int(month)


def journal_in(program, folder):
    """A journal of the countries that ncal lists."""
    path, text = os.path.join(folder, "countries.journal"), os.path.join(folder, "countries.toml")
    with open(text, "w", encoding="utf-8") as file:
        subprocess.run([sys.executable, os.path.join(TOP, "examples", "from_ncal.py")],
                       input=ncal("-p"), stdout=file, text=True, check=True)
    run(program, ["publish", path, text])
    return path


def trimmed(text):
    return [line.rstrip() for line in text.splitlines() if line.strip()]


def turned(grid):
    """A grid with a line for each weekday in place of one for each week."""
    title, weekdays, *weeks = grid
    lines = [name + "".join(f"{week[3 * place:3 * place + 2]:>3}" for week in weeks)
             for place, name in enumerate(weekdays.split())]
    return [title.strip()] + [line.rstrip() for line in lines]


def is_as_printed(program, journal, code, year, month):
    """Returns whether ncal prints the same month as the program."""
    ours = run(program, ["month", journal, code, str(year), str(month)]).stdout.splitlines()[1:]
    title, *theirs = trimmed(ncal("-S", "-s", code, str(month), str(year)))
    is_same = turned(ours) == [title.strip(), *theirs]
    return is_same and (code != "GB" or ours == trimmed(ncal("-b", str(month), str(year))))


def months_about(year, month):
    first = year * 12 + month - 1
    return [(count // 12, count % 12 + 1) for count in range(first - 2, first + 4)]


def check_months(program):
    """Returns how many months were compared."""
    count = 0
    with tempfile.TemporaryDirectory() as folder:
        journal = journal_in(program, folder)
        for code, year, month in countries():
            for at in months_about(year, month) + OTHER_MONTHS:
                count += 1
                check(f"{code}: {at}", is_as_printed(program, journal, code, *at))
    check("ncal lists no country", count > 0)
    return count


# ---- countries


def last_julian_days(land):
    """The Julian dates of the days before the territory took the Gregorian calendar."""
    periods = zip(land.periods(), land.periods()[1:])
    return ["%04d-%02d-%02d" % dates("julian")[last] for (_, last, old), (_, _, new) in periods
            if old[0] != "gregorian" and new[0] == "gregorian"]


def check_countries():
    """Returns which countries of ncal were compared."""
    with open(os.path.join(TOP, "examples", "europe.toml"), encoding="utf-8") as file:
        lands, names = lands_of(file.read()), set()
    for country, *date in COUNTRY.findall(ncal("-p")):
        for code in IN_EUROPE.get(country, []):
            result, expected = last_julian_days(lands[code]), ["-".join(date)]
            check(f"{code}: {result}, and ncal has {expected}", result == expected)
            names.add(country)
    return sorted(names)


def main():
    line = CommandLine(__doc__)
    line.add_program()
    program = line.read().program
    need("ncal", "the Debian package ncal")
    check_figures(program)
    months, names = check_months(program), check_countries()
    return verdict(f"{len(YEARS)} years, {months} months, and {len(names)} countries of ncal "
                   f"({' '.join(names)}) are as computed and as in ncal")


if __name__ == "__main__":
    end(main)
