#!/usr/bin/env python3
"""British letters in CSV, in Python with csv and datetime: what `oldstyle letters` is measured by.

It knows one reform, of dates that Great Britain had from 1600 to 1800, and nothing of other places.
The table is read on standard input: it has a column date.
"""
import argparse
import csv
import sys
from datetime import date

MONTHS = ["January", "February", "March", "April", "May", "June", "July", "August", "September",
          "October", "November", "December"]
NAMES = {name: place for place, name in enumerate(MONTHS, 1)}
NEW = ["days", "gregorian", "julian", "dual", "weekday_found", "jdn", "earliest", "latest", "kind",
       "edtf", "edition", "remark"]
CHANGE, JANUARY_STYLE = date(1752, 9, 14), 1752


def parsed(text):
    if "-" in text:
        return tuple(int(part) for part in text.split("-"))
    day, month, year = text.split(" ")
    return int(year), NAMES[month], int(day)


def julian_ordinal(year, month, day):
    """The day number of a Julian date, by that of its March year."""
    shifted = year - (month < 3)
    return (365 * shifted + shifted // 4 + (153 * ((month - 3) % 12) + 2) // 5 + day - 308)


def julian_text(ordinal):
    c = ordinal + 1_721_425 + 32_082
    d = (4 * c + 3) // 1461
    e = c - 1461 * d // 4
    m = (5 * e + 2) // 153
    return f"{d - 4800 + m // 10:04}-{m + 3 - 12 * (m // 10):02}-{e - (153 * m + 2) // 5 + 1:02}"


def later(year):
    """The digits of the next year from the first that differs."""
    old, new = str(year), str(year + 1)
    place = next(at for at in range(4) if old[at] != new[at])
    return new[place:]


def fields(text):
    year, month, day = parsed(text)
    is_double = year < JANUARY_STYLE and (month, day) < (3, 25)
    if (year, month, day) >= (1752, 9, 14):
        ordinal = date(year, month, day).toordinal()
    else:
        ordinal = julian_ordinal(year + is_double, month, day)
    gregorian = date.fromordinal(ordinal)
    dual = f"{day} {MONTHS[month - 1]} {year}" + (f"/{later(year)}" if is_double else "")
    iso = gregorian.isoformat()
    return [ordinal, iso, julian_text(ordinal), dual, gregorian.strftime("%A"),
            ordinal + 1_721_425, iso, iso, "day", iso, 1, ""]


def main():
    argparse.ArgumentParser(description=__doc__).parse_args()
    rows = csv.reader(sys.stdin)
    out = csv.writer(sys.stdout, lineterminator="\n")
    header = next(rows, [])
    if "date" not in header:
        sys.exit("letters_datetime.py: the table has no column date: name the column of dates so")
    place = header.index("date")
    out.writerow(header + NEW)
    for one in rows:
        out.writerow(one + fields(one[place]))


if __name__ == "__main__":
    main()
