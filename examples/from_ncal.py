#!/usr/bin/env python3
"""Makes a text of the countries that ncal knows, in TOML: ncal -p | examples/from_ncal.py [EASTER]

The Debian package ncal has a list of countries, each with the last day of its Julian calendar. The
change is on the next day. What that list says is its own claim, not this project's: it is a start
for an editor, who must compare each territory with the country's own records, and cite these as
the source of the change. Years begin on 1 January in this text, and the rule of
Easter is that of the calendar, or EASTER (`julian` or `gregorian`) throughout. If the text is in
countries.toml, this publishes it: ./oldstyle publish countries.journal countries.toml
"""
import calendar
import json
import re
import sys

COUNTRY = re.compile(r"[* ]?([A-Z]{2}) (\S.*?) *(\d{4})-(\d\d)-(\d\d)")
TERRITORY = """
[{code}]
name = {name}
calendar = "julian"
style = "january"
rule = "{opening}"

[[{code}.changes]]
from = {{ julian = "{day}" }}
calendar = "gregorian"
rule = "{later}"
source = "the list of ncal -p"
"""


def next_day(year, month, day):
    """The next date of the Julian calendar, in which each fourth year is a leap year."""
    days = calendar.monthrange(2000 + year % 4, month)[1]
    year, month, day = (year, month, day + 1) if day < days else (year, month + 1, 1)
    return f"{year}-{month:02}-{day:02}"


assert next_day(1700, 2, 28) == "1700-02-29" and next_day(1655, 2, 28) == "1655-03-01"
easter = sys.argv[1] if len(sys.argv) > 1 else None
countries = {code: rest for code, *rest in COUNTRY.findall(sys.stdin.read())}
print("# The countries of ncal -p, by its own claim: compare each with the country's records.")
for code, (name, *last) in sorted(countries.items()):
    print(TERRITORY.format(code=code, name=json.dumps(name), day=next_day(*map(int, last)),
                           opening=easter or "julian", later=easter or "gregorian"), end="")
