"""The twelve fields that letters puts after a row, over date_meaning.py: of dates that are one day.

Written from docs/PAGES.md alone, for letters.py and dual_dates.py.
"""
from lib.calendars import dates, written
from lib.date_meaning import (Malformed, has_weekday, is_not_counted_double, parse, weekday_named,
                              weekday_of)

COLUMNS = ["days", "gregorian", "julian", "dual", "weekday_found", "jdn", "earliest", "latest",
           "kind", "edtf", "edition", "remark"]
FAULTS = {"form": "malformed date", "short year": "year of one or two digits",
          "later year": "not the year that follows",
          "year": "no year from 0 to 10000", "month": "no month from 1 to 12",
          "day": "no day from 1 to 31"}
SPACES = " \t\n\r\f"


def number_remark(date, weekday, days):
    """The remark on several days."""
    if len(days) < 2:
        return []
    is_given = weekday is not None or date.weekday is not None
    have_it = [day for day in days if has_weekday(date, weekday, day)]
    return ["by its weekday" if is_given and len(have_it) == 1 else "several days"]


def remarks_of_days(territory, date, weekday, days):
    if not days:
        return [territory.absence(date)]
    differs = not any(has_weekday(date, weekday, day) for day in days)
    alone = any(is_not_counted_double(territory, date, day) for day in days)
    return [*number_remark(date, weekday, days), *(["weekday differs"] if differs else []),
            *(["not counted double there"] if alone else [])]


def meant_in_place(territories, code, text, weekday):
    """The days of a row with their territory, the kind of its date, and the remarks on them."""
    territory = territories.get(code.upper() if code.isascii() else code)
    unknown = [] if territory else ["unknown place"]
    try:
        date = parse(text)
    except Malformed as why:
        return territory, [], "", [FAULTS[why.args[0]], *unknown]
    beside = ["year of three digits"] if date.has_three_digits else []
    if territory is None:
        return None, [], "day", [*unknown, *beside]
    days = territory.days_meant(date, weekday)
    return territory, days, "day", [*remarks_of_days(territory, date, weekday, days), *beside]


def letter_fields(territories, edition, code, text, weekday=""):
    """The twelve fields, of a row whose place, date and weekday are these."""
    code, text, weekday = (field.strip(SPACES) for field in (code, text, weekday))
    named = weekday_named(weekday)
    territory, days, kind, remarks = meant_in_place(territories, code, text, named)
    if weekday and named is None:
        remarks.append("malformed weekday")
    gregorian, julian = ([written(dates(name)[day]) for day in days]
                         for name in ("gregorian", "julian"))
    fields = [[str(day) for day in days], gregorian, julian,
              [territory.dual(day) for day in days], [weekday_of(day) for day in days],
              [str(day + 1_721_425) for day in days]]
    ends = [written(dates("gregorian")[end(days)]) if days else "" for end in (min, max)]
    edtf = f"[{','.join(gregorian)}]" if len(days) > 1 else "".join(gregorian)
    return [*("; ".join(field) for field in fields), *ends, kind, edtf, str(edition),
            "; ".join(remarks)]
