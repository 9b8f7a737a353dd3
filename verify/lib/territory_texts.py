"""What a text of territories says: its edits, its faults with their places, and the edits between
two registers. It is for register_text.py and europe.py.

Written from docs/TERRITORIES.md alone, over Python's own reader of TOML. The register that a text
says is what `reference.py` makes of its edits. A register here is a dictionary of lands by their
codes, in the order in which they were added.
"""
import bisect
import datetime
import functools
import re
import tomllib

from lib.territory_draws import CALENDARS, chain, key
from reference import REGIME, Fault, Service, cited, is_source

TERRITORY = ["name", "calendar", "style", "rule", "source", "note", "changes", "easters"]
CHANGE = ["from", "calendar", "style", "rule", "source", "note"]
EASTER = ["year", "date", "source", "note"]
WORDS = ["calendar", "style", "rule"]
DAY_KEYS = ["gregorian", "julian", "swedish", "day"]
DATE = re.compile(r"([0-9]{3,9})-([0-9]{1,2})-([0-9]{1,2})")


class TextFault(Exception):
    """What is wrong with a text, and the keys that lead there."""

    def __init__(self, path, reason, detail=None):
        super().__init__(path, reason, detail)
        self.path, self.reason, self.detail = path, reason, detail


chain = functools.cache(chain)


def date_on(calendar, day):
    """The year, month and day of a day in a calendar."""
    number = chain(calendar)[day]
    return number // 10_000, number // 100 % 100, number % 100


def day_of(calendar, year, month, day):
    """The day of a date in a calendar, or None if the calendar has no such date."""
    dates = chain(calendar)
    place = bisect.bisect_left(dates, key(year, month, day))
    is_date = 1 <= place < len(dates) and date_on(calendar, place) == (year, month, day)
    return place if is_date else None


# ---- what a text says


def edits_of(tables):
    """The edits that the tables of a text say, each with the path of its table."""
    return [edit for code in sorted(tables, key=str.encode) if code != "edition"
            for edit in territory_edits(code, tables[code])]


def lands_of(text, **limits):
    """The territories that a text says, or its first fault."""
    return lands_in(tomllib.loads(text), **limits)


def faults_of(text):
    """The first fault of a text, if it has one, and then that of each other territory by itself,
    each with the code of its territory."""
    tables = tomllib.loads(text)
    first = fault_in(tables)
    if first is None:
        return []
    code = max((code for code in tables if f"{first.path}.".startswith(f"{code}.")), key=len)
    further = [(other, fault_in({other: tables[other]}))
               for other in sorted(tables, key=str.encode) if other != code]
    return [(code, first), *(row for row in further if row[1])]


def fault_in(tables):
    """The first fault of tables, or None."""
    try:
        lands_in(tables)
    except TextFault as fault:
        return fault
    return None


def lands_in(tables, **limits):
    """The territories that the tables of a text say, or their first fault."""
    service = Service(**limits)
    for path, request in edits_of(tables):
        try:
            service.stage(request["op"], request)
        except Fault as fault:
            raise TextFault(path, "Refused", fault.members["name"]) from None
    return service.draft


def territory_edits(code, table):
    members = table_of(table, code, TERRITORY)
    name = text_at(members, code, "name")
    regime = regime_of(members, code, {})
    source = source_of(members, code)
    yield code, {"op": "add_land", "code": code, "name": name, **regime, **source}
    last = None
    for place, item in enumerate(list_of(members, code, "changes"), 1):
        path = f"{code}.changes.{place}"
        day, regime, source = change_of(table_of(item, path, CHANGE), path, regime)
        if last is not None and day <= last:
            raise TextFault(path, "NotLater")
        last = day
        yield path, {"op": "add_change", "code": code, "day": day, **regime, **source}
    for place, item in enumerate(list_of(members, code, "easters"), 1):
        path = f"{code}.easters.{place}"
        year, day, source = easter_of(table_of(item, path, EASTER), path)
        yield path, {"op": "add_exception", "code": code, "year": year, "day": day, **source}


def change_of(members, path, before):
    day, regime = day_at(members, path, "from"), regime_of(members, path, before)
    return day, regime, source_of(members, path)


def easter_of(members, path):
    year = needed(members, path, "year")
    if type(year) is not int:
        raise TextFault(f"{path}.year", "NotWhole")
    day = day_at(members, path, "date")
    return year, day, source_of(members, path)


def regime_of(members, path, before):
    """The regime of a table: what it says, otherwise what it was before."""
    regime = {}
    for word in WORDS:
        if word not in members and word in before:
            regime[word] = before[word]
        elif text_at(members, path, word) not in REGIME[word]:
            raise TextFault(f"{path}.{word}", f"No{word.capitalize()}", members[word])
        else:
            regime[word] = members[word]
    return regime


def source_of(members, path):
    """The source of a table as a member of its edit, if it has one; after that its note."""
    source = {}
    if "source" in members:
        source["source"] = text_at(members, path, "source")
        if not is_source(source["source"]):
            raise TextFault(f"{path}.source", "NotSource")
    if "note" in members:
        text_at(members, path, "note")
    return source


def day_at(members, path, name):
    """The day at a key: a date in a calendar, or a day number."""
    table, path = needed(members, path, name), f"{path}.{name}"
    if not isinstance(table, dict) or len(table) != 1:
        raise TextFault(path, "NotDay")
    (calendar, value), = table.items()
    if calendar not in DAY_KEYS:
        raise TextFault(path, "UnknownDayKey", calendar)
    if calendar == "day" and type(value) is int:
        return value
    if calendar in CALENDARS and isinstance(value, (datetime.date, datetime.time)):
        raise TextFault(path, "Unquoted")
    is_date = calendar in CALENDARS and isinstance(value, str) and DATE.fullmatch(value)
    if not is_date:
        raise TextFault(path, "NotDay")
    day = day_of(calendar, *map(int, is_date.groups()))
    if day is None:
        raise TextFault(path, "NoSuchDate", calendar)
    return day


def table_of(value, path, known):
    if not isinstance(value, dict):
        raise TextFault(path, "NotTable")
    for name in sorted(value, key=str.encode):
        if name not in known:
            raise TextFault(f"{path}.{name}", "UnknownKey", name)
    return value


def needed(members, path, name):
    if name not in members:
        raise TextFault(f"{path}.{name}", "Missing")
    return members[name]


def text_at(members, path, name):
    text = needed(members, path, name)
    if not isinstance(text, str):
        raise TextFault(f"{path}.{name}", "NotText")
    return text


def list_of(members, path, name):
    items = members.get(name, [])
    if not isinstance(items, list):
        raise TextFault(f"{path}.{name}", "NotList")
    return items


# ---- the edits between two registers


def differences(lands, expected):
    """The edits that change lands into the expected ones, whose order doesn't matter: an Easter on
    another day, or with another source, is dropped and added."""
    for code, land in expected.items():
        yield from territory_differences(code, lands.get(code), land)


def territory_differences(code, land, expected):
    if land is None:
        regime, source = dict(zip(WORDS, expected.starts[1])), cited(expected.sources, 1)
        yield {"op": "add_land", "code": code, "name": expected.name, **regime, **source}
    there, starts = periods_of(land), periods_of(expected)
    there = {1: starts[1]} if land is None else there
    for day in sorted(there.keys() - starts.keys()):
        yield {"op": "drop_change", "code": code, "day": day}
    for day, (regime, source) in sorted(starts.items()):
        if there.get(day) != (regime, source):
            op = "alter_change" if day in there else "add_change"
            yield {"op": op, "code": code, "day": day, **dict(zip(WORDS, regime)), **source}
    there, easters = easters_of(land), easters_of(expected)
    for year in sorted(year for year in there if easters.get(year) != there[year]):
        yield {"op": "drop_exception", "code": code, "year": year}
    for year, (day, source) in sorted(easters.items()):
        if there.get(year) != (day, source):
            yield {"op": "add_exception", "code": code, "year": year, "day": day, **source}


def periods_of(land):
    """The regimes of a territory by their first days, each with its source as a member."""
    starts = {} if land is None else land.starts
    return {day: (regime, cited(land.sources, day)) for day, regime in starts.items()}


def easters_of(land):
    """The listed Easters of a territory by their years, each with its source as a member."""
    exceptions = {} if land is None else land.exceptions
    return {year: (day, cited(land.easter_sources, year)) for year, day in exceptions.items()}


def after(lands, expected):
    """The register after a publish: each territory of the text as it says, the others as before."""
    return {**lands, **expected}


def comparable(lands):
    """A register as a value that can be compared, with its order."""
    return [(code, land.name, sorted(land.starts.items()), sorted(land.exceptions.items()),
             sorted(land.sources.items()), sorted(land.easter_sources.items()))
            for code, land in lands.items()]
