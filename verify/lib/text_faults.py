"""Texts of territories with faults in them, for register_text.py: each a random register whose
tables were spoiled in one place, or in a few."""
import copy
import datetime
import json

from lib.calendars import HIGH
from lib.territory_draws import CALENDARS
from reference import cited
from lib.territory_texts import WORDS, date_on

DAY = datetime.date(1752, 9, 14)
VALUES = [1, -1, 1.5, True, "", "text", [], [1], ["text"], [{}, 1], {}, {"day": 1}, DAY,
          datetime.datetime(1752, 9, 14, 12), 10_000, 2**63 - 1]
NO_DATES = ["1752-02-30", "52-1-1", "1752-13-1", "1752-0-1", "10000-01-01", "0001-01-01",
            "0001-01-02", "1752/1/1", "1752-001-1", "1752-1-001", " 1752-1-1", "1752-1-1 ", "",
            "1752-1", "1752-1-1-1", "+1752-1-1", "1752-1-x", "999999999-1-1", "9999999999-1-1",
            "\u0661\u0667\u0665\u0662-1-1", "1700-02-29", "1712-02-30", "9999-12-31", "000-1-1"]
NO_DAYS = [0, -1, HIGH + 1, 1, "1", 1.0, True, 2**63 - 1, DAY]
NO_WORDS = ["Julian", "roman", "", "julian ", "pisa", "astronomical", "swedish", "easter"]
NO_CODES = ["gb", "G", "GB-ENG", "", "ABCDEFGHI", "G B", "1A", "\u00c9A", "A.B", "A\nB"]
NO_NAMES = ["", "n" * 65, "\u00e9" * 33, "a\u0001b", "a\u007fb", "a\nb"]
NO_SOURCES = ["", "s" * 1_001, "\u00e9" * 501, "a\nb", "a\u007f", "\u0001", "\t", 5, ["a"], {}]
UNKNOWN = ["nmae", "Name", "sources", "changes ", "", "day", "easter", "note.text", "from", "year"]


def tables_of(chance, lands):
    """The tables of a text, as Python's reader of TOML gives them."""
    tables = {}
    for code, land in lands.items():
        table = {"name": land.name, **dict(zip(WORDS, land.starts[1]))}
        changes = [{"from": day_table(chance, day), **dict(zip(WORDS, land.starts[day])),
                    **cited(land.sources, day)} for day in sorted(land.starts)[1:]]
        easters = [{"year": year, "date": day_table(chance, day),
                    **cited(land.easter_sources, year)} for year, day in land.exceptions.items()]
        tables[code] = {**table, **cited(land.sources, 1), "changes": changes, "easters": easters}
    return tables


def day_table(chance, day):
    name = chance.choice(CALENDARS)
    return {name: "%04d-%02d-%02d" % date_on(name, day)}


def any_value(chance):
    return copy.deepcopy(chance.choice(VALUES))


def spoil(chance, tables):
    """Spoils one place of the tables."""
    code = chance.choice(list(tables))
    table = tables[code]
    if not isinstance(table, dict):
        return
    lists = [table[name] for name in ("changes", "easters") if isinstance(table.get(name), list)]
    parts = [part for items in lists for part in items if isinstance(part, dict)]
    part = chance.choice(parts) if parts and chance.random() < 0.7 else table
    kind = chance.randrange(13)
    if kind == 0:
        part[chance.choice(UNKNOWN)] = "text"
    elif kind == 1 and part:
        del part[chance.choice(list(part))]
    elif kind == 2 and part:
        part[chance.choice([*part, "note", "source"])] = any_value(chance)
    elif kind == 3:
        part[chance.choice(WORDS)] = chance.choice(NO_WORDS)
    elif kind == 4:
        tables[chance.choice(NO_CODES)] = tables.pop(code)
    elif kind == 5:
        table["name"] = chance.choice(NO_NAMES)
    elif kind == 6:
        tables[code] = any_value(chance)
    elif kind == 7:
        table[chance.choice(["changes", "easters"])] = any_value(chance)
    elif kind == 12:
        part["source"] = copy.deepcopy(chance.choice(NO_SOURCES))
    elif kind == 8 and lists:
        chance.choice(lists).reverse()
    else:
        spoil_day(chance, part)


def spoil_day(chance, part):
    """Spoils the day of a change or of a listed Easter, or its year."""
    if "year" in part and chance.random() < 0.3:
        part["year"] = chance.choice([0, -1, 10_000, 1.5, "1752", True, 1752])
        return
    name = "date" if "year" in part else "from"
    calendar = chance.choice(CALENDARS)
    part[name] = chance.choice([
        {calendar: chance.choice(NO_DATES)}, {calendar: chance.choice(NO_DATES)},
        {"day": chance.choice(NO_DAYS)}, {calendar: any_value(chance)},
        {"roman": "1752-09-14"}, {"day": 5, calendar: "1752-09-14"}, {}, "1752-09-14", DAY])


def spoiled_text(chance, lands):
    """A text of tables of which one place or a few are spoiled."""
    tables = tables_of(chance, lands)
    for _ in range(chance.choice([1, 1, 1, 2, 4])):
        spoil(chance, tables)
    return text_of(tables)


def text_of(tables):
    """The text of any tables."""
    return "".join(f"{key_text(code)} = {value_text(table)}\n" for code, table in tables.items())


def key_text(key):
    is_bare = key.isascii() and key.isalnum()
    return key if is_bare else string_text(key)


def string_text(text):
    return json.dumps(text, ensure_ascii=False).replace("\u007f", "\\u007f")


def value_text(value):
    if isinstance(value, dict):
        inside = ", ".join(f"{key_text(key)} = {value_text(item)}" for key, item in value.items())
        return f"{{ {inside} }}" if inside else "{}"
    if isinstance(value, list):
        return f"[{', '.join(map(value_text, value))}]"
    if isinstance(value, bool):
        return str(value).lower()
    if isinstance(value, (datetime.date, datetime.datetime)):
        return value.isoformat()
    return string_text(value) if isinstance(value, str) else repr(value)
