"""What `text`, `plan` and `publish` print, and how they report a text's faults, line by line.

Written from docs/TERRITORIES.md alone, for register_text.py.
"""
import re

from lib.calendars import dates
from lib.date_meaning import Territory, weekday_of
from lib.page_texts import YEARS, named, numbered
from lib.near import nearest
from lib.territory_texts import CHANGE, DAY_KEYS, EASTER, TERRITORY, WORDS, date_on
from reference import REGIME

DAY = ('write { gregorian = "1752-09-14" }, with julian or swedish in its place, '
       "or { day = 639797 }")
ALLOWED = {
    "name": "write a text", "note": "write a text", "from": DAY, "date": DAY,
    "source": "write a text of 1 to 1,000 bytes, with no control character",
    "calendar": "write julian, gregorian or swedish",
    "style": "write january, annunciation, nativity, september, pisan or easter",
    "rule": "write julian or gregorian",
    "changes": "write a list of tables", "easters": "write a list of tables",
    "year": "write a whole number",
}
KEYS = {
    "changes": "a change has from, calendar, style, rule, source and note",
    "easters": "a listed Easter has year, date, source and note",
    None: "a territory has name, calendar, style, rule, source, note, changes and easters",
}
NAMES = {"changes": CHANGE, "easters": EASTER, None: TERRITORY}
ROWS = {"changes": "change", "easters": "listed Easter"}
# The path of a list, or of a row of one.
LIST = re.compile(r"(.*)\.(changes|easters)(\.\d+)?", re.S)
# The characters on which a terminal acts, which are written by their numbers.
ESCAPED = re.compile("[\0-\x1f\x7f-\x9f\u061c\u200e\u200f\u2028-\u202e\u2066-\u2069]")
SHORT = {"\t": "\\t", "\n": "\\n", "\r": "\\r"}
REFUSED = {
    "BadCode": (1, "a code has 2 to 8 capital letters or digits, the first a letter"),
    "BadName": (2, "a name has 1 to 64 bytes, and no control character"),
    "DayOffLine": (5, "a day is 1 to 3652059"),
    "OpeningPeriod": (8, "a change is later than day 1, on which the territory begins"),
    "YearOffRange": (9, "a year is 1 to 9999"),
    "ExceptionExists": (10, "a year has at most one listed Easter"),
    "TooManyLands": (12, "the register has no room for another territory "
                         "(--limits lands=N allows more)"),
    "TooManyChanges": (13, "the register has no room for another change there "
                           "(--limits changes=N allows more)"),
    "TooManyExceptions": (14, "the register has no room for another listed Easter there "
                              "(--limits exceptions=N allows more)"),
    "StyleNeedsJulian": (19, "years from Easter require the Julian calendar and the Julian rule"),
}


# ---- the text of a register


def date_table(calendar, day):
    return '{ %s = "%04d-%02d-%02d" }' % (calendar, *date_on(calendar, day))


def source_lines(sources, of):
    """The line of a source, if there is one. It ends before the source."""
    return ["source = "] if of in sources else []


def texts_of(lands):
    """The names and sources in the order of their lines."""
    for land in lands.values():
        yield land.name
        yield from (land.sources[day] for day in sorted(land.sources))
        yield from (land.easter_sources[year] for year in sorted(land.easter_sources))


def territory_lines(code, land):
    """The lines of a territory. Those of its name and of sources end before the text."""
    before = land.starts[1]
    yield from [f"[{code}]", "name = "]
    yield from (f'{word} = "{value}"' for word, value in zip(WORDS, before))
    yield from source_lines(land.sources, 1)
    for day in sorted(land.starts)[1:]:
        regime = land.starts[day]
        yield from ["", f"[[{code}.changes]]", f"from = {date_table(regime[0], day)}"]
        yield from (f'{word} = "{new}"' for word, old, new in zip(WORDS, before, regime)
                    if old != new)
        yield from source_lines(land.sources, day)
        before = regime
    for year, day in sorted(land.exceptions.items()):
        calendar = land.period(day)[2][0]
        yield from ["", f"[[{code}.easters]]", f"year = {year}",
                    f"date = {date_table(calendar, day)}"]
        yield from source_lines(land.easter_sources, year)


def register_lines(lands):
    for place, (code, land) in enumerate(lands.items()):
        yield from [""] * (place > 0)
        yield from territory_lines(code, land)


# ---- a plan


def parts_of(regime):
    calendar, style, rule = regime
    return [f"{calendar} calendar", f"years from {YEARS[style]}", f"{rule} rule"]


def other_parts(before, regime):
    """What a regime has that the one before has not."""
    other = [part for part in parts_of(regime) if before is None or part not in parts_of(before)]
    return ", ".join(other) or "the same regime"


def edit_lines(lands, expected, edit):
    """The line of an edit, from the territories that there are to those of the text, and what an
    editor is shown of it."""
    yield edit_line(lands, expected, edit)
    code, op = edit["code"], edit["op"]
    if op == "add_exception":
        yield from easter_notes(code, edit["year"], edit["day"])
    elif op in ("add_change", "alter_change", "drop_change") and edit["day"] > 1:
        yield followed_line(code, expected[code], edit["day"])
        regime = tuple(edit.get(word) for word in WORDS)
        if op != "drop_change" and regime == expected[code].period(edit["day"] - 1)[2]:
            yield (f"note: {code}: nothing changes on that day: write the new calendar, style or "
                   "rule")


def followed_line(code, land, day):
    """The day before a day and that day, and the dates between, by the calendar before."""
    days = [named(Territory(land), at) for at in (day - 1, day)]
    old, first = dates(land.period(day - 1)[2][0]), dates(land.period(day)[2][0])[day]
    return f"{code}: {' is followed by '.join(days)}{gap_words(old, first, day)}"


def gap_words(old, first, day):
    """How many dates of a calendar are left out before the first date, or come twice from it."""
    left_out = twice = 0
    while day + left_out < len(old) and old[day + left_out] < first:
        left_out += 1
    while twice < day - 1 and old[day - 1 - twice] >= first:
        twice += 1
    if old[min(day + left_out, len(old) - 1)] != first and old[day - twice] != first:
        return ": by the calendar before, no day has that date"
    if left_out:
        return f": {left_out} date{'s' * (left_out > 1)} left out"
    if twice:
        return ": 1 date comes twice" if twice == 1 else f": {twice} dates come twice"
    return ""


def easter_notes(code, year, day):
    if day % 7:
        yield f"note: {code}: Easter is a Sunday, and that day is a {weekday_of(day)}"
    if not any((year, 3, 21) <= dates(calendar)[day] <= (year, 4, 26)
               for calendar in ("julian", "gregorian")):
        yield (f"note: {code}: that day is not from 21 March to 26 April {year}, Julian or "
               "Gregorian")


def edit_line(lands, expected, edit):
    """The line of an edit itself."""
    line = edit_words(lands, expected, edit)
    if "source" in edit:
        return f"{line}; source: {edit['source']}"
    is_lost = edit["op"] == "alter_change" and edit["day"] in lands[edit["code"]].sources
    return line + "; source removed" * is_lost


def edit_words(lands, expected, edit):
    """The line of an edit up to its source."""
    code, op = edit["code"], edit["op"]
    regime = tuple(edit.get(word) for word in WORDS)
    if op == "add_land":
        return f"{code}: new territory {edit['name']}: {other_parts(None, regime)}"
    if op == "alter_change" and edit["day"] == 1:
        return f"{code}: opening: {other_parts(lands[code].starts[1], regime)}"
    if op in ("add_change", "alter_change"):
        before = expected[code].period(edit["day"] - 1)[2]
        day = numbered(Territory(expected[code]), edit["day"])
        return f"{code}: from {day}: {other_parts(before, regime)}"
    if op == "drop_change":
        return f"{code}: no longer a change on {numbered(Territory(lands[code]), edit['day'])}"
    if op == "add_exception":
        day = numbered(Territory(expected[code]), edit["day"])
        return f"{code}: Easter of {edit['year']} on {day}"
    return f"{code}: no longer a listed Easter of {edit['year']}"


def absent_lines(lands, expected):
    absent = [code for code in lands if code not in expected]
    return ["not in the text, so unchanged: " + " ".join(absent)] if absent else []


def plan_end(count, editions):
    if count == 0:
        return "nothing to change"
    edits = "1 edit: publish makes it" if count == 1 else f"{count} edits: publish makes them"
    return f"{edits} edition {editions + 1}"


def publish_begin(count, editions, journal):
    return [f"note: {journal} is a new journal"] * (count > 0 and editions == 0)


def publish_end(count, editions):
    if count == 0:
        return f"nothing to change: edition {editions} is the newest"
    return f"published as edition {editions + 1}"


# ---- faults


def escaped(text):
    """A text as in a message: the characters on which a terminal acts are escaped."""
    return ESCAPED.sub(lambda result: SHORT.get(result[0], f"\\u{{{ord(result[0]):x}}}"), text)


def fault_words(fault):
    """The message of a fault, with the path to it."""
    key = fault.path.rsplit(".", 1)[-1]
    words = {
        "UnknownKey": lambda: f"unknown key: {KEYS[part_of(fault.path, fault.detail)]}",
        "NotTable": lambda: "write a table",
        "NotLater": lambda: "not later than the change before it",
        "Missing": lambda: f"missing: {ALLOWED[key]}",
        "Unquoted": lambda: 'put the date in quotes, such as { gregorian = "1752-09-14" }',
        "NoSuchDate": lambda: f"no such day in the {fault.detail} calendar",
        "Refused": lambda: "{1} {0}: {2}".format(fault.detail, *REFUSED[fault.detail]),
    }
    words |= {f"No{word.capitalize()}": lambda: f'"{fault.detail}" is not a {key}: {ALLOWED[key]}'
              for word in WORDS}
    reason_text = words.get(fault.reason, lambda: ALLOWED[key])()
    return "\n".join([escaped(f"{fault.path}: {reason_text}"), *fault_help(fault)])


def check_lines(path, text, faults):
    """What `check` reports of a text with these faults, each with the code of its territory."""
    if not faults:
        return ""
    count = "1 fault" if len(faults) == 1 else f"{len(faults)} faults"
    lines = text.split("\n")
    return "".join(f"oldstyle: {path}: {fault_words(fault)}\n{place_note(code, lines)}"
                   for code, fault in faults) + f"note: {count}\n"


def place_note(code, lines):
    """The line on where the table of a code begins, if it is found."""
    for number, line in enumerate(lines, 1):
        if line.startswith((f"[{code}]", f"{code} =")):
            return f"note: {escaped(code)} begins on line {number}\n"
    return ""


def fault_help(fault):
    """The line below that message, in a list, if there is one."""
    if fault.reason in ("NotTable", "NotList"):
        return ["help: " + table_help(fault.path)]
    names = names_allowed(fault)
    meant = nearest(fault.detail, names) if names else None
    if meant:
        return [f"help: {escaped(fault.detail)}: did you mean {meant}?"]
    if fault.reason == "UnknownDayKey":
        return [f"help: {escaped(fault.detail)}: a day has one key: gregorian, julian, swedish "
                "or day"]
    return []


def table_help(path):
    """What to do about what is not a table, or not a list of tables, at a path."""
    row = LIST.fullmatch(path)
    if row:
        return f"write [[{escaped(row[1])}.{row[2]}]] above the keys of each {ROWS[row[2]]}"
    if path in TERRITORY:
        return f"{path} is a key of a territory: write it below the line of a code, such as [GB]"
    return (f"{escaped(path)}: write each territory as a table: [GB], for example, and its keys "
            "below")


def names_allowed(fault):
    """The names of which the wrong one of a fault may be a mistyped one."""
    if fault.reason == "UnknownKey":
        return NAMES[part_of(fault.path, fault.detail)]
    if fault.reason == "UnknownDayKey":
        return DAY_KEYS
    return REGIME.get(fault.reason.removeprefix("No").lower())


def part_of(path, name):
    """Returns the list that a key of this path is in, of changes or of Easters, or None."""
    tables = path.removesuffix("." + name).split(".")
    return tables[-2] if len(tables) > 1 and tables[-2] in KEYS else None
