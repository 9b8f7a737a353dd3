"""The messages of --explain, written from docs/FORMATS.md alone."""

OPS = """op is add_land, add_change, alter_change, drop_change, add_exception, drop_exception or \
publish, or the query read, day, easter, figures, lands, periods, exceptions, changes, feasts, \
convert or written"""
MESSAGES = {
    1: "a code has 2 to 8 capital letters or digits, the first a letter",
    2: "a name has 1 to 64 bytes, and no control character",
    3: "an edit names a territory that the register has",
    4: "a code belongs to one territory",
    5: "a day is 1 to 3652059",
    6: "a territory has at most one change on a day",
    7: "a change is on a day on which a period starts",
    8: "a change is later than day 1, on which the territory begins",
    9: "a year is 1 to 9999",
    10: "a year has at most one listed Easter",
    11: "only a year with a listed Easter can lose it",
    12: "the register has no room for another territory (--limits lands=N allows more)",
    13: "the register has no room for another change there (--limits changes=N allows more)",
    14: "the register has no room for another listed Easter there "
        "(--limits exceptions=N allows more)",
    15: "an edition has at least one edit",
    16: "the journal has no room for another edit",
    17: "the journal has no room for another edition",
    18: "a month is 1 to 12 and a day 1 to 31",
    19: "years from Easter require the Julian calendar and the Julian rule",
    31: "a line has at most 65536 bytes",
    32: "a line is one JSON object in UTF-8, and this one is not JSON",
    33: "a line is one JSON object, and this one is another value",
    35: OPS,
    36: "a reader is 1 to the number of readers (--readers N)",
    45: "this service answers queries, and takes no edit and no publish",
    46: "the journal has no sources: serve --keep with --upgrade saves it as version 4",
}
OF_QUERIES = {
    3: "no published territory has this code: the query lands lists them",
    9: "a year is 1 to 9999, and that of read and convert 0 to 10000",
}
OF_MEMBERS = {
    "op": "op is a text: the name of an edit or of a query, or publish",
    "code": "code is a text: the code of a territory, such as GB",
    "name": "name is a text: the name of a territory",
    "calendar": "calendar is julian, gregorian or swedish",
    "style": "style is january, annunciation, nativity, september, pisan or easter",
    "rule": "rule is julian or gregorian",
    "source": "source is a text of 1 to 1000 bytes with no control character, or is left out",
    "reader": "reader is a whole number, such as 1",
    "year": "year is a whole number, such as 1731",
    "month": "month is a whole number, such as 2 for February",
    "day": "day is a whole number",
    "date": "date is a text, such as 11 February 1731",
    "weekday": "weekday is the English name of a weekday, or is left out",
}


UNKNOWN = "the request has no member of this name (--strict-members)"


def message_of(members, is_unknown):
    """The message of a reply with these members, which has a fault."""
    if "field" in members:
        return UNKNOWN if is_unknown else OF_MEMBERS[members["field"]]
    number = members["fault"]
    return OF_QUERIES.get(number, MESSAGES[number]) if "reader" in members else MESSAGES[number]
