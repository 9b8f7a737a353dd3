"""Tables of letters in CSV, changed at random: a target of fuzz.py.

The table is also read independently, by docs/PAGES.md alone, so the rows that are written, the
fault that ends it and the line on which its record begins are known. The twelve fields are known
for dates in the usual forms of one day.
"""
import functools
import os
import re

from lib.common import TOP
from lib.letter_rows import COLUMNS, letter_fields
from letters import (IN_UTF_16, IS_THERE, LONGEST, OPEN_QUOTE, OTHER_NUMBER, SEPARATORS,
                     TEXT_AFTER, TOO_LONG, WORKBOOK, lacks, line_ends, nearest)
from lib.mutations import Run, mutated
from lib.text_pages import escaped
from reference import REGIME, Service
from lib.date_meaning import Malformed, Territory, days_by_month_and_day, parse, weekday_named

JOURNAL = os.path.join(TOP, "examples", "samples.journal")
SPACES = " \t\n\r\f"
MARK = b"\xef\xbb\xbf"
ROLES = ["place", "date", "weekday"]
# (of two quotes none closes the field)
QUOTED = re.compile(b'"((?:[^"]|"")*)"(?!")')
SAMPLES = [
    b"place,date\nGB,1731-02-11\nSE,30 February 1712\nGB,Friday 11 February 1731/2\n",
    b'letter;place;date;weekday\r\n1;GB;11 February 1731/2;Friday\r\n\r\n"2";"FR";1543-04-01;\r\n',
    b'date\tplace\ttext\n1752-09-05\tGB\t"one\ntwo"\n"1700-02-29"\tGreat Britain\the said "no"\n',
    b'\xef\xbb\xbfplace,date,"a ""note"""\rGB,1751-01-10,"a,b;c"\rZZ,n.d.,\r',
    b"place,date,weekday\nGB, 11 February 1731 ,friday\nGB,11 February 1731,Fryday\n,,\n",
    b"place,date,edtf\nGB,1731\n", b"code,when\nGB,1731-02-11\n", b"", b"\n\n", b"place",
]
WORDS = [b"place", b"date", b"weekday", b"GB", b"SE", b"FR", b"ZZ", b"Great Britain", b"Sweden",
         b"1731-02-11", b"11 February 1731/2", b"Friday", b"1752-09-05", b"0045-02-29", b"days",
         b"remark", b"edition", b",,", b'","', b'"\n', b"\n\n", b"1731/2-02-11", b"10000-12-31"]


def records(table, named):
    """The records of a table, each with the line on which it begins and its separator: its fields,
    or why it has none."""
    table, at, line, found = table.removeprefix(MARK), 0, 1, named
    while True:
        while table[at:at + 1] in (b"\r", b"\n"):
            at += 2 if table[at:at + 2] == b"\r\n" else 1
            line += 1
        if at == len(table):
            return
        fields, end, found, why = record_at(table, at, found)
        why = TOO_LONG if end - at > LONGEST - (why == TEXT_AFTER) else why
        yield line, found or b",", fields, why
        if why:
            return
        found = found or b","
        line += line_ends(table[at:end].decode("latin-1"))
        at = end


def record_at(table, at, found):
    """The fields of the record at a place, its end, its separator, and what is wrong."""
    fields = []
    while True:
        field, at, why = field_at(table, at, found)
        fields.append(field)
        mark = table[at:at + 1]
        if why or mark in (b"", b"\r", b"\n"):
            return fields, at, found, why
        found, at = mark, at + 1


@functools.cache
def field_end(found):
    """What ends a field."""
    return re.compile(b"[\r\n" + re.escape(found or b",;\t") + b"]")


def field_at(table, at, found):
    """The field at a place, its end, and what is wrong."""
    if table[at:at + 1] != b'"':
        end = field_end(found).search(table, at)
        end = end.start() if end else len(table)
        return table[at:end], end, None
    quoted = QUOTED.match(table, at)
    if not quoted:
        return b"", len(table), OPEN_QUOTE
    end = quoted.end()
    is_stray = end < len(table) and not field_end(found).match(table, end)
    return quoted[1].replace(b'""', b'"'), end, TEXT_AFTER if is_stray else None


def row_written(fields, separator):
    """A row as it is written: quoted if it needs it."""
    marks = [separator, b'"', b"\n", b"\r"]
    return separator.join(
        b'"' + field.replace(b'"', b'""') + b'"' if any(mark in field for mark in marks) else field
        for field in fields) + b"\n"


def walk_calendars():
    """Walks along the line once by each calendar, for all processes that are forked after that."""
    for calendar in REGIME["calendar"]:
        days_by_month_and_day(calendar)


@functools.cache
def register():
    """The territories of the samples, their codes by codes and names in small letters, and the
    edition."""
    service = Service()
    with open(JOURNAL, "rb") as file:
        for line in file.read().splitlines()[1:]:
            service.reply(line)
    lands = {code: Territory(land) for code, land in service.published.items()}
    names = {text.encode().lower(): code for code, land in service.published.items()
             for text in (code, land.name)}
    return lands, names, service.edition


@functools.lru_cache(20_000)
def twelve(place, date, weekday):
    """The twelve fields of a row, or None if they are not known."""
    lands, names, edition = register()
    try:
        place, date, weekday = (field.decode().strip(SPACES) for field in (place, date, weekday))
        parse(date)
    except (UnicodeDecodeError, Malformed):
        return None
    place = place if place in lands else names.get(place.encode().lower(), place)
    if weekday and weekday_named(weekday) is None and not weekday.isascii():
        return None
    return [field.encode() for field in letter_fields(lands, edition, place, date, weekday)]


def index_of(columns, role):
    """The index of the column of a role: the first of its name, else the first in other letters
    or with white space around it. None if there is no such column."""
    named = [role.encode() == name for name in columns]
    alike = [role.encode() == name.strip(SPACES.encode()).lower() for name in columns]
    return next((names.index(True) for names in (named, alike) if True in names), None)


def bad_header(columns):
    """Why a header is bad, or None."""
    for name in COLUMNS:
        if name.encode() in columns:
            return IS_THERE.format(name=name).encode()
    for role in ROLES[:2]:
        if index_of(columns, role) is None:
            if columns[0].startswith(b"PK\3\4"):
                return WORKBOOK.encode()
            if any(b"\0" in name for name in columns):
                return IN_UTF_16.encode()
            found = escaped(b", ".join(columns).decode("utf-8", "replace"))
            texts = [name.decode("utf-8", "replace").strip(SPACES) for name in columns]
            near = nearest(role, texts)
            more = "" if near is None else f"\nhelp: did you mean {escaped(near)}?"
            return (lacks(role, found, role) + more).encode()
    return None


def expected_lines(table, named):
    """The rows that must be written, each with its twelve fields or None, and what is reported."""
    rows, columns = [], None
    for line, separator, fields, why in records(table, named):
        why = why and why.encode()
        if not why and columns is None:
            columns, why = fields, bad_header(fields)
            if not why:
                rows.append((separator, fields, [name.encode() for name in COLUMNS]))
        elif not why and len(fields) != len(columns):
            why = OTHER_NUMBER.format(len(fields), len(columns)).encode()
        elif not why:
            indices = [index_of(columns, role) for role in ROLES]
            read = [b"" if index is None else fields[index] for index in indices]
            rows.append((separator, fields, twelve(*read)))
        if why:
            return rows, b"oldstyle: letters line %d: %s\n" % (line, why)
    if columns is None:
        return rows, b"oldstyle: letters line 1: no header: the first line has the names of the " \
                     b"columns\n"
    return rows, b""


def why_other(out, rows):
    """What differs in the table that was written."""
    at = 0
    for separator, fields, more in rows:
        if more is not None:
            row = row_written([*fields, *more], separator)
            if out[at:at + len(row)] != row:
                return f"a row {out[at:at + len(row)]!r}, expected {row!r}"
            at += len(row)
            continue
        front = row_written(fields, separator)[:-1] + separator
        if not out.startswith(front, at):
            return f"a row that begins {out[at:at + len(front)]!r}, expected {front!r}"
        found, end, _, why = record_at(out, at + len(front), separator)
        if why or len(found) != len(COLUMNS) or found[-2] != str(register()[2]).encode():
            return f"the fields {found!r}, {why}"
        if row_written(found, separator) != out[at + len(front):end + 1]:
            return f"fields that are quoted otherwise: {out[at + len(front):end + 1]!r}"
        at = end + 1
    return f"more than its rows: {out[at:at + 100]!r}" if at != len(out) else ""


class Letters:
    """A table each time."""

    about = "tables of letters"
    prepare = staticmethod(walk_calendars)

    def __init__(self, program, _folder):
        self.program = program

    def round(self, chance):
        """The number of inputs, and what is wrong with them, each with the input."""
        table = mutated(chance, SAMPLES, WORDS)
        word = chance.choice([None] * 8 + list(SEPARATORS))
        words = ["--separator", word] if word else []
        done = Run([self.program, "letters", JOURNAL, *words], table)
        rows, fault = expected_lines(table, SEPARATORS[word].encode() if word else None)
        why = done.why_wrong() or why_other(done.out, rows)
        if not why and (done.status, done.stderr) != (1 if fault else 0, fault):
            why = f"status {done.status} and {done.stderr!r}, expected {fault!r}"
        return 1, [(why, words, table)] if why else []
