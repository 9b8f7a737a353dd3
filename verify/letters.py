#!/usr/bin/env python3
"""Compares tables of letters with tables written independently, byte by byte.

Each table is about a random territory, and has up to 60 rows. Its fields are separated by commas,
semicolons or tabs, in quotes or not, with line ends in them; its lines end by LF, CR or CRLF, and
some are empty. Its dates are of all forms, its places and weekdays are wrong now and then, and some
have spaces around them. Some records have the most bytes that a record may have. Many tables have a
fault in the header or in a row: what comes before it must be written, and the fault must be
reported with the line on which the record begins, and status 1. With --keep-going a fault in a row
is a remark instead, and the rows after it are written. In the end tables of over 128 MiB are read,
which must show on a terminal how far they are.
"""
import os
import random
import subprocess
import tempfile

from lib.calendars import WEEKDAYS
from lib.common import CommandLine, end, run_at_terminal
from lib.date_draws import (MALFORMED, any_case, date_text, journal_lines, label_near, middle_day,
                            write_journal)
from lib.date_meaning import Territory
from lib.letter_rows import COLUMNS, letter_fields
from lib.near import nearest

SEPARATORS = {"comma": ",", "semicolon": ";", "tab": "\t"}
READ = ["place", "date", "weekday"]
TEXTS = ["", "x", "Sir, yours came", 'he said "no"', "one\ntwo", "one\rtwo", "one\r\ntwo", "a;b",
         "a\tb", "\u00e9", " ", "'"]
WRONG_PLACES = ["ZZ", "", "X", "a place"]
WRONG_WEEKDAYS = ["Fryday", "Fri", "5"]
SPACES = ["", "", "", " ", "\t", "  "]
LONGEST = 65_536

# What is reported of a table, after `oldstyle: letters line <n>: `.
WORKBOOK = "the table is a workbook (.xlsx, .ods): save it as CSV in UTF-8"
IN_UTF_16 = "the table is in UTF-16: save it as CSV in UTF-8"
IS_THERE = ("the column {name} is already there: remove it, rename it, or replace all twelve with "
            "--replace")
OTHER_NUMBER = "a different number of fields than the header: {} instead of {}"
TOO_LONG = "a record of more than 65536 bytes"
OPEN_QUOTE = "a quote that opens in this record is never closed"
TEXT_AFTER = "text follows a closing quote"

# The remarks of the same with --keep-going.
FLAWS = ["another number of fields", "more than 65536 bytes", "quote not closed",
         "text after a closing quote"]


def lacks(name, result, role):
    """The line of a header that lacks a column, and has these."""
    one_place = ", or the place of all rows with --in" if role == "place" else ""
    return f"no column {name}: the columns are {result}: name yours with --{role}{one_place}"


def quoted(field):
    return '"' + field.replace('"', '""') + '"'


def needs_quotes(field, separator):
    return any(mark in field for mark in (separator, '"', "\n", "\r"))


def written_row(fields, separator):
    """A row as it is written: quoted if it needs it."""
    return separator.join(quoted(field) if needs_quotes(field, separator) else field
                          for field in fields) + "\n"


def line_ends(text):
    """How many lines end in a text."""
    return text.replace("\r\n", "\n").replace("\r", "\n").count("\n")


class Form:
    """How a table is written: what separates its fields, how its lines end, what columns it has."""

    def __init__(self, chance):
        self.chance = chance
        self.word, self.separator = chance.choice(list(SEPARATORS.items()))
        self.line_end = chance.choice(["\n", "\r\n", "\r"])
        self.names = {role: chance.choice([role, role, "the " + role]) for role in READ}
        self.has_weekday = chance.random() < 0.7
        others = chance.sample(["text", "a note", "No.", "\u00fcber"], chance.randint(0, 3))
        roles = READ if self.has_weekday else READ[:2]
        self.keeps_going = chance.random() < 0.4
        self.columns = [*others, *(self.names[role] for role in roles)]
        chance.shuffle(self.columns)

    def options(self):
        words = []
        for role in READ if self.has_weekday else READ[:2]:
            if self.names[role] != role:
                words += [f"--{role}", self.names[role]]
        words += ["--keep-going"] if self.keeps_going else []
        return words + (["--separator", self.word] if self.chance.random() < 0.3 else [])

    def field_text(self, field):
        """A field in quotes if it needs them, and sometimes if it doesn't."""
        in_quotes = needs_quotes(field, self.separator) or self.chance.random() < 0.1
        return quoted(field) if in_quotes else field

    def record(self, fields):
        return self.separator.join(self.field_text(field) for field in fields)

    def empty_lines(self):
        return self.line_end * self.chance.choice([0, 0, 0, 0, 1, 2])


class Table:
    """A table as it is read, and what must be written and reported for it."""

    def __init__(self, form):
        self.form, self.text, self.out, self.fault = form, form.empty_lines(), "", ""

    def add(self, record, last=False):
        self.text += record + ("" if last else self.form.line_end)

    def fault_line(self, why):
        """The line of a fault in the record that begins where the text ends."""
        return f"oldstyle: letters line {1 + line_ends(self.text)}: {why}\n"


def row_of(chance, form, territory, middle):
    """A row by the names of its columns."""
    date = date_text(chance, label_near(chance, territory, middle))
    read = {"place": any_case(chance, "XX"), "date": date,
            "weekday": chance.choice(["", any_case(chance, chance.choice(WEEKDAYS))])}
    wrong = {"place": WRONG_PLACES, "date": MALFORMED, "weekday": WRONG_WEEKDAYS}
    for role in READ:
        if chance.random() < 0.08:
            read[role] = chance.choice(wrong[role])
        read[role] = chance.choice(SPACES) + read[role] + chance.choice(SPACES)
    named = {form.names[role]: text for role, text in read.items()}
    return [named[name] if name in named else chance.choice(TEXTS)
            for name in form.columns], read


def bad_header(chance, form):
    """A header that lacks a column, or has one of the added ones; and why it is bad."""
    roles = READ if form.has_weekday and form.names["weekday"] != "weekday" else READ[:2]
    role = chance.choice([*roles, None])
    columns = list(form.columns)
    if role is None:
        name = chance.choice(COLUMNS)
        columns.insert(chance.randint(0, len(columns)), name)
        return columns, IS_THERE.format(name=name)
    columns[columns.index(form.names[role])] = "other"
    return columns, lacks(form.names[role], ", ".join(columns), role)


def lengthened(form, fields, place, length):
    """A record of that length in bytes, with x's in one of its fields, and the fields then."""
    texts = [form.field_text(field) for field in fields]
    texts[place] = ""
    filled = "x" * (length - len(form.separator.join(texts).encode()))
    texts[place] = filled
    return form.separator.join(texts), [*fields[:place], filled, *fields[place + 1:]]


def bad_record(chance, form, fields):
    """A record that ends the table, why, of which kind that is, and the fields that it has."""
    kind = chance.randrange(4)
    if kind == 0:
        more = fields[:-1] if len(fields) > 2 and chance.random() < 0.5 else [*fields, "x"]
        return form.record(more), OTHER_NUMBER.format(len(more), len(form.columns)), kind, more
    if kind == 1:
        record, long = lengthened(form, fields, 0, LONGEST + 1)
        return record, TOO_LONG, kind, long
    front = form.record(fields[:-1]) + form.separator
    if kind == 2:
        last = "never closed" + form.line_end
        return f'{front}"{last}', OPEN_QUOTE, kind, [*fields[:-1], last + form.line_end]
    return f'{front}"closed" here', TEXT_AFTER, kind, [*fields[:-1], "closed here"]


def flawed_row(form, edition, kind, fields):
    """The row of a record with a flaw: no day, one remark, and further fields after these."""
    width = len(form.columns)
    own = (fields + [""] * width)[:width]
    added = [""] * (len(COLUMNS) - 2) + [str(edition), FLAWS[kind]]
    return written_row([*own, *added, *fields[width:]], form.separator)


def table_of(chance, form, territories, edition, middle):
    """A table with a fault or none, and its name columns as they are found."""
    table = Table(form)
    rows, bad = chance.randint(0, 60), chance.choice([None, None, -1, 1])
    if bad == -1:
        columns, why = bad_header(chance, form)
        table.fault = table.fault_line(why)
        table.add(form.record(columns))
        return table
    table.add(form.record(form.columns), last=rows == 0)
    table.out = written_row(form.columns + COLUMNS, form.separator)
    for place in range(rows):
        table.text += form.empty_lines()
        fields, read = row_of(chance, form, territories["XX"], middle)
        if bad and chance.random() < 0.05:
            record, why, kind, fields = bad_record(chance, form, fields)
            if not form.keeps_going:
                table.fault = table.fault_line(why)
                table.add(record)
                return table
            table.add(record)
            table.out += flawed_row(form, edition, kind, fields)
            if kind == 2:
                return table
            continue
        record = form.record(fields)
        if "text" in form.columns and chance.random() < 0.02:
            record, fields = lengthened(form, fields, form.columns.index("text"), LONGEST)
        table.add(record, last=place == rows - 1 and chance.random() < 0.5)
        weekday = read["weekday"] if form.has_weekday else ""
        result = letter_fields(territories, edition, read["place"], read["date"], weekday)
        table.out += written_row(fields + result, form.separator)
    return table


def differs(program, journal, form, table):
    """What the program was given and gave, if it writes or reports something else."""
    words = [program, "letters", journal, *form.options()]
    mark = form.chance.choice(["", "\ufeff"])
    done = subprocess.run(words, input=(mark + table.text).encode(), capture_output=True,
                          check=False)
    result = done.returncode, done.stdout.decode(), done.stderr.decode()
    expected = 1 if table.fault else 0, table.out, table.fault
    if result == expected:
        return []
    table_path = f"/tmp/letters-{os.getpid()}.csv"
    with open(table_path, "w", encoding="utf-8", newline="") as file:
        file.write(mark + table.text)
    pairs = enumerate(zip(result[1], expected[1]))
    places = [place for place, (one, other) in pairs if one != other]
    at = places[0] if places else min(len(result[1]), len(expected[1]))
    return [f"{words}, the table in {table_path}: status and fault {result[0]} {result[2]!r}, "
            f"expected {expected[0]} {expected[2]!r}; at {at} {result[1][at - 60:at + 90]!r}, expected "
            f"{expected[1][at - 60:at + 90]!r}"]


def long_table(program, journal, *words):
    """What a table of over 128 MiB shows on a terminal, if that or its output is something else."""
    table = b"place,date\n" + b"\n" * (128 << 20)
    done, screen = run_at_terminal([program, "letters", journal, *words], input=table)
    header = ",".join(["place", "date", *COLUMNS]) + "\n"
    lines = [f"oldstyle: {read} MiB of the letters read" for read in (64, 128)]
    if (done.returncode, done.stdout.decode(), screen.decode().splitlines()) == (0, header, lines):
        return []
    return [f"{words}: a table of 128 MiB: status {done.returncode}, {done.stdout[:200]!r} and "
            f"{screen!r}"]


def main():
    line = CommandLine(__doc__)
    line.add_program()
    line.add_count(200, "tables")
    line.add_seed()
    options = line.read()
    chance = random.Random(options.seed)
    differ = faults = 0
    with tempfile.TemporaryDirectory() as folder:
        journal = os.path.join(folder, "some.journal")
        for _ in range(options.count):
            middle, form = middle_day(chance), Form(chance)
            service = write_journal(journal, journal_lines(chance, middle))
            lands = {code: Territory(land) for code, land in service.published.items()}
            table = table_of(chance, form, lands, service.edition, middle)
            faults += table.fault != ""
            for difference in differs(options.program, journal, form, table):
                differ += 1
                print(difference, flush=True)
        places = os.path.join(folder, "places.csv")
        with open(places, "w", encoding="utf-8") as file:
            file.write("place,code\n")
        for words in ((), ("--places", places)):
            for difference in long_table(options.program, journal, *words):
                differ += 1
                print(difference, flush=True)
    print(f"{options.count} tables, {faults} of them with a fault: {differ} differ")
    return 1 if differ else 0


if __name__ == "__main__":
    end(main)
