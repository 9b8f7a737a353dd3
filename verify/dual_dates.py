#!/usr/bin/env python3
"""Checks that what is written for a day is read as that day: a property over random days.

Random days of random territories, most of them from January to March. For each the dual text is
asked, and if that has both years the text with the last two digits of the later one and with all
four; each without a weekday and with the day's before it. A row of `letters` must have that day,
days of its weekday first, and a remark that agrees with the days and weekdays of the row; the page
of `read` must have the day's line, with ` ok` after it if the weekday was asked.
"""
import csv
import os
import random
import tempfile

from lib.calendars import HIGH
from lib.common import CommandLine, end, run
from lib.date_draws import journal_lines, later_digits, middle_day, write_journal
from lib.date_meaning import Territory, parse, weekday_of
from lib.letter_rows import COLUMNS

EACH = 1_000


def random_day(chance, territory, middle):
    """A day about the changes or anywhere, moved to January, February or March mostly."""
    day = chance.choice([middle + chance.randint(-1_600, 1_600), chance.randint(1, HIGH)])
    day = min(HIGH, max(1, day))
    if chance.random() < 0.7:
        day += chance.randint(0, 110) - 30 * (territory.date(day)[1] - 1) - territory.date(day)[2]
    return min(HIGH, max(1, day))


def texts_of(territory, day):
    """Each text that must mean the day, without its weekday: none before the year 100."""
    if territory.label(day)[0] < 100:
        return
    dual = territory.dual(day)
    yield dual
    if "/" in dual:
        front, later = dual.split("/")[0], territory.date(day)[0]
        yield f"{front}/{later_digits(later, 2)}"
        yield f"{front}/{later_digits(later, 4)}"


def all_texts(territory, day):
    for text in texts_of(territory, day):
        yield text, None
        yield f"{weekday_of(day)} {text}", weekday_of(day)


def remark_of(row, text, weekday):
    """The remark that agrees with the days, weekdays and dual texts of a row."""
    duals, weekdays = row["dual"].split("; "), row["weekday_found"].split("; ")
    remarks = []
    if len(duals) > 1:
        is_one = weekday is not None and weekdays.count(weekday) == 1
        remarks.append("by its weekday" if is_one else "several days")
    years = [int(dual.split(" ")[2].split("/")[0]) for dual in duals]
    if "/" in text and any(year != parse(text).year for year in years):
        remarks.append("not counted double there")
    if parse(text).has_three_digits:
        remarks.append("year of three digits")
    return "; ".join(remarks)


def row_differs(row, day, text, weekday):
    days = row["days"].split("; ")
    if str(day) not in days:
        return "the day is not found"
    if weekday and row["weekday_found"].split("; ")[0] != weekday:
        return "a day of another weekday is first"
    expected = remark_of(row, text, weekday)
    return "" if row["remark"] == expected else f"the remark is not {expected!r}"


def letters_differ(program, journal, texts):
    """Each text whose row in a table of letters hasn't the day."""
    lines = ["place,date", *(f"XX,{text}" for _, text, _ in texts)]
    done = run(program, ["letters", journal], lines)
    rows = list(csv.DictReader(done.stdout.splitlines()))
    if done.returncode or len(rows) != len(texts) or list(rows[0])[2:] != COLUMNS:
        yield f"status {done.returncode}, {len(rows)} of {len(texts)} rows: {done.stderr}"
    for row, (day, text, weekday) in zip(rows, texts):
        why = row_differs(row, day, text, weekday)
        if why:
            yield f"day {day}, {text}: {why}: {row}"


def page_differs(program, journal, day, text, weekday):
    done = run(program, ["read", journal, "XX", text])
    lines = [line for line in done.stdout.splitlines() if f"    day {day}    JDN " in line]
    if len(lines) != 1 or lines[0].endswith(" ok") != (weekday is not None):
        yield f"day {day}, {text}: {done.stdout}{done.stderr}"


def differences(program, chance, journal, count, read):
    """Those about this many random days of a random territory, of which some are read too."""
    middle = middle_day(chance)
    service = write_journal(journal, journal_lines(chance, middle))
    territory = Territory(service.published["XX"])
    days = [random_day(chance, territory, middle) for _ in range(count)]
    texts = [(day, *text) for day in days for text in all_texts(territory, day)]
    yield from letters_differ(program, journal, texts)
    for day in days[:read]:
        for text in all_texts(territory, day):
            yield from page_differs(program, journal, day, *text)


def main():
    line = CommandLine(__doc__)
    line.add_program()
    line.add_count(100_000, "days through letters")
    line.add_number("--read", 500, "days of these through read too", 0)
    line.add_seed()
    options = line.read()
    chance, differ = random.Random(options.seed), 0
    with tempfile.TemporaryDirectory() as folder:
        journal = os.path.join(folder, "some.journal")
        for done in range(0, options.count, EACH):
            count = min(EACH, options.count - done)
            read = options.read * count // options.count
            for difference in differences(options.program, chance, journal, count, read):
                differ += 1
                print(difference, flush=True)
    print(f"{options.count} days, {differ} texts differ")
    return 1 if differ else 0


if __name__ == "__main__":
    end(main)
