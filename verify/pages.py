#!/usr/bin/env python3
"""Compares the pages that people read with pages written independently.

Random territories are put into a journal, with their changes near one another, listed Easters and
pending edits. For each date the page of `read` is compared with the one of `page_texts.py`, which
asks every day of the line that has the month and day. So are those of months, years, ranges, bounds
and sets in random forms, by `spans.py`, with the answer of the query `written`, and the pages of
days about the changes, of the date's month and year, of conversions, and of the territories. No
line of these pages and of almanacs may end with a space. Wrong arguments, unknown codes and missing
files must be reported as docs/ERRORS.md says.
"""
import os
import random
import tempfile

from lib.calendars import MONTHS, WEEKDAYS, dates, written
from lib.common import CommandLine, compact, end, run
from lib.date_draws import (MALFORMED, NAMES, any_case, date_text, day_near, journal_lines,
                            label_near, middle_day, write_journal)
from lib.date_meaning import Malformed, Territory, days_by_month_and_day, parse
from lib.page_texts import (Place, conversion_page, day_page, list_page, month_page, pending_lines,
                            reading_page, territory_page)
from lib.spans import both_text, reckoned_page, span_answer, span_near, span_page, text_of
from lib.year_page import year_page

EACH = 40
# The Julian day number of a day is its number and this.
OFFSET = 1_721_425
CALENDARS = ["gregorian", "julian", "swedish"]
WRONG_WORDS = {
    "form": 'a date is written 1731-02-11, "11 February 1731" or "11 February 1731/2", '
            "with or without a weekday before it",
    "short year": "a year of one or two digits needs leading zeros, such as 0045",
    "later year": "after the / comes the year that follows, in full or by its last digits, "
                  "such as 1731/2, 1731/32 or 1731/1732",
    "year": "a year is 0 to 10000",
    "month": "a month is 1 to 12",
    "day": "a day of a month is 1 to 31",
}
WEEKDAY = "a weekday is written by its English name, such as Friday"
CALENDAR = "a calendar is gregorian, julian or swedish; after the word day or jdn, write a number"
DAY_NUMBER = "a day number is 1 to 3652059"
JULIAN_NUMBER = 'a Julian day number is 1721426 to 5373484, such as "JDN 2353712"'
EITHER = "{0} may be a day number or a Julian day number: write "
EITHER_NUMBER = EITHER + '"day {0}" or "JDN {0}" in its place, with the quotes'
CONVERSION = EITHER + 'oldstyle convert jdn {0}, or oldstyle convert day "day {0}"'
MONTH = "a month is 1 to 12 or its name, such as September or Sept"
YEAR = "a year is 1 to 9999 as the place counted it: for 1731/2 write 1731"
# Wrong arguments, of which the last one is reported, and what is reported. FILE is the journal.
MISTAKES = [
    ("read FILE XX 1700-01-01 --weekday Fryday", WEEKDAY),
    ("convert julian Fryday", WRONG_WORDS["form"]),
    ("convert day 0", DAY_NUMBER),
    ("convert day 3652060", DAY_NUMBER),
    ("convert day x", DAY_NUMBER),
    ("day FILE XX 0", DAY_NUMBER),
    ("day FILE XX 3652060", DAY_NUMBER),
    ("day FILE XX 2353712", EITHER_NUMBER.format(2353712)),
    ("day FILE XX 1721426", EITHER_NUMBER.format(1721426)),
    ("convert day 3652059", CONVERSION.format(3652059)),
    ("convert jdn 1721425", JULIAN_NUMBER),
    ("convert JDN 5373485", JULIAN_NUMBER),
    ("day none XX 0", DAY_NUMBER),
    ("year none XX 0", YEAR),
    ("year FILE XX 10000", YEAR),
    ("year FILE XX 1731/2", YEAR),
    ("read none XX Fryday", WRONG_WORDS["form"]),
    ("month none XX 1700 13", MONTH),
    ("day FILE XX 1751-02-30", "the gregorian calendar has no such date in the years 1 to 9999"),
    ("month FILE XX 1700 13", MONTH),
    ("month FILE XX 1700 Febuary", MONTH),
    ("territory FILE --limits lands=x", "limits are some of lands=N,changes=N,exceptions=N,edits=N,"
                                        "editions=N, separated by commas"),
]
# The same for a word that isn't the last one.
EARLIER_MISTAKES = [
    ("month FILE XX 10001 1", "10001", WRONG_WORDS["year"]),
    ("convert roman 1700-01-01", "roman", CALENDAR),
]
# Words that name the territory XX.
CALLED = ["XX", "xx", "Xx", NAMES["XX"], "SOME \u00e9 place"]
# What the program takes a mistyped word for.
MEANT = {"Fryday": "Friday", "Febuary": "February"}


def numbered(chance, day):
    """A day by its number, or by its Julian day number, if neither can be taken for the other."""
    named = [f"day {day}", f"JDN {day + OFFSET}", f"jdn {day + OFFSET}"]
    return chance.choice(named + ([str(day)] if day <= OFFSET else []))


def untrimmed(words, page):
    """What a run was asked, if a line of its page ends with a space or without a line feed."""
    if any(line[-2:-1].isspace() or line[-1] != "\n" for line in page.splitlines(True)):
        yield f"{words}:\n  a line ends with a space or without a line feed: {page}"


def on_word(text, why):
    """The lines on an argument that is wrong."""
    meant = [f"help: {word}: did you mean {name}?" for word, name in MEANT.items()
             if word in text.split()]
    if why == WRONG_WORDS["form"] and not meant and not any("0" <= letter <= "9" for letter in text):
        meant = ["help: a date has at least a year, such as 1731"]
    return [f"oldstyle: {text}: {why}"] + meant


def differs(program, words, expected, status=0, faults=()):
    """What a run was asked and gave, if it gives another page or reports other faults."""
    done = run(program, words)
    yield from untrimmed(words, done.stdout)
    result = done.returncode, done.stdout.splitlines(), done.stderr.splitlines()
    if result != (status, expected, list(faults)):
        yield f"{words}:\n  expected {expected} {faults}\n  found    {result}"


def mistakes(program, journal):
    """Each wrong argument, unknown code and missing file that is not reported as it must be."""
    mistakes = [(words, words.split()[-1], why) for words, why in MISTAKES] + EARLIER_MISTAKES
    for text, word, why in mistakes:
        words = text.replace("FILE", journal).split()
        yield from differs(program, words, [], 2, on_word(word, why))
    listed = f"help: oldstyle territory {journal} lists the territories"
    gone = journal + ".gone"
    for words in (["read", "XX", "1700-01-01"], ["day", "XX", "1"], ["month", "XX", "1700", "1"],
                  ["year", "XX", "1700"], ["territory", "XX"]):
        name, _, *others = words
        expected = [f"oldstyle: {gone}: no such file"]
        for place in ("ZZ", "z"):
            unknown = f"oldstyle: no territory has the code or the name {place}"
            yield from differs(program, [name, journal, place, *others], [], 1, [unknown, listed])
        yield from differs(program, [name, gone, "XX", *others], [], 3, expected)
    yield from differs(program, ["letters", gone], [], 3, expected)


class Asked:
    """A journal with a random territory, and what its pages must be."""

    def __init__(self, program, chance, journal):
        self.program, self.chance, self.journal = program, chance, journal
        self.middle = middle_day(chance)
        self.service = write_journal(journal, journal_lines(chance, self.middle))
        self.territory = Territory(self.service.published["XX"])
        self.place = Place(NAMES["XX"], "XX", self.service.edition, self.territory)
        self.pending = pending_lines(self.service.pending)

    def page(self, words, lines):
        words = [words[0], self.journal, *words[1:]]
        yield from differs(self.program, words, lines + self.pending)

    def territories(self):
        lands = list_page(self.service.published, self.service.edition)
        yield from self.page(["territory"], lands)
        called = self.chance.choice(CALLED)
        yield from self.page(["territory", called], territory_page(self.place))
        text = self.chance.choice(MALFORMED)
        try:
            parse(text)
        except Malformed as why:
            lines = on_word(text, WRONG_WORDS[str(why)])
            yield from differs(self.program, ["read", self.journal, "XX", text], [], 2, lines)

    def reading(self, label):
        text = date_text(self.chance, label)
        date = parse(text)
        weekday = None if date.weekday else self.chance.choice([None, None, *WEEKDAYS])
        words = ["--weekday", any_case(self.chance, weekday)] if weekday else []
        yield from self.page(["read", "XX", text, *words], reading_page(self.place, date, weekday))

    def reckoned(self, label):
        """A date of one day that names a calendar."""
        text = date_text(self.chance, label)
        date, reckoning = parse(text), self.chance.choice(["old", "new"])
        if date.year < 100:
            return
        sign = {"old": "O.S.", "new": "N.S."}[reckoning]
        lines = reckoned_page(self.place, date, None, reckoning)
        texts = [f"{text} {sign}"]
        if reckoning == "new" and (both := both_text(date)):
            texts.append(both)
        yield from self.page(["read", "XX", self.chance.choice(texts)], lines)

    def span(self, label):
        """A month, a year, a range, a bound or a set."""
        other = label_near(self.chance, self.territory, self.middle)
        span = span_near(self.chance, label, other)
        text = text_of(self.chance, span)
        weekday = self.chance.choice([None] * 6 + WEEKDAYS[:2])
        words = ["--weekday", weekday] if weekday else []
        yield from self.page(["read", "XX", text, *words], span_page(self.place, span, weekday))
        yield from self.query(text, span, weekday)

    def query(self, text, span, weekday):
        """What the service answers to such a date."""
        ask = {"op": "written", "reader": 1, "code": "XX", "date": text}
        query = compact({**ask, "weekday": weekday} if weekday else ask)
        answer = span_answer(self.territory.land, span, weekday)
        expected = compact({"answer": answer, "edition": self.service.edition, "reader": 1})
        result = run(self.program, ["serve", "--journal", self.journal], [query]).stdout
        if result != expected + "\n":
            yield f"{query}:\n  expected {expected}\n  found    {result}"

    def day(self):
        day = day_near(self.chance, self.territory, self.middle)
        weekday = self.chance.choice([None, *WEEKDAYS])
        text = written(dates("gregorian")[day])
        yield from self.page(["day", "XX", f"{weekday} {text}" if weekday else text],
                             day_page(self.place, day, weekday))
        yield from self.page(["day", "XX", numbered(self.chance, day)], day_page(self.place, day))

    def month(self, label):
        year, month, _ = label
        word = self.chance.choice([str(month), any_case(self.chance, MONTHS[month - 1])])
        lines = month_page(self.place, year, month)
        yield from self.page(["month", "XX", str(year), word], lines)

    def year(self, label):
        if 1 <= label[0] <= 9_999:
            lines = year_page(self.place, label[0])
            yield from self.page(["year", "XX", str(label[0])], lines)
            words = ["almanac", self.journal, "XX", str(label[0])]
            yield from untrimmed(words, run(self.program, words).stdout or " ")

    def conversion(self, label):
        calendar, weekday = self.chance.choice(CALENDARS), self.chance.choice(["", *WEEKDAYS])
        result = [day for day in days_by_month_and_day(calendar).get(label[1:], [])
                 if dates(calendar)[day][0] == label[0]]
        text = written(label)
        if not result:
            line = (f"oldstyle: {text}: the {calendar} calendar has no such date "
                    "in the years 1 to 9999")
            yield from differs(self.program, ["convert", calendar, text], [], 2, [line])
            return
        words = ["convert", calendar, f"{weekday} {text}".strip()]
        yield from differs(self.program, words, conversion_page(result[0], weekday or None))
        for words in (["day", numbered(self.chance, result[0])],
                      [self.chance.choice(["jdn", "JDN"]), str(result[0] + OFFSET)]):
            yield from differs(self.program, ["convert", *words], conversion_page(result[0]))

    def pages(self):
        """Each page about a date that differs from the one written independently."""
        label = label_near(self.chance, self.territory, self.middle)
        yield from self.reading(label)
        yield from self.reckoned(label)
        yield from self.span(label)
        yield from self.day()
        yield from self.month(label)
        yield from self.year(label)
        yield from self.conversion(label)


def main():
    line = CommandLine(__doc__)
    line.add_program()
    line.add_count(2_000, "dates")
    line.add_seed()
    options = line.read()
    program, chance, count, differ = options.program, random.Random(options.seed), 0, 0
    with tempfile.TemporaryDirectory() as folder:
        while count < options.count:
            about = Asked(program, chance, os.path.join(folder, "some.journal"))
            result = [] if count else list(mistakes(program, about.journal))
            result += about.territories()
            for _ in range(min(EACH, options.count - count)):
                count += 1
                result += about.pages()
            differ += len(result)
            for difference in result:
                print(difference, flush=True)
    print(f"{count} dates, {differ} pages differ")
    return 1 if differ else 0


if __name__ == "__main__":
    end(main)
