"""The dates of GEDCOM 5.5.1 and 7: how a payload is taken apart, and how a day is written."""
from __future__ import annotations

import re
from dataclasses import dataclass
from typing import Callable, Iterator, List, Optional, Tuple

from .answers import Day, Reading

MONTHS = "JAN FEB MAR APR MAY JUN JUL AUG SEP OCT NOV DEC".split()
KEYWORD = re.compile(r"(?:^| )(BEF|AFT|ABT|CAL|EST|FROM|TO|BET|AND) ", re.IGNORECASE)
# Family Tree Maker and Ancestry write "Abt. 1731" and "Bet. 1731 - 1735".
ABBREVIATED = re.compile(r"(BEF|AFT|ABT|CAL|EST|BET)\b\.? *(?=\w)", re.IGNORECASE)
TO_LATER = re.compile(r" *[-\u2013] *| and ", re.IGNORECASE)
LATER_YEAR = re.compile(r"\b(\d{1,4})/(\d{4}|\d)(?!\d)")
BY_NUMBERS = re.compile(r"(?<![\d/-])(\d{4})-(0?[1-9]|1[0-2])-(\d\d?)(?![\d-])")
SHAPES = ("", "BEF", "AFT", "ABT", "CAL", "EST", "FROM", "TO", "BET AND", "FROM TO")
CALENDAR = r"@#D[A-Z ]+@|GREGORIAN|JULIAN|FRENCH_R|HEBREW|_\w+"
SIMPLE = re.compile(rf"(?:(?P<calendar>{CALENDAR}) (?:(?:\d{{1,2}} )?[A-Z]{{3,4}} )?"
                    rf"|(?:(?:\d{{1,2}} )?(?P<month>{'|'.join(MONTHS)}) )?)\d{{1,4}}(?:/\d\d)?"
                    r"(?P<epoch> ?B\.?C\.?E?)?", re.IGNORECASE)
INTERPRETED = re.compile(r"INT (?P<date>[^()]+) \((?P<phrase>.*)\)", re.IGNORECASE)
JULIAN_MARKS = {5: "@#DJULIAN@ ", 7: "JULIAN "}


class NotConverted(Exception):
    """Why a date is left as it is."""


@dataclass(frozen=True)
class Form:
    """A date in GEDCOM, and whether it keeps the year, month and day that were written."""

    text: str
    keeps: bool


def standard_form(payload: str) -> str:
    """A payload in the form of the standard, if it has one: blanks, words and double years.

    Other programs write `Abt.  1731`, `Bet. 1731 - 1735`, `11 FEB 1731/2` and `1731-02-11`. What is
    not a date of the standard even so is left as it is.
    """
    text = BY_NUMBERS.sub(by_name, " ".join(payload.split()))
    if found := ABBREVIATED.match(text):
        word, rest = found[1].upper(), text[found.end():]
        text = f"{word} {TO_LATER.sub(' AND ', rest, count=1) if word == 'BET' else rest}"
    text = KEYWORD.sub(lambda found: found[0].upper(), text)
    text = LATER_YEAR.sub(double_year, text)
    return payload if pieces_of(text) is None else text


def by_name(date: "re.Match[str]") -> str:
    """A date of three numbers with the name of its month."""
    return f"{int(date[3])} {MONTHS[int(date[2]) - 1]} {date[1]}"


def double_year(years: "re.Match[str]") -> str:
    """A double year with two digits of the later one, if that is the year that follows."""
    later = int(years[1]) + 1
    return f"{years[1]}/{later % 100:02}" if str(later).endswith(years[2]) else years[0]


def pieces_of(payload: str) -> Optional[List[str]]:
    """The dates and keywords of a payload by turns, or None if it is not a date of GEDCOM."""
    pieces = KEYWORD.split(payload)
    dates, words = pieces[::2], pieces[1::2]
    if dates[0] == "" and words:
        dates = dates[1:]
    is_date = " ".join(words).upper() in SHAPES and all(map(SIMPLE.fullmatch, dates))
    return pieces if is_date else None


def is_asked(piece: str) -> bool:
    """Returns whether a piece is a date that depends on its place: with a month, and no calendar.

    A year alone stays as it is, whatever day it began on.
    """
    match = SIMPLE.fullmatch(piece)
    return bool(match and match["month"] and not match["epoch"])


@dataclass(frozen=True)
class Writer:
    """How days of a place are written: for a version of GEDCOM, and by which calendar.

    GEDCOM has no Swedish calendar: the Julian one is used for it.
    """

    version: int
    calendar_on: Callable[[Day], str]
    is_gregorian: bool = False

    def day(self, day: Day, has_number: bool = True) -> Form:
        """A day, or its month alone."""
        is_julian = not self.is_gregorian and self.calendar_on(day) != "gregorian"
        own = day.julian if is_julian else day.gregorian
        year, month, number = own.rsplit("-", 2)
        label_year, label_rest = day.label.split("-", 1)
        is_double = "/" in day.dual and label_rest == f"{month}-{number}" and self.version == 5
        years = f"{int(label_year)}/{year[-2:]}" if is_double else f"{int(year)}"
        words = [str(int(number))] * has_number + [MONTHS[int(month) - 1], years]
        mark = JULIAN_MARKS[self.version] if is_julian else ""
        return Form(mark + " ".join(words), is_double or own == day.label)

    def piece(self, reading: Reading) -> Form:
        """A day or a month that was in a date of GEDCOM."""
        if day := self.only_day(reading):
            return self.day(day)
        run = reading.runs[0]
        if reading.kind != "month":
            raise NotConverted(f"several days: {run}")
        if self.calendar_on(run.first) != self.calendar_on(run.last):
            raise NotConverted("the calendar changed in it")
        if self.is_gregorian and run.first.label != run.first.gregorian:
            raise NotConverted("a month of another calendar falls in two of the Gregorian one")
        return self.day(run.first, False)

    def only_day(self, reading: Reading) -> Optional[Day]:
        """The day that a date means, or None for one run of several days. Others are refused."""
        if not reading.runs:
            raise NotConverted(str(reading.reason))
        if len(reading.runs) > 1:
            raise NotConverted("several days: " + "; or ".join(map(str, reading.runs)))
        if reading.weekday_fits is False:
            raise NotConverted(f"the weekday differs: {reading.runs[0]}")
        return reading.day

    def phrase(self, reading: Reading) -> str:
        """The date that a text means, with the text kept. INT of 5.5.1 takes one date."""
        day = self.only_day(reading)
        if reading.uncertain:
            raise NotConverted("in doubt: GEDCOM has no word for that")
        if day and not reading.approximate:
            return self.day(day).text
        if reading.kind == "month" and not reading.approximate:
            return self.piece(reading).text
        if self.version == 5:
            raise NotConverted(f"INT takes one date, and this is {reading}")
        return self.span(reading)

    def span(self, reading: Reading) -> str:
        """A date of GEDCOM 7 that is approximate, a bound or a range."""
        first, last = (end and self.day(end).text for end in (reading.earliest, reading.latest))
        if reading.approximate and first == last:
            return f"ABT {first}"
        if reading.approximate:
            raise NotConverted("approximate, and longer than a day: GEDCOM has no word for that")
        if reading.is_open:
            return f"AFT {first}" if first else f"BEF {last}"
        return f"BET {first} AND {last}"


def convert_pieces(pieces: List[str], readings: Iterator[Reading], writer: Writer) -> Form:
    """A date of GEDCOM with its calendars; its other words are as they were."""
    written: List[str] = []
    keeps = True
    for piece in pieces:
        if is_asked(piece):
            form = with_words(writer.piece(next(readings)), piece)
            is_same = bare(form.text) == bare(piece)
            keeps = keeps and form.keeps
            piece = piece if is_same else form.text
        written.append(piece)
    return Form(" ".join(filter(None, written)), keeps)


def with_words(form: Form, piece: str) -> Form:
    """A date with the text that was written, if it has that after the mark of its calendar.

    A Julian one of 5.5.1 takes a double year that was written for a day that was counted once.
    """
    text = plain(form.text).removeprefix("JULIAN ")
    if not form.keeps or text.startswith(plain(piece)):
        return form
    is_double = "/" in piece and text[-2:] == piece[-2:]
    if is_double and form.text.startswith(JULIAN_MARKS[5]):
        return Form(f"{JULIAN_MARKS[5]}{plain(piece)}", True)
    return Form(form.text, False)


def bare(date: str) -> Tuple[str, ...]:
    """The words of a date, without the zeros before its numbers."""
    return tuple(word.lstrip("0") for word in date.upper().split())


def plain(date: str) -> str:
    """A date without the parts that make no difference."""
    date = date.upper().replace("@#DJULIAN@", "JULIAN").replace("@#DGREGORIAN@ ", "")
    return " ".join(bare(date.replace("GREGORIAN ", "")))
