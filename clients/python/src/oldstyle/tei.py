"""oldstyle-tei JOURNAL < letters.xml: writes the file with the attributes of its dates filled in.

Each date in correspAction, opener and dateline is read by its text and the place beside it. It gets
@when, or @notBefore and @notAfter, by the Gregorian calendar. @when-custom has the date as the
place wrote it, @calendar its calendar, and @cert says that it is in doubt or approximate. No other
byte changes, and no attribute that is there. Standard error lists what is not read, and each
attribute that is there and says something else.
"""
from __future__ import annotations

import argparse
from typing import Dict, List, Optional, Sequence, Tuple, Union
from xml.sax.saxutils import escape

from .answers import Day, Reading
from .commands import Context, command_line, run
from .faults import Fault
from .tei_dates import Date, Finder, Place, tag_end

BOUNDS = ("when", "notBefore", "notAfter")
# Other attributes for a time, and the one of the three above that has the same meaning.
ALIKE = {name + iso: {"from": "notBefore", "to": "notAfter"}.get(name, name)
         for name in (*BOUNDS, "from", "to") for iso in ("", "-iso")}
OTHER: Dict[str, List[str]] = {"julian": ["gregorian"], "gregorian": ["julian"], "swedish": []}
Attributes = Dict[str, str]


def main(words: Optional[Sequence[str]] = None) -> int:
    assert __doc__
    return run(command_line("oldstyle-tei", __doc__, "file"), fill, words)


def fill(data: bytes, context: Context, _: argparse.Namespace) -> bytes:
    """The file with its dates filled in."""
    finder = Finder(data)
    if not finder.is_tei:
        context.report(1, "no element of TEI's namespace http://www.tei-c.org/ns/1.0 is here")
    questions = [(date, code) for date in finder.dates if (code := code_of(date, context))]
    rows = ((code, date.text) for date, code in questions)
    readings = context.register.read_many(rows, refused=True)
    pointers = Pointers(finder.calendars)
    pieces, done = [], 0
    for (date, code), reading in zip(questions, readings):
        if added := attributes_of(date, code, reading, context, pointers):
            if (at := tag_end(data, date.at)) is None:
                context.report(date.line,
                               f"{date.text}: its start tag is in an entity: write it out")
                continue
            pieces += [data[done:at], *attribute_bytes(added, data[at - 1 : at], finder.encoding)]
            done = at
    for line, what in pointers.remarks.values():
        context.report(line, what)
    return b"".join([*pieces, data[done:]])


def attribute_bytes(added: Attributes, last: bytes, encoding: str) -> List[bytes]:
    """Attributes as bytes of the file's encoding, in the quotes of the one before them."""
    quote = last.decode() if last in (b'"', b"'") else '"'
    marks = {quote: f"&#{ord(quote)};"}
    return [f" {name}={quote}{escape(value, marks)}{quote}".encode(encoding, "xmlcharrefreplace")
            for name, value in added.items()]


class Pointers:
    """How a file refers to a calendar: by the declaration whose name is the calendar's, or has
    the calendar's name in it."""

    def __init__(self, declared: Sequence[str]):
        self._declared = declared
        self.remarks: Dict[str, Tuple[int, str]] = {}

    def to(self, calendar: str, line: int) -> Optional[str]:
        """The pointer, or None if several declarations have the calendar's name in theirs."""
        found = [name for name in self._declared if calendar in name.lower()]
        if calendar in found:
            found = [calendar]
        if len(found) > 1:
            self.remarks.setdefault(calendar, (line, f"no calendar is given: {calendar} is in "
                                               f"{' and in '.join(found)}: name one {calendar}"))
            return None
        if not found:
            self.remarks.setdefault(calendar, (line, f'no <calendar xml:id="{calendar}"> in the '
                                               "header: declare it there"))
        return f"#{found[0] if found else calendar}"


def code_of(date: Date, context: Context) -> Optional[str]:
    """The territory of a date. Reports a date that has none, or nothing to read."""
    if not date.text:
        if not date.attributes:
            context.report(date.line, "a date has neither a text nor an attribute")
        return None
    if date.problem:
        context.report(date.line, f"{date.text}: {date.problem}")
        return None
    beside = [scope.places for scope in date.scopes if scope.places]
    places = beside[0] if beside else []
    codes = list(dict.fromkeys(code for place in places for code in codes_of(place, context)))
    if len(codes) == 1:
        return codes[0]
    named = "; ".join(place.names[-1] or place.names[0] for place in places)
    if codes:
        context.report(date.line,
                       f"{date.text}: {named}: more than one territory: {', '.join(codes)}")
        return None
    names = [name for place in places for name in (*place.names, *place.parts)]
    return context.default_for(named, names, date.line)


def codes_of(place: Place, context: Context) -> List[str]:
    """The territories of a place: of the first known one of its names, otherwise of its parts."""
    return context.places.codes(place.names)[:1] or context.places.codes(place.parts)


def attributes_of(date: Date, code: str, reading: Union[Reading, Fault], context: Context,
                  pointers: Pointers) -> Attributes:
    """The attributes that a date lacks. What is open or differs is reported."""
    where = f"{date.text} ({code})"
    if isinstance(reading, Fault) or not reading.runs:
        why = reading.name if isinstance(reading, Fault) else reading.reason
        context.report(date.line, f"{where}: {why}")
        return {}
    if len(reading.runs) > 1:
        runs = "; or ".join(map(str, reading.runs))
        context.report(date.line, f"{where}: several days that don't follow one another: {runs}")
    if reading.weekday_fits is False:
        context.report(date.line, f"{where}: the weekday differs: {reading.runs[0]}")
    bounds = bounds_of(reading)
    if not agrees(date, bounds, where, context):
        return {}
    is_plain = not any(name in date.attributes for name in ALIKE if name not in BOUNDS)
    expected = {**(bounds if is_plain else {}),
                **written_by(date, code, reading, context, pointers), **certainty(reading, date)}
    other = [name for name, value in expected.items() if date.attributes.get(name, value) != value]
    for name in other:
        report_difference(date, name, f'{name}="{expected[name]}"', where, context)
    return {} if other else {name: value for name, value in expected.items()
                             if name not in date.attributes}


def bounds_of(reading: Reading) -> Attributes:
    """The Gregorian dates of the day, or of the first and the last one that it may be."""
    if day := reading.day:
        return {"when": day.gregorian}
    ends = {"notBefore": reading.earliest, "notAfter": reading.latest}
    return {name: day.gregorian for name, day in ends.items() if day}


def agrees(date: Date, bounds: Attributes, where: str, context: Context) -> bool:
    """Returns whether the times that a date has already are those of the program."""
    there = {name: date.attributes[name] for name in ALIKE if name in date.attributes}
    other = [name for name, value in there.items() if bounds.get(ALIKE[name]) != value]
    expected = " ".join(f'{name}="{value}"' for name, value in bounds.items())
    for name in other:
        report_difference(date, name, expected, where, context)
    return not other


def report_difference(date: Date, name: str, expected: str, where: str, context: Context) -> None:
    context.report(date.line, f'{where}: {name}="{date.attributes[name]}" is left, the program has '
                        f"{expected}")


def written_by(date: Date, code: str, reading: Reading, context: Context,
               pointers: Pointers) -> Attributes:
    """The date as the place wrote it, if that is another one, and the calendar of the text."""
    day = reading.day
    found: Attributes = {}
    if day and day.label != day.gregorian and not reading.other_calendar:
        found["when-custom"] = day.label
    calendars = calendars_of(code, reading, context)
    there = date.attributes.get("calendar", "").lower()
    if calendars and not (there and all(name in there for name in calendars)):
        named = [pointers.to(name, date.line) for name in calendars]
        if None not in named:
            found["calendar"] = " ".join(filter(None, named))
    return found


def calendars_of(code: str, reading: Reading, context: Context) -> List[str]:
    """The calendars of a text: those of the place on the first and the last day.

    A text that names a calendar by which it means other days is by the other one of the two. If
    the place kept the Swedish one, that is not known.
    """
    ends: List[Optional[Day]] = [reading.earliest, reading.latest]
    calendars = list(dict.fromkeys(context.calendar(code, day.day) for day in ends if day))
    if reading.other_calendar:
        return OTHER[calendars[0]] if len(calendars) == 1 else []
    return calendars


def certainty(reading: Reading, date: Date) -> Attributes:
    """How sure the date is: medium for one doubt, low for two, or if the weekday differs."""
    doubts = [reading.uncertain or date.is_unclear, reading.approximate]
    if reading.weekday_fits is False or all(doubts):
        return {"cert": "low"}
    return {"cert": "medium"} if any(doubts) else {}


if __name__ == "__main__":
    raise SystemExit(main())
