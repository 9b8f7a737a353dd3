"""oldstyle-gedcom JOURNAL < tree.ged: writes the file with the calendar of each event's date.

Each date of an event that says no calendar is read as its place wrote it. In GEDCOM 5.5.1 a Julian
one is marked `@#DJULIAN@ 11 FEB 1731/32`. A text that is not a date of GEDCOM is kept as a phrase
after it: `INT @#DJULIAN@ 11 FEB 1731/32 (11th Feb. 1731)`. In GEDCOM 7 the date is `JULIAN 11 FEB
1732`, and the text that was there goes into its PHRASE. No other byte changes, and no date that has
a calendar or an interpretation. Standard error lists what is not read, and each interpretation that
says something else.
"""
from __future__ import annotations

import argparse
import re
from dataclasses import dataclass, field
from itertools import islice
from typing import Iterator, List, Optional, Sequence, Tuple, Union

from .answers import Reading
from .commands import Context, FileRefused, command_line, run
from .faults import Fault
from .gedcom_dates import (INTERPRETED, Form, NotConverted, Writer, convert_pieces, is_asked,
                           pieces_of, plain, standard_form)

LINE = re.compile(r"(?P<front>\s*(?P<level>\d{1,2}) +(?:@[^@]+@ +)?(?P<tag>\w+))"
                  r"(?: (?P<payload>.*))?")
EVENTS = set("""ADOP BAPM BARM BASM BIRT BLES BURI CENS CHR CHRA CONF CREM DEAT EMIG EVEN FCOM GRAD
    IMMI NATU ORDN PROB RETI WILL CAST DSCR EDUC FACT IDNO NATI NCHI NMR OCCU PROP RELI RESI SSN
    TITL ANUL DIV DIVF ENGA MARB MARC MARL MARR MARS""".split())
CONTINUED = ("CONC", "CONT")
CHARSETS = {"UTF-8": "utf-8", "ASCII": "ascii", "ANSI": "cp1252", "ANSEL": "ascii"}
BOM = "\u00ef\u00bb\u00bf"
Answer = Union[Reading, Fault]


@dataclass
class Line:
    """A line of the file, each byte one letter, and its place in the file."""

    place: int
    front: str
    level: int
    tag: str
    payload: str
    end: str


@dataclass
class Event:
    """An event with its dates, each with its phrase, and its place.

    A date or phrase that continues on another line is left: it is in `continued` alone.
    """

    continued: List[Line] = field(default_factory=list)

    dates: List[Tuple[Line, Optional[Line]]] = field(default_factory=list)
    place: str = ""


@dataclass
class EventDate:
    """A date: the text that was written, and its interpretation if it has one."""

    line: Line
    raw: str
    interpretation: str = ""
    has_phrase: bool = False
    text: str = ""
    code: str = ""

    def questions(self) -> List[str]:
        """The texts that the program is asked."""
        pieces = pieces_of(self.text)
        return [self.text] if pieces is None else list(filter(is_asked, pieces))


class Tree:
    """A file of GEDCOM: its lines, version and letters."""

    def __init__(self, data: bytes):
        if data.startswith((b"\xff\xfe", b"\xfe\xff", b"0\0", b"\0" b"0")):
            raise FileRefused("the file is in UTF-16: save it as UTF-8")
        text = data.decode("latin-1")
        self.front = BOM if text.startswith(BOM) else ""
        found = re.findall(r"([^\r\n]*)(\r\n|\n|\r|$)", text[len(self.front):])
        self.pieces = [line + end for line, end in found]
        self.lines = [Line(place, match["front"], int(match["level"]), match["tag"],
                           match["payload"] or "", end)
                      for place, (line, end) in enumerate(found)
                      if (match := LINE.fullmatch(line))]
        if not self.lines or (self.lines[0].level, self.lines[0].tag) != (0, "HEAD"):
            raise FileRefused("the file doesn't begin with 0 HEAD: it is not GEDCOM")
        version = self._of_head("GEDC", "VERS")
        if not version.startswith(("5.5", "7.")):
            raise FileRefused(f"the version of GEDCOM is {version or 'missing'}: 5.5, 5.5.1 and 7 "
                              "are read")
        self.version = int(version[0])
        named = "UTF-8" if self.version == 7 else self._of_head("CHAR").upper() or "UTF-8"
        if named not in CHARSETS:
            raise FileRefused(f"CHAR {named} is not read: save the file as UTF-8")
        self._charset = CHARSETS[named]

    def _of_head(self, *tags: str) -> str:
        """A payload of the head, at the path of these tags."""
        path: List[str] = []
        for line in self.lines[1:]:
            if line.level == 0:
                break
            path = [*path[: line.level - 1], line.tag]
            if tuple(path) == tags:
                return line.payload.strip()
        return ""

    def decode(self, raw: str) -> Optional[str]:
        """A text by the letters of the file, or None if its bytes are not a text."""
        try:
            return raw.encode("latin-1").decode(self._charset)
        except UnicodeDecodeError:
            return None

    def events(self) -> Iterator[Event]:
        """The events of persons and families."""
        event, record, parent, is_event = Event(), "", "", False
        for line in self.lines:
            if line.level == 0:
                record = line.tag
            if line.level <= 1:
                yield event
                event = Event()
                is_event = record in ("INDI", "FAM") and line.tag in EVENTS
            elif is_event and line.level == 2 and line.tag == "DATE":
                event.dates.append((line, None))
            elif is_event and line.level == 2 and line.tag == "PLAC":
                event.place = line.payload
            elif line.tag in CONTINUED and line.level == 3 and parent == "PLAC":
                event.place += " " * (line.tag == "CONT") + line.payload
            elif line.tag in CONTINUED and parent == "DATE" and event.dates:
                event.continued.append(event.dates.pop()[0])
            elif line.tag == "PHRASE" and line.level == 3 and parent == "DATE" and event.dates:
                event.dates[-1] = (event.dates[-1][0], line)
            parent = line.tag if line.level == 2 else parent if line.level > 2 else ""
        yield event


def main(words: Optional[Sequence[str]] = None) -> int:
    assert __doc__
    line = command_line("oldstyle-gedcom", __doc__, "file")
    line.add_argument("--gregorian", action="store_true", help="write the Gregorian date after "
                      "what was written, in place of the place's own calendar")
    return run(line, fill, words)


def fill(data: bytes, context: Context, options: argparse.Namespace) -> bytes:
    """The file with the calendars of its dates."""
    tree = Tree(data)
    found = list(dates_of(tree, context))
    questions = [(date.code, text) for date in found for text in date.questions()]
    readings = context.register.read_many(questions, refused=True)
    for date in found:
        answers = list(islice(readings, len(date.questions())))
        try:
            write(tree, date, answers, context, options.gregorian)
        except NotConverted as why:
            typed = (tree.decode(date.raw) or "").strip()
            context.report(date.line.place + 1, f"{typed} ({date.code}): {why}")
    return (tree.front + "".join(tree.pieces)).encode("latin-1")


def dates_of(tree: Tree, context: Context) -> Iterator[EventDate]:
    """The dates that are asked, each with its territory. For the others the reason is reported."""
    for event in tree.events():
        for line in event.continued:
            context.report(line.place + 1,
                           "a date that continues on another line is left: join both")
        for line, phrase in event.dates:
            date = date_of_line(tree.version, line, phrase)
            text = tree.decode(date.raw)
            if text is None:
                context.report(line.place + 1,
                               f"{date.raw!r}: these bytes are not of the file's CHAR")
                continue
            date.text = standard_form(text.strip())
            if not date.text or not date.questions():
                continue
            place = tree.decode(event.place)
            place = "of bytes that are not of the file's CHAR" if place is None else place.strip()
            names = list(enclosing_places(place))
            codes = context.places.codes(names)
            if code := codes[0] if codes else context.default_for(place, names, line.place + 1):
                date.code = code
                yield date


def date_of_line(version: int, line: Line, phrase: Optional[Line]) -> EventDate:
    """What was written, and its interpretation: an INT of 5.5.1, a date with PHRASE of 7."""
    payload = line.payload.strip()
    if version == 7:
        if phrase:
            return EventDate(line, phrase.payload, payload, True)
        return EventDate(line, payload)
    if match := INTERPRETED.fullmatch(payload):
        return EventDate(line, match["phrase"], match["date"], True)
    if payload.startswith("(") and payload.endswith(")"):
        return EventDate(line, payload[1:-1], "", True)
    return EventDate(line, payload)


def enclosing_places(place: str) -> Iterator[str]:
    """A place, and each larger one that it names after a comma."""
    while place:
        yield place
        place = place.partition(",")[2].strip()


def write(tree: Tree, date: EventDate, answers: Sequence[Answer], context: Context,
          is_gregorian: bool) -> None:
    """Writes a date into its line, and the original text into its phrase."""
    form = form_of(date, answers, context, tree.version, is_gregorian)
    line = date.line
    if date.interpretation:
        forms = forms_of(date, answers, context)
        if plain(date.interpretation) not in forms:
            raise NotConverted(f"{date.interpretation} is left, the program has {form.text}")
        return
    if form.text.upper() == " ".join(date.raw.upper().split()):
        return
    if tree.version == 7:
        phrase = f"{line.front.replace('2', '3', 1).replace('DATE', 'PHRASE')} {date.raw}"
        added = "" if date.has_phrase else f"{tree.lines[0].end}{phrase}"
        tree.pieces[line.place] = f"{line.front} {form.text}{added}{line.end}"
        return
    if date.has_phrase or not form.keeps:
        if len(pieces_of(form.text) or []) != 1:
            raise NotConverted(f"INT takes one date, and this is {form.text}")
        form = Form(f"INT {form.text} ({date.raw})", True)
    tree.pieces[line.place] = f"{line.front} {form.text}{line.end}"


def form_of(date: EventDate, answers: Sequence[Answer], context: Context, version: int,
            is_gregorian: bool) -> Form:
    """The form of a date by the answers of the program."""
    for answer in answers:
        if isinstance(answer, Fault):
            raise NotConverted(answer.name)
    readings = [answer for answer in answers if isinstance(answer, Reading)]
    writer = Writer(version, lambda day: context.calendar(date.code, day.day), is_gregorian)
    pieces = pieces_of(date.text)
    if pieces is None:
        return Form(writer.phrase(readings[0]), False)
    return convert_pieces(pieces, iter(readings), writer)


def forms_of(date: EventDate, answers: Sequence[Answer], context: Context) -> List[str]:
    """All forms of what a date means, by both calendars and in both versions."""
    forms = []
    for version in (5, 7):
        for is_gregorian in (False, True):
            try:
                forms.append(plain(form_of(date, answers, context, version, is_gregorian).text))
            except NotConverted:
                pass
    return forms


if __name__ == "__main__":
    raise SystemExit(main())
