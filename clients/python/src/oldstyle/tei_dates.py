"""Finds the dates of letters in a TEI file, each with the places beside it and its byte."""
from __future__ import annotations

import itertools
import re
from dataclasses import dataclass, field
from typing import Dict, Iterator, List, Optional
from xml.parsers import expat

from .commands import FileRefused

TEI = "http://www.tei-c.org/ns/1.0 "
ID = "http://www.w3.org/XML/1998/namespace id"
SCOPES = ("correspAction", "opener", "dateline")
PLACES = ("placeName", "settlement", "region", "country", "district", "bloc", "geogName")
PLACES_BY_TYPE = ("name", "rs")
SILENT = ("note", "del")
# The editor's reading of a choice is taken: expan, reg or corr.
LEFT_IN_CHOICE = ("abbr", "orig", "sic")
BLANKS = ("lb", "pb", "cb", "milestone")
WIDE = (b"\xff\xfe", b"\xfe\xff", b"<\0", b"\0<")
TAG = re.compile(rb"""<[^\s/>"'=]+(?:\s+[^\s/>"'=]+\s*=\s*(?:"[^"]*"|'[^']*'))*(?=\s*/?>)""")


@dataclass
class Place:
    """An element that names a place: by what it refers to and its text, and by its parts."""

    names: List[str] = field(default_factory=list)
    parts: List[str] = field(default_factory=list)


@dataclass
class Scope:
    """An element whose places are beside its dates."""

    places: List[Place] = field(default_factory=list)


@dataclass
class Date:
    """A date element: the place of its start tag, and what it says."""

    at: int
    line: int
    attributes: Dict[str, str]
    scopes: List[Scope]
    text: str = ""
    is_unclear: bool = False
    problem: Optional[str] = None


@dataclass(eq=False)
class Frame:
    """An open element, and what must be done at its end."""

    name: str
    text: Optional[List[str]] = None
    date: Optional[Date] = None
    place: Optional[Place] = None
    scope: Optional[Scope] = None
    silenced: Optional[List["Frame"]] = None


class Finder:
    """Reads a TEI file, and keeps its dates, its calendars and its encoding."""

    def __init__(self, data: bytes):
        self.dates: List[Date] = []
        self.calendars: List[str] = []
        self.encoding = "utf-8"
        self.is_tei = False
        self._has_begun = False
        self._data = data
        self._open: List[Frame] = []
        self._texts: List[Frame] = []
        self._parser = expat.ParserCreate(namespace_separator=" ")
        self._parser.specified_attributes = True
        self._parser.buffer_text = True
        self._parser.XmlDeclHandler = self._declare
        self._parser.StartElementHandler = self._start
        self._parser.EndElementHandler = self._end
        self._parser.CharacterDataHandler = self._add
        self._parser.SkippedEntityHandler = self._skip
        self._parser.ExternalEntityRefHandler = self._skip_file
        self._parse()

    def _parse(self) -> None:
        if self._data.startswith(WIDE):
            raise FileRefused("the file is in UTF-16, which can't be changed byte by byte: save it "
                              "as UTF-8")
        try:
            self._parser.Parse(self._data, True)
        except expat.ExpatError as why:
            what = expat.ErrorString(why.code)
            raise FileRefused(f"line {why.lineno}, column {why.offset + 1}: {what}: the file is "
                              "not well-formed XML, and nothing is written") from None
        except (LookupError, ValueError) as why:
            if self._has_begun:  # a fault of this program: an encoding is refused before
                raise
            raise FileRefused(f"the encoding of the file is not read: {why}: save it as "
                              "UTF-8") from None

    def _declare(self, _version: str, encoding: Optional[str], _standalone: int) -> None:
        self.encoding = encoding or self.encoding

    def _start(self, name: str, attributes: Dict[str, str]) -> None:
        self._has_begun = True
        is_tei = name.startswith(TEI)
        local = name[len(TEI):] if is_tei else ""
        self.is_tei = self.is_tei or is_tei
        frame = Frame(local)
        parent = self._open[-1].name if self._open else ""
        if local == "calendar" and ID in attributes:
            self.calendars.append(attributes[ID])
        if local == "date" and (scopes := self._scopes()):
            frame.date = Date(self._parser.CurrentByteIndex, self._parser.CurrentLineNumber,
                              attributes, scopes)
            frame.date.is_unclear = any(outer.name == "unclear" for outer in self._inner())
            self.dates.append(frame.date)
        elif local in SCOPES:
            frame.scope = Scope()
        elif self._is_place(local, attributes):
            frame.place = Place([*attributes.get("ref", "").split(), attributes.get("key", "")])
        self._mark(local, attributes)
        self._open.append(frame)
        if frame.date or frame.place:
            frame.text = []
            self._texts.append(frame)
        if local in SILENT or (parent == "choice" and local in LEFT_IN_CHOICE):
            frame.silenced, self._texts = self._texts, []

    def _scopes(self) -> List[Scope]:
        """The open elements whose places are beside a date, the innermost first.

        What is about an editor's note, or about deleted text, doesn't count for a date in there.
        """
        return [frame.scope for frame in self._inner() if frame.scope]

    def _inner(self) -> Iterator[Frame]:
        """The open elements up to the first one whose text is not read, the innermost first."""
        return itertools.takewhile(lambda frame: frame.silenced is None, reversed(self._open))

    def _is_place(self, local: str, attributes: Dict[str, str]) -> bool:
        return local in PLACES or (local in PLACES_BY_TYPE and attributes.get("type") == "place")

    def _mark(self, local: str, attributes: Dict[str, str]) -> None:
        """The marks that an element gives to the text about it."""
        if local in BLANKS and attributes.get("break") != "no":
            self._add(" ")
        elif local == "supplied":
            self._add("[")
        elif local in ("gap", "unclear"):
            for frame in self._texts:
                if frame.date and local == "gap":
                    frame.date.problem = "a part is missing (gap)"
                elif frame.date:
                    frame.date.is_unclear = True

    def _end(self, _: str) -> None:
        frame = self._open.pop()
        if frame.silenced is not None:
            self._texts = frame.silenced
        if frame.name == "supplied":
            self._add("]")
        if frame.text is not None:
            self._texts.remove(frame)
            text = " ".join("".join(frame.text).split())
            if frame.date:
                frame.date.text = text
            if frame.place:
                self._end_place(frame.place, text)

    def _end_place(self, place: Place, text: str) -> None:
        place.names.append(text)
        outer = next((frame.place for frame in self._inner() if frame.place), None)
        if outer is not None:
            outer.parts += place.names
            return
        for scope in self._scopes():
            scope.places.append(place)

    def _add(self, text: str) -> None:
        for frame in self._texts:
            if frame.text is not None:
                frame.text.append(text)

    def _skip(self, name: str, is_parameter: bool) -> None:
        for frame in self._texts:
            if frame.date:
                frame.date.problem = f"the entity &{name}; is not known"

    def _skip_file(self, name: str, *_: object) -> int:
        self._skip(name, False)
        return 1


def tag_end(data: bytes, at: int) -> Optional[int]:
    """The end of the name and the attributes of a start tag, or None if no tag is at the byte."""
    match = TAG.match(data, at)
    return match.end() if match else None
