"""Places as documents name them, and the territories that they are in."""
from __future__ import annotations

import csv
import io
import re
from typing import Dict, Iterable, Iterator, List, Mapping, Optional, Tuple

from .answers import Land
from .faults import PlacesRefused

COLUMNS = ("place", "code")
SEPARATORS = ",;\t"


class Places:
    """Which territory a place is in: by a table, or by the codes and names of the register.

    The table comes first, then the codes of the register and then its names, letter by letter.
    """

    def __init__(self, lands: Iterable[Land], table: Optional[Mapping[str, str]] = None):
        lands = list(lands)
        self._codes = {land.code for land in lands}
        self._table = dict(table or {})
        self._known = {land.name: land.code for land in reversed(lands)}
        self._known.update({code: code for code in self._codes})

    def code(self, place: str) -> Optional[str]:
        """The code of a place, or None if it is unknown or no territory has its code."""
        code = self._table.get(place, self._known.get(place))
        return code if code in self._codes else None

    def lacking(self, names: Iterable[str]) -> Optional[str]:
        """The code that the table has for one of some names, if no territory has that code."""
        found = (self._table.get(name) for name in names)
        return next((code for code in found if code not in (None, *self._codes)), None)

    def codes(self, names: Iterable[str]) -> List[str]:
        """The codes of those names that are known, each once, in order."""
        return list(dict.fromkeys(code for name in names if (code := self.code(name))))


def read_places(path: str) -> Dict[str, str]:
    """A table of places: CSV with the columns `place` and `code`, as docs/PAGES.md describes it."""
    with open(path, "rb") as file:
        content = file.read()
    try:
        text = content.decode("utf-8-sig")
    except UnicodeDecodeError as why:
        line = content[: why.start].count(b"\n") + 1
        raise wrong(path, line, "a place or a code is not UTF-8: save the table as UTF-8") from None
    table: Dict[str, str] = {}
    for line, place, code in records(path, text):
        if table.setdefault(place, code) != code:
            raise wrong(path, line, f"the place {place} has another code already: remove one of "
                                    "the two rows")
    return table


def records(path: str, text: str) -> Iterator[Tuple[int, str, str]]:
    """The place and the code of each record, with the line on which it ends."""
    reader = csv.reader(io.StringIO(text, newline=""), delimiter=separator_of(text), strict=True)
    try:
        header = next(reader, None)
        if header is None:
            raise wrong(path, 1, "no header: the first line names the columns place and code")
        at = [column(path, header, name) for name in COLUMNS]
        for record in reader:
            if record and len(record) != len(header):
                raise wrong(path, reader.line_num, "a different number of fields than the header: "
                                                   "give each row as many")
            if record:
                place, code = (record[place].strip() for place in at)
                yield reader.line_num, place, code
    except csv.Error as why:
        raise wrong(path, reader.line_num, f"{why}: look for a quote that is not closed") from None


def separator_of(text: str) -> str:
    """The separator of the fields: the first of the three that the header has outside quotes."""
    bare = re.sub(r'"[^"]*"?', "", text)
    header = re.split(r"[\r\n]", bare, maxsplit=1)[0]
    return next((mark for mark in header if mark in SEPARATORS), ",")


def column(path: str, header: List[str], name: str) -> int:
    if name not in header:
        raise wrong(path, 1, f"no column {name}: the columns are {', '.join(header)}: name one "
                             f"{name}")
    return header.index(name)


def wrong(path: str, line: int, what: str) -> PlacesRefused:
    return PlacesRefused(f"{path} line {line}: {what}")
