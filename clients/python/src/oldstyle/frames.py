"""Readings of a table of pandas, if pandas is installed."""
from __future__ import annotations

from typing import TYPE_CHECKING, Any, Dict, Iterator, Optional, Tuple, Union

from .answers import Reading
from .faults import Fault
from .register import Register

if TYPE_CHECKING:
    import pandas

TEXTS = ("kind", "earliest", "latest", "dual", "found_weekday", "reason", "fault")
NUMBERS = ("day", "jdn", "runs", "edition")
TRUTHS = ("approximate", "supplied", "uncertain", "other_calendar", "weekday_fits")


def read_frame(register: Register, frame: "pandas.DataFrame", code: str = "code",
               date: str = "date", weekday: Optional[str] = None) -> "pandas.DataFrame":
    """A table of what each row's date means, with the index of the frame.

    `code`, `date` and `weekday` name columns. `earliest` and `latest` are Gregorian dates as texts,
    since most times of pandas begin in 1677. `day`, `jdn`, `dual` and `found_weekday` are given for
    a date that means one day, and `fault` has the name of what was refused.
    """
    import pandas

    for name in (code, date, weekday):
        if name is not None and (count := list(frame).count(name)) != 1:
            raise KeyError(f"{count or 'no'} column{'s' * (count > 1)} {name}: the columns are "
                           f"{', '.join(map(str, frame))}: name one of them {name}")
    columns = [frame[name] for name in (code, date, weekday) if name is not None]
    texts = (tuple(as_text(pandas, value) for value in row) for row in zip(*columns))
    found = register.read_many(texts, refused=True)
    table = pandas.DataFrame([fields(reading) for reading in found], index=frame.index,
                             columns=[*TEXTS, *NUMBERS, *TRUTHS])
    kinds = {**dict.fromkeys(TEXTS, "string"), **dict.fromkeys(NUMBERS, "Int64"),
             **dict.fromkeys(TRUTHS, "boolean")}
    return table.astype(kinds)


def as_text(pandas: Any, value: Any) -> str:
    """A field as a text. What is missing is empty; a year in a column with such fields, which
    pandas holds as floats, is a whole number."""
    if isinstance(value, float) and value.is_integer():
        value = int(value)
    return "" if pandas.isna(value) else str(value)


def fields(reading: Union[Reading, Fault]) -> Dict[str, Any]:
    """The row of a reading. What it lacks is missing in the table."""
    return dict(row_of(reading))


def row_of(reading: Union[Reading, Fault]) -> Iterator[Tuple[str, Any]]:
    if isinstance(reading, Fault):
        yield "fault", reading.name
        return
    yield "kind", reading.kind
    yield "reason", reading.reason
    yield "earliest", reading.earliest and reading.earliest.gregorian
    yield "latest", reading.latest and reading.latest.gregorian
    yield "runs", len(reading.runs)
    yield "edition", reading.edition
    for name in TRUTHS:
        yield name, getattr(reading, name)
    if day := reading.day:
        yield "day", day.day
        yield "jdn", day.jdn
        yield "dual", day.dual
        yield "found_weekday", day.weekday
