"""The positions of the parts in a drawing of a place's timeline."""
from __future__ import annotations

from dataclasses import dataclass
from typing import Callable

from oldstyle import Change, Period, Run

from .languages import date_text, gettext as _
from .places import Detail, PlaceFound, YearRow, run_text
from .texts import change_text, regime_text

WIDTH, MARGIN = 1000, 10
ROW, LABEL = 34, 70
# Half the width of a year below the periods.
TICK = 24
# The top of the periods, and the levels and the room of the texts of changes above them.
TOP, LEVELS, ROOM = 72, [18, 40, 62], 190
Place = Callable[[int], float]


@dataclass(frozen=True)
class Box:
    """A bar in the drawing, with its left end and its width, its title and its class."""

    x: float
    width: float
    title: str
    kind: str
    number: int | None = None

    @property
    def middle(self) -> float:
        return round(self.x + self.width / 2, 1)


@dataclass(frozen=True)
class Mark:
    """The line of a change, from its top down. Its text is at a level, if there is room."""

    x: float
    top: int
    title: str
    text: str
    level: int | None


@dataclass(frozen=True)
class Tick:
    """A round year below the periods: its line, and the middle of its text."""

    year: int
    x: float
    middle: float


@dataclass(frozen=True)
class LineOfTime:
    """The periods of a place, one after another, with round years below them."""

    name: str
    description: str
    boxes: list[Box]
    marks: list[Mark]
    ticks: list[Tick]
    width: int = WIDTH
    top: int = TOP


@dataclass(frozen=True)
class YearBars:
    """A row for a year: a bar for each run of its days, and bars for the double ones."""

    year: int
    top: int
    bars: list[Box]
    doubles: list[Box]


@dataclass(frozen=True)
class Years:
    """The years about changes, a row for each, with the parts that were counted double."""

    description: str
    rows: list[YearBars]
    changes: list[float]
    width: int = WIDTH
    label: int = LABEL - 10

    @property
    def height(self) -> int:
        return ROW * len(self.rows) + 8


def across(first: int, last: int, left: int = MARGIN, right: int = WIDTH - MARGIN) -> Place:
    """The position of a day in a drawing that shows the days from one to another."""
    size = max(1, last + 1 - first)
    scale = (right - left) / size
    return lambda day: round(left + scale * (min(max(day, first), last + 1) - first), 1)


def line_of_time(content: PlaceFound) -> LineOfTime:
    place = across(*content.window)
    description = " ".join(map(change_text, content.changes)) or \
        _("One period, always: %(regime)s.", regime=regime_text(content.periods[0]))
    boxes = [period_box(number, period, place) for number, period in enumerate(content.periods, 1)]
    ticks = [Tick(year, place(day), min(max(place(day), TICK), WIDTH - TICK))
             for year, day in content.marks]
    return LineOfTime(content.name, description, boxes, change_marks(content.changes, place), ticks)


def period_box(number: int, period: Period, place: Place) -> Box:
    """The box of a period, coloured by its calendar, with its number if that has room."""
    left, right = place(period.first), place(period.last + 1)
    kind = f"period {period.calendar}" + (" early" if period.style != "january" else "")
    return Box(left, max(2, round(right - left, 1)), f"{number}: {regime_text(period)}",
               kind, number if right - left > 30 else None)


def change_marks(changes: list[Change], place: Place) -> list[Mark]:
    """The marks of changes. The texts of those that are near are placed one below the other, as
    long as there is room."""
    marks = []
    ends: list[float] = [-ROOM] * len(LEVELS)
    for change in changes:
        at = place(change.found.day)
        # (its line goes down from there, and must cross no text)
        level = next((level for level in range(len(ends))
                      if all(at - end >= ROOM for end in ends[level:])), None)
        if level is not None:
            ends[level] = at
        marks.append(Mark(at, TOP if level is None else LEVELS[level] - 14, change_text(change),
                          date_text(change.found.dual), None if level is None else LEVELS[level]))
    return marks


def years_of(detail: Detail) -> Years:
    runs = [run for row in detail.rows for run in row.runs]
    place = across(min(run.first.day for run in runs), max(run.last.day for run in runs), LABEL)
    rows = [year_bars(row, ROW * order + 6, place) for order, row in enumerate(detail.rows)]
    return Years(" ".join(row.text for row in detail.rows), rows,
                 [place(change.found.day) for change in detail.changes])


def year_bars(row: YearRow, top: int, place: Place) -> YearBars:
    return YearBars(row.year, top, [bar(run, "year", place) for run in row.runs],
                    [bar(run, "double", place) for run in row.double])


def bar(run: Run, kind: str, place: Place) -> Box:
    left, right = place(run.first.day), place(run.last.day + 1)
    return Box(left, max(2, round(right - left, 1)), run_text(run), kind)
