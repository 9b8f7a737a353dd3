"""What the program answers, as values that don't change."""
from __future__ import annotations

import datetime
from dataclasses import dataclass, fields
from operator import itemgetter
from typing import Any, Callable, Dict, Mapping, Optional, Tuple, Type, TypeVar

Value = TypeVar("Value")


@dataclass(frozen=True)
class Day:
    """A day, with its dates in both calendars and as the territory wrote it."""

    day: int
    dual: str
    gregorian: str
    jdn: int
    julian: str
    label: str
    weekday: str

    @property
    def date(self) -> datetime.date:
        """The Gregorian date, as Python counts them."""
        return datetime.date.fromisoformat(self.gregorian)

    def __str__(self) -> str:
        return f"{self.weekday} {self.dual}, {self.gregorian} Gregorian"


DAY = [field.name for field in fields(Day)]
members_of_day = itemgetter(*DAY)


@dataclass(frozen=True)
class Run:
    """Days that follow one another."""

    first: Day
    last: Day

    def __str__(self) -> str:
        return str(self.first) if self.first == self.last else f"{self.first} to {self.last}"


@dataclass(frozen=True)
class Reading:
    """Which days a date means in a territory, and what its text says of them.

    `runs` has all of the days, and `reason` says why there are none. If the date means several
    days, `day` is None; `earliest` or `latest` is None at the open end of a bound. The other
    members are those of `written` in docs/FORMATS.md. An older program
    gives none of those with a default.
    """

    code: str
    date: str
    edition: int
    kind: str
    runs: Tuple[Run, ...]
    reason: Optional[str]
    approximate: bool
    supplied: bool
    uncertain: bool
    other_calendar: bool
    weekday_fits: Optional[bool]
    read_as: Tuple[str, ...] = ()
    named_calendar: Optional[str] = None
    named_weekday: Optional[str] = None
    not_counted_double: bool = False
    three_digits: bool = False
    ends_in_next_year: bool = False
    nearest: Tuple[Day, ...] = ()
    skipped: Tuple[int, ...] = ()
    year: Tuple[Run, ...] = ()

    @property
    def day(self) -> Optional[Day]:
        """The day, if the date means one alone."""
        if len(self.runs) != 1 or self.is_open:
            return None
        first, last = self.runs[0].first, self.runs[0].last
        return first if first.day == last.day else None

    @property
    def is_open(self) -> bool:
        """Returns whether it is a bound, before or after a date."""
        return self.kind in ("before", "after")

    @property
    def earliest(self) -> Optional[Day]:
        """The first day that the date may mean."""
        return self.runs[0].first if self.runs and self.kind != "before" else None

    @property
    def latest(self) -> Optional[Day]:
        """The last day that the date may mean."""
        return self.runs[-1].last if self.runs and self.kind != "after" else None

    def __str__(self) -> str:
        signs = ["in doubt"] * self.uncertain + ["approximate"] * self.approximate
        signs += ["supplied by an editor"] * self.supplied
        signs += ["weekday differs"] if self.weekday_fits is False else []
        if self.kind in ("before", "after"):
            days = f"{self.kind}: " + str(self.latest or self.earliest or self.reason)
        else:
            days = "; or ".join(map(str, self.runs)) or str(self.reason)
        return "; ".join([f"{days} ({self.code}, edition {self.edition})", *signs])


@dataclass(frozen=True)
class Land:
    """A territory of the register."""

    code: str
    name: str


@dataclass(frozen=True)
class Period:
    """The days over which a territory has one calendar, one year beginning and one Easter rule, and
    the source, if the register has one."""

    calendar: str
    first: int
    last: int
    rule: str
    style: str
    source: Optional[str] = None


@dataclass(frozen=True)
class Regime:
    """A calendar, a year beginning and an Easter rule."""

    calendar: str
    rule: str
    style: str


@dataclass(frozen=True)
class Change:
    """A change of a territory: the day before it and its first day, the regimes on both sides, how
    many dates are left out or come twice, and the source, if the register has one. Both numbers are
    None if the calendar before lacks the date of the first day."""

    before: Day
    found: Day
    left_out: Optional[int]
    regime: Regime
    regime_before: Regime
    twice: Optional[int]
    source: Optional[str] = None


@dataclass(frozen=True)
class ListedEaster:
    """The Easter that a territory lists for a year, and the source, if the register has one."""

    found: Day
    year: int
    source: Optional[str] = None


@dataclass(frozen=True)
class Feast:
    """A principal feast, its day, and the year counted from 1 January with its Easter."""

    feast: str
    found: Day
    year: int


def reading_of(code: str, date: str, reply: Mapping[str, Any]) -> Reading:
    """The reading in a reply to `written`."""
    answer = reply["answer"]
    return construct(Reading, {
        "code": code, "date": date, "edition": reply["edition"], "kind": answer["kind"],
        "runs": tuple([run_of(run) for run in answer["runs"]]), "reason": answer["reason"],
        "approximate": answer["approximate"], "supplied": answer["supplied"],
        "uncertain": answer["uncertain"], "other_calendar": answer["other_calendar"],
        "weekday_fits": answer["weekday"], "read_as": tuple(answer.get("read_as", ())),
        "named_calendar": answer.get("named_calendar"),
        "named_weekday": answer.get("named_weekday"),
        "not_counted_double": answer.get("not_counted_double", False),
        "three_digits": answer.get("three_digits", False),
        "ends_in_next_year": answer.get("ends_in_next_year", False),
        "nearest": tuple([day_of(day) for day in answer.get("nearest", ())]),
        "skipped": tuple(answer.get("skipped", ())),
        "year": tuple([run_of(run) for run in answer.get("year", ())])})


def run_of(run: Mapping[str, Any]) -> Run:
    """A run of days. One of a single day has that day once."""
    first, last = run["first"], run["last"]
    day = day_of(first)
    return construct(Run, {"first": day, "last": day if first == last else day_of(last)})


def day_of(day: Dict[str, Any]) -> Day:
    """A day by its members, which nobody else holds. A newer program may have more of them."""
    values = members_of_day(day)
    return construct(Day, day if len(day) == len(DAY) else dict(zip(DAY, values)))


def from_members(kind: Type[Value], members: Mapping[str, Any]) -> Value:
    """A value of those members that it has here. A newer program may have more of them."""
    values = {field.name: members[field.name] for field in fields(kind) if field.name in members}
    for name in values.keys() & OBJECTS.keys():
        values[name] = OBJECTS[name](values[name])
    return kind(**values)


def regime_of(regime: Mapping[str, Any]) -> Regime:
    return from_members(Regime, regime)


# The members that are objects.
OBJECTS: Dict[str, Callable[[Any], Any]] = {
    "before": day_of, "found": day_of, "regime": regime_of, "regime_before": regime_of}


def construct(kind: Type[Value], members: Dict[str, Any]) -> Value:
    """A value with these members, which nobody else holds.

    The call of a frozen dataclass sets each member separately, and takes four times as long.
    """
    value = object.__new__(kind)
    object.__setattr__(value, "__dict__", members)
    return value
