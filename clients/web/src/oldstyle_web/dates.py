"""What the program says of one date: its days, their periods, and what is remarked of it."""
from __future__ import annotations

import re
from dataclasses import dataclass, field
from typing import Any, Iterator

from oldstyle import Day, Run
from oldstyle.answers import run_of

from .languages import gettext as _
from .months import sources_of
from .notes import notes_of
from .problems import N_
from .register import Asking, DatedDay
from .texts import full, in_words

MOST_DAYS = 40
# Three numbers of which the first two may be a day and a month in either order.
NUMBERS = re.compile(r"(?<!\d)(\d{1,2})[-/. ]+(\d{1,2})[-/. ]+(?=\d{3})")
SENTENCES = {
    "malformed date": N_("The text has none of the forms of a date."),
    "no date": N_("The text says that there is no date."),
}
# What to write instead of a text that is not read as a date, by the reason in the answer.
ADVICE = {
    "malformed date": N_('a date is written 1731-02-11, "11 February 1731" or "11 February '
                         '1731/2", with or without a weekday before it'),
    "not the year that follows": N_("after the / comes the year that follows, in full or by its "
                                    "last digits, such as 1731/2, 1731/32 or 1731/1732"),
    "no year from 0 to 10000": N_("a year is 0 to 10000"),
    "no month from 1 to 12": N_("a month is 1 to 12"),
    "no day from 1 to 31": N_("a day of a month is 1 to 31"),
    "no date": N_('it says that there is no date: write a day, such as "11 February 1731"'),
    "year of one or two digits": N_("a year of one or two digits needs leading zeros, such as "
                                    "0045"),
    "year with an open digit": N_("a year with an open digit may be any of several: write it in "
                                  "four digits, such as 1731 or 0173"),
    "open between day and month": N_("a date such as 11/2/1731 may be 11 February or 2 November: "
                                     "write the month by its name"),
    "day by both calendars": N_("a day by both calendars has the two dates of one day, such as "
                                "3/13 June 1675, and from 1 January to 24 March a double year, "
                                "such as 3/13 Feb. 1674/5"),
    "two days by both calendars": N_("the two dates are not one day: 3/13 June 1675 has the "
                                     "Julian date of the day and its Gregorian one"),
    "one calendar for the dates of both": N_("a day by both calendars names both of them or "
                                             "neither, such as 3 June O.S./13 June N.S. 1675"),
    "a feast, not read": N_("this feast is not read: write its day"),
    "a Roman numeral, not read": N_("a Roman numeral is read as the day beside a month's name, "
                                    "such as xi February 1731, or as the month between two "
                                    "numbers; xx, MD and single letters are ordinary words too: "
                                    "write it in digits"),
    "an open part of a date, not read": N_("early, mid, late and the halves are parts of a month, "
                                           "a year, a decade or a century, and a winter spans two "
                                           "years: write the months, such as December 1675 to "
                                           "February 1676"),
}
# Two years of which the later one is not in full: they are read as a year and a month.
SHORT_RANGE = re.compile(r"\d{4}-\d{2}")
RANGE_ADVICE = N_("in a range of years write the later year in full, such as 1640-1645")
FLAGS = [("approximate", N_("approximate")), ("uncertain", N_("in doubt")),
         ("supplied", N_("supplied by an editor"))]
KINDS = {"month": N_("The date is a month"), "year": N_("The date is a year"),
         "range": N_("The date is a range"), "before": N_("The date is a bound"),
         "after": N_("The date is a bound"), "part": N_("The date is a part of a year"),
         "set": N_("The date is one of these days"), "feast": N_("The date is a feast")}


@dataclass
class DateFound:
    """A date in a territory: what was written, what it means, what is remarked of it, and the
    sources of the periods that it meets."""

    code: str
    name: str
    date: str
    weekday: str
    order: str
    written: dict[str, Any]
    runs: list[Run]
    sources: list[str]
    remarks: list[str]
    days: list[DatedDay] = field(default_factory=list)

    @property
    def kind(self) -> str:
        return str(self.written["kind"])

    @property
    def reason(self) -> str | None:
        """Why it means no day, if it means none."""
        reason: str | None = self.written["reason"]
        return reason

    @property
    def is_open(self) -> bool:
        """Whether the meaning depends on the order of its numbers."""
        return self.reason == "open between day and month"

    @property
    def reason_sentence(self) -> str:
        """Why it means no day, unless a remark says so."""
        reason = self.reason or ""
        if self.remarks:
            return ""
        return _(SENTENCES[reason]) if reason in SENTENCES else f"{reason.capitalize()}."

    @property
    def read_as(self) -> str:
        """The date as it was read, or as it is written if it was not, or is a set."""
        texts: list[str] = self.written["read_as"]
        return texts[0] if len(texts) == 1 else self.date

    @property
    def spans(self) -> Iterator[tuple[str | None, Day | None, Day | None, int | None]]:
        """For each run: the name of its first day, that day, its last day if it is another one or
        an end, and how many days there are. A bound has no day at its open end."""
        is_bound = self.kind in ("before", "after")
        for run in self.runs:
            is_one = run.first == run.last
            count = None if is_bound else run.last.day - run.first.day + 1
            is_open = self.kind == "before" and len(self.runs) == 1
            has_last = self.kind == "before" or self.kind != "after" and not is_one
            yield (_("Day") if is_one else _("From"), None if is_open else run.first,
                   run.last if has_last else None, count)

    @property
    def weekdays(self) -> list[str]:
        """The weekday that the date names, and the one that is given beside it."""
        return [name for name in (self.written["named_weekday"], self.weekday) if name]

    def agreement(self, day: Day) -> str:
        """A day's weekday, and in a few words whether it is each that was given."""
        for other in self.weekdays:
            if day.weekday != other:
                return _("%(day)s, not %(other)s", day=_(day.weekday), other=_(other))
        return _("%(day)s, as stated", day=_(day.weekday)) if self.weekdays else _(day.weekday)

    @property
    def flags(self) -> str:
        """The marks of the date in a sentence, or nothing."""
        flags = ", ".join(_(text) for name, text in FLAGS if self.written[name])
        return _("The date is %(flags)s.", flags=flags) if flags else ""

    @property
    def advice(self) -> str:
        """What to write instead of a text that is not read."""
        reason = self.reason if self.kind == "none" else None
        advice = [ADVICE[reason]] if reason in ADVICE else []
        if reason == "no month from 1 to 12" and SHORT_RANGE.fullmatch(self.date):
            advice.append(RANGE_ADVICE)
        return " ".join(as_sentence(_(text)) for text in advice)

    @property
    def cited(self) -> str:
        """What the answer says, in one line."""
        place = f"{self.name} ({self.code})"
        what = _("“%(date)s” in %(name)s", date=self.date, name=place)
        if self.reason:
            return _("%(what)s: no day (%(reason)s)", what=what, reason=self.reason)
        if self.days:
            return f"{what}: " + _("; or ").join(cited_day(day.found) for day in self.days)
        texts = [full(run.first) if run.first == run.last else _(
            "%(first)s to %(last)s", first=full(run.first), last=full(run.last))
            for run in self.runs]
        if self.kind == "before":
            texts = [_("to %(day)s", day=full(self.runs[-1].last))]
        elif self.kind == "after":
            texts = [_("from %(day)s", day=full(self.runs[0].first))]
        joint = _(", or ") if self.kind == "set" else _(", and ")
        return f"{what}: {joint.join(texts)}"


def as_sentence(note: str) -> str:
    """A note with a capital letter and a full stop."""
    note = note[:1].upper() + note[1:]
    return note if note.endswith(".") else f"{note}."


def cited_day(day: Day) -> str:
    return _("%(day)s, %(gregorian)s Gregorian, %(julian)s Julian, JDN %(jdn)s", day=full(day),
             gregorian=in_words(day.gregorian), julian=in_words(day.julian), jdn=day.jdn)


def date_found(asking: Asking, code: str, name: str, date: str, weekday: str,
               order: str) -> DateFound:
    """What a written date means in a territory."""
    written, = asking.answers([question_of(code, date, weekday, order)])
    runs = [run_of(run) for run in written["runs"]]
    changes = asking.changes_on(code, written["skipped"])
    sources = sources_of(asking.periods(code), shown_runs(written["kind"], runs))
    sources += [change.source for change in changes if change.source]
    content = DateFound(code, name, date, weekday, order, written, runs, sources,
                        notes_of(name, written, changes, weekday))
    if written["kind"] == "day":
        content.days = asking.dated_days(code, [run.first for run in runs][:MOST_DAYS])
        content.days.sort(
            key=lambda day: any(day.found.weekday != other for other in content.weekdays))
    return content


def question_of(code: str, date: str, weekday: str, order: str) -> dict[str, str]:
    """The question for a written date."""
    question = {"op": "written", "code": code, "date": in_order(date, order)}
    return {**question, "weekday": weekday} if weekday else question


def in_order(date: str, order: str) -> str:
    """A date with its numbers in the order that is chosen: with full stops the day comes first."""
    if order == "dmy":
        return NUMBERS.sub(r"\1.\2.", date)
    return NUMBERS.sub(r"\2.\1.", date) if order == "mdy" else date


def shown_runs(kind: str, runs: list[Run]) -> list[Run]:
    """The runs of a date; of a bound the day at its end alone."""
    if not runs or kind not in ("before", "after"):
        return runs
    end = runs[-1].last if kind == "before" else runs[0].first
    return [Run(end, end)]
