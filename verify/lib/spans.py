"""Months, years, ranges, bounds and sets as people write them, and the days that they may mean.

Written from docs/DATES.md and docs/PAGES.md alone, over date_meaning.py, for pages.py and
reference.py. Texts are drawn in random forms; their days are found by a search through every day
about their years.
"""
from typing import NamedTuple, Optional

from lib.calendars import HIGH, MONTHS, dates
from lib.date_meaning import Territory, Written, days_under, weekday_of, years_about
from lib.feasts import FEASTS, days_of_feast
from lib.page_texts import (date_written, day_line, meant_lines, three_digits_lines, why_lines,
                            years_written)

NAMES = [MONTHS]
NAMES += [line.split() for line in (
    "Jan. Feb. Mar. Apr. May Jun. Jul. Aug. Sept. Oct. Nov. Dec.",
    "Januarii Februarii Martii Aprilis Maii Junii Julii Augusti 7bris 8bris 9bris Xbris",
    "janvier f\u00e9vrier mars avril mai juin juillet ao\u00fbt 7bre 8bre 9bre d\u00e9cembre",
    "Januar Februar M\u00e4rz April Mai Juni Juli August September Oktober November Dezember",
    "januari februari maart april mei juni juli augustus september oktober november december",
    "gennaio febbraio marzo aprile maggio giugno luglio agosto settembre ottobre novembre dicembre",
    "enero febrero marzo abril mayo junio julio agosto septiembre octubre noviembre diciembre",
    "janeiro fevereiro mar\u00e7o abril maio junho julho agosto setembro outubro novembro dezembro",
)]


class Simple(NamedTuple):
    """A day, a month or a year; a month or a year has no value for what it lacks."""

    year: int
    is_double: bool = False
    month: Optional[int] = None
    day: Optional[int] = None
    has_three_digits: bool = False

    def first_day(self):
        return Written(self.year, self.month or 1, self.day or 1, self.is_double)

    def digits(self):
        """In the form of a set."""
        return f"{self.year:04}-{self.month:02}-{self.day:02}"

    def years(self):
        first = f"{self.year:04}"
        if not self.is_double:
            return first
        return first + years_written(self.year, self.year + 1)[len(str(self.year)):]

    def words(self):
        """In the form of a page."""
        parts = [self.day and str(self.day), self.month and MONTHS[self.month - 1], self.years()]
        return " ".join(part for part in parts if part)

    def is_meant(self, territory, day):
        """Returns whether the date means a day, by the day's label and its year from 1 January."""
        year, month, of_month = territory.label(day)
        if self.month not in (None, month) or self.day not in (None, of_month):
            return False
        if not self.is_double:
            return year == self.year
        wrote_later = year == self.year + 1 and (month, of_month) < (3, 25)
        return territory.date(day)[0] == self.year + 1 and (year == self.year or wrote_later)

    def days(self, territory):
        low, high = years_about(self.year)
        return [day for day in range(low, min(HIGH, high + 366) + 1)
                if self.is_meant(territory, day)]


class Span(NamedTuple):
    """One date, a range, a bound or a set, with its marks. For a set the first date is that of its
    first member. A range of days may have one year, which is written for the last one."""

    kind: str
    first: Simple
    last: Optional[Simple] = None
    reckoning: Optional[str] = None
    approximate: bool = False
    uncertain: bool = False
    supplied: bool = False
    members: tuple = ()
    portion: Optional[str] = None
    feast: str = ""
    one_year: bool = False

    def sign(self):
        return "%" if self.approximate and self.uncertain else (
            "~" if self.approximate else "?" if self.uncertain else "")

    def in_set(self, sign):
        """As a member of a set, with a sign after each day."""
        days = [self.first] if self.kind == "on" else [self.first, self.last]
        return "..".join(day.digits() + sign for day in days)

    def words(self):
        """In the form of a page's heading."""
        if self.kind == "set":
            return f"[{','.join(member.in_set(self.sign()) for member in self.members)}]"
        text = self.first.words()
        if self.one_year:
            text = f"{self.first.day} {MONTHS[self.first.month - 1]}"
        if self.kind == "feast":
            text = f"{self.feast} {text}"
        elif self.kind == "range":
            text += f" to {self.last.words()}"
        elif self.kind == "part":
            text = f"the {self.portion} of {text}"
        elif self.kind != "on":
            text = f"{self.kind} {text}"
        text = ("about " if self.approximate else "") + text
        text += {None: "", "old": " O.S.", "new": " N.S."}[self.reckoning]
        text += "?" if self.uncertain else ""
        return f"[{text}]" if self.supplied else text


class Reckoned(Territory):
    """A territory as if it had used the calendar that a date names."""

    def __init__(self, territory, reckoning):
        super().__init__(territory.land)
        if reckoning == "old":
            self.periods = [(first, last, ("julian", *regime[1:]))
                            for first, last, regime in territory.periods]
        else:
            self.periods = [(1, HIGH, ("gregorian", "january", "gregorian"))]
        self.firsts = [first for first, _, _ in self.periods]


def reckoned(territory, span):
    return Reckoned(territory, span.reckoning) if span.reckoning else territory


def runs_of(days):
    """Days in order as runs, each from a first day to a last one."""
    runs = []
    for day in days:
        if runs and runs[-1][1] + 1 == day:
            runs[-1][1] = day
        else:
            runs.append([day, day])
    return runs


def found_of_set(parts):
    """The runs of all members, or the first reason why one has no day."""
    for part in parts:
        if isinstance(part, str):
            return part
    runs = []
    for first, last in sorted(tuple(run) for part in parts for run in part):
        if runs and first <= runs[-1][1] + 1:
            runs[-1][1] = max(last, runs[-1][1])
        else:
            runs.append([first, last])
    return runs


# Which one of how many equal parts.
PORTIONS = {"first third": (1, 3), "middle third": (2, 3), "last third": (3, 3),
            "first half": (1, 2), "second half": (2, 2)}


def part_of(first, last, portion):
    """The days or years of a part: each of which some of it is in that part."""
    number, count = PORTIONS[portion]
    length = last - first + 1
    meant = [place for place in range(length)
             if (number - 1) * length < count * (place + 1) and count * place < number * length]
    return [first + meant[0], first + meant[-1]]


def without_day(territory, span):
    """The span, or for a set its first member that has no day."""
    return next((member for member in span.members if isinstance(found(territory, member), str)),
                span)


def day_of_next_year(territory, span):
    """The last day of a range with one year that ends in the next one, None if it does not."""
    first, last = span.first, span.last
    if not span.one_year or first.is_double or first.year > 9_999:
        return None
    starts, ends = first.days(territory), last.days(territory)
    is_out_of_order = starts and ends and starts[0] > ends[-1]
    is_same = first.month == last.month and first.day <= last.day
    is_close = is_same or last.month == first.month + 1
    if not is_out_of_order or not is_close:
        return None
    later = last._replace(year=last.year + 1).days(territory)
    return later[0] if later and starts[0] <= later[0] else None


def found(territory, span):
    """The runs of a span, or which of its dates has no day, or why it is not a span."""
    if span.kind == "set":
        return found_of_set([found(territory, member) for member in span.members])
    if span.kind == "feast":
        return runs_of(days_of_feast(territory, span.feast, span.first)) or "feast"
    first = span.first.days(territory)
    if not first:
        return "first"
    if span.kind == "on":
        return runs_of(first)
    if span.kind == "part":
        return [part_of(first[0], first[-1], span.portion)]
    if span.kind == "range":
        last = span.last.days(territory)
        if not last:
            return "last"
        if end := day_of_next_year(territory, span):
            return [[first[0], end]]
        return [[first[0], last[-1]]] if first[0] <= last[-1] else "order"
    low, high = {"before": (1, first[0] - 1), "not after": (1, first[-1]),
                 "after": (first[-1] + 1, HIGH), "not before": (first[0], HIGH)}[span.kind]
    return [[low, high]] if low <= high else "line"


# The page of such a date.


def run_lines(territory, span, run):
    """The lines of a run: its first and last day, and how many there are."""
    first, last = (day_line(territory, day) for day in run)
    if span.kind in ("before", "not after"):
        return ["from any earlier day", f"to   {last}"]
    if span.kind in ("after", "not before"):
        return [f"from {first}", "to   any later day"]
    count = run[1] - run[0] + 1
    if count == 1:
        return [first] if span.kind == "feast" else [first, "1 day"]
    return [f"from {first}", f"to   {last}", f"{count} days"]


def none_lines(territory, span, why):
    """Why a span has no day."""
    span = without_day(territory, span)
    if why == "first":
        return why_lines(territory, span.first.first_day())
    if why == "last":
        return ["of the last date:", *why_lines(territory, span.last.first_day())]
    if why == "order":
        return ["the first date is after the last one"]
    if why == "feast":
        return ["that feast did not fall in that year"]
    return [f"no day of the line is {span.kind.removeprefix('not ')} it"]


def sureness(span):
    words = [(span.approximate, "approximate"), (span.uncertain, "in doubt"),
             (span.supplied, "supplied by an editor")]
    text = "; ".join(word for applies, word in words if applies)
    return [text] if text else []


def own_dates(place, runs):
    """How the place itself dated the days that were found by the calendar that a date names."""
    if isinstance(runs, str):
        return f"by its own reckoning {place.name} has that date"
    if len(runs) == 1 and runs[0][0] == runs[0][1]:
        return f"{place.name} itself dated that day {place.territory.dual(runs[0][0])}"
    return f"{place.name} itself dated these days as they are written above"


def calendar_lines(place, reckoning, runs, own):
    """By which calendar a date was read, if it means other days by the place's own reckoning."""
    if runs == own or isinstance(runs, str) and isinstance(own, str):
        return []
    style = {"old": "Old", "new": "New"}[reckoning]
    return [f"read as {style} Style, as the date says; {own_dates(place, runs)}"]


def reckoned_page(place, date, weekday, reckoning):
    """The page of a date of one day that names a calendar."""
    by_name = Reckoned(place.territory, reckoning)
    days = by_name.days_meant(date, weekday)
    lines = [line for day in days for line in meant_lines(place.territory, date, weekday, day)]
    named = f"{date.weekday} " if date.weekday else ""
    sign = {"old": "O.S.", "new": "N.S."}[reckoning]
    runs, own = (runs_of(sorted(found)) or "first"
                 for found in (days, place.territory.days_meant(date)))
    return [f"{named}{date_written(date)} {sign} in {place.heading()}",
            *(lines or why_lines(by_name, date)), *three_digits_lines(date),
            *calendar_lines(place, reckoning, runs, own)]


def span_page(place, span, weekday=None):
    """The page of a span that is not a single day."""
    by_name = reckoned(place.territory, span)
    runs = found(by_name, span)
    if isinstance(runs, str):
        lines = none_lines(by_name, span, runs)
    else:
        lines = [line for run in runs for line in run_lines(place.territory, span, run)]
    if day_of_next_year(by_name, span):
        lines.append("ends in the next year")
    lines += sureness(span)
    lines += calendar_lines(place, span.reckoning, runs, found(place.territory, span))
    if weekday:
        lines.append(f"{weekday} is not compared: the date is not written as a day")
    return [f"{span.words()} in {place.heading()}", *lines]


# What the query `written` answers of such a date.


def kind_of(span):
    if span.kind in ("set", "feast"):
        return span.kind
    if span.kind == "on":
        return "day" if span.first.day else "month" if span.first.month else "year"
    kinds = {"range": "range", "part": "part", "before": "before", "not after": "before"}
    return kinds.get(span.kind, "after")


def missing_day(territory, span, why):
    """The day that is missing, None if that is not why a span has no day."""
    span = without_day(territory, span)
    return {"first": span.first, "last": span.last}[why].first_day() if why in ("first", "last") \
        else None


def reason_of(territory, span, why):
    """Why a span has no day."""
    if missing := missing_day(territory, span, why):
        return ("last date: " if why == "last" else "") + territory.absence(missing)
    return {"order": "first date after the last", "line": "off the line",
            "feast": "no such feast in that year"}[why]


def near(land, territory, missing):
    """What is near a missing day in a territory: the days most like it, the changes at which it was
    skipped, and the year that lacks it."""
    why = territory.absence(missing) if missing else None
    days = territory.days_of(missing.label()) if why == "not with both years" else []
    if why in ("skipped", "no such date in that year"):
        days = territory.nearest(missing)
    is_lacking = why == "no such date in that year"
    return {
        "nearest": [land.found(day) for day in days],
        "skipped": territory.gaps(missing.label()) if why == "skipped" else [],
        "year": runs_found(land, runs_of(territory.days_of_year(missing.year))) if is_lacking
                else [],
    }


def runs_found(land, runs):
    return [{"first": land.found(first), "last": land.found(last)} for first, last in runs]


def is_not_counted_double(territory, by_name, date):
    """Returns whether a date has both years, and the place dated a day of it by another year than
    the first."""
    return date.is_double and any(territory.label(day)[0] != date.year
                                  for day in date.days(by_name))


def remarks(territory, by_name, dates):
    """What is remarked of a date with these ends."""
    return {"not_counted_double": any(is_not_counted_double(territory, by_name, date)
                                      for date in dates),
            "three_digits": any(date.has_three_digits for date in dates)}


def has_day_of(runs, weekday):
    return any(weekday_of(day) == weekday
               for first, last in runs for day in range(first, last + 1))


def none_answer(why):
    """The answer to a text that is not a date."""
    return {"approximate": False, "ends_in_next_year": False, "kind": "none",
            "named_calendar": None, "named_weekday": None, "nearest": [],
            "not_counted_double": False, "other_calendar": False, "read_as": [],
            "reason": why, "runs": [], "skipped": [], "supplied": False, "three_digits": False,
            "uncertain": False, "weekday": None, "year": []}


def read_as(span):
    """A span in words, or each member of a set."""
    if span.kind != "set":
        return [span.words()]
    return [member._replace(approximate=span.approximate, uncertain=span.uncertain).words()
            for member in span.members]


def span_answer(land, span, weekday=None):
    """The answer of a span, and of a weekday that is given with it."""
    territory = Territory(land)
    by_name = reckoned(territory, span)
    runs, own = found(by_name, span), found(territory, span)
    is_none = isinstance(runs, str)
    is_asked = weekday is not None and kind_of(span) == "day"
    ends = [date for date in (span.first, span.last) if date and span.kind != "set"]
    return {
        "approximate": span.approximate,
        "ends_in_next_year": day_of_next_year(by_name, span) is not None,
        "kind": kind_of(span),
        "named_calendar": {None: None, "old": "Old Style", "new": "New Style"}[span.reckoning],
        "named_weekday": None,
        "other_calendar": runs != own and not (is_none and isinstance(own, str)),
        "read_as": read_as(span),
        "reason": reason_of(by_name, span, runs) if is_none else None,
        "runs": [] if is_none else runs_found(land, runs),
        "supplied": span.supplied, "uncertain": span.uncertain,
        "weekday": not is_none and has_day_of(runs, weekday) if is_asked else None,
        **remarks(territory, by_name, ends),
        **near(land, by_name, missing_day(by_name, span, runs) if is_none else None),
    }


# Texts of such dates.


def month_name(chance, month):
    name = chance.choice(NAMES)[month - 1]
    return chance.choice([name, name.lower(), name.upper() if name.isascii() else name])


def years_text(chance, date):
    """Both years of a double one, the later one by some of its last digits."""
    text = f"{date.year:04}"
    if date.is_double:
        later = str(date.year + 1)
        return f"{text}/{later[-chance.randint(1, len(later)):]}"
    return text


def simple_text(chance, date):
    """A day, a month or a year in one of its forms."""
    years = years_text(chance, date)
    if date.month is None:
        forms = [years] if date.is_double else [years, f"{date.year:04}-XX-XX", f"anno {years}"]
        return chance.choice(forms)
    name = month_name(chance, date.month)
    if date.day is None:
        forms = [f"{name} {years}", f"{name}, {years}", f"{years} {name}"]
        return chance.choice(forms + [f"{years}-{date.month:02}"])
    forms = [f"{date.day} {name} {years}", f"the {date.day} of {name}, {years}",
             f"{name} {date.day}, {years}", f"{date.day}.{date.month}.{years}",
             f"{date.day}. {date.month}. {years}"]
    return chance.choice(forms)


def range_text(chance, first, last, one_year):
    """A range, of which the first date may lack what the last one has."""
    begin, end = simple_text(chance, first), simple_text(chance, last)
    if one_year:
        end = f"{last.day} {month_name(chance, last.month)} {years_text(chance, last)}"
        begin = str(first.day)
        if first.month != last.month or chance.random() < 0.3:
            begin += f" {month_name(chance, first.month)}"
    forms = [f"{begin} to {end}", f"from {begin} to {end}", f"between {begin} and {end}"]
    # After a day from January to March a dash and the next year are a double year.
    may_be_double = first.day and first.month < 4 and last == Simple(first.year + 1)
    return chance.choice(forms if may_be_double else
                         [*forms, f"{begin} - {end}", f"{begin}\u2013{end}"])


PART_WORDS = {
    "first third": ["early", "the beginning of", "Anfang", "début", "the first third of"],
    "middle third": ["mid", "Mitte", "mediados de", "the middle third of"],
    "last third": ["late", "end of", "Ende", "fin", "the last third of"],
    "first half": ["first half of", "the first half of", "1. Hälfte", "primera mitad de"],
    "second half": ["second half of", "2. Hälfte", "tweede helft", "seconde moitié de"]}


def both_text(date):
    """A Gregorian date as a day by both calendars, None if it is not one day of both."""
    days = days_under(("gregorian", "january"), date.label())
    if date.is_double or date.has_three_digits or not days:
        return None
    (_, month, day), (year, other, last) = dates("julian")[days[0]], date.label()
    is_early = min((month, day), (other, last)) < (3, 25)
    years = f"{year - 1:04}/{year}" if is_early else f"{year:04}"
    first = f"{day}" if month == other else f"{day} {MONTHS[month - 1]}"
    weekday = f"{date.weekday} " if date.weekday else ""
    return f"{weekday}{first}/{last} {MONTHS[other - 1]} {years}"


def text_of(chance, span):
    """A span in one of its forms, with its marks."""
    if span.kind == "set":
        return span.words()
    if span.portion:
        whole = span.first._replace(day=None)
        text = f"{chance.choice(PART_WORDS[span.portion])} {simple_text(chance, whole)}"
    elif span.kind == "range":
        text = range_text(chance, span.first, span.last, span.one_year)
    elif span.kind == "feast":
        years = years_text(chance, span.first)
        text = f"{chance.choice(FEASTS[span.feast][1])} {years}"
    elif span.kind == "on":
        text = simple_text(chance, span.first)
    else:
        words = {"not after": ["not after", "by"]}.get(span.kind, [span.kind])
        text = f"{chance.choice(words)} {simple_text(chance, span.first)}"
    if span.approximate and (not span.portion or chance.random() < 0.3):
        text = f"{chance.choice(['about', 'c.', 'ca.', 'circa'])} {text}"
    if span.reckoning:
        names = {"old": [" O.S.", " (OS)", ", old style"], "new": [" N.S.", " (NS)", " new style"]}
        text += chance.choice(names[span.reckoning])
    if span.uncertain:
        text = chance.choice([f"{text}?", f"{text} (?)", f"probably {text}", f"perhaps {text}"])
    return f"[{text}]" if span.supplied else text


def simple_near(chance, label, days=True):
    year, month, day = label
    is_double = year < 10_000 and chance.random() < (0.5 if month < 4 else 0.1)
    which = chance.randrange(3 if days else 2)
    if which == 0:
        return Simple(year, is_double)
    return Simple(year, is_double, month, day if which == 2 else None)


def set_near(chance, labels):
    """Two to five days or ranges with one of these labels, or a little later."""
    members = []
    for _ in range(chance.randint(2, 5)):
        year, month, day = chance.choice(labels)
        first = Simple(year, False, month, min(31, day + chance.choice([0, 0, 1, 2, 9])))
        last = first._replace(day=min(31, first.day + chance.randint(0, 5)))
        members.append(Span(*chance.choice([("on", first), ("range", first, last)])))
    rarely = [chance.random() < 0.15 for _ in range(2)]
    return Span("set", members[0].first, None, None, *rarely, False, tuple(members))


def in_part(date, portion):
    """The span of a part of a month or a year."""
    if date.month is None:
        return Span("part", date, approximate=True, portion=portion)
    end = date if date.month == 2 else date._replace(
        day=30 if date.month in (4, 6, 9, 11) else 31)
    first, last = {"first third": (1, 10), "middle third": (11, 20), "last third": (21, None),
                   "first half": (1, 15), "second half": (16, None)}[portion]
    return Span("range", date._replace(day=first), date._replace(day=last) if last else end,
                approximate=True, portion=portion)


def part_near(chance, date):
    """A part of a month or a year."""
    span = in_part(date, chance.choice(list(PORTIONS)))
    reckoning = chance.choice([None] * 6 + ["old", "new"])
    return span._replace(reckoning=reckoning, uncertain=chance.random() < 0.15,
                         supplied=chance.random() < 0.15)


def span_near(chance, label, other):
    """A month, a year, a range, a bound or a set about a label; a range goes to the other one."""
    kinds = ["on", "on", "part", "range", "before", "not after", "after", "not before", "set",
             "feast"]
    kind = chance.choice(kinds)
    if kind == "feast":
        year = Simple(label[0], label[0] < 10_000 and chance.random() < 0.2)
        feast = chance.choice([name for name, (_, texts) in FEASTS.items() if texts])
        return Span("feast", year, feast=feast)
    if kind == "set":
        return set_near(chance, [label, other])
    if kind == "part":
        return part_near(chance, simple_near(chance, label, False))
    first = simple_near(chance, label, kind != "on")
    last = simple_near(chance, other) if kind == "range" else None
    one_year = bool(last and first.day and last.day) and chance.random() < 0.5
    if one_year:
        last = last._replace(year=first.year, is_double=first.is_double)
    rarely = [chance.random() < 0.15 for _ in range(3)]
    return Span(kind, first, last, chance.choice([None] * 6 + ["old", "new"]), *rarely,
                one_year=one_year)
