"""The spans that texts mean: what reference.py reads of docs/DATES.md, and all that spans.py draws.

The marks of a date are at the ends of the text. Each other text is Unread.
"""
import re

from lib.calendars import dates
from lib.date_meaning import days_under
from lib.feasts import FORM as FEAST, NAMED
from lib.spans import NAMES, PART_WORDS, Simple, Span, in_part, part_of

MONTHS = {name.lower(): month for names in NAMES for month, name in enumerate(names, 1)}

YEARS = r"(?P<year>\d{3,5})(?:/(?P<later>\d{1,5}))?"
NAME, DAY = f"(?P<name>{'|'.join(map(re.escape, MONTHS))})", r"(?P<day>\d{1,2})"
DATES = [YEARS, f"anno {YEARS}", rf"(?!\d+/|\d{{3}}-){YEARS}-XX-XX",
         f"{NAME},? {YEARS}", f"{YEARS} {NAME}",
         f"{YEARS},? {NAME} {DAY}",
         rf"{YEARS}-(?P<month>\d\d)", rf"{YEARS}-(?P<month>\d\d)-(?P<day>\d\d)",
         f"{DAY} {NAME} {YEARS}", f"the {DAY} of {NAME}, {YEARS}", f"{NAME} {DAY}, {YEARS}",
         rf"{DAY}\.(?P<month>\d{{1,2}})\.{YEARS}"]
# A year of which the month is open, alone.
WITHOUT_MONTH = rf"(?!\d{{3}}-|\d+/){YEARS}-XX"
# What the first date of a range may be, if the last one has the other parts.
FRONTS = [DAY, f"{DAY} {NAME}", NAME]
# With a dash after it a double year alone is not a first date.
RANGES = [r"from (.+) to (.+)", r"between (.+) (?:and|&) (.+)", r"(.+) to (.+)",
          r"(?!\d+/\d+ ?[-\u2013])([^-]+?) ?[-\u2013] ?(.+)"]
# A day by both calendars.
OLD_NEW = r"(?P<old>\d{1,2})/(?P<new>\d{1,2})"
OTHER = NAME.replace("name", "other")
BOTH = [f"{OLD_NEW} {NAME} {YEARS}", f"{NAME} {OLD_NEW},? {YEARS}",
        rf"(?P<old>\d{{1,2}}) {NAME}/(?P<new>\d{{1,2}}) {OTHER} {YEARS}",
        rf"{NAME} (?P<old>\d{{1,2}})/{OTHER} (?P<new>\d{{1,2}}),? {YEARS}"]
BOUND = r"(before|not after|by|after|not before) (.+)"
THAN = {"no earlier than ": "not before ", "no later than ": "not after ",
        "earlier than ": "before ", "later than ": "after "}
START = r"(?:from|since) (.+)"
# A range of days after its month.
MONTH_FIRST = (rf"(?P<month>{NAME}) (?P<days>\d{{1,2}}(?: ?[-\u2013] ?| to | or )\d{{1,2}}),? "
               r"(?P<rest>\d{3,5})$")

# A double year after a dash, with what is before or after it.
DASHED = r"(?P<year>\d{4,5})[-\u2013](?P<last>\d+)"
DASHED = [rf"(?P<before>.*\b{NAME}(?: \d{{1,2}})?,? ){DASHED}(?P<after>)",
          rf"(?P<before>){DASHED}(?P<after>,? {NAME} \d{{1,2}})"]
# Days and months of which the last digit is open.
OPEN_DAY, OPEN_MONTH = r"(\d{4})-(\d\d)-([0-3])X", r"(\d{4})-([01])X"
PHRASE = r"INT (.*?) ?\([^()]*\)"

# A number that may be a day or a month, and one that is a day.
MAY_BE_MONTH, ONE_DAY = "([1-9]|1[0-2])", r"(?:0?[1-9]|[12]\d|3[01])"
# Texts that are not dates, and why.
NONE = {r" *|n\.d\.|s\.d\.|undated|no date": "no date",
        rf"{MAY_BE_MONTH}([/-])(?!\1\2){MAY_BE_MONTH}\2\d{{3,4}}": "open between day and month",
        rf"(?:{ONE_DAY} {NAME} )?\d{{1,2}}": "year of one or two digits",
        rf"{ONE_DAY} {NAME} [1-9]\d\d(?: ?[?%-]| ?\.\.|[x_])|[1-9]\d\d(?: [?-]| ?%| ?\.\.)":
            "year with an open digit"}

# Years of which the last digits are open, and centuries by their number.
DECADE, HUNDRED = r"(\d\d\d)[x_]|(\d\d[1-9])0s", r"(\d\d)[x_]{2}"
LETTER = r"(1\d|20)th c\.?"
CENTURY = rf"([4-9]|1\d|20)th century|{LETTER}"
# The same by signs alone: [158-?], 15--.
BY_SIGNS = r"(\[?)(?:([1-9]\d\d)(?:\?|-(\??))|([1-9]\d)--(\??))(\]?)"

# A year that may lack its last digit.
THREE_DIGITS = r"(?<![\d/])[1-9]\d\d(?!\d)"
SUPPLIED = r"\[(.*)\]"
SET_DAY = r"(?:\d{3,5}-\d\d-\d\d|\d{4}(?:-\d\d)?)[?~%]?"
SET_MEMBER = rf"(?:{SET_DAY}(?:\.\.(?:{SET_DAY})?)?|\.\.{SET_DAY})"
SET = rf"\[(?:{SET_DAY}\.\.(?:{SET_DAY})?|\.\.{SET_DAY})\]|\[{SET_MEMBER}(?:,{SET_MEMBER})+\]"
LIST = rf"\{{{SET_MEMBER}(?:,{SET_MEMBER})*\}}|{SET_MEMBER}(?:, ?{SET_MEMBER})+"
# A square bracket between two digits or two letters.
WITHIN = r"(?<=\d)[][](?=\d)|(?<=[a-z])[][](?=[a-z])"
UNCERTAIN = r"(?:probably|perhaps) (.*)|(.*?) ?(?:\?|\(\?\))"
RECKONING = r"(.*?),? \(?(O\.?S\.?|old style|Julian|N\.?S\.?|new style|Gregorian)\)?"
APPROXIMATE = r"(?:about|c\.|ca\.|circa) (.*)"


def matched(forms, text):
    """The parts of the first form that a text has, or None."""
    tried = (re.fullmatch(form, text, re.I) for form in forms)
    return next((result.groupdict() for result in tried if result), None)


def month_of(parts):
    """The month of the parts, None if they have none."""
    if name := parts.get("name"):
        return MONTHS[name.lower()]
    return int(parts["month"]) if "month" in parts else None


def simple_of(parts, text):
    year, later = int(parts["year"]), parts["later"]
    day = int(parts["day"]) if "day" in parts else None
    has_three_digits = len(parts["year"]) == 3 and year >= 100
    date = Simple(year, later is not None, month_of(parts), day, has_three_digits)
    is_later = later is None or str(year + 1).zfill(len(later)).endswith(later)
    if not is_later or year > 10_000 or date.month not in (None, *range(1, 13)):
        raise Unread(text)
    if day not in (None, *range(1, 32)):
        raise Unread(text)
    return date


def date_of(text):
    if parts := matched(DATES, text):
        return simple_of(parts, text)
    raise Unread(text)


def front_of(text, last):
    """The first date of a range, and whether it is a day of the year of the last one: one of the
    kind of the last one gets from it what it lacks."""
    if not (parts := matched(FRONTS, text)):
        return date_of(text), False
    month = month_of(parts) or last.month
    day = int(parts["day"]) if "day" in parts else None
    if last.month is None or (day is None) != (last.day is None):
        raise Unread(text)
    if day is not None and not 1 <= day <= 31:
        raise Unread(text)
    return last._replace(month=month, day=day), day is not None


def range_of(first, count):
    """The range of this number of years."""
    return Span("range", Simple(first), Simple(first + count - 1))


def years_of(text):
    """The range of a decade or a century, None if the text is neither."""
    if match := re.fullmatch(DECADE, text, re.I):
        return range_of(10 * int(match[1] or match[2]), 10)
    if match := re.fullmatch(HUNDRED, text, re.I):
        return range_of(100 * int(match[1]), 100)
    if match := re.fullmatch(CENTURY, text, re.I):
        return range_of(100 * int(match[1] or match[2]) - 99, 100)
    return None


PART = r"\b(?:early|mid|late|spring|summer|autumn)\b"
# A part of a month, a year, a decade or a century, and the first months of seasons and quarters.
PARTS = [(f"{word} (.*)", portion) for portion, words in PART_WORDS.items() for word in words]
SEASONS = {"spring": 3, "21": 3, "summer": 6, "22": 6, "autumn": 9, "23": 9,
           "33": 1, "34": 4, "35": 7, "36": 10}


def part_in(text):
    """The part of a time that a text is, None if it has no such form."""
    text = re.sub(r"^(.*?),? \(?(early|mid|late)\)?$", r"\2 \1", text, flags=re.I)
    for form, portion in PARTS:
        if match := re.fullmatch(form, text, re.I):
            if years := years_of(match[1]):
                first, last = part_of(years.first.year, years.last.year, portion)
                return Span("range", Simple(first), Simple(last))
            date = date_of(match[1])
            if date.day is not None:
                raise Unread(text)
            return in_part(date, portion)
    return None


def season_in(text):
    """The months of a season or a quarter, None if the text is neither."""
    text = re.sub(r"^(\d{4}),? (spring|summer|autumn)$", r"\2 \1", text, flags=re.I)
    if match := re.fullmatch(r"(spring|summer|autumn) (\d{4})", text, re.I):
        year, month = int(match[2]), SEASONS[match[1].lower()]
    elif (match := re.fullmatch(r"(\d{4})-(2[123]|3[3-6])", text)) and match[1][2:] >= match[2]:
        year, month = int(match[1]), SEASONS[match[2]]
    else:
        return None
    return Span("range", Simple(year, False, month), Simple(year, False, month + 2))


def end_in(text, portions, year=None):
    """The first and last date of a part of a time, as the end of a range: a part of years has one
    only if it is one of these portions. Parts of a year may lack it."""
    if year is not None and not re.search(r"\d", text):
        text = f"{text} {year}"
    if not (part := part_in(text) or season_in(text)):
        raise Unread(text)
    if part.kind == "part" and part.portion not in portions:
        raise Unread(text)
    return part.first, part.last or part.first


def range_of_parts(text):
    """From one part of a time to another one, None if a text has no such form."""
    match = re.fullmatch(rf"(.*?{PART}.*?)(?: - | to | or )(.*{PART}.*)", text, re.I)
    if not match:
        return None
    last = end_in(match[2], ("last third", "second half"))[1]
    first = end_in(match[1], ("first third", "first half"), last.year)[0]
    return Span("range", first, last)


def open_in(text):
    """The days or months of which the last digit is open, None if a text has no such form."""
    if match := re.fullmatch(OPEN_MONTH, text, re.I):
        first, last = ((1, 9), (10, 12))[int(match[2])]
        return Span("range", *(Simple(int(match[1]), False, month) for month in (first, last)))
    if not (match := re.fullmatch(OPEN_DAY, text, re.I)):
        return None
    month = Simple(int(match[1]), False, int(match[2]))
    tens, is_february = int(match[3]), month.month == 2
    if month.month not in range(1, 13) or is_february and tens == 3:
        raise Unread(text)
    end = None if is_february and tens == 2 else 10 * tens + 9
    if tens == 3:
        end = 30 if month.month in (4, 6, 9, 11) else 31
    return Span("range", month._replace(day=max(1, 10 * tens)), month._replace(day=end))


def with_slash(text):
    """A text with `/` for the dash of a double year."""
    parts = matched(DASHED, text)
    if not parts or month_of(parts) > 3 or len(parts["last"]) not in (1, 2, 4):
        return text
    is_later = str(int(parts["year"]) + 1).endswith(parts["last"])
    has_day = re.search(r"\d", parts["before"] + parts["after"])
    if not is_later or len(parts["last"]) == 4 and not has_day:
        return text
    return f"{parts['before']}{parts['year']}/{parts['last']}{parts['after']}"


def years_by_signs(text):
    """The same of digits and signs alone, which may be in brackets and in doubt."""
    match = re.fullmatch(BY_SIGNS, text)
    if not match or bool(match[1]) != bool(match[6]):
        return None
    years = range_of(10 * int(match[2]), 10) if match[2] else range_of(100 * int(match[4]), 100)
    return years._replace(uncertain=bool(match[3] or match[5]), supplied=bool(match[1]))


def extent_of(text):
    """One date, a range or a bound."""
    if result := years_of(text) or open_in(text):
        return result
    text = with_slash(text)
    if days := re.match(MONTH_FIRST, text, re.I):
        text = f"{days['days']} {days['month']} {days['rest']}"
    if parts := matched([*DATES, WITHOUT_MONTH], text):
        return Span("on", simple_of(parts, text))
    if parts := matched([rf"{FEAST} {YEARS}"], text):
        return Span("feast", simple_of(parts, text), feast=NAMED[parts["feast"].lower()])
    for words, word in THAN.items():
        text = text.replace(words, word)
    if match := re.fullmatch(BOUND, text, re.I):
        word = match[1].lower()
        return Span("not after" if word == "by" else word, date_of(match[2]))
    for form in RANGES:
        if match := re.fullmatch(form, text, re.I):
            last = date_of(match[2])
            first, one_year = front_of(match[1], last)
            return Span("range", first, last, one_year=one_year)
    if match := re.fullmatch(START, text, re.I):
        return Span("not before", date_of(match[1]))
    raise Unread(text)


def by_both(text):
    """The date of a day by both calendars, None if a text has no such form."""
    if not (parts := matched(BOTH, text)):
        return None
    year = simple_of({"year": parts["year"], "later": parts["later"]}, text)
    month = month_of(parts)
    old = month, int(parts["old"])
    new = MONTHS[parts.get("other", parts["name"]).lower()], int(parts["new"])
    is_early = min(old, new) < (3, 25)
    is_own = is_early and not year.is_double
    if is_early < year.is_double or is_own and (old >= (3, 25) or old > (new[0], 31)):
        raise Unread(text)
    # In the place's own year it may be either, so the dates have to be one day of both.
    for gregorian in {year.year + year.is_double, year.year + is_early}:
        days = days_under(("gregorian", "january"), (gregorian, *new))
        if [dates("julian")[day][1:] for day in days] != [old]:
            raise Unread(text)
    if is_own:
        return Span("on", year._replace(month=old[0], day=old[1]), reckoning="old")
    return Span("on", Simple(year.year + year.is_double, False, *new), reckoning="new")


class Unread(Exception):
    """A text that may be a date, and that is in no form which is read here."""


def why_none(text):
    """Why a text is not a date, None if it may be one."""
    return next((why for form, why in NONE.items() if re.fullmatch(form, text, re.I)), None)


def without(form, text):
    """The part of a text outside a form, and whether it has that form."""
    match = re.fullmatch(form, text, re.I)
    return (next(filter(None, match.groups()), ""), True) if match else (text, False)


def set_of(text):
    """The set or the list that a text is, or None. Its days have one sign, or none."""
    if not re.fullmatch(f"{SET}|{LIST}", text):
        return None
    if len({re.sub("[^?~%]", "", member) for member in text.split(",")}) > 1:
        raise Unread(text)
    members = []
    for member in text.strip("[]{}").split(","):
        first, dots, last = (part.strip(" ?~%") for part in member.partition(".."))
        kind = "range" if first and last else "not before" if first else "not after"
        days = [date_of(day) for day in (first, last) if day]
        members.append(Span(kind if dots else "on", *days))
    approximate, uncertain = (re.search(signs, text) is not None for signs in ("[~%]", "[?%]"))
    return Span("set", members[0].first, None, None, approximate, uncertain, False, tuple(members))


def span_of(text):
    """The span that a text means."""
    if result := years_by_signs(text) or set_of(text):
        return result
    if match := re.fullmatch(PHRASE, text, re.I):
        text = match[1]
    rest, supplied = without(SUPPLIED, text)
    if re.search(r"[][]", rest):
        rest = re.sub(r"[][]", " ", re.sub(WITHIN, "", rest, flags=re.I))
        rest, supplied = " ".join(rest.split()), True
        if re.fullmatch(LETTER, rest, re.I):
            raise Unread(text)
    rest, uncertain = without(UNCERTAIN, rest)
    if (supplied or uncertain) and re.search(THREE_DIGITS, rest):
        raise Unread(text)
    rest = re.sub(r"@#D(JULIAN|GREGORIAN)@ (.*)", r"\2 \1", rest, flags=re.I)
    named = re.fullmatch(RECKONING, rest, re.I)
    reckoning = ("old" if named[2][0] in "OoJj" else "new") if named else None
    rest, approximate = without(APPROXIMATE, named[1] if named else rest)
    if part := range_of_parts(rest) or part_in(rest) or season_in(rest):
        return part._replace(reckoning=reckoning, approximate=True, uncertain=uncertain,
                             supplied=supplied)
    if both := by_both(rest):
        if named:
            raise Unread(text)
        return both._replace(approximate=approximate, uncertain=uncertain, supplied=supplied)
    extent = extent_of(rest)
    if named and extent.kind == "feast":
        raise Unread(text)
    return extent._replace(reckoning=reckoning, approximate=approximate, uncertain=uncertain,
                           supplied=supplied)
