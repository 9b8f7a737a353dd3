"""Compares what a fragment of the page says of a date with what `read` prints of it."""
import re
import subprocess
from html.parser import HTMLParser

DAY = re.compile(r"(from |to   )?(\w+day) (.+?)    (.+) Gregorian    (.+) Julian    day (\d+)    "
                 r"JDN (\d+)( ok| not \w+)?$")
COUNT = re.compile(r"(\d+) days?$")
WAITING = re.compile(r"\d+ edits? (is|are) not published yet")
FLAGS = {"approximate", "in doubt", "supplied by an editor"}
ORDER = ", or use --order dmy or mdy"
DAY_FACTS = ["As dated there", "Weekday", "Gregorian", "Julian", "Day number",
             "Julian day number"]
# `read` refuses a date with two weekdays; the query answers that its days don't have both.
TWO_WEEKDAYS = ": the date names "
OPEN = {"from any earlier day": ("From", "any earlier day"),
        "to   any later day": ("To", "any later day")}
FEAST = "The date is a feast"
# What the page has in place of a line of `read`, without a capital letter and a full stop.
NOT_DOUBLE = "not counted double there: the place wrote only the later year"
LINE = "the days of the register run from 1 January 1 to 31 December 9999, by the Gregorian calendar"
SHOWN = [
    (r" \(day \d+\)", ""), (r"not counted double there: .*", NOT_DOUBLE),
    (r"no date of its calendar: .*", "no calendar of the place has that day of the month"),
    (r"off the line of days: .*|no day of the line is .*", LINE),
    (r"no such date in that year: the year \d+ ran", "that year ran"),
    (r"no such date in that year: the place .*", "the place had no day of that year"),
    (r"of the last date:", "the last date of the range has no day"), (r"skipped: ", ""),
    (r" \(source: (.+)\)", r". Source: \1"), (r"; (.+ itself dated |by its own )", r". \1"),
]
GAP = r"\. (\d+ dates? (left out|comes? twice)|By the calendar before, no day has that date)"


class Fragment(HTMLParser):
    """The lists of facts and the notes of a piece of HTML."""

    def __init__(self, text):
        super().__init__()
        self.facts, self.notes, self.buffer, self.open = [], [], "", []
        self.feed(text)
        self.close()

    def handle_starttag(self, tag, attrs):
        self.open.append((tag, dict(attrs).get("class")))
        if tag in ("dt", "dd", "li"):
            self.buffer = ""
        elif tag == "dl":
            self.facts.append([])

    def handle_data(self, data):
        self.buffer += data

    def handle_endtag(self, tag):
        while self.open and self.open.pop()[0] != tag:
            pass
        text = " ".join(self.buffer.split())
        if tag == "dt":
            self.facts[-1].append((text, ""))
        elif tag == "dd":
            self.facts[-1][-1] = self.facts[-1][-1][0], text
        elif tag == "li" and ("ul", "notes") in self.open:
            self.notes.append(text)


def read_page(program, journal, code, date, weekday="", order=""):
    """What `read` prints, and what it reports if it prints nothing."""
    words = [program, "read", journal, code]
    words += (["--weekday", weekday] if weekday else []) + (["--order", order] if order else [])
    done = subprocess.run([*words, "--", date], capture_output=True, text=True, check=False)
    return done.stdout.split("\n")[:-1], done.stderr.strip()


def days_printed(lines):
    """The days that `read` prints of a date of one day, in the page's form. Any other date has
    runs."""
    result = []
    if any(line in OPEN or COUNT.fullmatch(line) or line.startswith("from ") for line in lines):
        return result
    for line in lines:
        if day := DAY.match(line):
            _, weekday, dual, gregorian, julian, number, jdn, agrees = day.groups()
            agrees = (agrees or "").strip()
            text = weekday
            if agrees == "ok":
                text += ", as stated"
            elif agrees:
                text += f", {agrees}"
            result.append(dict(zip(DAY_FACTS, (dual, text, gregorian, julian, number, jdn))))
    return result


def runs_printed(lines):
    """The runs that `read` prints, in the page's form."""
    result = []
    for line in lines:
        if line in OPEN:
            result.append(OPEN[line])
        elif day := DAY.match(line):
            name = {"from ": "From", "to   ": "To", None: "Day"}[day[1]]
            result.append((name, f"{day[2]} {day[3]} {day[4]} Gregorian, {day[5]} Julian, "
                                f"JDN {day[7]}"))
        elif count := COUNT.fullmatch(line):
            result.append(("Days", count[1]))
    return result


def found_printed(lines, is_feast):
    """The days or runs that `read` prints. It prints a feast as a day, which the page has as runs
    of one day."""
    if is_feast:
        return [pair for day in runs_printed(lines) for pair in (day, ("Days", "1"))]
    return days_printed(lines) or runs_printed(lines)


def notes_printed(lines, stderr):
    """The lines of `read` that the page has as notes, each with the source that follows it."""
    if not lines:
        text = stderr.partition("\n")[0].removeprefix("oldstyle: ").removesuffix(ORDER)
        return [text]
    notes = [line for line in lines[1:] if line not in OPEN and not (
        DAY.match(line) or COUNT.fullmatch(line) or WAITING.fullmatch(line)
        or FLAGS.issuperset(line.split("; ")))]
    return "\n".join(notes).replace("\n(source: ", " (source: ").split("\n") if notes else []


def bare(note):
    """A note without its capital letters and full stop, and without the dates that a change left
    out."""
    return re.sub(GAP, "", note.removesuffix(".")).lower()


def as_shown(line):
    """A line of `read` as a note of the page."""
    for form, text in SHOWN:
        line = re.sub(form, text, line)
    return bare(line)


def days_shown(fragment):
    """The days that a fragment shows, or its runs, in the form of what is reported."""
    tables = [dict(facts) for facts in fragment.facts]
    if any("As dated there" in facts for facts in tables):
        return [{name: facts[name] for name in DAY_FACTS} for facts in tables]
    return [pair for facts in fragment.facts for pair in facts]


def differences(html, program, journal, code, date, weekday="", order=""):
    """What a fragment says that differs from what `read` prints."""
    fragment = Fragment(html)
    lines, stderr = read_page(program, journal, code, date, weekday, order)
    result, expected = days_shown(fragment), found_printed(lines, FEAST in html)
    is_right = result == expected or TWO_WEEKDAYS in stderr
    wrong = [] if is_right else [f"days {result}, expected {expected}"]
    notes = [bare(note) for note in fragment.notes if not note.startswith("The date is ")]
    expected = list(dict.fromkeys(map(as_shown, notes_printed(lines, stderr))))
    # (`read` has this for one day alone)
    notes = [note for note in notes if note in expected or note != NOT_DOUBLE]
    is_true = notes == expected if lines else any(map(expected[0].endswith, notes))
    if not is_true:
        wrong.append(f"notes {notes}, expected {expected}")
    return [f"{code} {date!r} {weekday} {order}: {what}" for what in wrong]
