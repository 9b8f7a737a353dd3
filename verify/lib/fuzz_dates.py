"""Dates as people write them, changed at random: a target of fuzz.py.

Many dates go together through the query `written` and, as a table, through `letters`, which must
say the same of each. Some go through `read`, which refuses those in which no date is read, in one
line, and no others. What reference.py reads is answered as there.
"""
import csv
import io
import json
import os
import re

from lib.common import TOP, compact
from lib.fuzz_letters import JOURNAL, SPACES, register, walk_calendars
from lib.mutations import Run, mutated
from reference import written_answer
from lib.date_draws import MALFORMED
from lib.span_texts import Unread

AT_ONCE = 400
READ = 2
CODES = ["GB", "SE", "RU", "RM", "DE"]
WEEKDAYS = ["Friday", "sunday", "MONDAY"]
REASONS = ("not with both years", "no date of its calendar", "off the line", "skipped",
           "no such date in that year", "no such feast in that year")
TWO_WEEKDAYS = b": the date names "
MEMBERS = {"approximate", "ends_in_next_year", "kind", "named_calendar", "named_weekday", "nearest",
           "not_counted_double", "other_calendar", "read_as", "reason", "runs", "skipped",
           "supplied", "three_digits", "uncertain", "weekday", "year"}


def sample_dates():
    """The dates that docs/DATES.md shows, and texts that are not dates."""
    with open(os.path.join(TOP, "docs", "DATES.md"), encoding="utf-8") as file:
        rows = [line for line in file if line.startswith("|")]
    texts = [text for row in rows for text in re.findall("`([^`]+)`", row)]
    return sorted({text.encode() for text in texts + MALFORMED} | {b"", b" "})


SAMPLES = sample_dates()
WORDS = [text for text in SAMPLES if text.isalpha() or text.isdigit()] + [
    b" to ", b" or ", b"between ", b"before ", b"not after ", b"about ", b"?", b"~", b" O.S.",
    b" N.S.", b"/2", b"/32", b"1731", b"1752", b"0", b"10000", b" - ", b"..", b"[", b"]",
    b"Friday "]


class Question:
    """A date in a place, with a weekday or without."""

    def __init__(self, chance):
        self.code, self.weekday = chance.choice(CODES), chance.choice([""] * 6 + WEEKDAYS)
        self.text = mutated(chance, SAMPLES, WORDS).decode(errors="ignore")[:30_000]

    def line(self):
        ask = {"op": "written", "reader": 1, "code": self.code, "date": self.text}
        return compact({**ask, "weekday": self.weekday} if self.weekday else ask)

    def is_plain(self):
        """Returns whether the text is printable and has no space at its ends."""
        return self.text.isprintable() and self.text == self.text.strip(SPACES)

    def known(self):
        """What the reference answers, None if it reads no such text."""
        if not (self.text.isascii() and self.is_plain()):
            return None
        try:
            return written_answer(register()[0][self.code].land, self.text, self.weekday or None)
        except Unread:
            return None


def why_no_answer(reply):
    """What is wrong with the form of a reply."""
    try:
        value = json.loads(reply)
        answer = value["answer"]
    except (ValueError, KeyError, TypeError):
        return f"no answer: {reply!r}"
    if compact(value).encode() != reply or set(answer) != MEMBERS:
        return f"not an answer in the form of FORMATS.md: {reply!r}"
    runs = answer["runs"]
    days = [run[end]["day"] for run in runs for end in ("first", "last")]
    if answer["kind"] != "day" and days != sorted(days) or bool(runs) == bool(answer["reason"]):
        return f"runs or reason are not right: {reply!r}"
    return ""


def ends_of(answer):
    """The Gregorian dates of the first and the last day that an answer means."""
    firsts = [run["first"]["gregorian"] for run in answer["runs"]]
    lasts = [run["last"]["gregorian"] for run in answer["runs"]]
    first = "" if answer["kind"] == "before" or not firsts else min(firsts)
    return first, "" if answer["kind"] == "after" or not lasts else max(lasts)


def why_other_row(answer, row):
    """What a row of `letters` says that differs from an answer."""
    kind = "" if answer["kind"] == "none" else answer["kind"]
    remarks = row["remark"].split("; ")
    if row["kind"] != kind or (row["earliest"], row["latest"]) != ends_of(answer):
        return "other days"
    if answer["reason"] and answer["reason"] not in remarks:
        return "another reason"
    if not answer["reason"] and any(remark.removeprefix("last date: ") in REASONS
                                    for remark in remarks):
        return "a reason"
    says = ("supplied by an editor" in remarks, "by another calendar" in remarks)
    return "" if says == (answer["supplied"], answer["other_calendar"]) else "other remarks"


class Dates:
    """Some hundred dates each time."""

    about = "dates"
    prepare = staticmethod(walk_calendars)

    def __init__(self, program, _folder):
        self.program = program

    def round(self, chance):
        dates = [Question(chance) for _ in range(AT_ONCE)]
        stdin = "".join(one.line() + "\n" for one in dates).encode()
        done = Run([self.program, "serve", "--journal", JOURNAL], stdin)
        replies = done.out.splitlines()
        if done.why_wrong() or done.status or len(replies) != len(dates):
            return len(dates), [(f"{len(replies)} replies, status {done.status}, {done.stderr!r}",
                                 "serve", stdin)]
        result = [(why, one.code, one.text.encode()) for one, reply in zip(dates, replies)
                 if (why := self.why_wrong(one, reply))]
        result += self.by_letters(dates, replies)
        for place in chance.sample(range(len(dates)), READ):
            result += self.by_read(dates[place], replies[place])
        return len(dates), result

    def why_wrong(self, one, reply):
        """What is wrong with the answer to a date."""
        if why := why_no_answer(reply):
            return why
        expected = one.known()
        if expected is not None and expected != json.loads(reply)["answer"]:
            return f"{reply!r}, expected {compact(expected)}"
        return ""

    def by_letters(self, dates, replies):
        """Each date of which `letters` says something else."""
        pairs = [(one, json.loads(reply)["answer"]) for one, reply in zip(dates, replies)
                 if one.is_plain() and not why_no_answer(reply)]
        table = io.StringIO()
        rows = csv.writer(table, lineterminator="\n")
        rows.writerow(["place", "date", "weekday"])
        rows.writerows([one.code, one.text, one.weekday] for one, _ in pairs)
        done = Run([self.program, "letters", JOURNAL], table.getvalue().encode())
        result = list(csv.DictReader(io.StringIO(done.out.decode(), newline="")))
        if done.status or len(result) != len(pairs):
            return [(f"{len(result)} rows, {done.stderr!r}", "letters", table.getvalue().encode())]
        return [(f"{why}: the row {row}, the answer {answer}", one.code, one.text.encode())
                for (one, answer), row in zip(pairs, result) if (why := why_other_row(answer, row))]

    def by_read(self, one, reply):
        """Checks that `read` has a page of it, or prints a fault in a line if it has none."""
        if not one.is_plain() or len(one.text) > 5_000:
            return []
        words = ["--weekday", one.weekday] if one.weekday else []
        done = Run([self.program, "read", JOURNAL, one.code, *words, "--", one.text])
        why, kind = done.why_wrong(), json.loads(reply)["answer"]["kind"]
        is_refused = kind == "none" or TWO_WEEKDAYS in done.stderr
        faults = [line for line in done.stderr.splitlines() if not line.startswith(b"help: ")]
        if not why and (done.status, len(faults)) != (2 * is_refused, int(is_refused)):
            why = f"status {done.status}, {done.stderr!r}, but {reply!r}"
        return [(why, ["read", one.code, *words], one.text.encode())] if why else []
