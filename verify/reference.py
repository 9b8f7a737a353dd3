#!/usr/bin/env python3
"""Answers request lines as the program does, slowly: the service written independently.

It was written from docs/FORMATS.md and docs/CALENDARS.md alone, for eight readers and the
standard limits: verify/reference.py < examples/rome.jsonl. Edits have the members of the newest
version of journals, or those of an earlier one. Calendars are walks along every day of
the line, a reading is a search through every day, Easter is found by the tables of the moon. Its
replies must be those of the program, byte for byte. For `written` it answers days, months, years,
ranges and bounds in their usual English forms, and ends at any other text.
"""
import json
import re
import sys

from lib.calendars import (HIGH, LAST_LABEL_YEAR, LAST_YEAR, WEEKDAYS, Land, dates, figures,
                           key_of, labels, places)
from lib.common import SCRIPT, CommandLine, compact, end
from lib.date_meaning import Malformed, Territory, has_weekday, parse
from lib.messages import message_of
from lib.span_texts import Unread, span_of, why_none
from lib.spans import Simple, near, none_answer, remarks, runs_found, runs_of, span_answer
from lib.year_page import feasts

LONGEST_LINE = 65_536
DEEPEST = 128

NAMES = {1: "BadCode", 2: "BadName", 3: "UnknownLand", 4: "LandExists", 5: "DayOffLine"}
NAMES |= {6: "ChangeExists", 7: "NoSuchChange", 8: "OpeningPeriod", 9: "YearOffRange"}
NAMES |= {10: "ExceptionExists", 11: "NoSuchException", 12: "TooManyLands", 13: "TooManyChanges"}
NAMES |= {14: "TooManyExceptions", 15: "NothingPending", 16: "JournalFull", 17: "EditionsFull"}
NAMES |= {18: "BadDate", 19: "StyleNeedsJulian", 31: "LineTooLong", 32: "NotJson"}
NAMES |= {33: "NotObject", 34: "BadField", 35: "UnknownOp", 36: "UnknownReader"}
NAMES |= {46: "NeedsUpgrade"}
NEWEST, LONGEST_SOURCE = 4, 1_000
REGIME = {"calendar": ("julian", "gregorian", "swedish"), "rule": ("julian", "gregorian")}
REGIME["style"] = ("january", "annunciation", "nativity", "september", "pisan", "easter")
MEMBERS = {
    "add_land": "code name calendar style rule source",
    "add_change": "code day calendar style rule source",
    "alter_change": "code day calendar style rule source",
    "drop_change": "code day",
    "add_exception": "code year day source",
    "drop_exception": "code year",
    "publish": "",
    "read": "reader code year month day",
    "day": "reader code day",
    "easter": "reader code year",
    "figures": "reader year",
    "lands": "reader",
    "periods": "reader code",
    "exceptions": "reader code",
    "changes": "reader code",
    "feasts": "reader code year",
    "convert": "reader code calendar year month day",
    "written": "reader code date weekday",
}


class Fault(Exception):
    def __init__(self, number, is_unknown=False, **members):
        super().__init__(number)
        self.is_unknown = is_unknown
        self.members = {"fault": number, "name": NAMES[number], **members}


def refuse(*tests):
    for test, number in tests:
        if test():
            raise Fault(number)


def nesting(value):
    if not isinstance(value, (dict, list)):
        return 0
    return 1 + max(map(nesting, value.values() if isinstance(value, dict) else value), default=0)


class Whole(int):
    """A whole number of JSON, unlike a float and a boolean."""


def request_of(line, readers, version=NEWEST, is_strict=False):
    if len(line) > LONGEST_LINE:
        raise Fault(31)
    try:
        value = json.loads(line.decode(), parse_int=Whole, parse_constant=float)
    except (ValueError, RecursionError):
        raise Fault(32) from None
    if nesting(value) >= DEEPEST:
        raise Fault(32)
    if not isinstance(value, dict):
        raise Fault(33)
    op = value.get("op")
    if not isinstance(op, str):
        raise Fault(34, field="op")
    if op not in MEMBERS:
        raise Fault(35)
    if unknown := is_strict and sorted(
            value.keys() - {"op", *MEMBERS[op].split()}, key=str.encode):
        raise Fault(34, is_unknown=True, field=unknown[0])
    for member in MEMBERS[op].split():
        got = value.get(member)
        if member in ("code", "name", "date"):
            is_right = isinstance(got, str)
        elif member == "weekday":
            is_right = member not in value or isinstance(got, str) and is_weekday(got)
        elif member == "source":
            is_right = version < NEWEST or member not in value or (
                isinstance(got, str) and is_source(got))
        elif member in REGIME:
            is_right = isinstance(got, str) and got in REGIME[member]
        else:
            is_right = isinstance(got, Whole) and -(2**63) <= got < 2**63
        if not is_right:
            raise Fault(34, field=member)
    if "reader" in MEMBERS[op] and not 1 <= value["reader"] <= readers:
        raise Fault(36)
    if version < NEWEST:
        value.pop("source", None)
    return op, value


class Service:
    """The service, whose lines have the members of a version."""

    def __init__(
        self, readers=8, lands=500, changes=40, exceptions=200, edits=20_000, editions=5_000,
        version=NEWEST, takes_sources=True, explains=False, is_strict=False
    ):
        self.readers, self.explains, self.published, self.draft = readers, explains, {}, {}
        self.version, self.takes_sources, self.is_strict = version, takes_sources, is_strict
        self.edits, self.pending, self.edition = 0, 0, 0
        self.most = dict(
            lands=lands, changes=changes, exceptions=exceptions, edits=edits, editions=editions
        )

    def reply(self, line):
        is_unknown = False
        try:
            op, value = request_of(line, self.readers, self.version, self.is_strict)
            if op == "publish":
                members = self.publish()
            elif "reader" in MEMBERS[op]:
                outcome = self.ask(op, value)
                members = {"edition": self.edition, "reader": value["reader"], **outcome}
            else:
                is_given = "source" in MEMBERS[op] and "source" in value
                refuse((lambda: is_given and not self.takes_sources, 46))
                members = self.stage(op, value)
        except Fault as fault:
            members, is_unknown = fault.members, fault.is_unknown
        if self.explains and "fault" in members:
            members = {**members, "message": message_of(members, is_unknown)}
        return compact(members)

    def publish(self):
        refuse((lambda: self.pending == 0, 15), (lambda: self.edition >= self.most["editions"], 17))
        self.edition, self.pending = self.edition + 1, 0
        self.published = {code: land.copy() for code, land in self.draft.items()}
        return {"edition": self.edition, "ok": "published"}

    def refusals(self, op, value, regime, land):
        """The tests of an edit, each with its refusal, in order."""
        code, day, year = value["code"], value.get("day"), value.get("year")
        tests = [(lambda: not is_code(code), 1)]
        if op == "add_land":
            tests += [(lambda: not is_name(value["name"]), 2), (lambda: land is not None, 4)]
            tests += [(lambda: needs_julian(regime), 19)]
            tests += [(lambda: len(self.draft) >= self.most["lands"], 12)]
        else:
            tests += [(lambda: land is None, 3)]
        if op in ("add_change", "alter_change", "drop_change", "add_exception"):
            tests += [(lambda: not 1 <= day <= HIGH, 5)]
        if op in ("add_change", "drop_change"):
            tests += [(lambda: day == 1, 8)]
        if op == "add_change":
            tests += [(lambda: day in land.starts, 6), (lambda: needs_julian(regime), 19)]
            tests += [(lambda: len(land.starts) > self.most["changes"], 13)]
        if op in ("alter_change", "drop_change"):
            tests += [(lambda: day not in land.starts, 7)]
        if op == "alter_change":
            tests += [(lambda: needs_julian(regime), 19)]
        if op in ("add_exception", "drop_exception"):
            tests += [(lambda: not 1 <= year <= LAST_YEAR, 9)]
        if op == "add_exception":
            tests += [(lambda: year in land.exceptions, 10)]
            tests += [(lambda: len(land.exceptions) >= self.most["exceptions"], 14)]
        if op == "drop_exception":
            tests += [(lambda: year not in land.exceptions, 11)]
        return [*tests, (lambda: self.edits >= self.most["edits"], 16)]

    def stage(self, op, value):
        code, day, year = value["code"], value.get("day"), value.get("year")
        regime = tuple(value.get(member) for member in ("calendar", "style", "rule"))
        land, source = self.draft.get(code), value.get("source")
        refuse(*self.refusals(op, value, regime, land))
        if op == "add_land":
            self.draft[code] = Land(value["name"], regime)
            self.draft[code].start(1, regime, source)
        elif op in ("add_change", "alter_change"):
            land.start(day, regime, source)
        elif op == "drop_change":
            land.end_start(day)
        elif op == "add_exception":
            land.list_easter(year, day, source)
        else:
            land.end_easter(year)
        self.edits, self.pending = self.edits + 1, self.pending + 1
        return {"ok": "staged", "pending": self.pending}

    def ask(self, op, value):
        try:
            return {"answer": self.answer(op, value)}
        except Fault as fault:
            return fault.members

    def answer(self, op, value):
        code, year, month, day = (value.get(member) for member in ("code", "year", "month", "day"))
        if op == "lands":
            lands = self.published.items()
            return {"lands": [{"code": code, "name": land.name} for code, land in lands]}
        if op == "figures":
            refuse((lambda: not 1 <= year <= LAST_YEAR, 9))
            return figures(year)
        land = self.published.get(code)
        refuse((lambda: not is_code(code), 1), (lambda: land is None, 3))
        if op == "periods":
            return {"periods": [
                {"first": first, "last": last, **regime_of(regime), **cited(land.sources, first)}
                for first, last, regime in land.periods()]}
        if op == "exceptions":
            return {"exceptions": [
                {"found": land.found(day), "year": year, **cited(land.easter_sources, year)}
                for year, day in sorted(land.exceptions.items())]}
        if op == "changes":
            return {"changes": changes_of(land)}
        if op == "written":
            return written_answer(land, value["date"], value.get("weekday"))
        if op == "day":
            refuse((lambda: not 1 <= day <= HIGH, 5))
            first, last, regime = land.period(day)
            return {"first": first, "found": land.found(day), "last": last,
                    "regime": regime_of(regime), **cited(land.sources, first)}
        if op == "easter":
            refuse((lambda: not 1 <= year <= LAST_YEAR, 9))
            days = [land.found(d) for d in land.easters(year)]
            listed = {"listed": year in land.exceptions}
            return {"days": days, **listed, **cited(land.easter_sources, year)}
        if op == "feasts":
            refuse((lambda: not 1 <= year <= LAST_YEAR, 9))
            return {"feasts": [
                {"feast": name, "found": land.found(day), "year": january_year}
                for name, day, january_year in feasts(Territory(land), year)]}
        refuse((lambda: not 0 <= year <= LAST_LABEL_YEAR, 9))
        refuse((lambda: not 1 <= month <= 12 or not 1 <= day <= 31, 18))
        key = key_of(year, month, day)
        if op == "convert":
            days = places(labels(value["calendar"], "january"), key)
            return {"days": [land.found(d) for d in days]}
        return {"days": [land.found(d) for d in land.read(key)], "skipped": land.skipped(key)}


def is_weekday(name):
    return name.isascii() and name.capitalize() in WEEKDAYS


def written_answer(land, text, weekday):
    """What a text in one of the usual forms means."""
    if why := why_none(text):
        return none_answer(why)
    try:
        date = parse(text)
    except Malformed:
        return span_answer(land, span_of(text), weekday and weekday.capitalize())
    territory, weekday = Territory(land), weekday and weekday.capitalize()
    days = territory.days_meant(date)
    is_on = any(has_weekday(date, weekday, day) for day in days)
    named = f"{date.weekday} " if date.weekday else ""
    written = Simple(date.year, date.is_double, date.month, date.day, date.has_three_digits)
    return {
        "approximate": False, "ends_in_next_year": False, "kind": "day", "named_calendar": None,
        "named_weekday": date.weekday, "other_calendar": False,
        "read_as": [named + written.words()], "reason": None if days else territory.absence(date),
        "runs": runs_found(land, runs_of(sorted(days))), "supplied": False, "uncertain": False,
        "weekday": is_on if date.weekday or weekday else None,
        **remarks(territory, territory, [written]),
        **near(land, territory, None if days else date),
    }


def changes_of(land):
    """The changes of a territory, each with the days about it and the dates that it leaves out."""
    result, periods = [], land.periods()
    for (_, before, old), (first, _, new) in zip(periods, periods[1:]):
        same = [day for day, date in enumerate(dates(old[0])) if date == dates(new[0])[first]]
        result.append({
            "before": land.found(before), "found": land.found(first),
            "left_out": max(0, same[0] - first) if same else None,
            "regime": regime_of(new), "regime_before": regime_of(old),
            **cited(land.sources, first), "twice": max(0, first - same[0]) if same else None,
        })
    return result


def cited(sources, of):
    """The member with a source, if there is one."""
    return {"source": sources[of]} if of in sources else {}


def regime_of(regime):
    return dict(zip(("calendar", "style", "rule"), regime))


def needs_julian(regime):
    """Returns whether the style is that of Easter, and calendar or rule isn't Julian."""
    calendar, style, rule = regime
    return style == "easter" and (calendar, rule) != ("julian", "julian")


def is_code(code):
    return re.fullmatch(r"[A-Z][A-Z0-9]{1,7}", code) is not None


def is_name(name):
    encoded = name.encode()
    return 1 <= len(encoded) <= 64 and all(byte >= 0x20 and byte != 0x7F for byte in encoded)


def is_source(text):
    encoded = text.encode()
    return 1 <= len(encoded) <= LONGEST_SOURCE and all(
        byte >= 0x20 and byte != 0x7F for byte in encoded)


def version_of(head):
    """The version in the first line of a journal."""
    return json.loads(head)["journal"]


def main():
    command_line = CommandLine(__doc__)
    command_line.add_argument("--explain", action="store_true", help="as serve --explain")
    command_line.add_argument("--strict-members", action="store_true",
                              help="as serve --strict-members")
    options = command_line.parse_args()
    service = Service(explains=options.explain, is_strict=options.strict_members)
    for number, line in enumerate(sys.stdin.buffer, 1):
        try:
            print(service.reply(line.removesuffix(b"\n")))
        except Unread as text:
            sys.exit(f"{SCRIPT}: line {number}: {text} may be a date, and no form that is read "
                     "here: ask the program alone")


if __name__ == "__main__":
    end(main)
