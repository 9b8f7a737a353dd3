#!/usr/bin/env python3
"""Checks examples/europe.toml against what can be computed.

The text is read by `territory_texts.py`, without the program. Each change has a source. For each
one that brings another calendar or beginning of the year the note says which day was followed by
which: both dates and both weekdays are those of the days by `calendars.py`. A listed Easter is a
Sunday a week from the rule's.

Then the program publishes the text into a new journal, which is examples/europe.journal, and must
print the same periods and listed Easters, with their sources. `--text-alone` leaves that out, and needs no program.
"""
import filecmp
import json
import os
import tempfile
import tomllib

from lib.calendars import easter
from lib.checks import check, verdict
from lib.common import TOP, CommandLine, compact, end, run
from reference import cited
from lib.territory_texts import WORDS, lands_of

EUROPE, JOURNAL = (os.path.join(TOP, "examples", f"europe.{kind}") for kind in ("toml", "journal"))


def words_of(result):
    """A day with its weekday, as notes write it."""
    return f"{result['weekday']} {result['dual']}"


def check_notes(code, land, changes):
    """Each change has a source, and that of a calendar or of a year's beginning a note with both of
    its days."""
    for (first, last, old), (change, _, new), entry in zip(land.periods(), land.periods()[1:],
                                                           changes):
        note = " ".join(entry["note"].split())
        check(f"{code}: day {change} has no source", land.sources.get(change) == entry["source"])
        expected = f"{words_of(land.found(last))} was followed by {words_of(land.found(change))}"
        if old[:2] != new[:2]:
            check(f"{code}: the note says no {expected!r}", expected in note)
        check(f"{code}: a note says another day", note.count("followed") == (old[:2] != new[:2]))


def check_easters(code, land):
    for year, day in land.exceptions.items():
        by_rule = easter(land.period(day)[2][2], year)
        check(f"{code}: {year} has day {day}, the rule {by_rule}", abs(day - by_rule) == 7)


def check_program(program, lands):
    """The program makes the same territories of the text."""
    with tempfile.TemporaryDirectory() as folder:
        journal = os.path.join(folder, "europe.journal")
        done = run(program, ["publish", journal, EUROPE])
        check(f"publish: {done.returncode} {done.stderr!r}", done.returncode == 0)
        check(f"{JOURNAL} is not what publish makes", filecmp.cmp(journal, JOURNAL, shallow=False))
        requests = [{"op": "periods", "reader": 1, "code": code} for code in lands]
        requests += [{"op": "easter", "reader": 1, "code": code, "year": year}
                  for code, land in lands.items() for year in land.exceptions]
        done = run(program, ["serve", "--journal", journal], map(compact, requests))
    answers = [json.loads(line).get("answer") for line in done.stdout.splitlines()]
    expected = [{"periods": [
        {**dict(zip(WORDS, regime)), "first": first, "last": last, **cited(land.sources, first)}
        for first, last, regime in land.periods()]} for land in lands.values()]
    expected += [{"days": [land.found(day)], "listed": True, **cited(land.easter_sources, year)}
                 for land in lands.values() for year, day in land.exceptions.items()]
    check(f"the program answers {answers}", answers == expected)


def main():
    line = CommandLine(__doc__)
    line.add_program()
    line.add_argument("--text-alone", action="store_true",
                      help="holds the text without the program")
    options = line.parse_args()
    if not options.text_alone:
        line.find_programs(options)
    with open(EUROPE, encoding="utf-8") as file:
        text = file.read()
    lands, tables = lands_of(text), tomllib.loads(text)
    for code, land in lands.items():
        check_notes(code, land, tables[code].get("changes", []))
        check_easters(code, land)
    if not options.text_alone:
        check_program(options.program, lands)
    changes = sum(len(land.starts) - 1 for land in lands.values())
    return verdict(f"{len(lands)} territories with {changes} changes are as computed")


if __name__ == "__main__":
    end(main)
