#!/usr/bin/env python3
"""Compares the forms of dates that docs/DATES.md shows with the program.

A text of the tables of days is read as the day in the same row. A text of the tables of months,
years, decades, ranges and bounds has a page too, and `convert` refuses it since it is not a single
day.
Prints each text that the program reads otherwise, and ends with status 1 if there is one.
"""
import os
import re

from lib.common import TOP, CommandLine, end, run

DAY = r"\d+ [A-Z][a-z]+ \d+(?:/\d)?(?: [NO]\.S\.)?"
NOT_ONE_DAY = "the date is not written as a day"


def rows(document, title):
    """The texts of each row below a title, and the other cell of the row."""
    section = document.split(f"\n## {title}\n")[1].split("\n## ")[0]
    for line in section.split("\n"):
        if line.startswith("| `"):
            written, meaning = line.strip("| ").split(" | ")
            yield re.findall(r"`([^`]*)`", written), meaning


def expected(document):
    """Each text, and what the program must print for it."""
    for title in ("A day", "A day by both calendars"):
        for texts, meaning in rows(document, title):
            days = re.findall(DAY, meaning)
            assert len(days) in (1, len(texts)), meaning
            yield from zip(texts, days if len(days) == len(texts) else days * len(texts))
    for title in ("A month, a year", "A feast", "A decade, a century", "A part, a season",
                  "A range, a bound"):
        for texts, _ in rows(document, title):
            yield from ((text, NOT_ONE_DAY) for text in texts)


def agrees(program, text, meaning):
    """Returns whether the program reads a text so. A text that is not one day has a page of
    `read` too."""
    page = run(program, ["read", "examples/samples.journal", "GB", text], folder=TOP)
    if meaning != NOT_ONE_DAY:
        heading = page.stdout.partition(" in Great Britain")[0]
        return heading in (meaning, f"{text.split()[0]} {meaning}")
    done = run(program, ["convert", "gregorian", text])
    return page.returncode == 0 and f"oldstyle: {text}: {meaning}" in done.stderr


def main():
    line = CommandLine(__doc__)
    line.add_program()
    program = line.read().program
    with open(os.path.join(TOP, "docs", "DATES.md"), encoding="utf-8") as file:
        pairs = list(expected(file.read()))
    others = [(text, meaning) for text, meaning in pairs if not agrees(program, text, meaning)]
    for text, meaning in others:
        print(f"{text}: not {meaning}")
    print(f"{len(pairs)} texts, {len(others)} read otherwise")
    return 1 if others else 0


if __name__ == "__main__":
    end(main)
