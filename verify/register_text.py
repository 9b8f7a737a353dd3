#!/usr/bin/env python3
"""Compares `text`, `plan` and `publish` with what a register as a text is defined to say.

Random registers are written as texts by the program, published into an empty journal, and written
again: the bytes are the same, and so are the periods and listed Easters that `serve` returns.
Random pairs of a journal and a text, in any form that TOML allows, are planned and published. Then
each territory of the text is exactly as it says, with its sources, and all others are as before.
The file has grown by the fewest edits and a publish, or another one of version 4 has its place if
one of version 2 takes sources; publishing again makes no edition and changes no byte. What is
printed is by `text_pages.py`. Texts with random faults are refused, each with the path to its first
fault, and nothing changes; `check` reports a fault of each territory.

Then: journals that can't be published into, versions of a journal and `--upgrade`, concurrent
publishes, a keeper and a follower beside them.
"""
import json
import os
import re
import tempfile
import tomllib

from lib.checks import check, verdict
from lib.common import CommandLine, compact, end
from lib.keeper import HEAD_4, PUBLISH
from reference import NEWEST, cited
from lib.territory_texts import (WORDS, TextFault, after, comparable, differences, faults_of,
                                 lands_of)
from lib.text_draws import Draws, beginnings, journal_lines, version_for
from lib.text_faults import spoiled_text
from lib.text_files import LAND, Files, bytes_of, lines_of, published, refused
from lib.text_journals import SAVED_AGAIN, try_all_journals
from lib.text_pages import (absent_lines, check_lines, edit_lines, fault_words, plan_end,
                            publish_begin, publish_end, register_lines, texts_of)

# The line of the edition that a text was made of.
EDITION = re.compile(r"^edition = \d+\n\n?")

# ---- texts there and back


def check_text(what, text, lands):
    """Checks that the text has its edition and the lines of these territories, however names and
    sources are quoted."""
    begin = [f"edition = {int(bool(lands))}"] + [""] * bool(lands)
    lines, expected = text.split("\n")[:-1], begin + list(register_lines(lands))
    texts = [line for line in lines if line.startswith(("name = ", "source = "))]
    result = [table for line in texts for table in tomllib.loads(line).values()]
    lines = [re.sub("^(name|source) = .*", r"\1 = ", line) for line in lines]
    check(f"{what}: the text is {lines}\n  and not {expected}",
          lines == expected and result == list(texts_of(lands)))


def answers_of(files, path, lands):
    """What `serve` returns for the territories of a journal, in the order of their codes."""
    requests = []
    for code, land in sorted(lands.items()):
        requests.append({"op": "periods", "reader": 1, "code": code})
        requests += [{"op": "easter", "reader": 1, "code": code, "year": year}
                  for year in (*sorted(land.exceptions), 1_582, 1_999)]
    done = files.run("serve", "--journal", path, lines=map(compact, requests))
    return [json.loads(line)["answer"] for line in done.stdout.split("\n")[:-1]]


def check_answers(what, answers, lands):
    """Checks what was returned for periods and listed Easters, with the sources."""
    result = [answer["periods"] for answer in answers if "periods" in answer]
    expected = [[{**dict(zip(WORDS, regime)), "first": first, "last": last,
                  **cited(land.sources, first)} for first, last, regime in land.periods()]
                for _, land in sorted(lands.items())]
    check(f"{what}: the periods are {result}", result == expected)
    result = [answer.get("source") for answer in answers if answer.get("listed")]
    expected = [land.easter_sources.get(year) for _, land in sorted(lands.items())
                for year in (*sorted(land.exceptions), 1_582, 1_999) if year in land.exceptions]
    check(f"{what}: the sources of Easters are {result}", result == expected)


def there_and_back(files, draws, number):
    """A register as a text, published and written again."""
    lands, what = draws.register(), f"register {number}"
    first, second = files.journal("first", lands), files.journal("second", {})
    text = files.printed(what, "text", first)
    check_text(what, text, lands)
    for code, land in lands.items():
        check_text(f"{what}, {code}", files.printed(what, "text", first, code), {code: land})
    path = files.write("text", text)
    check(f"{what}: its text plans an edit",
          files.printed(what, "plan", first, path) == "nothing to change\n")
    files.printed(what, "publish", second, files.write("bare", EDITION.sub("", text)))
    again = files.printed(what, "text", second)
    check(f"{what}: another text", again == text or list(lands) != sorted(lands))
    check_text(what, again, dict(sorted(lands.items())))
    result = answers_of(files, first, lands)
    check_answers(what, result, lands)
    check(f"{what}: other answers", result == answers_of(files, second, lands))
    try_saved(files, what, first, lands)


def try_saved(files, what, path, lands):
    """A journal that is saved again is the same, and of version 4 only if a source is given."""
    saved = files.path("saved")
    files.run("serve", "--journal", path, "--save", saved)
    expected = "".join(compact(line) + "\n" for line in journal_lines(lands)).encode()
    check(f"{what}: saved as {bytes_of(saved)[:200]!r}", bytes_of(saved) == expected)


# ---- plans and publishes


def change(files, draws, number):
    """A journal and a text: planned, published, and published again."""
    lands, what = draws.register(), f"pair {number}"
    expected = draws.expected_after(lands)
    version = max(version_for(lands), draws.chance.choice([2, NEWEST]))
    journal = files.journal("journal", lands, version)
    text = files.write("text", draws.text(expected))
    before, node = bytes_of(journal), os.stat(journal).st_ino
    expected = lands_of(bytes_of(text).decode())
    editions, absent = int(bool(lands)), absent_lines(lands, expected)
    needed = list(differences(lands, expected))
    is_upgraded = version < NEWEST and any("source" in edit for edit in needed)
    note = SAVED_AGAIN.format(version) * is_upgraded
    planned = files.printed(what, "plan", journal, text, stderr=note).split("\n")[:-1]
    check(f"{what}: plan changes the journal", bytes_of(journal) == before)
    printed_lines = files.printed(what, "publish", journal, text).split("\n")[:-1]
    grown = bytes_of(journal)
    service, all_lines = published(journal)
    new = all_lines[len(lines_of(before)) - 1:]
    edits = [json.loads(line) for line in new[:-1]]
    check(f"{what}: another file", (os.stat(journal).st_ino != node) == is_upgraded
          and grown.startswith(upgraded(before) if is_upgraded else before))
    fewest = sorted(map(compact, needed))
    check(f"{what}: the edits are {new}\n  and not {fewest}",
          sorted(new[:-1]) == fewest and new[-1:] == [PUBLISH] * bool(fewest))
    lines = [line for edit in edits for line in edit_lines(lands, expected, edit)] + absent
    check(f"{what}: plan prints {planned}", planned == lines + [plan_end(len(edits), editions)])
    check(f"{what}: publish prints {printed_lines}",
          printed_lines == publish_begin(len(edits), editions, journal) + lines
          + [publish_end(len(edits), editions)])
    check(f"{what}: another register",
          comparable(service.published) == comparable(after(lands, expected)))
    again = files.printed(what, "publish", journal, text).split("\n")[:-1]
    check(f"{what}: again {again}", again == absent + [publish_end(0, service.edition)])
    check(f"{what}: publishing again changes the journal", bytes_of(journal) == grown)
    return len(edits)


def upgraded(content):
    """The bytes of a journal with a head of version 4."""
    return f"{HEAD_4}\n".encode() + content.partition(b"\n")[2]


# ---- faults


def try_fault(files, draws, number):
    """A text with random faults, of which the first is reported."""
    lands, what = draws.register(), f"fault {number}"
    if not lands:
        return None
    journal = files.journal("journal", {})
    text = files.write("text", spoiled_text(draws.chance, lands))
    content = bytes_of(text).decode()
    errors = check_lines(text, content, faults_of(content))
    done = files.run("check", text)
    check(f"{what}: check reports {done.stderr!r}\n  and not {errors!r}",
          (done.returncode, done.stderr) == (1 if errors else 0, errors))
    try:
        lands_of(content)
    except TextFault as fault:
        refused(files, what, text, text, fault_words(fault), journal)
        return fault.reason, fault.detail if fault.reason == "Refused" else None
    done = files.run("plan", journal, text)
    check(f"{what}: no fault, and plan prints {done.stderr!r}", done.returncode == 0)
    return None


ROW = "[[GB.{}]]\n{} = {{ day = {} }}\n{}"


def many(name, key, count, year=False):
    rows = (ROW.format(name, key, number + 2, f"year = {number + 1}\n" * year)
            for number in range(count))
    return LAND.format("GB") + "".join(rows)


# Faults that random ones seldom meet, each with what is reported.
SELDOM = [
    (many("changes", "from", 41), "GB.changes.41: 13 TooManyChanges: the register has no room for "
                                  "another change there (--limits changes=N allows more)"),
    (many("easters", "date", 201, True), "GB.easters.201: 14 TooManyExceptions: the register has "
                                         "no room for another listed Easter there "
                                         "(--limits exceptions=N allows more)"),
    (many("easters", "date", 1, True) + ROW.format("easters", "date", 9, "year = 1\n"),
     "GB.easters.2: 10 ExceptionExists: a year has at most one listed Easter"),
    ("".join(LAND.format(f"T{number:03}") for number in range(501)),
     "T500: 12 TooManyLands: the register has no room for another territory "
     "(--limits lands=N allows more)"),
    (LAND.format("GB") + ROW.format("changes", "from", 1, ""),
     "GB.changes.1: 8 OpeningPeriod: a change is later than day 1, on which the territory begins"),
]


def try_seldom(files):
    """Faults that are seldom met, bytes that are not UTF-8, and texts that are not TOML."""
    journal = files.journal("journal", {})
    for text, expected in SELDOM:
        path = files.write("text", text)
        refused(files, expected, path, path, expected, journal)
    with open(files.path("text"), "wb") as file:
        file.write(b"\xff")
    refused(files, "no UTF-8", files.path("text"), files.path("text"),
            "it is not UTF-8: save it as UTF-8", journal)
    for text, line in (("[GB", 1), ("[GB]\nname = 'x\n", 2), ("x\n", 1), ("[GB]\n[GB]\n", 2)):
        done = files.run("publish", journal, files.write("text", text))
        place = rf"oldstyle: {re.escape(files.path('text'))}: line {line}, column [1-9]\d*: .+\n"
        check(f"{text!r} is answered {done.stderr!r}",
              done.returncode == 1 and re.fullmatch(place, done.stderr))


def main():
    line = CommandLine(__doc__)
    line.add_program()
    line.add_count(1_000, "registers, pairs and texts with faults")
    line.add_seed()
    options = line.read()
    near, met, edits = beginnings(), set(), 0
    with tempfile.TemporaryDirectory() as folder:
        files = Files(options.program, folder)
        for number in range(options.count):
            draws = Draws(options.seed * 1_000_003 + number, near)
            there_and_back(files, draws, number)
            edits += change(files, draws, number)
            met.add(try_fault(files, draws, number))
        try_seldom(files)
        done, refused_count = try_all_journals(files)
    return verdict(f"{options.count} registers are the same there and back, the {edits} edits of "
                   f"as many plans are the fewest, {len(met - {None})} kinds of faults have their "
                   f"paths, {done} concurrent publishes are editions and {refused_count} were "
                   "refused")


if __name__ == "__main__":
    end(main)
