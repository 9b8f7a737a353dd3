#!/usr/bin/env python3
"""Audits transcripts of random journals, as they are and with one digit of a reply changed.

A journal of random edits is served, edition by edition, to readers who ask in between; each query
and its reply are written down as a transcript, or the journal is worked through at a desk, whose
transcript is taken. The audit must agree with all replies. Then one digit within a reply is
changed, and the audit must name that line. In the end a transcript of over 128 MiB is audited,
which must say on a terminal how far it is, and only there.
"""
import os
import random
import re
import subprocess
import tempfile

from lib.checks import check, verdict
from lib.common import JULIAN, CommandLine, compact, end, run, run_at_terminal

CODES = ["RM", "GB", "FR", "DE"]
AGREE = b" replies agree\n"


def edit(chance):
    style = {"style": chance.choice(["january", "annunciation", "pisan", "easter"])}
    edits = [{"op": "add_land", "name": "Sample \u00e9", **JULIAN, **style},
             {"op": "add_change", "day": 577_736, **JULIAN, **style},
             {"op": "drop_change", "day": 577_736},
             {"op": "add_exception", "year": 1724, "day": 629_412}]
    source = {"source": chance.choice(["a bull", "\u00e9dit 5"])} if chance.random() < 0.4 else {}
    return {**chance.choice(edits), "code": chance.choice(CODES), **source}


def query(chance):
    code = chance.choice(CODES)
    return chance.choice([{"op": "lands"}, {"op": "periods", "code": code},
                          {"op": "exceptions", "code": code}, {"op": "changes", "code": code},
                          {"op": "figures", "year": 1724},
                          {"op": "easter", "code": code, "year": 1724},
                          {"op": "feasts", "code": code, "year": 1724},
                          {"op": "day", "code": code, "day": 577_736},
                          {"op": "read", "code": code, "year": 1582, "month": 10, "day": 4},
                          {"op": "convert", "code": code, "calendar": "gregorian", "year": 1582,
                           "month": 10, "day": 15},
                          {"op": "read", "code": code, "year": 1543, "month": 4, "day": 1}])


def served(oldstyle, chance, journal):
    """The transcript of readers who ask while an editor works, and the journal that is left."""
    lines = []
    for _ in range(chance.randrange(5, 60)):
        ask = {**query(chance), "reader": chance.randint(1, 8)}
        requests = [edit(chance), edit(chance), {"op": "publish"}, ask, ask, ask]
        lines.append(compact(chance.choice(requests)))
    replies = run(oldstyle, ["serve", "--save", journal], lines).stdout.splitlines()
    pairs = [(line, reply) for line, reply in zip(lines, replies) if '"reader"' in line]
    return [f'{{"ask":{line},"reply":{reply}}}' for line, reply in pairs]


def at_desk(oldstyle, chance, journal, questions):
    """The transcript of a desk that works through a journal."""
    with open(questions, "w", encoding="utf-8") as file:
        for _ in range(chance.randrange(1, 40)):
            file.write(compact({**query(chance), "reader": chance.randint(1, 4)}) + "\n")
    return run(oldstyle, ["desk", journal, questions]).stdout.splitlines()


def audited(oldstyle, journal, transcript, lines):
    with open(transcript, "w", encoding="utf-8") as file:
        file.write("".join(line + "\n" for line in lines))
    done = run(oldstyle, ["audit", journal, transcript])
    return done.returncode, done.stdout + done.stderr


def with_other_digit(chance, line):
    """A line with one digit of its reply changed, except in the edition: another edition may have
    the same answer."""
    start = line.index('"reply":')
    edition = re.compile(r'"edition":\d+').search(line, start)
    places = [place for place in range(start, len(line)) if line[place].isdigit()
              and not edition.start() <= place < edition.end()]
    place = chance.choice(places)
    digit = chance.choice([other for other in "123456789" if other != line[place]])
    return line[:place] + digit + line[place + 1:]


def long_audit(oldstyle, journal, transcript, line):
    """What an audit of over 128 MiB says on standard error that is a terminal, and elsewhere."""
    text = (line + "\n").encode()
    with open(transcript, "wb") as file:
        for _ in range((128 << 20) // len(text) + 1):
            file.write(text)
    command = [oldstyle, "audit", journal, transcript]
    done, screen = run_at_terminal(command)
    unseen = subprocess.run(command, capture_output=True, check=True)
    check("a terminal is sent other output", done.stdout == unseen.stdout)
    check("the audit does not agree", done.stdout.endswith(AGREE))
    return screen.decode().splitlines(), unseen.stderr.decode().splitlines()


def try_transcript(oldstyle, chance, journal, transcript, lines):
    """Tries a transcript as it is, and with a reply changed if it has one."""
    result = audited(oldstyle, journal, transcript, lines)
    check(f"{result} of", result == (0, f"audit: {len(lines)} replies agree\n"), lines)
    if lines:
        bad = chance.randrange(len(lines))
        changed = lines[:bad] + [with_other_digit(chance, lines[bad])] + lines[bad + 1:]
        result = audited(oldstyle, journal, transcript, changed)
        expected = (1, f"oldstyle: transcript line {bad + 1}: 42 WrongReply\n")
        check(f"{result} of", result == expected, changed[bad])


def main():
    line = CommandLine(__doc__)
    line.add_program()
    line.add_count(1_000, "transcripts")
    line.add_seed()
    options = line.read()
    oldstyle, chance, agreed, refused = options.program, random.Random(options.seed), 0, 0
    with tempfile.TemporaryDirectory() as room:
        names = ("journal", "questions", "transcript")
        journal, questions, transcript = (os.path.join(room, name) for name in names)
        for place in range(options.count):
            lines = served(oldstyle, chance, journal)
            if place % 2:
                lines = at_desk(oldstyle, chance, journal, questions)
            try_transcript(oldstyle, chance, journal, transcript, lines)
            agreed, refused = agreed + len(lines), refused + bool(lines)
        one = at_desk(oldstyle, chance, journal, questions)[0]
        output = long_audit(oldstyle, journal, transcript, one)
        expected = [f"oldstyle: {place} MiB of the transcript read" for place in (64, 128)]
        check(f"standard error has {output}", output == (expected, []))
    return verdict(f"{options.count} transcripts: {agreed} replies agreed to, {refused} changed "
                   "ones refused")


if __name__ == "__main__":
    end(main)
