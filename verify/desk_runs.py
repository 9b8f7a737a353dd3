#!/usr/bin/env python3
"""Compares what desks write with what the service answers, edition by edition.

An editor follows a script while 64 readers ask, each in a thread of its own. Which edition a
question meets depends on the schedule, but the reply must be that of `serve` at the edition that
it names, the replies come by reader and then by place, and no reader's editions fall. So first all
questions are asked of `serve` after each publish of the script; then each line of each transcript
is looked up there. Run it on a busy machine too: that varies the order of the threads.
"""
import json
import os
import random
import tempfile

from lib.checks import check, verdict
from lib.common import GREGORIAN, JULIAN, CommandLine, compact, end, run

READERS, EDITIONS, LANDS = 64, 40, 12
STYLES = ["january", "annunciation", "nativity", "september", "pisan", "easter"]


def editions(chance):
    """The edits of each edition: territories that come, change, and change back."""
    batches, codes = [], []
    for place in range(EDITIONS):
        if place % 3 == 0 and len(codes) < LANDS:
            codes.append(f"L{len(codes):02}")
            name = f"Sample {place}"
            regime = {**JULIAN, "style": chance.choice(STYLES), "source": f"bull {place}"}
            batches.append([{"op": "add_land", "code": codes[-1], "name": name, **regime}])
        else:
            day = 560_000 + place
            opening = chance.choice([JULIAN, GREGORIAN, {**JULIAN, "style": "easter"}])
            regime = {**JULIAN, "style": chance.choice(STYLES)}
            batches.append([
                {"op": "alter_change", "code": chance.choice(codes), "day": 1, **opening,
                 **chance.choice([{}, {"source": f"act {place}"}])},
                {"op": "add_change", "code": chance.choice(codes), "day": day, **regime},
            ])
    return batches


def queries(chance):
    """Some 80 queries, of territories that come early, late and never."""
    choices = [{"op": "lands"}]
    for place in range(LANDS + 1):
        code = f"L{place:02}"
        choices += [{"op": "periods", "code": code},
                  {"op": "easter", "code": code, "year": 1700 + place},
                  {"op": "read", "code": code, "year": 1534, "month": 3, "day": 1 + place},
                  {"op": "read", "code": code, "year": 1533, "month": 3, "day": 15 + place},
                  {"op": "read", "code": code, "year": 1534, "month": 4, "day": 1 + place},
                  {"op": "day", "code": code, "day": 560_000 + chance.randrange(EDITIONS)}]
    return choices


def replies_of_service(oldstyle, batches, choices):
    """What the service replies to reader 1 for each query at each edition."""
    lines, ask = [], [compact({**query, "reader": 1}) for query in choices]
    for batch in [[], *batches]:
        publish = [compact({"op": "publish"})] if batch else []
        lines += [compact(edit) for edit in batch] + publish + ask
    replies = [json.loads(line) for line in run(oldstyle, ["serve"], lines).stdout.splitlines()]
    replies = [reply for reply in replies if "reader" in reply]
    pairs = zip(replies, choices * (len(batches) + 1))
    return {(reply["edition"], compact(query)): reply for reply, query in pairs}


def check_transcript(transcript, questions, replies):
    """Compares the lines of a transcript with what the service replied; returns the editions that
    were met."""
    check(f"{len(transcript)} replies to {len(questions)}", len(transcript) == len(questions))
    last, met = {}, set()
    for line, (reader, query) in zip(transcript, questions):
        value = json.loads(line)
        edition = value["reply"]["edition"]
        reply = {**replies[edition, compact(query)], "reader": reader}
        expected = {"ask": {**query, "reader": reader}, "reply": reply}
        check(f"{line} in place of", line == compact(expected), compact(expected))
        check(f"reader {reader} goes back to edition {edition}", edition >= last.get(reader, 0))
        last[reader] = edition
        met.add(edition)
    return met


def main():
    line = CommandLine(__doc__)
    line.add_program()
    line.add_count(200, "runs")
    line.add_number("--questions", 100_000, "questions of each run")
    line.add_seed()
    options = line.read()
    oldstyle, chance, met = options.program, random.Random(options.seed), set()
    batches, choices = editions(chance), queries(chance)
    replies = replies_of_service(oldstyle, batches, choices)
    script = [compact({"journal": 4})]
    for batch in batches:
        script += [compact(edit) for edit in batch] + [compact({"op": "publish"})]
    with tempfile.TemporaryDirectory() as room:
        paths = [os.path.join(room, name) for name in ("script", "questions")]
        for _ in range(options.count):
            questions = [(1 + place % READERS, chance.choice(choices))
                         for place in range(options.questions)]
            lines = [compact({**query, "reader": reader}) for reader, query in questions]
            for path, text in zip(paths, (script, lines)):
                with open(path, "w", encoding="utf-8") as file:
                    file.write("".join(line + "\n" for line in text))
            by_reader = sorted(questions, key=lambda question: question[0])
            transcript = run(oldstyle, ["desk", *paths]).stdout.splitlines()
            met |= check_transcript(transcript, by_reader, replies)
    return verdict(f"{options.count} desks of {READERS} readers and {options.questions} questions: "
                   f"every reply as the service gives it, {len(met)} of {EDITIONS + 1} editions "
                   "met")


if __name__ == "__main__":
    end(main)
