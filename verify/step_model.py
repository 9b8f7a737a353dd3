#!/usr/bin/env python3
"""Compares what schedules of the nine steps give with a model that was written independently.

The model has two copies of the territories, each with its edits made one by one, and a list of the
edits that the standby lacks. It was written from docs/FORMATS.md alone, and shares the rules of
edits and queries with reference.py. With --replay it prints what the model gives at the steps of
one schedule, each of which is a line of standard input.
"""
import json
import random
import sys
import tempfile

from lib.common import JULIAN, CommandLine, compact, end, run
from reference import Fault, Service, refuse, request_of

EDITIONS = 5_000


class Copy(Service):
    """One of the two copies, whose draft is what it shows."""

    def __init__(self):
        super().__init__()
        self.published = self.draft


class Machine:
    def __init__(self, readers):
        self.sides, self.live, self.phase = [Copy(), Copy()], 0, "ready"
        self.lag, self.pending, self.edition = [], [], 0
        self.readers = [("idle",) for _ in range(readers)]

    def standby(self):
        return self.sides[1 - self.live]

    def out(self, line):
        """The line that a step gives."""
        value = json.loads(line)
        try:
            members = getattr(self, value.pop("step"))(value)
        except Fault as fault:
            members = fault.members
        if isinstance(members, str):
            members = {"out": members}
        return compact(members)

    def at(self, value, state):
        """The place of the step's reader, if it is in this state."""
        place = value["reader"] - 1
        return place if self.readers[place][0] == state else None

    def look(self, value):
        place = self.at(value, "idle")
        if place is None:
            return "not_now"
        op, query = request_of(json.dumps(value).encode(), len(self.readers))
        self.readers[place] = ("noted", (op, query), self.live)
        return "moved"

    def pin(self, value):
        place = self.at(value, "noted")
        if place is None:
            return "not_now"
        self.readers[place] = ("marked", *self.readers[place][1:])
        return "moved"

    def check(self, value):
        place = self.at(value, "marked")
        if place is None:
            return "not_now"
        _, query, side = self.readers[place]
        if side != self.live:
            self.readers[place] = ("noted", query, self.live)
            return "again"
        self.readers[place] = ("entered", query, side, self.edition)
        return "entered"

    def answer(self, value):
        place = self.at(value, "entered")
        if place is None:
            return "not_now"
        _, query, side, edition = self.readers[place]
        self.readers[place] = ("answered", None, side)
        return {"edition": edition, "reader": place + 1, **self.sides[side].ask(*query)}

    def leave(self, value):
        place = self.at(value, "answered")
        if place is None:
            return "not_now"
        self.readers[place] = ("idle",)
        return "moved"

    def stage(self, value):
        if self.phase != "ready":
            return "not_now"
        edit = request_of(json.dumps(value).encode(), len(self.readers))
        self.standby().stage(*edit)
        self.pending.append(edit)
        return {"ok": "staged", "pending": len(self.pending)}

    def publish(self, value):
        if self.phase != "ready":
            return "not_now"
        refuse((lambda: not self.pending, 15), (lambda: self.edition >= EDITIONS, 17))
        self.live, self.phase = 1 - self.live, "draining"
        self.lag, self.pending, self.edition = self.pending, [], self.edition + 1
        return {"edition": self.edition, "ok": "published"}

    def claim(self, value):
        inside = ("marked", "entered", "answered")
        marked = [state[2] for state in self.readers if state[0] in inside]
        if self.phase != "draining" or 1 - self.live in marked:
            return "not_now"
        self.phase = "claimed"
        return "moved"

    def absorb(self, value):
        if self.phase != "claimed":
            return "not_now"
        if not self.lag:
            self.phase = "ready"
            return "ready"
        self.standby().stage(*self.lag.pop(0))
        return "moved"


NEXT = {"idle": "look", "noted": "pin", "marked": "check", "entered": "answer", "answered": "leave"}
WORK = {"ready": ["stage", "stage", "publish"], "draining": ["claim"], "claimed": ["absorb"]}
READER, EDITOR = list(NEXT.values()), ["stage", "publish", "claim", "absorb"]
CODES = ["RM", "GB", "FR", "DE", "rm"]
SOURCES = ["a bull", "an edict", "\u00e9dit", "s" * 1_000]


def query(chance):
    code = chance.choice(CODES)
    day = chance.choice([0, 1, 547_226, 563_670, 577_736])
    return chance.choice([{"op": "lands"}, {"op": "periods", "code": code},
                          {"op": "exceptions", "code": code}, {"op": "changes", "code": code},
                          {"op": "day", "code": code, "day": day},
                          {"op": "easter", "code": code, "year": 1582},
                          {"op": "feasts", "code": code, "year": 1582},
                          {"op": "convert", "code": code, "calendar": "gregorian", "year": 1582,
                           "month": 10, "day": 15}])


def regime(chance):
    """A regime of the Julian calendar mostly. That of Easter is refused with another one."""
    style = chance.choice(["january", "january", "pisan", "easter"])
    calendar = chance.choice(["julian", "julian", "gregorian"])
    return {**JULIAN, "calendar": calendar, "style": style}


def edit(chance):
    edits = [{"op": "add_land", "name": "Sample", **regime(chance)},
             {"op": "add_change", "day": 577_736, **regime(chance)},
             {"op": "alter_change", "day": chance.choice([1, 577_736]), **regime(chance)},
             {"op": "drop_change", "day": 577_736},
             {"op": "add_exception", "year": 1582, "day": 577_742}]
    source = {"source": chance.choice(SOURCES)} if chance.random() < 0.4 else {}
    return {**chance.choice(edits), "code": chance.choice(CODES), **source}


def schedule(chance, machine):
    """Steps at random, four of five of which are enabled or nearly so, and what the model gives at
    them."""
    lines, outs = [], []
    for _ in range(chance.randrange(20, 80)):
        usual, place = chance.random() < 0.8, chance.randrange(len(machine.readers))
        if chance.random() < 0.5:
            word = NEXT[machine.readers[place][0]] if usual else chance.choice(READER)
        else:
            word = chance.choice(WORK[machine.phase] if usual else EDITOR)
        step = {"step": word}
        if word == "look":
            step.update(query(chance))
        if word == "stage":
            step.update(edit(chance))
        if word in READER:
            step.update(reader=place + 1)
        lines.append(json.dumps(step))
        outs.append(machine.out(lines[-1]))
    return lines, outs


def replay(oldstyle, readers, lines):
    """What the program gives for a schedule."""
    with tempfile.NamedTemporaryFile("w", suffix=".jsonl") as file:
        file.write("".join(line + "\n" for line in lines))
        file.flush()
        words = ["replay", "--readers", str(readers), file.name]
        return run(oldstyle, words).stdout.splitlines()


def differs(place, readers, lines, expected, got):
    print(f"schedule {place}, {readers} readers:")
    for line, one, other in zip(lines, expected, got + [""] * len(lines)):
        print("  ", line, one, "" if one == other else f"and not {other}")


def main():
    line = CommandLine(__doc__)
    line.add_program()
    line.add_count(1_000, "schedules")
    line.add_seed()
    line.add_number("--replay", None, "readers of the model that takes a schedule")
    options = line.parse_args()
    if options.replay:
        machine = Machine(options.replay)
        for step in sys.stdin:
            print(machine.out(step))
        return 0
    line.find_programs(options)
    chance, steps, differ = random.Random(options.seed), 0, 0
    for place in range(options.count):
        readers = chance.randint(1, 4)
        lines, expected = schedule(chance, Machine(readers))
        got = replay(options.program, readers, lines)
        if got != expected:
            differ += 1
            differs(place, readers, lines, expected, got)
        steps += len(lines)
    print(f"{options.count} schedules of {steps} steps, {differ} differ")
    return 1 if differ else 0


if __name__ == "__main__":
    end(main)
