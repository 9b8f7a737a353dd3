#!/usr/bin/env python3
"""Compares what an older program and a newer one make of random journals of versions 1 and 2.

Each journal has edits of all six kinds and publishes, in any spelling that is allowed, and mostly
edits that are pending. Some edits have a member `source`, which these versions ignore, whatever it
is. Some journals have a line that is refused or is not a request, so that nothing is loaded. Both
programs load each journal, answer queries of all six kinds, make some more edits, and save. They
must agree in their statuses and messages, their replies, and what they save, except the head: the
newer one writes {"journal":2}, and the older one may write {"journal":1}. Lines of a message that
begin with `help: ` or `note: ` are not compared. If the older one knows no version 2, all journals
are of version 1.

By the older program's rules the line ends on 31 December 2999, and by the newer one's on that of
9999; the journals and queries are of days and years that both have, or neither. In a reply of the
newer one the end of its line counts as that of the shorter one, days found after that are left
out, and for labels about the year 2999 the skipped dates are not compared.
"""
import json
import os
import random
import subprocess
import tempfile

from lib.common import JULIAN, CommandLine, compact, end, run

# The last day and year by the older program's rules, and what is off the line by those of both.
HIGH, LAST_YEAR = 1_095_362, 2_999
OFF_DAY, OFF_YEAR, OFF_LABEL_YEAR = 3_652_060, 10_000, 10_001

# The last day by the newer program's rules; and the last year of which the days of each label, in
# any calendar, are on both lines.
NEW_HIGH, LAST_FULL_YEAR = 3_652_059, 2_997

CALENDARS = ["julian", "gregorian", "swedish"]
STYLES = {1: ["january", "annunciation", "nativity", "september"]}
STYLES[2] = STYLES[1] + ["pisan", "easter"]
RULES = ["julian", "gregorian"]
CODES = ["RM", "GB", "FR", "SE", "DE", "A1B2C3D4"]
NAMES = ["Rome", "Sample", "Île é", "x" * 64, 'A "quoted" \\ name', "two  spaces"]
HEADS = ['{"journal":%s}', ' {"note":[1,2.5,null],"journal":%s}\t', '{ "journal" : %s }']
# What a source may be that is ignored.
SOURCES = ["24 Geo. II c. 23", "", "x" * 1_001, "a\nb", "\u007f", 5, None, True, ["a"], {"b": 1.5}]

# Days near which something happens: the line's ends, Swedish dates, and changes of calendar.
DAYS = [1, 2, 3, HIGH, 620_617, 625_000, 625_001, 577_736, 639_551, 639_797, 700_214]

# Lines of which each ends a journal of version 1, whatever was before it; of version 2 some.
BAD_LINES = [
    "", "[1]", "{", '{"op":"fly"}', '{"op":7}', '{"op":"lands","reader":1}', '{"journal":1}',
    '{"op":"add_land","code":"ZZ","name":"Later","calendar":"julian","style":"pisan",'
    '"rule":"julian"}',
    '{"op":"add_change","code":"RM","day":2,"calendar":"julian","style":"easter","rule":"julian"}',
    '{"op":"alter_change","code":"RM","day":1,"calendar":"swedish","style":"easter",'
    '"rule":"gregorian"}',
    '{"op":"drop_change","code":"rm","day":2}', '{"op":"drop_change","code":"RM","day":0}',
    '{"op":"add_exception","code":"RM","year":1582,"day":1.0}',
]
BAD_HEADS = ["", "{}", '{"journal":0}', '{"journal":3}', '{"journal":"1"}', '{"journal":1.0}']
HEAD, NEXT_HEAD = b'{"journal":1}\n', b'{"journal":2}\n'


def random_regime(chance, version):
    words = {"calendar": CALENDARS, "style": STYLES[version], "rule": RULES}
    regime = {member: chance.choice(among) for member, among in words.items()}
    return {**regime, **JULIAN, "style": "easter"} if regime["style"] == "easter" else regime


def random_day(chance):
    if chance.random() < 0.5:
        return min(HIGH, max(1, chance.choice(DAYS) + chance.randint(-3, 3)))
    return chance.randint(1, HIGH)


def random_year(chance):
    """A year that both lines have, or now and then one that neither has."""
    return chance.choice([0, OFF_YEAR]) if chance.random() < 0.01 else chance.randint(1, LAST_YEAR)


def random_label_year(chance):
    """The same of the year of a label."""
    is_off = chance.random() < 0.01
    return chance.choice([-1, OFF_LABEL_YEAR]) if is_off else chance.randint(0, LAST_YEAR + 1)


class Lands:
    """The territories of a journal, so that its edits are lawful unless they should be refused."""

    def __init__(self, chance, version):
        self.chance, self.changes, self.exceptions = chance, {}, {}
        self.version = version

    def regime(self):
        return random_regime(self.chance, self.version)

    def edit(self):
        """An edit that is lawful."""
        chance, absent = self.chance, [code for code in CODES if code not in self.changes]
        if absent and (not self.changes or chance.random() < 0.2):
            code = chance.choice(absent)
            self.changes[code], self.exceptions[code] = set(), set()
            name = chance.choice(NAMES)
            return {"op": "add_land", "code": code, "name": name, **self.regime()}
        code = chance.choice(list(self.changes))
        changes, exceptions = self.changes[code], self.exceptions[code]
        op = chance.choice(["add_change", "alter_change", "drop_change",
                            "add_exception", "drop_exception"])
        if op == "alter_change":
            day = chance.choice([1, *sorted(changes)])
            return {"op": op, "code": code, "day": day, **self.regime()}
        if op == "drop_change" and changes:
            day = chance.choice(sorted(changes))
            changes.remove(day)
            return {"op": op, "code": code, "day": day}
        if op == "drop_exception" and exceptions:
            year = chance.choice(sorted(exceptions))
            exceptions.remove(year)
            return {"op": op, "code": code, "year": year}
        day, year = random_day(chance), chance.randint(1, LAST_YEAR)
        if op == "add_change" and day > 1 and day not in changes and len(changes) < 40:
            changes.add(day)
            return {"op": op, "code": code, "day": day, **self.regime()}
        if year in exceptions:
            return {"op": "alter_change", "code": code, "day": 1, **self.regime()}
        exceptions.add(year)
        return {"op": "add_exception", "code": code, "year": year, "day": day}

    def refused_edit(self):
        """An edit that is refused, if there is a territory."""
        chance, code = self.chance, self.chance.choice(list(self.changes))
        changes, exceptions = self.changes[code], self.exceptions[code]
        start = chance.choice([1, *sorted(changes)])
        edits = [
            {"op": "add_land", "code": code, "name": "Again", **self.regime()},
            {"op": "add_change", "code": code, "day": start, **self.regime()},
            {"op": "alter_change", "code": code, "day": OFF_DAY, **self.regime()},
            {"op": "drop_change", "code": code, "day": 1},
            {"op": "drop_change", "code": "ZZ", "day": 2},
            {"op": "add_exception", "code": code, "year": OFF_YEAR, "day": 5},
            {"op": "drop_exception", "code": code, "year": 0},
        ]
        edits += [{"op": "add_exception", "code": code, "year": year, "day": 7}
                  for year in sorted(exceptions)[:1]]
        return chance.choice(edits)


def ignored(chance, value):
    """A line of a journal with a source, which is ignored, or as it is."""
    return {**value, "source": chance.choice(SOURCES)} if chance.random() < 0.3 else value


def json_text(chance, value):
    """A line of the value: as a program writes it, or with its members in another order, spaces,
    another member, and letters as numbers."""
    if chance.random() < 0.5:
        return compact(value)
    members = list(value.items()) + [("note", {"a": [1, None, 2.5]})] * chance.randrange(2)
    chance.shuffle(members)
    separators = chance.choice([(",", ":"), (", ", ": "), (" ,\t", " :  ")])
    is_plain = chance.random() < 0.5
    return json.dumps(dict(members), separators=separators, ensure_ascii=is_plain)


def random_journal(chance, version):
    """The lines of a journal, and the territories that it has if it isn't refused."""
    lands, lines, pending = Lands(chance, version), [chance.choice(HEADS) % version], False
    for _ in range(chance.choice([0, 1, 3, 10, 30, 60])):
        is_publish = pending and chance.random() < 0.25
        line = {"op": "publish"} if is_publish else lands.edit()
        lines.append(json_text(chance, ignored(chance, line)))
        pending = not is_publish
    spoiling = chance.random()
    if spoiling < 0.1:
        lines.insert(chance.randint(1, len(lines)), chance.choice(BAD_LINES))
    elif spoiling < 0.2 and lands.changes:
        lines.append(json_text(chance, ignored(chance, lands.refused_edit())))
    elif spoiling < 0.23:
        lines[0] = chance.choice(BAD_HEADS)
    elif spoiling < 0.26 and not pending:
        lines.append('{"op":"publish"}')
    elif spoiling < 0.27:
        lines.clear()
    return lines, lands


def random_queries(chance):
    """Queries of each kind, with their readers, of territories that there are and are not."""
    queries = []
    for _ in range(chance.choice([1, 3, 6])):
        code = chance.choice([*CODES, *CODES, "ZZ", "rm"])
        label = {"year": random_label_year(chance), "month": chance.randint(0, 13)}
        queries += [
            {"op": "lands"},
            {"op": "periods", "code": code},
            {"op": "figures", "year": random_year(chance)},
            {"op": "easter", "code": code, "year": random_year(chance)},
            {"op": "day", "code": code, "day": random_day(chance)},
            {"op": "read", "code": code, **label, "day": chance.randint(0, 32)},
            {"op": "read", "code": code, "year": 1752, "month": 9, "day": chance.randint(1, 14)},
        ]
    return [{**query, "reader": chance.randint(1, 9)} for query in queries]


def random_requests(chance, lands):
    """Queries; mostly more edits and a publish too, and the queries again."""
    queries = random_queries(chance)
    requests = list(queries)
    if chance.random() < 0.7:
        requests += [lands.edit() for _ in range(chance.randrange(4))] + [{"op": "publish"}]
        requests += queries
    if chance.random() < 0.3:
        requests.append(lands.edit())
    return [json_text(chance, request) for request in requests]


def made(program, journal, requests, saved):
    """What a program makes of a journal: its status and message, its replies, and what it saves,
    or None if it saves nothing."""
    if os.path.exists(saved):
        os.remove(saved)
    words = [program, "serve", "--journal", journal, "--save", saved]
    done = subprocess.run(words, input=requests, capture_output=True, check=False)
    journal_text = None
    if os.path.exists(saved):
        with open(saved, "rb") as file:
            journal_text = file.read()
    return done.returncode, done.stderr, done.stdout, journal_text


def on_shorter_line(request, reply):
    """A reply as the shorter line requires it: the last day of a last period is that line's, a
    reading has the days that are on it, and is without skipped dates if they may differ."""
    value = json.loads(reply)
    if "answer" not in value or compact(value) != reply:
        return reply
    query, answer = json.loads(request), value["answer"]
    for period in [answer, *answer.get("periods", [])]:
        if period.get("last") == NEW_HIGH:
            period["last"] = HIGH
    if query["op"] == "read":
        answer["days"] = [result for result in answer["days"] if result["day"] <= HIGH]
        if query["year"] > LAST_FULL_YEAR:
            del answer["skipped"]
    return compact(value)


def faults_in(message):
    """The lines of a message, without those that explain it."""
    return [line for line in message.splitlines() if not line.startswith((b"help: ", b"note: "))]


def compared(requests, done):
    """What a run is compared by, its replies being those of the shorter line."""
    replies = done[2].decode().splitlines()
    if len(replies) == len(requests):
        replies = [on_shorter_line(*pair) for pair in zip(requests, replies)]
    return done[0], faults_in(done[1]), replies, done[3]


def difference(old, new):
    """How the two differ, or None."""
    for name, one, other in zip(("statuses", "messages", "replies"), old, new):
        if one != other:
            return f"{name}: {one!r}\n  and {other!r}"
    one, other = old[3], new[3]
    if (one is None) != (other is None):
        return f"saved: {one!r}\n  and {other!r}"
    if one is not None and not (one.startswith((HEAD, NEXT_HEAD)) and other.startswith(NEXT_HEAD)):
        return f"saved heads: {one[:40]!r}\n  and {other[:40]!r}"
    if one is not None and one[len(HEAD) :] != other[len(NEXT_HEAD) :]:
        return f"saved: {one!r}\n  and {other!r}"
    return None


def knows_version_2(program, journal):
    with open(journal, "wb") as file:
        file.write(NEXT_HEAD)
    return run(program, ["serve", "--journal", journal]).returncode == 0


def main():
    line = CommandLine(__doc__)
    line.add_older("the older program", required=True)
    line.add_program()
    line.add_count(1_000, "journals")
    line.add_seed()
    options = line.read()
    chance, failed, refused = random.Random(options.seed), 0, 0
    with tempfile.TemporaryDirectory() as room:
        journal, saved = (os.path.join(room, name) for name in ("journal", "saved"))
        versions = [1, 2] if knows_version_2(options.older, journal) else [1]
        for place in range(options.count):
            lines, lands = random_journal(chance, chance.choice(versions))
            requests = random_requests(chance, lands)
            with open(journal, "w", encoding="utf-8", newline="\n") as file:
                file.write("\n".join(lines) + chance.choice(["\n", ""]))
            text = "".join(line + "\n" for line in requests).encode()
            made_by = [made(program, journal, text, saved)
                    for program in (options.older, options.program)]
            old, new = (compared(requests, one) for one in made_by)
            refused += old[0] == 1
            if why := difference(old, new):
                failed += 1
                if failed <= 10:
                    print(f"journal {place}, {len(lines)} lines: {why}")
    print(f"{options.count} journals of versions {versions}, {refused} of them refused by the "
          f"older program: {failed} differ")
    return 1 if failed else 0


if __name__ == "__main__":
    end(main)
