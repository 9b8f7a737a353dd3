#!/usr/bin/env python3
"""Builds what a crash of the machine may leave of a journal, and loads it with the program.

A run that saves a journal, or keeps one, is traced by strace (Debian's package `strace`). Between
any two of its system calls the machine may stop. What was synced is on the disk then. Any prefix of
the bytes that were written since may be there. A name that was made, moved or taken away since its
folder was synced may be there or not. Each such state is built: all names, and prefixes at each
line and at random places. A journal that is saved must be the old one or the new one, whole, and
the new one if the run had ended well. From one that is kept the next keeper must load each edition
that was reported before, and no line that was not sent. A keeper with `--upgrade` does both: there
is the old journal, or the one of version 4, whole, and this one before anything is reported.

A keeper is also killed at each call (SIGKILL) before it keeps a new file again, since the second
run may depend on what the first had not synced. What the folder holds after such a stop must be
what the trace says: so the states are those of the real run.
"""
import itertools
import os
import random
import shutil
import tempfile
from typing import NamedTuple

from lib.checks import check, verdict
from lib.common import CommandLine, end, need, run
from lib.keeper import HEAD, HEAD_4, PUBLISH
from lib.session_draws import LANDS, bytes_at, journal, last_edition, session, reported_changes
from lib.strace_lines import traced

FRONTS = 6
SECOND = "serve --keep a"
counts = {"states": 0, "loaded": 0, "cuts": 0, "stops": 0}


# ---- the disk


class Disk:
    """What a folder holds, and what of it is on the disk for sure. A file has a number."""

    def __init__(self):
        self.files, self.opens, self.number = {}, {}, 0
        # the names of the last sync of their folder, and what was done to names since
        self.synced_names, self.names = {}, []

    def add(self, name, content):
        """A file that is on the disk."""
        self.number += 1
        self.files[self.number] = [("write", content)], 1
        self.synced_names[name] = self.number

    def copy(self):
        other = Disk()
        other.files, other.opens, other.number = dict(self.files), dict(self.opens), self.number
        other.synced_names, other.names = dict(self.synced_names), list(self.names)
        return other

    def names_now(self):
        return named(self.synced_names, [change for _, change in self.names])

    def change_file(self, number, change):
        changes, synced = self.files[number]
        self.files[number] = [*changes, change], synced

    def change_name(self, folder, change):
        self.names.append((folder, change))

    def take(self, step):
        """Does what a step did."""
        if step.failed:
            return
        if step.kind == "open":
            self.take_open(step)
        elif step.kind in ("write", "cut") and step.file in self.opens:
            change = ("write", step.data) if step.kind == "write" else ("cut", step.to)
            self.change_file(self.opens[step.file], change)
        elif step.kind == "sync":
            self.take_sync(step)
        elif step.kind in ("move", "link", "remove"):
            self.take_name(step)

    def take_open(self, step):
        names = self.names_now()
        if "O_CREAT" in step.flags and step.name not in names:
            self.number += 1
            self.files[self.number] = [], 0
            self.change_name(folder_of(step.name), {step.name: self.number})
            names = self.names_now()
        if step.name in names:
            self.opens[step.file] = names[step.name]
            if "O_TRUNC" in step.flags:
                self.change_file(names[step.name], ("cut", 0))

    def take_sync(self, step):
        if step.file in self.opens:
            changes, _ = self.files[self.opens[step.file]]
            self.files[self.opens[step.file]] = changes, len(changes)
            return
        of_folder = [change for folder, change in self.names if folder == step.name]
        self.synced_names = named(self.synced_names, of_folder)
        self.names = [result for result in self.names if result[0] != step.name]

    def take_name(self, step):
        """Moves, makes or takes away a name; the folder has the change from then on."""
        number = self.names_now()[step.name]
        change = {step.to: number} if step.kind != "remove" else {}
        self.change_name(folder_of(step.name),
                         {**change, **({} if step.kind == "link" else {step.name: None})})

    def contents_now(self):
        """What each name holds while the machine runs."""
        return {name: bytes_of(self.files[number][0]) for name, number in self.names_now().items()}

    def left_by_crash(self, chance):
        """Each state that a crash may leave: what each name holds then."""
        for count in range(len(self.names) + 1):
            for chosen in itertools.combinations(self.names, count):
                names = named(self.synced_names, [change for _, change in chosen])
                fronts = [self.fronts(number, chance) for number in names.values()]
                for choice in itertools.product(*fronts):
                    yield dict(zip(names, choice))

    def fronts(self, number, chance):
        """What a file may hold: what was synced, and any prefix of what was done since."""
        changes, synced = self.files[number]
        texts = {bytes_of(changes[:synced])}
        for place, (kind, value) in enumerate(changes[synced:], synced):
            texts.add(bytes_of(changes[:place + 1]))
            if kind == "write" and value:
                texts |= {bytes_of([*changes[:place], (kind, value[:chance.randrange(len(value))])])
                          for _ in range(1 + (place == len(changes) - 1) * FRONTS)}
        return sorted(texts)


def named(names, changes):
    """Names with changes of them, in order."""
    names = dict(names)
    for change in changes:
        names.update(change)
    return {name: number for name, number in names.items() if number is not None}


def bytes_of(changes):
    content = b""
    for kind, value in changes:
        content = content + value if kind == "write" else content[:value].ljust(value, b"\0")
    return content


def folder_of(name):
    return os.path.dirname(name) or "."


# ---- runs


class Way(NamedTuple):
    """A command, the file of its journal, what the file holds at first, and what it must hold in
    the end: the lines that it begins with and those that are sent."""
    words: str
    place: str
    old: bytes | None
    begun: list
    accepted: list
    stdin: bytes
    head: str = HEAD

    def lines(self, count=None):
        """The bytes of the head and of as many of the lines as `count` says."""
        return journal([*self.begun, *self.accepted][:count], self.head)

    def new(self):
        return self.lines()

    def upgrades(self):
        return "--upgrade" in self.words

    def keeps(self):
        return "--keep" in self.words

    def whole(self):
        """The lines with their line feeds that are there at first."""
        content = self.old or b""
        return content[:content.rfind(b"\n") + 1]


def ways(chance):
    """A save over a file and one to a new name, and keepers of files that a run may find."""
    begun = session(chance, chance.randint(2, 12)).accepted
    more, added = session(chance, chance.randint(8, 25), begun), session(chance, 25)
    old, cut = journal(begun), PUBLISH[:chance.randint(1, len(PUBLISH) - 1)].encode()
    yield Way("serve --journal a --save a", "a", old, begun, more.accepted, more.stdin())
    yield Way("serve --save a", "a", None, [], added.accepted, added.stdin())
    for content in (old, old[:-1], old + cut):
        yield Way("serve --keep a", "a", content, begun, more.accepted, more.stdin())
    for content in (None, HEAD[:4].encode(), b""):
        yield Way("serve --keep a", "a", content, [], added.accepted, added.stdin())
    for content in (old, old + cut):
        yield Way("serve --keep a --upgrade", "a", content, begun, more.accepted, more.stdin(),
                  HEAD_4)
    yield Way("serve --keep a --upgrade", "a", None, [], added.accepted, added.stdin(), HEAD_4)


def steps_of(program, way, folder, inject=None):
    done = traced([program, *way.words.split()], folder, way.stdin, inject)
    return done, [step for step in done.steps if step.name != "in"]


def filled(way):
    folder = tempfile.mkdtemp()
    if way.old is not None:
        with open(os.path.join(folder, way.place), "wb") as file:
            file.write(way.old)
    return folder


def disk_of(way):
    disk = Disk()
    if way.old is not None:
        disk.add(way.place, way.old)
    return disk


def moments(disk, steps):
    """The disk between any two calls, with what was reported by then."""
    output = b""
    yield disk.copy(), output
    for step in steps:
        if step.name == "out":
            output += step.data
        elif step.name != "err":
            disk.take(step)
        yield disk.copy(), output


# ---- what is left


def may_be_left(way, content, output):
    """Returns whether a crash may leave these bytes at the journal's path after these reports."""
    if not way.keeps():
        return content in (way.old, way.new())
    changes, edition = reported_changes(output)
    lines, sure = [*way.begun, *way.accepted], way.whole()
    if way.upgrades():
        if content == way.old and not output:
            return True
        is_new = way.old is None and not content and not output
        sure = b"" if is_new else way.lines(len(way.begun))
    if edition:
        sure = way.lines(published(lines[:len(way.begun) + changes]))
    content = content or b""
    return content.startswith(sure) and (way.new().startswith(content) or content == way.old)


def published(lines):
    """How many lines there are up to the last publish, and with it."""
    return max((n + 1 for n, line in enumerate(lines) if line == PUBLISH), default=0)


def check_state(program, way, content, output, what):
    """Loads what is at the journal's path, and compares it with what was reported."""
    check(f"{what}: {content!r} is left, and {output!r} was reported",
          may_be_left(way, content, output))
    keeps = way.keeps()
    edition = max(reported_changes(output)[1], way.begun.count(PUBLISH)) if keeps else 0
    if content is None:
        check(f"{what}: edition {edition} was reported, and there is no file",
              way.old is None and edition == 0)
        return
    with tempfile.TemporaryDirectory() as folder:
        path = os.path.join(folder, "a")
        with open(path, "wb") as file:
            file.write(content)
        done = run(program, ["serve", "--keep" if keeps else "--journal", path], [LANDS])
        later = bytes_at(path)
    counts["loaded"] += 1
    expected = journal([]) if not content.count(b"\n") else content[:content.rfind(b"\n") + 1]
    expected = content + b"\n" if keeps and content.endswith(b"}") else expected
    editions = later.count(PUBLISH.encode() + b"\n")
    check(f"{what}: {content!r} is loaded as {done.stdout!r}, with {done.stderr!r}",
          done.returncode == 0 and f'"edition":{editions},' in done.stdout
          and editions >= edition and later == (expected if keeps else content))


def try_way(program, way, chance, seen):
    """Each state that a crash may leave of one run."""
    folder = filled(way)
    try:
        done, steps = steps_of(program, way, folder)
        check(f"{way.words}: {done.status} {done.err!r}", done.status == 0)
        disk = disk_of(way)
        for number, (moment, output) in enumerate(moments(disk, steps)):
            counts["cuts"] += 1
            try_moment(program, way, (moment, output), chance, seen, f"{way.words}, call {number}")
        check(f"{way.words}: the trace says {disk.contents_now()!r}",
              disk.contents_now().get(way.place) == way.new()
              == bytes_at(os.path.join(folder, "a")))
        check_end(way, disk, chance)
    finally:
        shutil.rmtree(folder)


def check_end(way, disk, chance):
    """Once a save has ended well, no crash takes it back."""
    if not way.keeps():
        left = {state.get(way.place) for state in disk.left_by_crash(chance)}
        check(f"{way.words}: it ended well, and a crash leaves another journal",
              left == {way.new()})


def try_moment(program, way, moment, chance, seen, what):
    """Each state that a crash at one moment may leave, except those that were tried."""
    disk, output = moment
    _, edition = reported_changes(output)
    for state in disk.left_by_crash(chance):
        counts["states"] += 1
        content = state.get(way.place)
        if (content, edition) not in seen:
            seen.add((content, edition))
            check_state(program, way, content, output, f"{what}, a crash")


def try_stops(program, way, chance):
    """Kills a run at each call, compares the folder with the trace, and lets a second run continue.
    What the first had not synced is not sure to be there before the second has synced it."""
    folder = filled(way)
    _, steps = steps_of(program, way, folder)
    shutil.rmtree(folder)
    for step in steps:
        if step.name in ("out", "err"):
            continue
        folder = filled(way)
        try:
            inject = f"{step.call}:signal=KILL:when={step.turn}"
            done, stopped = steps_of(program, way, folder, inject)
            what = f"{way.words}, killed at {step}"
            counts["stops"] += 1
            files = {name: bytes_at(os.path.join(folder, name)) for name in os.listdir(folder)}
            # the call in which it was killed was made or not
            last = list(moments(disk_of(way), stopped))[-2:]
            fitting = [disk for disk, _ in last if disk.contents_now() == files]
            check(f"{what}: the folder holds {files!r}, "
                  f"the trace says {last[-1][0].contents_now()!r}",
                  fitting and done.status != 0)
            if fitting:
                go_on(program, way, (fitting[-1], folder), chance, what)
        finally:
            shutil.rmtree(folder)


def go_on(program, way, stopped, chance, what):
    """A keeper over what a killed run left, and each crash of the machine after its first reply,
    which answers a query and so names the edition that it found."""
    disk, folder = stopped
    content = bytes_at(os.path.join(folder, way.place)) or b""
    lines = content[:content.rfind(b"\n") + 1].decode().splitlines()[1:]
    more = session(chance, 4, lines)
    stdin = LANDS.encode() + b"\n" + more.stdin()
    second = way._replace(words=SECOND, old=content, begun=lines, accepted=more.accepted,
                          stdin=stdin)
    done, steps = steps_of(program, second, folder)
    check(f"{what}, and the next run: {done.status} {done.err!r}", done.status == 0)
    lost = [last_edition(later) for moment, later in moments(disk, renumbered(steps))
            if is_lost(second, moment, later, chance)]
    check(f"{what}, and the next run reported edition {lost[:1]}: a crash may leave fewer",
          not lost)


def renumbered(steps):
    """The steps of a second run, whose opens are not those of the first."""
    return [step._replace(file=step.file and step.file + 1_000) for step in steps]


def is_lost(way, moment, output, chance):
    """Returns whether a crash may leave fewer editions than were reported."""
    edition = last_edition(output)
    states = list(moment.left_by_crash(chance)) if edition else []
    counts["states"] += len(states)
    return any((state.get(way.place) or b"").count(PUBLISH.encode() + b"\n") < edition
               for state in states)


def main():
    line = CommandLine(__doc__)
    line.add_program()
    line.add_count(3, "sessions for each way")
    line.add_seed()
    options = line.read()
    need("strace", "Debian's package strace")
    for number in range(options.count):
        chance = random.Random(options.seed * 1_000_003 + number)
        for way in ways(chance):
            try_way(options.program, way, chance, set())
            if number == 0:
                try_stops(options.program, way, chance)
    print(f"{counts['cuts']} moments of runs, {counts['stops']} runs that were killed: "
          f"{counts['states']} states that a crash may leave, of which {counts['loaded']} differ "
          "and were loaded")
    return verdict("after each crash the journal is the old one or the new one, whole, with each "
                   "edition that was reported")


if __name__ == "__main__":
    end(main)
