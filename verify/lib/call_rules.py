"""The order of a run's system calls, rule by rule, as docs/SERVING.md promises it: for
system_calls.py.
"""
import os
from typing import NamedTuple

from lib.keeper import PUBLISH
from lib.session_draws import Session, journal, reported_changes
from lib.strace_lines import CHANGES

# The kinds of calls that the rules name.
KNOWN = {"open", "lock", "unlock", "read", "write", "sync", "cut", "rights", "move", "link",
         "remove", "look", "close", "seek", "getcwd"}
LATE = 1_000_000_000


class Way(NamedTuple):
    """One way to work with a journal: the words of the command, with the paths that they name, and
    the file at which the journal must be, with what is there at first."""
    name: str
    words: str
    place: str
    old: bytes | None
    session: Session
    # the lines of the journal that the run begins with, without its head
    begun: list

    def is_loaded(self):
        """Returns whether the journal is loaded from the file that it is saved to."""
        return f"--journal {self.place} " in self.words


class Trace:
    """The steps of a run, by their places."""

    def __init__(self, steps):
        self.steps = steps

    def at(self, *kinds, name=None, where=lambda step: True):
        """The places of the steps of these kinds that did not fail."""
        return [place for place, step in enumerate(self.steps)
                if step.kind in kinds and not step.failed and name in (None, step.name)
                and where(step)]

    def replies(self):
        return self.at("write", name="out")

    def last_read(self):
        """The end of the input."""
        return self.at("read", name="in", where=lambda step: not step.data)

    def in_folder(self):
        return [place for place, step in enumerate(self.steps)
                if step.name not in ("in", "out", "err")]

    def changes(self):
        """What changes a file or a name of the folder."""
        makes = self.at("open", where=lambda step: {"O_CREAT", "O_TRUNC"} & set(step.flags))
        return sorted(makes + [place for place in self.at(*CHANGES) if place in self.in_folder()])

    def written(self, name):
        return b"".join(self.steps[place].data for place in self.at("write", name=name))

    def is_known(self):
        """Returns whether each step is of a kind that the rules name."""
        return all(self.steps[place].kind in KNOWN for place in self.in_folder())


def precede(ones, others):
    """Returns whether there are some of both, and all of the ones come before all of the others."""
    return bool(ones) and bool(others) and max(ones) < min(others)


def between(first, places, last):
    """The places that are after the first ones and before the last ones."""
    return [place for place in places if max(first, default=-1) < place < min(last, default=-1)]


def backup_of(way):
    """The path at which a journal stays that was not loaded and that another one replaces."""
    return way.place + ".~1~"


def is_backed_up(way):
    """Returns whether a save of this way leaves the old journal beside the new one."""
    return kind_of(way) == "save" and way.old is not None and not way.is_loaded()


def save_rules(trace, way):
    """The rules of each save: the rule, and whether the trace keeps it."""
    place, beside = way.place, way.place + ".unfinished"
    folder = os.path.dirname(place) or "."
    made = trace.at("open", name=beside, where=lambda step: "O_EXCL" in step.flags)
    written, synced = trace.at("write", name=beside), trace.at("sync", name=beside)
    moved = trace.at("move", "link", name=beside, where=lambda step: step.to == place)
    yield "each call of the folder is of a kind that the rules speak of", trace.is_known()
    yield "a save changes nothing before the input has ended", precede(
        trace.last_read(), trace.changes())
    yield "a save changes nothing before all replies are written", precede(
        trace.replies(), trace.changes())
    yield "the text goes to a new file beside the place", len(made) == 1 and precede(made, written)
    yield "the new file gets the whole journal", trace.written(beside) == journal(
        [*way.begun, *way.session.accepted])
    yield "all of the text is written before the new file is synced", precede(written, synced)
    yield "the new file is synced before it takes the place", precede(synced, moved)
    yield "it takes the place in one step", len(moved) == 1
    yield "the folder is synced after that", precede(moved, trace.at("sync", name=folder)[-1:])
    yield "after the folder is synced nothing is changed", not between(
        trace.at("sync", name=folder)[-1:], trace.changes(), [len(trace.steps)])
    yield "no file but the new one is written", {
        trace.steps[at].name for at in trace.at("write", "cut", "rights")
        if at in trace.in_folder()} == {beside}
    yield from (replace_rules if way.old is not None else new_rules)(trace, way, moved)


def replace_rules(trace, way, moved):
    """The rules of a save over a file that is there."""
    place, beside = way.place, way.place + ".unfinished"
    locks = trace.at("lock", name=place, where=lambda step: "LOCK_EX" in step.flags)
    locked_files = {trace.steps[at].file for at in locks}
    reads = trace.at("read", name="in")
    if way.is_loaded():
        reads += trace.at("read", name=place, where=lambda step: step.file not in locked_files)
    looks = trace.at("look", name=place, where=lambda step: step.file == 0)
    yield "the file is locked before the journal and the input are read", precede(locks, reads)
    yield "once it is locked, its path is looked at again", bool(between(locks, looks, reads))
    yield "it stays locked until another file has its place", not between(
        [], trace.at("close", "unlock", where=lambda step: step.file in locked_files), moved)
    yield "a file is replaced by a move", [trace.steps[at].kind for at in moved] == ["move"]
    yield "its permissions are given before the text is written", precede(
        trace.at("rights", name=beside), trace.at("write", name=beside))
    yield "its path is looked at last before that, and no other call is between", set(
        between([], trace.in_folder(), moved)[-2:]) & set(looks) != set()
    if way.is_loaded():
        compared = between(trace.at("sync", name=beside), trace.at("read", name=place), moved)
        yield "what was loaded is compared, to its end, once the text is on the disk", b"".join(
            trace.steps[at].data for at in compared) == way.old and bool(compared) and (
            trace.steps[compared[-1]].data == b"")
    else:
        linked = trace.at("link", name=place, where=lambda step: step.to == backup_of(way))
        synced = trace.at("sync", name=os.path.dirname(place) or ".")
        yield "the old file has a second name on the disk before another takes its place", (
            len(linked) == 1 and bool(between(linked, synced, moved)))


def new_rules(trace, way, moved):
    """The rules of a save of a new file."""
    beside = way.place + ".unfinished"
    yield "if no file was there, a second name is made, which replaces nothing", [
        trace.steps[at].kind for at in moved] == ["link"]
    yield "and the first name is removed before the folder is synced", precede(
        trace.at("remove", name=beside), trace.at("sync", name=os.path.dirname(way.place) or "."))


def keep_rules(trace, way):
    """The rules of each run that keeps its journal."""
    place, folder = way.place, os.path.dirname(way.place) or "."
    opens = trace.at("open", name=place)
    locks = trace.at("lock", name=place, where=lambda step: "LOCK_EX" in step.flags)
    read, inputs = trace.at("read", name=place), trace.at("read", name="in")
    synced, ready = trace.at("sync", name=place), between([], trace.at("sync", name=place), inputs)
    looks = trace.at("look", name=place, where=lambda step: step.file == 0)
    yield "each call of the folder is of a kind that the rules speak of", trace.is_known()
    yield "a file that is kept is opened once, to append alone", len(opens) == 1 and (
        {"O_APPEND", "O_CREAT"} <= set(trace.steps[opens[0]].flags)
        and "O_TRUNC" not in trace.steps[opens[0]].flags)
    yield "it is locked before it is read", precede(locks, read)
    yield "once it is locked, its path is looked at again", bool(between(locks, looks, read))
    yield "it stays locked to the end", not between(
        [], trace.at("close", "unlock", name=place), inputs + trace.replies())
    yield "what it held and its name are on the disk before it is read", precede(
        locks, trace.at("sync", name=folder)) and precede(trace.at("sync", name=folder), read) and (
        bool(between(locks, synced, read)))
    yield "all that it holds is on the disk before a request is read", bool(ready) and not between(
        ready[-1:], trace.at("write", "cut", name=place), inputs)
    yield "it is cut only where its last line was not finished, before any append", len(
        trace.at("cut", name=place)) == (way.old is not None and is_unfinished(way.old)) and (
        not trace.at("cut") or precede(trace.at("cut"), trace.at("write", name=place)))
    yield from change_rules(trace, way, between(inputs[:1], trace.at("write", name=place), [LATE]))
    yield "no other file is changed", {trace.steps[at].name for at in trace.changes()} == {place}
    # (its length, which file is at its path, and which one is open)
    yield "each sync after that is followed by a look at length and path", all(
        sorted(step.file == 0 for step in trace.steps[at + 1:at + 4] if step.kind == "look")
        == [False, False, True] for at in between(read, synced, [LATE]))


def is_unfinished(content):
    """Returns whether a file's last line must be cut off, for the files that are tried here."""
    return not content.endswith((b"\n", b"}"))


def change_rules(trace, way, writes):
    """The rules of each change that is kept, whose line is written at one of these places."""
    lines = [trace.steps[at].data for at in writes]
    yield "each change is one write of a whole line, and what is refused writes nothing", lines == [
        line.encode() + b"\n" for line in way.session.accepted]
    change_replies = [at for at in trace.replies()
                      for _ in range(reported_changes(trace.steps[at].data)[0])]
    yield "each line is written before its reply", len(change_replies) == len(writes) and all(
        write < reply for write, reply in zip(writes, change_replies))
    synced = trace.at("sync", name=way.place)
    yield "a publish is on the disk before its reply", len(change_replies) == len(writes) and all(
        any(write < sync < reply for sync in synced) for write, reply, line
        in zip(writes, change_replies, lines) if line == PUBLISH.encode() + b"\n")


def follow_rules(trace, way):
    """The rules of each run that follows."""
    place, reads = way.place, trace.at("read", name="in")
    looks = trace.at("look", name=place, where=lambda step: step.file == 0)
    opens = trace.at("open", name=place)
    yield "each call of the folder is of a kind that the rules speak of", trace.is_known()
    yield "a follower changes and locks nothing", not trace.changes() and not trace.at("lock")
    yield "it opens the file once, to read alone", [
        {"O_RDONLY", "O_RDWR", "O_WRONLY"} & set(trace.steps[at].flags) for at in opens
    ] == [{"O_RDONLY"}]
    yield "after each read of the input it looks once, before it replies to that", all(
        len(between([read], looks, [*reads[turn + 1:], LATE])) == 1
        and not between([read], trace.replies(), between([read], looks, [LATE]))
        for turn, read in enumerate(reads))
    yield "it reads what the file holds, from where it left off", b"".join(
        trace.steps[at].data for at in trace.at("read", name=place)) == way.old


def look_rules(trace, _):
    """The rules of each run that saves nothing."""
    yield "each call of the folder is of a kind that the rules speak of", trace.is_known()
    yield "a run that saves nothing changes and locks nothing", (
        not trace.changes() and not trace.at("lock"))


RULES = {"save": save_rules, "keep": keep_rules, "follow": follow_rules, "read": look_rules}


def kind_of(way):
    """The rules of a way."""
    return way.name.split()[0].rstrip(",")
