#!/usr/bin/env python3
"""Traces the program's system calls as it saves, keeps and follows a journal, and refuses them.

Each way to save, to keep and to follow is traced by strace (Debian's package `strace`), with random
sessions of an editor. The order of the calls is compared with what docs/SERVING.md promises, rule
by rule: what is locked before it is read, what is on the disk before it takes the place of another
file, what is there before a reply is written. No contract says that a sync or a lock comes at all:
the contracts say nothing about the disk. A row is written for each rule, with the number of runs
that kept it.

Then each call that concerns the folder is refused in turn, with each error that it may meet: a full
disk, a failed sync, a move that isn't permitted. The journal must be the old one or the new one,
whole, with nothing beside it, and what is reported must say which. What a keeper reported must be
in its file, and the next run continues from that. Last, a call is delayed while another program
puts a file where the journal is made: that file must stay.
"""
import os
import random
import re
import shutil
import stat
import subprocess
import tempfile
import time

from lib.call_rules import RULES, Trace, Way, backup_of, is_backed_up, is_unfinished, kind_of
from lib.checks import check, verdict
from lib.common import CommandLine, end, need, run
from lib.keeper import HEAD, LOCKED, PUBLISH, REPLACED
from lib.session_draws import LANDS, Session, bytes_at, journal, session, reported_changes
from lib.strace_lines import traced

MODE = 0o640
# How long a call is delayed, in microseconds, and how many seconds the others wait for it to begin.
DELAY, WAIT = 3_000_000, 60
CHANGED = "oldstyle: the file was changed meanwhile, and is left as it is: the journal is in "
NOTED = " contained another journal, which is now "
NOT_SYNCED = "oldstyle: the journal is saved, but may not be on the disk yet\n"
FAULTS = ["oldstyle: read fault\n", "oldstyle: write fault\n"]
# What is reported after one of them is not checked: the cause, which is that of the refused call,
# or what to do.
FAULT_NOTE = re.compile(r"(oldstyle: (?:read|write) fault\n)(?:note|help): .*\n")
# The errors that a call may meet.
ERRORS = {
    "open": ["EACCES", "EMFILE", "ENOSPC"], "lock": ["ENOLCK", "EAGAIN"], "read": ["EIO"],
    "write": ["ENOSPC", "EIO"], "sync": ["EIO", "ENOSPC"], "cut": ["EIO"], "rights": ["EPERM"],
    "move": ["EACCES", "EIO"], "link": ["EPERM", "EACCES", "EEXIST"], "remove": ["EACCES"],
    "look": ["EACCES", "EIO"], "close": ["EIO"],
}
# The calls without which nothing is done.
MUST_BE_REPORTED = {"write", "sync", "cut", "rights", "move"}
counts = {}


# ---- ways


def ways(chance):
    """Each way, with random sessions."""
    begun = session(chance, chance.randint(3, 30)).accepted
    more, anew = session(chance, chance.randint(1, 30), begun), session(chance, 20)
    old, other = journal(begun), journal(session(chance, 5).accepted)
    place = "a.journal"
    yield Way("save over what was loaded", f"serve --journal {place} --save {place}", place, old,
              more, begun)
    yield Way("save over another file", f"serve --journal b.journal --save {place}", place, other,
              more, begun)
    yield Way("save through a link", "serve --save a.link", "far/away.journal", other, anew, [])
    yield Way("save where nothing is", f"serve --save {place}", place, None, anew, [])
    yield Way("save in another folder", "serve --save far/new.journal", "far/new.journal", None,
              anew, [])
    yield Way("keep a new file", f"serve --keep {place}", place, None, anew, [])
    yield Way("keep a file", f"serve --keep {place}", place, old, more, begun)
    yield Way("keep through a link", "serve --keep a.link", "far/away.journal", old, more, begun)
    yield Way("keep without the last line feed", f"serve --keep {place}", place, old[:-1], more,
              begun)
    cut = old + PUBLISH[:chance.randint(1, len(PUBLISH) - 1)].encode()
    yield Way("keep, cut off", f"serve --keep {place}", place, cut, more, begun)
    yield Way("keep, with no head", f"serve --keep {place}", place, HEAD[:5].encode(), anew, [])
    requests = [LANDS] * 3_000
    yield Way("follow", f"serve --follow {place}", place, old, Session(requests, []), begun)
    yield Way("read", f"serve --journal {place}", place, old, more, begun)
    yield Way("read", f"territory {place}", place, old, Session([], []), begun)


def fill(folder, way):
    """A folder with the files of a way."""
    os.mkdir(os.path.join(folder, "far"))
    os.symlink("far/away.journal", os.path.join(folder, "a.link"))
    for name, content in {"b.journal": journal(way.begun), way.place: way.old}.items():
        if content is not None:
            path = os.path.join(folder, name)
            with open(path, "wb") as file:
                file.write(content)
            os.chmod(path, MODE)


def files_in(folder):
    """What each file of a folder holds, with its permissions."""
    result = {}
    for at, _, names in os.walk(folder):
        for name in names:
            path = os.path.join(at, name)
            if not os.path.islink(path):
                mode = stat.S_IMODE(os.stat(path).st_mode)
                result[os.path.relpath(path, folder)] = (mode, bytes_at(path))
    return result


def try_way(program, way, inject=None):
    """A traced run of a way, and what the folder holds before it and after it."""
    folder = tempfile.mkdtemp()
    try:
        fill(folder, way)
        before = files_in(folder)
        done = traced([program, *way.words.split()], folder, way.session.stdin(), inject)
        done = done._replace(err=FAULT_NOTE.sub(r"\1", done.err))
        after = files_in(folder)
        goes_on = run_again(program, way, folder) if way.name.startswith("keep") else None
        return done, before, after, goes_on
    finally:
        shutil.rmtree(folder)


def run_again(program, way, folder):
    """What the next run of a keeper prints, and the file after it."""
    again = run(program, way.words.split(), [LANDS], folder)
    return again, bytes_at(os.path.join(folder, way.place))


def cut_line(way):
    """What a run prints before it begins."""
    if kind_of(way) != "keep" or way.old is None or not is_unfinished(way.old):
        return ""
    number = 1 + way.old.count(b"\n")
    return f"oldstyle: journal line {number} was unfinished, and is cut off\n"


def is_noted(stderr):
    """Returns whether it is reported that a journal stays beside the new one, by the first number
    or, if that name was refused, the next one."""
    return stderr.startswith("note: ") and NOTED in stderr and stderr.endswith((".~1~\n", ".~2~\n"))


def new_mode():
    """The permissions of a file that is made with none given."""
    mask = os.umask(0)
    os.umask(mask)
    return 0o666 & ~mask


def check_rules(program, way):
    """Compares a run of a way with its rules. Returns its steps."""
    done, before, after, _ = try_way(program, way)
    check(f"{way.name}: {done.status} {done.err!r}", done.status == 0 and (
        is_noted(done.err) if is_backed_up(way) else done.err == cut_line(way)))
    broken = []
    for rule, is_kept in RULES[kind_of(way)](Trace(done.steps), way):
        passed, all_runs = counts.get(rule, (0, 0))
        counts[rule] = (passed + bool(is_kept), all_runs + 1)
        broken += [] if is_kept else [rule]
        check(f"{way.name}: {rule}", is_kept)
    if broken:
        print("\n".join(f"    {step}" for step in done.steps), flush=True)
    expected = journal([*way.begun, *way.session.accepted])
    if kind_of(way) in ("save", "keep"):
        mode = MODE if way.old is not None else new_mode()
        backup = {backup_of(way): (MODE, way.old)} if is_backed_up(way) else {}
        check(f"{way.name}: other files",
              after == {**before, **backup, way.place: (mode, expected)})
    else:
        check(f"{way.name}: other files", after == before)
    return done.steps


# ---- refused calls


def check_save(what, way, result, refused):
    """The journal is the old one or the new one, as is reported, and nothing is beside it."""
    done, before, after, _ = result
    new = journal([*way.begun, *way.session.accepted])
    beside = {name: file for name, file in after.items() if name not in before
              and name != way.place}
    content = after.get(way.place, (0, None))[1]
    saved = content == new
    if saved and is_backed_up(way):
        backups = [name for name in beside if name.endswith("~")]
        check(f"{what}: the old journal is lost",
              [beside.pop(name) for name in backups] == [(MODE, way.old)])
        after = {name: file for name, file in after.items() if name not in backups}
    if done.err.startswith(CHANGED):
        path = done.err.removeprefix(CHANGED).rstrip("\n")
        is_right = not saved and [file[1] for file in beside.values()] == [new] and (
            list(beside) == [way.place + path.removeprefix(path[:path.rfind(".unfinished")])])
    else:
        err = "" if is_backed_up(way) and is_noted(done.err) else done.err
        is_right = (not beside or refused.kind == "remove") and saved == (
            err in ("", NOT_SYNCED)) and (err in ("", NOT_SYNCED, LOCKED[2], *FAULTS)
                                          or is_backed_up(way) and err.startswith(FAULTS[1]))
    check(f"{what}: {done.status} {done.err!r}, and beside it {sorted(beside)}", is_right
          and done.status == (0 if not done.err or is_noted(done.err) else 3))
    check(f"{what}: it is reported as done", done.status or refused.kind not in MUST_BE_REPORTED)
    check(f"{what}: the journal is neither the old one nor the new one", content in (way.old, new))
    check(f"{what}: its permissions", way.old is None or after[way.place][0] == MODE)
    check(f"{what}: other files", {**after, way.place: 0, **beside} == {**before, way.place: 0,
                                                                        **beside})


def check_keep(what, way, result, refused):
    """What was reported is in the file, which is a prefix of what was sent; the next run
    continues."""
    done, before, after, (again, later) = result
    changes, edition = reported_changes(done.out)
    content, new = after.get(way.place, (0, None))[1], journal([*way.begun, *way.session.accepted])
    known = [LOCKED[2], REPLACED, *FAULTS]
    message = done.err.split("was unfinished, and is cut off\n")[-1]
    check(f"{what}: {done.status} {done.err!r}", message in ("", *known)
          and done.status == (3 if message else 0))
    check(f"{what}: other files", {**after, way.place: 0} == {**before, way.place: 0})
    check(f"{what}: it is reported as done", done.status == 3 and not reported_after(done.steps)
          or refused.kind not in MUST_BE_REPORTED and not is_look_at_change(done.steps))
    if changes:
        least = journal([*way.begun, *way.session.accepted[:changes]])
        check(f"{what}: {changes} changes were reported, and not all are held",
              content is not None and content.startswith(least) and new.startswith(content))
    elif content != way.old:
        check(f"{what}: it holds something else", content is None or new.startswith(content)
              or content + b"\n" == new[:len(content) + 1])
        check(f"{what}: what it held is lost", way.old is None or is_unfinished(way.old)
              or content.startswith(way.old))
    # (An empty one may stay: if its lock or its look fails, it may be another run's.)
    check(f"{what}: a new file is left that was not kept", way.old is not None or not content
          or message != FAULTS[0] or refused.kind in ("remove", "read"))
    check(f"{what}: a file is taken away that another run keeps",
          message != LOCKED[2] or content is not None)
    editions = (later or b"").count(PUBLISH.encode() + b"\n")
    check(f"{what}: the next run prints {again.stderr!r} {again.stdout!r}",
          again.returncode == 0 and f'"edition":{editions},' in again.stdout
          and editions >= edition)


def refused_at(steps):
    return next(place for place, step in enumerate(steps) if step.was_refused)


def reported_after(steps):
    """How many changes are reported after the refused call."""
    later = steps[refused_at(steps):]
    return reported_changes(b"".join(step.data for step in later if step.name == "out"))[0]


def is_look_at_change(steps):
    """Returns whether the refused call is a look at a file after a change of it was asked for."""
    place = refused_at(steps)
    has_read = any((step.kind, step.name) == ("read", "in") for step in steps[:place])
    return has_read and steps[place].kind == "look"


def check_look(what, _, result, __):
    """Nothing is changed, and what is reported is known."""
    done, before, after, _ = result
    known = done.err in ("", *FAULTS) or done.err.startswith("oldstyle: a.journal: ")
    check(f"{what}: {done.status} {done.err!r}", known and done.status == (3 if done.err else 0))
    check(f"{what}: other files", after == before)


CHECKS = {"save": check_save, "keep": check_keep, "follow": check_look, "read": check_look}


def refuse_calls(program, way, steps):
    """Refuses each call of the folder in turn. Returns how many there were."""
    tried = 0
    for step in steps:
        if step.name in ("in", "out", "err"):
            continue
        for error in ERRORS.get(step.kind, []):
            inject = f"{step.call}:error={error}:when={step.turn}"
            result = try_way(program, way, inject)
            what = f"{way.name}, with {step.kind} {step.name} refused ({inject})"
            met = [other for other in result[0].steps if other.was_refused]
            check(f"{what}: {len(met)} calls were refused", len(met) == 1)
            CHECKS[kind_of(way)](what, way, result, step)
            tried += 1
    return tried


# ---- what others do meanwhile


def try_put_meanwhile(program, inject):
    """Makes a save of a new file, while another program puts a file there before the move."""
    with tempfile.TemporaryDirectory() as folder:
        path, other = os.path.join(folder, "new.journal"), b"Honoured Sir"
        words = ["strace", "-f", "-qq", "-o", "/dev/null", "-e", "trace=link,linkat", *inject]
        with subprocess.Popen([*words, program, "serve", "--save", path], stdin=subprocess.PIPE,
                              stdout=subprocess.PIPE, stderr=subprocess.PIPE) as saver:
            saver.stdin.write(LANDS.encode() + b"\n")
            saver.stdin.flush()
            saver.stdout.readline()
            with open(path, "wb") as file:
                file.write(other)
            stderr = saver.communicate()[1].decode()
        beside = bytes_at(path + ".unfinished")
        check(f"a file put where nothing was, {inject}: {saver.returncode} {stderr!r}",
              saver.returncode == 3 and stderr.startswith(CHANGED))
        check(f"a file put where nothing was, {inject}: it is lost, or the journal is",
              (bytes_at(path), beside) == (other, journal([])))


def slowed(program, path, *inject):
    """A keeper of a path whose calls on that, or on its folder, are delayed or refused."""
    words = ["strace", "-f", "-qq", "-o", path + ".trace", "-P", path, "-P", os.path.dirname(path)]
    for what in inject:
        words += ["-e", f"inject={what}"]
    return subprocess.Popen([*words, program, "serve", "--keep", path], stdin=subprocess.DEVNULL,
                            stdout=subprocess.PIPE, stderr=subprocess.PIPE)


def wait_until(is_true):
    last = time.monotonic() + WAIT
    while not is_true() and time.monotonic() < last:
        time.sleep(0.01)


def try_moved_there(program):
    """A file that another program moves to a path while a keeper makes one there."""
    with tempfile.TemporaryDirectory() as folder:
        path, other = os.path.join(folder, "new.journal"), b"Honoured Sir"
        with open(path + ".other", "wb") as file:
            file.write(other)
        with slowed(program, path, f"flock:delay_enter={DELAY}:when=1") as keeper:
            wait_until(lambda: os.path.exists(path))
            os.replace(path + ".other", path)
            keeper.communicate()
        check("a keeper takes a file away that was moved to its path", bytes_at(path) == other)


def try_kept_meanwhile(program):
    """A new journal that another run keeps, and has just stopped keeping, while this one opens it,
    and which this one can't keep then."""
    with tempfile.TemporaryDirectory() as folder:
        path = os.path.join(folder, "new.journal")
        inject = (f"openat:delay_enter={DELAY}:when=1", "fsync:error=EIO:when=1")
        with slowed(program, path, *inject) as keeper:
            # (it has looked twice that nothing is there)
            wait_until(lambda: (bytes_at(path + ".trace") or b"").count(b"\n") >= 2)
            other = run(program, ["serve", "--keep", path], session(random.Random(1), 3).sent)
            content = bytes_at(path)
            keeper.communicate()
        check(f"the other keeper prints {other.stderr!r}", other.returncode == 0)
        check("a keeper takes a journal away that another run kept", bytes_at(path) == content)


def main():
    line = CommandLine(__doc__)
    line.add_program()
    line.add_count(10, "sessions for each way")
    line.add_seed()
    options = line.read()
    need("strace", "Debian's package strace")
    traced_runs = refused = 0
    for number in range(options.count):
        chance = random.Random(options.seed * 1_000_003 + number)
        for way in ways(chance):
            steps = check_rules(options.program, way)
            traced_runs += 1
            if number == 0:
                refused += refuse_calls(options.program, way, steps)
    for inject in ([], ["-e", "inject=link,linkat:error=EPERM"]):
        try_put_meanwhile(options.program, inject)
    try_moved_there(options.program)
    try_kept_meanwhile(options.program)
    print("| Rule | Runs that kept it |\n|---|---|")
    for rule, (passed, runs) in counts.items():
        print(f"| {rule} | {passed} of {runs} |")
    print(f"{traced_runs} runs were traced, and {refused} with a call refused")
    return verdict(f"each run kept its rules, of which there are {len(counts)}; with each call "
                   "refused the journal was the old one or the new one, whole")


if __name__ == "__main__":
    end(main)
