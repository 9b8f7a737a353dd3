#!/usr/bin/env python3
"""Disturbs the service at random moments while it keeps its journal: no edition is reported that
is not in the file at the path that was named.

A run of `serve --keep` is sent edits and publishes, each after the reply to the one before. Between
two of them another run would keep the file or save to it, which is refused and changes nothing; or
its permissions are taken away, which changes nothing either; or another program moves the file,
puts another one in its place, cuts it or adds to it. Then the run ends with the fault that says so,
it reports no edition that is sent after that, and the file that it kept has each edition that it
reported before. Two runs that save to one path at the same time are tried too: one is refused, and
nothing is left beside it. So is a run that saves to the file that it loaded, after another program
has changed its bytes, cut it, lengthened it, taken it away, or put another file of the same bytes
in its place. And one that keeps a file through a link, which then leads to a file of the same
number on another disk; disks in memory are used for these, which only root may mount.
"""
import os
import random
import shutil
import subprocess
import tempfile

from lib.checks import check, verdict
from lib.common import CommandLine, compact, end, mounted, run
from lib.conditions import copy_over
from lib.keeper import HEAD, LOCKED, PUBLISH, REPLACED, Editor, Run, journal_lines, land



def is_refused(what, done):
    result = (done.returncode, done.stdout, done.stderr)
    check(f"{what} gives {result}", result == LOCKED)


def keep_too(program, path):
    is_refused("a second keeper", run(program, ["serve", "--keep", path], [PUBLISH]))


def save_too(program, path):
    edits = [compact(land(9_999)), PUBLISH]
    is_refused("a saver", run(program, ["serve", "--journal", path, "--save", path], edits))


def take_permissions(_, path):
    os.chmod(path, 0o400)


def move(_, path):
    os.rename(path, path + ".moved")


def replace(_, path):
    with open(path + ".new", "w", encoding="utf-8") as file:
        file.write(HEAD + "\n")
    os.replace(path + ".new", path)


def cut(_, path):
    os.truncate(path, len(HEAD) + 1)


def lengthen(_, path):
    with open(path, "a", encoding="utf-8") as file:
        file.write("{}\n")


# What is done, by the program or not, and whether the run ends by it.
DISTURBANCES = [(keep_too, False), (save_too, False), (take_permissions, False), (move, True),
                (replace, True), (cut, True), (lengthen, True)]


def try_run(program, path, chance, number):
    """Makes one run that is disturbed. Returns how many replies it gave."""
    disturb, ends = DISTURBANCES[number % len(DISTURBANCES)]
    running, editor, sent = Run(program, path), Editor(chance.random()), []
    moment, count = chance.randrange(2, 40), 45
    for turn in range(count + 2):
        if turn == moment:
            before = kept_before(path)
            disturb(program, path)
        # the last two are an edit and a publish that is reported as an edition, if any is
        request = editor.next() if turn < count else last_of(turn - count, editor)
        sent.append(request)
        running.send([request[0]])
        running.wait_for(len(sent))
        if running.process.poll() is not None:
            break
    if running.process.poll() is None:
        running.process.stdin.close()
    replies, errors = running.stopped()
    status = running.process.returncode
    what = f"run {number}, {disturb.__name__}"
    check(f"{what}: {status} {errors!r}", (status, errors) == ((3, REPLACED) if ends else (0, "")))
    late = [reply for reply in replies[moment:] if reply.get("ok") == "published"]
    check(f"{what}: reported after it: {late}", not ends or not late)
    accepted = [compact(request) for (request, is_accepted), reply in zip(sent, replies)
                if is_accepted]
    if not ends:
        check(f"{what}: other lines", journal_lines(path) == ([HEAD] + accepted, ""))
    check(f"{what}: lines were lost before it",
          before[1:] == [compact(request) for request, is_accepted in sent[:moment] if is_accepted])
    return len(replies)


def last_of(turn, editor):
    if turn == 0:
        editor.pending += 1
        return {"op": "add_land", "code": "LAST", "name": "Last", "calendar": "julian",
                "style": "january", "rule": "julian"}, True
    return {"op": "publish"}, True


def kept_before(path):
    """The lines that the file holds, each of which was reported."""
    lines, rest = journal_lines(path)
    check(f"{rest!r} is after the lines", rest == "")
    return lines


def try_runs(options, folder):
    count = 0
    for number in range(options.count):
        path = os.path.join(folder, f"{number}.journal")
        chance = random.Random(options.seed * 1_000_003 + number)
        count += try_run(options.program, path, chance, number)
    print(f"{options.count} runs were disturbed: {count} replies given", flush=True)


def try_savers(program, folder):
    """Makes two runs save to one path at the same time."""
    path = os.path.join(folder, "saved.journal")
    with open(path, "w", encoding="utf-8") as file:
        file.write(HEAD + "\n")
    words = [program, "serve", "--journal", path, "--save", path]
    with subprocess.Popen(words, stdin=subprocess.PIPE, stdout=subprocess.PIPE) as first:
        first.stdin.write((compact(land(0)) + "\n").encode())
        first.stdin.flush()
        check("the first saver is not answered", b"staged" in first.stdout.readline())
        save_too(program, path)
        first.stdin.close()
        first.wait()
    check("the first saver's edit is not saved", journal_lines(path)[0] == [HEAD, compact(land(0))])
    beside = [name for name in os.listdir(folder) if "unfinished" in name]
    check(f"{beside} are left", not beside)
    print("two runs that save to one path: the second is refused", flush=True)


def overwrite(_, path):
    with open(path, "r+", encoding="utf-8") as file:
        file.write(HEAD.replace("2", "1"))


def take_away(_, path):
    os.remove(path)


# What is done to a file before a run saves to it.
CHANGES = [overwrite, cut, lengthen, take_away, lambda _, path: copy_over(path)]


def text_at(path):
    """The text of a file, None if there is none."""
    if not os.path.exists(path):
        return None
    with open(path, encoding="utf-8") as file:
        return file.read()


def try_changed(program, folder, change):
    """A run that saves to the file that it loaded, which someone else has changed meanwhile."""
    path = os.path.join(folder, f"{change.__name__}.journal")
    with open(path, "w", encoding="utf-8") as file:
        file.write(HEAD + "\n" + compact(land(7)) + "\n")
    words = [program, "serve", "--journal", path, "--save", path]
    with subprocess.Popen(words, stdin=subprocess.PIPE, stdout=subprocess.PIPE,
                          stderr=subprocess.PIPE) as saver:
        saver.stdin.write((compact(land(0)) + "\n").encode())
        saver.stdin.flush()
        check("the saver is not answered", b"staged" in saver.stdout.readline())
        change(program, path)
        left = text_at(path)
        stderr = saver.communicate()[1].decode()
    what = f"{change.__name__}: a file that was changed"
    check(f"{what} is replaced: {saver.returncode} {stderr!r}",
          saver.returncode == 3 and stderr.startswith("oldstyle: the file was changed meanwhile"))
    check(f"{what} is not left", text_at(path) == left)
    beside = stderr.rstrip("\n").rsplit(" ", 1)[-1]
    check(f"{what}: the journal is not beside it",
          journal_lines(beside)[0] == [HEAD, compact(land(7)), compact(land(0))])


def try_other_disk(program, folder):
    """A keeper through a link, which is made to lead to a file of the same number elsewhere."""
    paths = [os.path.join(folder, name) for name in ("one", "two")]
    for path in paths:
        os.mkdir(path)
    with mounted(paths[0], "size=64k") as one, mounted(paths[1], "size=64k") as two:
        if one is None or two is None:
            print("not tried: two disks, which only root may mount")
            return
        link, files = os.path.join(folder, "a.link"), [os.path.join(at, "a") for at in paths]
        os.symlink(files[0], link)
        with open(files[0], "w", encoding="utf-8") as file:
            file.write(HEAD + "\n")
        running = Run(program, link)
        running.send([land(0), {"op": "publish"}, land(1)])
        running.wait_for(3)
        shutil.copy(files[0], files[1])
        check("the two files have other numbers",
              os.stat(files[0]).st_ino == os.stat(files[1]).st_ino)
        os.symlink(files[1], link + ".new")
        os.replace(link + ".new", link)
        running.send([{"op": "publish"}])
        replies, errors = running.stopped()
        check(f"another disk: {len(replies)} replies are given, and {errors!r}",
              (len(replies), errors) == (3, REPLACED))


def main():
    line = CommandLine(__doc__)
    line.add_program()
    line.add_count(200, "runs")
    line.add_seed()
    options = line.read()
    with tempfile.TemporaryDirectory() as folder:
        try_runs(options, folder)
        try_savers(options.program, folder)
        for change in CHANGES:
            try_changed(options.program, folder, change)
        try_other_disk(options.program, folder)
    return verdict(f"{options.count} runs, two savers and {len(CHANGES)} changed files: no edition "
                   "is reported that is not in the file, and no file that was changed is replaced")


if __name__ == "__main__":
    end(main)
