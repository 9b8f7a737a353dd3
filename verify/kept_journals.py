#!/usr/bin/env python3
"""Stops the service at random moments while it keeps its journal, and looks at what the file holds.

A run of `serve --keep` is sent edits and publishes, some of them refused, each after the reply to
the one before or many together, and is killed (SIGKILL) at a random moment. The next run keeps the
same file and continues. After each stop the file has every edition and every pending edit that a
reply reported, in order, and nothing that was not sent; its whole lines are loaded by `--journal`,
with the last edition and the number of pending edits. Half of the files are then cut off after
their last edition, in the middle of a line or not: the next run must say so if a line was not
finished, and not otherwise.

While a journal is kept another run that would keep it is refused, and others read it again and
again: each reads an edition that was reported before it began, or a later one; or it is refused
because a last line is still being written, which is counted.

Then: a full disk and a read-only disk (which only root can mount), and a limit on the length of
files. One line reports each, the file has what was reported, and the next run continues.
"""
import json
import os
import random
import re
import subprocess
import tempfile
import threading
from contextlib import contextmanager

from lib.checks import check, verdict
from lib.common import CommandLine, compact, end, mounted, run
from lib.conditions import limited
from lib.keeper import HEAD, LOCKED, PUBLISH, Editor, Run, editor_after, journal_lines, land


def lines_of(text):
    return [json.loads(line) for line in text.splitlines()]


def sent_until_stopped(running, editor, one_by_one):
    """Sends until the run is stopped; returns what was sent, each with whether it is accepted."""
    sent = []
    while running.process.poll() is None and len(sent) < 2_000:
        batch = [editor.next() for _ in range(1 if one_by_one else 50)]
        sent += batch
        running.send([request for request, _ in batch])
        if one_by_one:
            running.wait_for(len(sent))
    return sent


def try_stop(program, path, chance, number, before):
    """Makes one run and stops it. `before` has the journal's lines before it, and what comes after
    them. Returns the same after the run, and how many replies were given."""
    known, rest = before
    editor = editor_after(chance.random(), known[1:])
    running = Run(program, path)
    timer = threading.Timer(chance.uniform(0.003, 0.12), running.process.kill)
    timer.start()
    sent = sent_until_stopped(running, editor, number % 2 == 0)
    timer.cancel()
    running.process.kill()
    replies, errors = running.stopped()
    accepted = [compact(request) for request, is_taken in sent if is_taken]
    reported = sum(is_taken for (_, is_taken) in sent[:len(replies)])
    for (request, is_taken), reply in zip(sent, replies):
        check(f"stop {number}: {compact(request)} is answered {reply}", is_taken == ("ok" in reply))
    check(f"stop {number}: {errors!r} is shown", errors == "" or rest and errors == cut_line(known))
    check(f"stop {number}: {rest!r} is not reported", errors != "" or not rest or not replies)
    lines = check_after(program, path, number, before, accepted, reported)
    return cut_anywhere(path, chance, lines), len(replies)


def check_after(program, path, number, before, accepted, reported):
    """The lines that the file holds after a stop, compared with what it held before and what was
    reported. A run that is stopped early has not cut off what was not finished before it."""
    known = before[0]
    if not os.path.exists(path):
        check(f"stop {number}: {reported} were reported, and there is no file", reported == 0)
        return known
    lines, rest = journal_lines(path)
    more = len(lines) - max(len(known), min(len(lines), 1))
    check(f"stop {number}: {reported} reported, {more} held",
          reported <= more <= len(accepted) or not lines)
    expected = (known or [HEAD]) + accepted
    check(f"stop {number}: other lines", lines == expected[:len(lines)])
    check(f"stop {number}: {rest!r} is not a prefix of the next line",
          is_front(rest, expected, lines) or (lines, rest) == before)
    check(f"stop {number}: its lines are not loaded", not lines or is_loaded(program, path, lines))
    return lines


def cut_anywhere(path, chance, lines):
    """Every other file is cut off somewhere after its last edition, as a machine may leave it that
    stopped before the remaining bytes were on the disk. Returns the lines that count then, and what
    must be cut off after them."""
    if len(lines) > 1 and chance.random() < 0.5:
        last = max((n for n, line in enumerate(lines) if line == PUBLISH), default=0)
        synced = sum(len(line) + 1 for line in lines[:last + 1])
        os.truncate(path, chance.randint(synced, os.path.getsize(path)))
    return journal_lines(path) if os.path.exists(path) else (lines, "")


def is_front(rest, expected, lines):
    return not rest or len(lines) < len(expected) and expected[len(lines)].startswith(rest)


def cut_line(known):
    return f"oldstyle: journal line {len(known) + 1} was unfinished, and is cut off\n"


def is_loaded(program, path, lines):
    """Checks that the lines are loaded, with their last edition and as many pending edits."""
    copy = path + ".copy"
    with open(copy, "w", encoding="utf-8") as file:
        file.write("".join(line + "\n" for line in lines))
    requests = ['{"op":"lands","reader":1}', compact(land(999_999))]
    done = run(program, ["serve", "--journal", copy], requests)
    answer, staged = lines_of(done.stdout)
    towns = [json.loads(line) for line in published(lines)]
    expected = [{"code": town["code"], "name": town["name"]} for town in towns
                if town["op"] == "add_land"]
    pending = next((n for n, line in enumerate(reversed(lines)) if line in (PUBLISH, HEAD)), 0)
    return (answer["edition"] == lines.count(PUBLISH) and answer["answer"]["lands"] == expected
            and staged == {"ok": "staged", "pending": pending + 1})


def published(lines):
    """The edits of the lines up to the last publish."""
    last = max((n for n, line in enumerate(lines) if line == PUBLISH), default=0)
    return [line for line in lines[1:last] if line != PUBLISH]


def try_stops(options, path):
    """Makes stops, one after the other, over one file; a new one once it holds many editions."""
    before, reported, cut, files = ([], ""), 0, 0, 1
    for number in range(options.count):
        if before[0].count(PUBLISH) > 4_000 or len(before[0]) > 16_000:
            os.remove(path)
            before, files = ([], ""), files + 1
        chance = random.Random(options.seed * 1_000_003 + number)
        before, replies = try_stop(options.program, path, chance, number, before)
        reported, cut = reported + replies, cut + (before[1] != "")
    print(f"{options.count} stops over {files} files: {reported} replies given; {cut} times a line "
          "was not finished", flush=True)


# ---- others at the same time


def read_beside(program, path, running, counts):
    """Reads the file while it is kept, until the run has ended."""
    while running.process.poll() is None:
        before = sum(reply.get("ok") == "published" for reply in running.replies)
        done = run(program, ["territory", path])
        match = re.match(r"Territories, edition (\d+)\n", done.stdout)
        if match:
            counts["read"] += 1
            check(f"edition {match[1]} is read after {before} was reported",
                  int(match[1]) >= before)
        else:
            counts["refused"] += 1
            check(f"a reader prints {done.stderr!r}", re.fullmatch(
                r"oldstyle: journal line \d+: 32 NotJson\nhelp: .*\n", done.stderr))


def try_others(program, path, seed):
    """A second editor, and readers, while a journal is kept."""
    running, editor, counts = Run(program, path), Editor(seed), {"read": 0, "refused": 0}
    running.send([land(0), {"op": "publish"}])
    running.wait_for(2)
    second = run(program, ["serve", "--keep", path], ["{}"])
    check(f"a second editor prints {second}",
          (second.returncode, second.stdout, second.stderr) == LOCKED)
    editor.towns = 1
    beside = (program, path, running, counts)
    readers = [threading.Thread(target=read_beside, args=beside) for _ in range(3)]
    for reader in readers:
        reader.start()
    for _ in range(2_000):
        running.send([editor.next()[0]])
    running.wait_for(2_002)
    running.process.stdin.close()
    for reader in readers:
        reader.join()
    running.process.wait()
    running.reader.join()
    print(f"during 2,000 changes: {counts['read']} readers read whole lines, {counts['refused']} "
          "were refused for one that was being written; a second editor was refused", flush=True)


# ---- what takes no more


@contextmanager
def disk_in(folder, name, options):
    """A disk in memory in a folder of that name, or None if it may not be mounted."""
    path = os.path.join(folder, name)
    os.mkdir(path)
    with mounted(path, options) as disk:
        yield disk


def edits_of(count):
    requests = []
    for number in range(count):
        requests += [land(number), {"op": "publish"}]
    return requests


def is_stopped_by(program, what, path, limit=None):
    """Checks that a run ends by a write fault when the file takes no more, and kept its reports."""
    text = "".join(compact(request) + "\n" for request in edits_of(400))
    done = subprocess.run([program, "serve", "--keep", path], input=text, capture_output=True,
                          text=True, timeout=60, check=False, preexec_fn=limit)
    replies = lines_of(done.stdout)
    lines, rest = journal_lines(path)
    expected = [HEAD] + [compact(request) for request in edits_of(400)]
    check(f"{what}: {done.returncode} {done.stderr!r}",
          done.returncode == 3 and done.stderr.startswith("oldstyle: write fault\nnote: "))
    check(f"{what}: {len(replies)} reported, {len(lines) - 1} held",
          len(replies) <= len(lines) - 1 <= len(replies) + 1)
    check(f"{what}: other lines",
          lines == expected[:len(lines)] and is_front(rest, expected, lines))
    return lines


def goes_on(program, what, path, lines):
    """Checks that the next run continues from these lines."""
    editions = lines.count(PUBLISH)
    done = run(program, ["serve", "--keep", path], ['{"op":"lands","reader":1}'])
    check(f"{what}: the next run prints {done.stderr!r}",
          done.returncode == 0 and json.loads(done.stdout)["edition"] == editions)
    with open(path, encoding="utf-8") as file:
        content = file.read()
    check(f"{what}: the next run holds other lines",
          content == "".join(line + "\n" for line in lines))


def try_full_disk(program, folder):
    with disk_in(folder, "disk", "size=32k") as disk:
        if disk is None:
            print("not tried: a full disk, which only root may mount")
            return
        path = os.path.join(disk, "a.journal")
        lines = is_stopped_by(program, "a full disk", path)
        subprocess.run(["mount", "-o", "remount,size=1m", disk], check=True)
        goes_on(program, "a full disk", path, lines)
    print(f"a full disk: {len(lines) - 1} changes kept, and the next run continues", flush=True)


def try_long_file(program, folder):
    path = os.path.join(folder, "long.journal")
    lines = is_stopped_by(program, "a limit on the length of files", path,
                          lambda: limited(10_000))
    goes_on(program, "a limit on the length of files", path, lines)
    print(f"a limit on the length of files: {len(lines) - 1} changes kept, and the next run "
          "continues", flush=True)


def try_no_folder(program, folder):
    """A disk that may be read alone, with a journal on it and without."""
    with disk_in(folder, "read", "size=64k") as disk:
        if disk is None:
            print("not tried: a disk that is read alone, which only root may mount")
            return
        content = HEAD + "\n" + compact(land(0)) + "\n"
        with open(os.path.join(disk, "a.journal"), "w", encoding="utf-8") as file:
            file.write(content)
        subprocess.run(["mount", "-o", "remount,ro", disk], check=True)
        for name in ("a.journal", "b.journal"):
            done = run(program, ["serve", "--keep", os.path.join(disk, name)], [PUBLISH])
            check(f"read alone: {done}", (done.returncode, done.stdout, done.stderr)
                  == (3, "", f"oldstyle: read fault\nnote: {disk}/{name}: read fault\n"))
        check("read alone: other files", os.listdir(disk) == ["a.journal"])
    print("a disk that is read alone: refused, and nothing changed", flush=True)


def main():
    line = CommandLine(__doc__)
    line.add_program()
    line.add_count(200, "stops")
    line.add_seed()
    options = line.read()
    with tempfile.TemporaryDirectory() as folder:
        try_stops(options, os.path.join(folder, "a.journal"))
        try_others(options.program, os.path.join(folder, "others.journal"), options.seed)
        try_full_disk(options.program, folder)
        try_long_file(options.program, folder)
        try_no_folder(options.program, folder)
    return verdict(f"{options.count} stops, and other faults: nothing that was reported is lost")


if __name__ == "__main__":
    end(main)
