#!/usr/bin/env python3
"""Publishes texts while output, files, the disk or memory fail, and kills the run.

Standard output is full, closed, or a pipe that nobody reads; files are folders, not there, or may
not be written; the disk is full or read-only; the length of files or addresses are limited; and the
run is killed (SIGKILL) at a random moment. Each time the journal must hold what it held, or the
whole edition too, as the status says. After a kill a prefix of it may be left, which is counted. A
text with sources, whose journal of version 2 is saved again as version 4, leaves none: there is the
old journal or the new one. Then every edition that there was can still be read, and once the
condition is over the text is published. Such a disk is one in memory, which only root may mount.
"""
import os
import random
import shutil
import subprocess
import tempfile
import time

from lib.checks import check, verdict
from lib.common import JULIAN, CommandLine, compact, end, mounted, run
from lib.conditions import WRITE_FAULT, closed_pipe, fill, full, limited, short_of_addresses
from lib.keeper import HEAD, HEAD_4, PUBLISH, land
from lib.territory_texts import lands_of
from lib.text_draws import journal_lines

KEYS = "".join(f'{word} = "{value}"\n' for word, value in JULIAN.items())
SOURCE = ', source = "24 Geo. II c. 23"'
# Root has no right beyond its own files then.
WITHOUT = ("setpriv", "--bounding-set=-all")
NOT_PRINTED = (0, "oldstyle: the edition is in the journal, but its report could not be printed\n")


def text_of(count, changes, source):
    """A text of territories with some changes each, which have a source or none."""
    rows = "".join(f'  {{ from = {{ day = {day * 1_000 + 5} }}, style = "{style}"{source} }},\n'
                   for day, style in zip(range(1, changes + 1), ["pisan", "january"] * changes))
    return "".join(f'[P{number}]\nname = "Place {number}"\n{KEYS}changes = [\n{rows}]\n'
                   for number in range(count))


class Trial:
    """A folder with a journal and a text, and what the journal must hold after a publish. If the
    text has sources, the journal is saved again."""

    def __init__(self, program, folder, size, source=""):
        self.program, self.journal = program, os.path.join(folder, "a.journal")
        self.text, self.is_saved_again = os.path.join(folder, "a.toml"), bool(source)
        register_text = text_of(*size, source)
        with open(self.text, "w", encoding="utf-8") as file:
            file.write(register_text)
        lines = "".join(line + "\n" for line in [compact(land(1)), PUBLISH])
        _, *edits = journal_lines(lands_of(register_text))
        edition = "".join(compact(line) + "\n" for line in edits)
        self.before = f"{HEAD}\n{lines}"
        self.after = f"{HEAD_4 if source else HEAD}\n{lines}{edition}"
        self.begin()

    def begin(self):
        with open(self.journal, "w", encoding="utf-8") as file:
            file.write(self.before)

    def contents(self):
        with open(self.journal, encoding="utf-8") as file:
            return file.read()

    def publish(self, journal=None, text=None, before=(), **streams):
        """The status and standard error of a publish in these conditions, by a command before."""
        streams = {"stdout": subprocess.PIPE, "stderr": subprocess.PIPE, **streams}
        done = subprocess.run([*before, self.program, "publish", journal or self.journal,
                               text or self.text], text=True, timeout=60, check=False, **streams)
        return done.returncode, done.stderr

    def not_written(self, cause):
        """How a publish ends if the journal can't be written for this cause."""
        return WRITE_FAULT[0], f"{WRITE_FAULT[1]}note: {self.journal}: {cause}\n"

    def check_whole(self, what, result, expected, is_published):
        """Checks how the run ended, and whether the journal has the edition."""
        check(f"{what} prints {result}", result == expected)
        check(f"{what}: the journal has other lines",
              self.contents() == (self.after if is_published else self.before))
        check(f"{what}: a file is left beside it", not self.unfinished())

    def unfinished(self):
        """The files beside the journal that a save has left."""
        folder = os.path.dirname(self.journal)
        return [os.path.join(folder, name) for name in os.listdir(folder) if "unfinished" in name]

    def check_next(self, what):
        """Publishes the text when nothing is in its way."""
        self.begin()
        self.check_whole(f"after {what}", self.publish(), (0, ""), True)


def try_outputs(trial):
    for what, opened in (("output full", full), ("output a closed pipe", closed_pipe)):
        trial.begin()
        output = opened()
        trial.check_whole(what, trial.publish(stdout=output), NOT_PRINTED, True)
        os.close(output)
    trial.begin()
    result = trial.publish(stdout=None, preexec_fn=lambda: os.close(1))
    trial.check_whole("output closed", result, NOT_PRINTED, True)


def try_files(trial, folder):
    """Folders, and nothing, in the place of the text and of the journal."""
    none = os.path.join(folder, "none")
    inside = os.path.join(none, "journal")
    for what, streams, expected in (
            ("a folder as a text", {"text": folder}, f"oldstyle: {folder}: is a directory\n"),
            ("no text", {"text": none}, f"oldstyle: {none}: no such file\n"),
            ("a folder as a journal", {"journal": folder},
             f"oldstyle: {folder}: it is a folder or a pipe, not a file\n"),
            ("a journal in no folder", {"journal": inside},
             f"oldstyle: {inside}: there is no folder {none}: make it first\n")):
        trial.begin()
        trial.check_whole(what, trial.publish(**streams), (3, expected), False)
    check("a folder was made", not os.path.exists(none))


def try_lengths(trial):
    """A limit on the length of files, anywhere within the edition."""
    first, last = len(trial.before.encode()), len(trial.after.encode())
    for length in range(first, last, max(1, (last - first) // 40)):
        trial.begin()
        result = trial.publish(preexec_fn=lambda: limited(length))
        expected = trial.not_written("write fault")
        trial.check_whole(f"a limit of {length} bytes", result, expected, False)
    trial.check_next("limits")


def try_full_disk(program, folder, source):
    with mounted(folder, "size=128k") as disk:
        if disk is None:
            print("not tried: a full disk, which only root may mount")
            return
        trial, other = Trial(program, disk, (40, 10), source), os.path.join(disk, "other")
        fill(other)
        trial.check_whole("a full disk", trial.publish(),
                          trial.not_written("no space left on the device"), False)
        os.remove(other)
        trial.check_next("a full disk")


def try_rights(trial, folder, without):
    """A journal that may be read alone, and a folder in which none may be made."""
    other = os.path.join(folder, "other.journal")
    for journal, locked, words in ((trial.journal, trial.journal, "publish writes to it"),
                                   (other, folder, "publish creates it in its folder")):
        trial.begin()
        mode = os.stat(locked).st_mode
        os.chmod(locked, mode & 0o555)
        expected = f"oldstyle: {journal}: permission denied: {words}\n"
        result = trial.publish(journal, before=without)
        os.chmod(locked, mode)
        trial.check_whole(f"no right to write {locked}", result, (3, expected), False)
    check("a journal was made without a right", not os.path.exists(other))


def try_read_only_disk(program, folder, source):
    with mounted(folder, "size=1m") as disk:
        if disk is None:
            print("not tried: a read-only disk, which only root may mount")
            return
        trial, other = Trial(program, disk, (4, 4), source), os.path.join(disk, "other.journal")
        subprocess.run(["mount", "-o", "remount,ro", disk], check=True)
        for journal, words in ((trial.journal, "opened for writing"), (other, "created")):
            expected = (f"oldstyle: {journal}: it can't be {words} and locked, "
                        "as on a read-only disk or without memory\n")
            trial.check_whole("a read-only disk", trial.publish(journal), (3, expected), False)
        subprocess.run(["mount", "-o", "remount,rw", disk], check=True)
        trial.check_next("a read-only disk")


def try_addresses(trial):
    """Few addresses: it is published, or memory is refused and nothing changes."""
    trial.begin()
    result = trial.publish(preexec_fn=short_of_addresses)
    is_refused = result == (4, "oldstyle: no memory\n")
    trial.check_whole("6 MB of addresses", result, result if is_refused else (0, ""),
                      not is_refused)
    trial.check_next("few addresses")
    return is_refused


def try_kill(trial, chance, longest):
    """Makes a run and kills it. Returns whether the edition is there, and whether a prefix is."""
    trial.begin()
    words = [trial.program, "publish", trial.journal, trial.text]
    with subprocess.Popen(words, stdout=subprocess.DEVNULL) as running:
        time.sleep(chance.uniform(0, longest))
        running.kill()
    outcome = trial.contents()
    is_whole, is_old = outcome == trial.after, outcome == trial.before
    is_front = outcome.startswith(trial.before) and trial.after.startswith(outcome)
    check("a kill leaves other lines", is_whole or is_old or is_front and not trial.is_saved_again)
    for path in trial.unfinished():
        check("a kill leaves a file beside the journal", trial.is_saved_again)
        os.remove(path)
    done = run(trial.program, ["serve", "--follow", trial.journal],
               [compact({"op": "lands", "reader": 1})])
    check(f"after a kill {done.stdout[:200]!r}",
          f'"edition":{1 + is_whole},' in done.stdout and not done.stderr)
    return is_whole, not is_whole and not is_old


def try_kills(trial, options):
    chance = random.Random(options.seed)
    begun = time.monotonic()
    trial.check_next("nothing")
    longest = 1.2 * (time.monotonic() - begun)
    outcome = [try_kill(trial, chance, longest) for _ in range(options.count)]
    trial.check_next("kills")
    return [sum(column) for column in zip(*outcome)]


def try_all(options, source):
    """Tries each condition for a text with sources or without. Returns what is printed of it."""
    with tempfile.TemporaryDirectory() as folder, tempfile.TemporaryDirectory() as disk:
        trial = Trial(options.program, folder, (5, 4), source)
        try_outputs(trial)
        try_files(trial, folder)
        try_lengths(trial)
        try_full_disk(options.program, disk, source)
        try_read_only_disk(options.program, disk, source)
        if os.geteuid() or shutil.which("setpriv"):
            try_rights(trial, folder, WITHOUT if os.geteuid() == 0 else ())
        else:
            print("not tried: rights, which root has everywhere")
        large = Trial(options.program, folder, (400, 30), source)
        is_refused = try_addresses(large)
        whole, fronts = try_kills(large, options)
    memory = "refused" if is_refused else "enough"
    return f"{whole} are an edition, {fronts} left a prefix of one, 6 MB of addresses were {memory}"


def main():
    line = CommandLine(__doc__)
    line.add_program()
    line.add_count(200, "runs that are killed")
    line.add_seed()
    options = line.read()
    plain, again = try_all(options, ""), try_all(options, SOURCE)
    return verdict(f"{options.count} publishes were killed: {plain}. As many that save the journal "
                   f"again: {again}. Streams, files, limits and a full disk leave the journal "
                   "whole")


if __name__ == "__main__":
    end(main)
