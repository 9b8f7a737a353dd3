#!/usr/bin/env python3
"""Refuses each growth of memory in turn to each command of the program.

A command that is refused a growth says that it lacks memory, or does what it does with ample
memory; and run again in the same folder with memory, it does that. A refused command saves
nothing, and a service has given the replies to whole lines. Each growth is refused in a run of its
own, from the first of the program to its last. A row is written for each command: how many growths
it made, at how many of them it was refused, at how many it did the same as with ample memory, and
how many runs that were made again were right. What a run did otherwise is printed above the rows.

The runs take some two minutes, two at a time. A save that finds no memory to sync the folder, or
for the note on the journal that it replaced, has saved: it counts as refused, and is not made
again. A publish that finds no memory to open the journal says that it can't be opened, and a plan
says so below its edits. A save that finds no memory to keep the file that it would replace ends
with a write fault, and changes nothing. A note that finds no memory is left out. growths.c refuses
the growths, and requires a C compiler: `cc`, or what CC names.
"""
import os
import subprocess
import tempfile
from collections import namedtuple
from concurrent.futures import ThreadPoolExecutor

from lib.command_cases import COMMANDS, NO_MEMORY, PUBLISHING
from lib.command_cases import contents_of, filled, is_refused, is_transcript, text_of
from lib.common import CommandLine, end, need

HERE = os.path.dirname(os.path.abspath(__file__))
COMPILER = os.environ.get("CC", "cc")

AT_ONCE = 2
ROOM = tempfile.TemporaryDirectory()
LIBRARY = os.path.join(ROOM.name, "growths.so")

# ---- runs, of which one growth is refused

NOT_SYNCED = (3, "oldstyle: the journal is saved, but may not be on the disk yet\n")
NOT_OPENED = "it can't be opened for writing and locked, as on a read-only disk or without memory"

Run = namedtuple("Run", "status output errors growths")
Row = namedtuple("Row", "growths same again wrong")


def build_library():
    """Builds the library that refuses one growth."""
    command = [COMPILER, "-O2", "-shared", "-fPIC", "-o", LIBRARY]
    subprocess.run([*command, os.path.join(HERE, "growths.c")], check=True)


def run(command, stdin, refused, folder):
    """A run of a command in a folder, in which the growth of that number is refused, 0 for none.
    The last line on standard error is the number of growths."""
    names = {**os.environ, "LD_PRELOAD": LIBRARY, "REFUSED": str(refused)}
    done = subprocess.run(command, input=stdin, env=names, cwd=folder, capture_output=True,
                          text=True, timeout=60)
    *errors, growths = done.stderr.splitlines(True) or [""]
    if not growths.strip().isdigit():
        return Run(done.returncode, done.stdout, done.stderr, 0)
    return Run(done.returncode, done.stdout, "".join(errors), int(growths))


def each_refused(count, outcome):
    """The row of that many growths, of which each has an outcome: `same`, `again` if it was
    refused and made again, `saved` if the folder was not synced, or what was wrong."""
    with ThreadPoolExecutor(AT_ONCE) as pool:
        outcomes = list(pool.map(outcome, range(1, count + 1)))
    wrong = [f"growth {number}: {outcome}" for number, outcome in enumerate(outcomes, 1)
             if outcome not in ("same", "again", "saved")]
    return Row(count, outcomes.count("same"), outcomes.count("again"), wrong)


# ---- commands of the program


def is_not_kept(words, got):
    """Returns whether a command could not open the journal that it keeps, for lack of memory."""
    command, *paths = words.split() or [""]
    status = {"publish": 3, "plan": 0}.get(command)
    return got[::2] == (status, f"oldstyle: {(paths or [''])[0]}: {NOT_OPENED}\n")


def is_not_backed_up(words, got):
    """Returns whether a save could not keep the file that it would replace, for lack of memory."""
    path = words.partition(" --save ")[2].partition(" ")[0]
    return got[::2] == (3, f"oldstyle: write fault\nnote: {path}: write fault\n")


def without_notes(errors):
    """What was written to standard error, with no note."""
    return "".join(line for line in errors.splitlines(True) if not line.startswith("note: "))


def run_in(command, stdin, refused, folder):
    """Such a run in a folder, whose name its lines on standard error don't have."""
    made = run(command, stdin, refused, folder)
    return made._replace(errors=made.errors.replace(folder, "FOLDER"))


class Command:
    """A command with its input, and what it does with ample memory."""

    def __init__(self, program, words, lines):
        self.program, self.words, self.stdin = program, words, text_of(lines)
        with filled() as folder:
            self.before = contents_of(folder)
            self.ample = self.run(0, folder)
            self.after = contents_of(folder)

    def run(self, refused, folder):
        return run_in([self.program, *self.words.split()], self.stdin, refused, folder)

    def is_whole(self, got):
        """Returns whether the output is that with ample memory."""
        return (is_transcript(self.program, got.output) if self.words.startswith("desk")
                else got.output == self.ample.output)

    def is_right(self, got, folder):
        return (self.is_whole(got) and got[::2] == self.ample[::2]
                and contents_of(folder) == self.after)

    def is_saved(self, got):
        """Returns whether the command says that it has saved, and is not sure or can't say how.
        Then a publish prints nothing."""
        is_publish = self.words.startswith("publish")
        if got[::2] == NOT_SYNCED:
            return not got.output if is_publish else self.is_whole(got)
        return got[::2] == NO_MEMORY and self.is_whole(got) and " --save " in self.words

    def is_noted(self, got):
        """Returns whether only notes differ, below a plan or elsewhere."""
        without = (self.ample.status, without_notes(self.ample.errors))
        is_plan = self.words.startswith("plan") and self.ample.status == 0
        return self.is_whole(got) and (
            got[::2] == without or is_plan and (got[::2] == NO_MEMORY
                                                or is_not_kept(self.words, got)))

    def is_front(self, got):
        """Returns whether the output is that to the first lines of the input."""
        lines = got.output.splitlines(True) if self.stdin else []
        return got.output == "".join(self.ample.output.splitlines(True)[: len(lines)])

    def is_refused(self, got):
        is_publish = self.words.startswith("publish")
        ends = (is_refused(self.words, *got[::2]) or is_publish and is_not_kept(self.words, got)
                or is_not_backed_up(self.words, got))
        return ends and self.is_front(got) or self.is_noted(got)

    def outcome(self, number):
        """What came of a run that was refused a growth, and was made again in its folder."""
        with filled() as folder:
            got = self.run(number, folder)
            if self.is_right(got, folder):
                return "same"
            left = contents_of(folder)
            if left == self.after != self.before and self.is_saved(got):
                return "saved"
            if left == self.before and self.is_refused(got):
                return "again" if self.is_right(self.run(0, folder), folder) else "lost"
            return got


def command_row(program, words, lines):
    """The row of a command."""
    command = Command(program, words, lines)
    return each_refused(command.ample.growths, command.outcome)


def main():
    line = CommandLine(__doc__)
    line.add_program()
    program = line.read().program
    need(COMPILER, "a C compiler, or name one by CC")
    build_library()
    rows = {}
    for words, lines in [*COMMANDS, *PUBLISHING]:
        name = f"`oldstyle {words}`".replace(" `", "`")
        rows[name] = command_row(program, words, lines)
        for wrong in rows[name].wrong:
            print(f"{name}: {wrong}", flush=True)
    print("| Command | Growths | Refused | The same | Right when made again |")
    print("|---|---|---|---|---|")
    for name, (growths, same, again, _) in rows.items():
        print(f"| {name} | {growths} | {growths - same} | {same} | {again} |")
    wrong = [name for name, row in rows.items() if row.wrong or not row.growths]
    growths = sum(row.growths for row in rows.values())
    print(f"{growths} growths refused in {len(rows)} commands, {len(wrong)} commands differ")
    return 1 if wrong else 0


if __name__ == "__main__":
    end(main)
