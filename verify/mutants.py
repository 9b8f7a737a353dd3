#!/usr/bin/env python3
"""Checks that the mutants still apply, or tries those that the gate leaves out, or counts which of
these were not tried.

mutants/README.md says what a mutant is. `check` proves nothing and takes a second. It reports each
mutant, of the gate and of mutants/, whose old text is not exactly once in its file, that does not
say what it breaks, or that repeats another. `untried` counts the mutants of each
mutants/CRATE.edits that were written or changed after the commit in its first line.

`try` clones what is committed, proves each crate, and then checks it with the mutants of
mutants/CRATE.edits: of each function one, as many in one check as there are functions. A mutant
counts as refused if the prover refuses a function that it changes, and not because of one that this
calls; what is left open is tried alone. A mutant that is proved is reported, unless
mutants/survivors.txt gives the reason. If all of a crate went as they should, the first line of its
file gets the commit and the date. With --part K/N only each Nth crate is tried, from the Kth on.
"""
import argparse
import datetime
import glob
import os
import re
import subprocess
import sys
from collections import Counter
from dataclasses import dataclass

HERE = os.path.dirname(os.path.abspath(__file__))
sys.path.append(os.path.join(HERE, "..", "tools"))

from clone import cloned
from command_line import TOP, CommandLine, end, need

DATA = os.path.join(HERE, "mutants")
SAYS = "# "
TRIED = "tried: "
FUNCTION = re.compile(r"^ *(?:pub(?:\([a-z]+\))? )?(?:const )?fn (\w+)", re.M)
NAME_ALONE = re.compile(r"has no field|is not in scope|has no `|was not admitted")
TRIED_AT = re.compile(rf"{TRIED}([0-9a-f]{{7,}})\b")
FAULT = re.compile(r"^.*\berror\[.*", re.M)


@dataclass(frozen=True)
class Mutant:
    """A mutant of a crate, the place that it is written at, and its lines."""

    crate: str
    place: str
    lines: tuple

    @property
    def breaks(self):
        """What it breaks, which is its name in survivors.txt."""
        return f"{self.crate}: {self.lines[0].removeprefix(SAYS)}"


def read(path):
    with open(path, encoding="utf-8") as file:
        return file.read()


def data_file(crate):
    return os.path.join(DATA, f"{crate}.edits")


def blocks_in(text):
    """The blocks of a crate's file, each with the number of its first line."""
    begin, block = 1, []
    for number, line in enumerate([*text.splitlines(), ""], 1):
        if line:
            block.append(line)
            continue
        if block and not block[0].startswith(TRIED):
            yield begin, tuple(block)
        begin, block = number + 1, []


def further(crate):
    """The mutants of a crate that the gate leaves out."""
    path = data_file(crate)
    for begin, block in blocks_in(read(path) if os.path.isfile(path) else ""):
        yield Mutant(crate, f"{os.path.relpath(path, TOP)}:{begin}", block)


def of_the_gate(crate):
    folder = os.path.join(TOP, "crates", crate, "must-fail")
    for path in sorted(glob.glob(os.path.join(glob.escape(folder), "*.edit"))):
        yield Mutant(crate, os.path.relpath(path, TOP), tuple(read(path).splitlines() or [""]))


def survivors():
    """The mutants that may be proved, by what they break."""
    lines = read(os.path.join(DATA, "survivors.txt")).splitlines()
    return {line for line in lines if line and not line.startswith((SAYS, " "))}


def faults(mutant):
    """What keeps a mutant from being applied, if its texts are exchanged one after the other."""
    if not mutant.lines[0].startswith(SAYS):
        yield "its first line does not say what it breaks"
    texts, file, old, is_edit = {}, None, None, False
    for line in mutant.lines[1:]:
        mark, _, rest = line.partition(": ")
        if mark == "file":
            file = os.path.join(TOP, "crates", mutant.crate, rest)
            if not os.path.isfile(file):
                yield f"{mutant.crate} has no file {rest}"
                return
            texts.setdefault(file, read(file))
        elif mark == "old":
            old = rest
        elif line.startswith("new:") and file and old:
            if (times := texts[file].count(old)) != 1:
                yield f"its old text is {times} times in its file: {old}"
            texts[file] = texts[file].replace(old, line.removeprefix("new:").removeprefix(" "))
            is_edit = True
        else:
            yield f"this line is not file, old or new in turn: {line}"
    if not is_edit:
        yield "it has no lines file, old and new"


def check(crates):
    """Reports what can't be applied, and returns whether something can't."""
    count, bad, texts, names = 0, 0, {}, Counter()
    for crate in crates:
        for mutant in (*of_the_gate(crate), *further(crate)):
            result = list(faults(mutant))
            first = texts.setdefault((crate, mutant.lines[1:]), mutant.place)
            if first != mutant.place:
                result.append(f"it repeats {first}")
            for fault in result:
                print(f"{mutant.place}: {fault}")
            names[mutant.breaks] += 1
            count, bad = count + 1, bad + bool(result)
    listed = {name for name in survivors() if name.partition(": ")[0] in crates}
    unclear = sorted(name for name in listed if names[name] != 1)
    for name in unclear:
        print(f"verify/mutants/survivors.txt: {names[name]} mutants are: {name}")
    print(f"{count} mutants, {bad} can't be applied or repeat another")
    return bool(bad or unclear)


def tried_at(crate):
    """The commit at which the mutants of a crate were last tried together, if there is one, and
    those mutants, by their lines."""
    match = TRIED_AT.match(read(data_file(crate)))
    if match is None:
        return None, set()
    shown = subprocess.run(["git", "show", f"{match[1]}:./{os.path.basename(data_file(crate))}"],
                           cwd=DATA, capture_output=True, text=True, check=False)
    return match[1], {block for _, block in blocks_in("" if shown.returncode else shown.stdout)}


def untried(crates):
    """Reports how many mutants of each crate were never tried together with the others, or were
    changed since."""
    count, of_all = 0, 0
    for crate in crates:
        commit, before = tried_at(crate)
        mutants = list(further(crate))
        others = [mutant for mutant in mutants if mutant.lines not in before]
        after = f"written or changed after {commit}" if commit else "in a file that names no commit"
        print(f"{crate}: {len(others)} of {len(mutants)} {after}")
        count, of_all = count + len(others), of_all + len(mutants)
    print(f"{count} of {of_all} mutants were not tried together with the others of their crate")


def functions_of(mutant, folder):
    """The functions that a mutant changes, each by its file and name, without a name outside of
    all functions."""
    touched, file = set(), None
    for line in mutant.lines:
        mark, _, rest = line.partition(": ")
        if mark == "file":
            file = rest
        elif mark == "old":
            before, _, after = read(os.path.join(folder, file)).partition(rest)
            names = FUNCTION.findall(before + (rest + after).partition("\n")[0])
            touched.add((file, names[-1] if names and file.startswith("src/") else None))
    return touched


def batches(mutants, folder):
    """Lists of mutants of which no two change one function, so that one check tries a list."""
    lists = []
    for mutant in mutants:
        touched = functions_of(mutant, folder)
        if any(name is None for _, name in touched):
            lists.append(([mutant], None))
            continue
        for batch, others in lists:
            if others is not None and not others & touched:
                batch.append(mutant)
                others |= touched
                break
        else:
            lists.append(([mutant], touched))
    return [batch for batch, _ in lists]


def edit(mutants, folder):
    """Puts mutants into the files of a crate."""
    for line in (line for mutant in mutants for line in mutant.lines):
        mark, _, rest = line.partition(": ")
        if mark == "file":
            file = os.path.join(folder, rest)
        elif mark == "old":
            old = rest
        elif line.startswith("new:"):
            text = read(file).replace(old, line.removeprefix("new:").removeprefix(" "))
            with open(file, "w", encoding="utf-8") as out:
                out.write(text)


def is_refused(output, mutant, folder):
    """Whether a check refused a function that a mutant changes for itself, not for one that it
    calls, and whether only because a proof names what is no longer there."""
    errors = []
    for file, name in functions_of(mutant, folder):
        module = "::".join(file.removeprefix("src/").removesuffix(".rt").split("/"))
        module = "" if module in ("lib", "main") else module + "::"
        own = re.compile(rf"^fn \w+::{module}(?:\S+::)?{name}(?:::\S+)?: (?!proved|.* it calls )", re.M)
        if name is None or own.search(output):
            proofs = rf"proofs/\S*{'' if name is None else '/' + name + '/'}\S*:\d+: error.*"
            errors.append(re.findall(rf"{proofs}|note: {file}:\d+:\d+: it is not .*", output))
    by_name = any(errors) and all(NAME_ALONE.search(line) for lines in errors for line in lines)
    return bool(errors), by_name


def check_with(mutants, folder):
    """What a check of the crate with these mutants prints, without its colors, and its status."""
    edit(mutants, folder)
    run = subprocess.run(["rt", "check"], cwd=folder, capture_output=True, text=True)
    subprocess.run(["git", "checkout", "--quiet", "."], cwd=folder, check=True)
    return run.stdout + run.stderr, run.returncode


def verdicts_in(clone, crate):
    """The verdict on each mutant of a crate, by its place. The mutants that a check leaves open are
    tried once more without the others, and in two halves if it leaves all of them open."""
    folder = os.path.join(clone, "crates", crate)
    _, status = check_with([], folder)
    waiting = [] if status else batches(further(crate), folder)
    verdicts = {}
    while waiting:
        mutants, left = waiting.pop(), []
        output, status = check_with(mutants, folder)
        is_read = "logic=not-proved" in output
        for mutant in mutants:
            refused, by_name = is_refused(output, mutant, folder) if is_read else (False, False)
            if refused or len(mutants) == 1 and is_read:
                verdicts[mutant.place] = "refused for a name alone" if by_name else "refused"
            elif len(mutants) > 1:
                left.append(mutant)
            elif status == 0:
                verdicts[mutant.place] = "proved"
            else:
                verdicts[mutant.place] = next(iter(FAULT.findall(output)), output[-200:])
        half = len(left) // 2 if len(left) == len(mutants) else 0
        waiting += [part for part in (left[:half], left[half:]) if part]
    return verdicts


def report(crate, verdicts, listed):
    """Prints the results of a crate's mutants. Returns how many there are, and how many of them
    had another verdict than listed."""
    count, for_a_name, bad = Counter(), 0, 0
    for mutant in further(crate):
        verdict = verdicts.get(mutant.place, "its crate is not proved")
        is_listed = mutant.breaks in listed
        if verdict.startswith("refused"):
            came = "refused"
            for_a_name += verdict.endswith("name alone")
            if is_listed:
                print(f"  {mutant.place}: refused now, take it out of survivors.txt")
        elif verdict == "proved":
            came = "proved"
            bad += not is_listed
            print(f"  {mutant.place}: proved, {'as listed' if is_listed else 'NOT LISTED'}")
        else:
            came = "not tried"
            bad += 1
            print(f"  {mutant.place}: not tried: {verdict[:200]}")
        count[came] += 1
    print(f"{crate}: {count['refused']} refused ({for_a_name} of them for a name alone), "
          f"{count['proved']} proved, {count['not tried']} not tried")
    return count.total(), bad


def note_commit(crate, commit):
    """Writes into the first line of a crate's file when it was tried."""
    path = data_file(crate)
    blocks = [block for block in read(path).split("\n\n") if not block.startswith(TRIED)]
    with open(path, "w", encoding="utf-8") as file:
        file.write("\n\n".join([f"{TRIED}{commit}, {datetime.date.today()}", *blocks]))


def tried(crates):
    """Tries the mutants that the gate leaves out, and returns whether one went otherwise."""
    need("rt", "the Rattle kit that KIT names")
    commit = subprocess.run(["git", "rev-parse", "--short", "HEAD"], cwd=TOP, check=True,
                            capture_output=True, text=True).stdout.strip()
    listed, count, failed = survivors(), 0, 0
    with cloned() as clone:
        for crate in crates:
            total, bad = report(crate, verdicts_in(clone, crate), listed)
            count, failed = count + total, failed + bad
            if not bad:
                note_commit(crate, commit)
    print(f"{count} mutants of {len(crates)} crates, {failed} proved unlisted or not tried")
    return failed > 0


def part(text):
    """The numbers K and N of a text K/N, of which K is from 1 to N."""
    match = re.fullmatch(r"([0-9]+)/([0-9]+)", text)
    if not match or not 1 <= int(match[1]) <= int(match[2]):
        raise argparse.ArgumentTypeError(f"{text} is not a part K/N: name one such as 3/7")
    return int(match[1]), int(match[2])


def main():
    line = CommandLine(__doc__)
    line.add_argument("action", choices=["check", "try", "untried"])
    line.add_argument("crates", nargs="*", metavar="CRATE", help="a crate; all by default")
    line.add_argument("--part", type=part, default=(1, 1), metavar="K/N",
                      help="of the crates, each Nth from the Kth on")
    options = line.parse_args()
    data = sorted(os.path.basename(path)[:-6] for path in glob.glob(os.path.join(DATA, "*.edits")))
    gate = {path.split(os.sep)[-2] for path in glob.glob(os.path.join(TOP, "crates/*/must-fail"))}
    known = sorted({*data, *gate}) if options.action == "check" else data
    for crate in options.crates:
        if crate not in known:
            line.error(f"{crate} has no mutants: the crates that have some are {', '.join(known)}")
    first, step = options.part
    crates = (options.crates or known)[first - 1::step]
    actions = {"check": check, "try": tried, "untried": untried}
    return int(actions[options.action](crates) or 0)


if __name__ == "__main__":
    end(main)
