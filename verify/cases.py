#!/usr/bin/env python3
"""Runs the cases of the program over folders of the system, in place of folders in memory.

The cases are those of crates/osn_cases/data and of system.cases here, or the files that are named;
README.md beside that folder has their form. The gate runs the first by the code of the program over
a folder in memory, which proves nothing about its main function, its files and the streams of the
system. A command that names a path in `private/`, `broken/` or `full/`, or `a.folder/`, is left
out: only the memory has them. No variable of the environment names a journal, except as a case
says. On a terminal the title of a page is in bold letters. Prints each stream and each status that
is not as its case says.
"""
import glob
import os
import pty
import re
import subprocess
import tempfile
from concurrent.futures import ThreadPoolExecutor
from dataclasses import dataclass, field
from itertools import dropwhile, takewhile, zip_longest

from lib.checks import check, verdict
from lib.common import TOP, CommandLine, end, file_at, run_at_terminal

FILES = os.path.join(TOP, "crates", "osn_cases", "data", "*.cases")
OF_SYSTEM = os.path.join(TOP, "verify", "system.cases")
LETTERS = {b"t": b"\t", b"r": b"\r", b"n": b"\n", b"0": b"\0", b"e": b"\x1b", b"\\": b"\\"}
ESCAPE = re.compile(rb"\\(?:x([0-9a-f]{2})|([trn0e\\]))")
WORD = re.compile(rb"""(?:"[^"]*"|'[^']*'|[^ "'])+""")
STATUS = re.compile(rb"\[(\d+)\]")
IN_MEMORY = (b"private/", b"broken/", b"full/", b"a.folder/")
VARIABLE = re.compile(rb"([A-Z_]+)=(.*)")
NAME_JOURNAL = (b"OLDSTYLE_JOURNAL", b"XDG_DATA_HOME", b"HOME")


@dataclass
class Step:
    """A command, the text that is given to it, and what it is expected to leave."""

    line: int
    words: list
    stdin: bytes = b""
    output: bytes = b""
    errors: bytes = b""
    status: int = 0
    blanks: int = 0

    def expect(self, line):
        """Adds a line of what the command is expected to leave."""
        if not line:
            self.blanks += 1
        elif match := STATUS.fullmatch(line):
            self.status, self.blanks = int(match[1]), 0
        elif line == b"!" or line.startswith(b"! "):
            self.errors, self.blanks = self.errors + bytes_of(line[2:]), 0
        else:
            self.output += b"\n" * self.blanks + bytes_of(line)
            self.blanks = 0


@dataclass
class Case:
    """A case, or the head of a file, which has no title."""

    line: int
    title: bytes
    steps: list = field(default_factory=list)


def bytes_of(line):
    """The bytes that a line of a case means."""
    text = line.removesuffix(b" (no-eol)")
    feed = b"\n" if text == line else b""
    if text.endswith(b" (esc)"):
        text = ESCAPE.sub(lambda it: bytes.fromhex(it[1].decode()) if it[1] else LETTERS[it[2]],
                          text.removesuffix(b" (esc)"))
    return text + feed


def words_of(line):
    """The words of a command."""
    return [re.sub(rb""""([^"]*)"|'([^']*)'""", lambda it: it[1] or it[2] or b"", word)
            for word in WORD.findall(bytes_of(line).rstrip())]


def read_cases(text):
    """The head of a file of cases and its cases."""
    parts, closing = [Case(0, b"")], None
    for number, line in enumerate(text.removesuffix(b"\n").split(b"\n"), 1):
        steps = parts[-1].steps
        if closing is not None:
            if line == closing:
                closing = None
            else:
                steps[-1].stdin += bytes_of(line)
        elif line.startswith(b"== "):
            parts.append(Case(number, line[3:]))
        elif line.startswith(b"$ "):
            steps.append(Step(number, words_of(line[2:])))
            closing = steps[-1].words[-1] if b"<<" in steps[-1].words[-2:-1] else None
        elif line == b">" or line.startswith(b"> "):
            steps[-1].stdin += bytes_of(line[2:])
        elif steps and not line.startswith(b"# "):
            steps[-1].expect(line)
    return parts


def variables_of(words):
    """The variables of a command: those of this script that name no journal, and those that it
    sets, which are before its other words."""
    set_there = dict(it.groups() for it in takewhile(bool, map(VARIABLE.fullmatch, words)))
    return {**{name: value for name, value in os.environb.items() if name not in NAME_JOURNAL},
            **set_there}


def left(program, folder, step):
    """What a command leaves in a folder: its output, its text on standard error, its status."""
    words, stdin = list(dropwhile(VARIABLE.fullmatch, step.words)), step.stdin
    ways = {"cwd": folder, "env": variables_of(step.words)}
    if words[-2:-1] in ([b"<<"], [b"<"]):
        if words[-2] == b"<":
            with open(os.path.join(folder, words[-1]), "rb") as file:
                stdin = file.read()
        words = words[:-2]
    match words:
        case [b"oldstyle" | b"./oldstyle" as name, *rest, b"2>", b"/dev/tty"]:
            done, screen = run_at_terminal([name, *rest], executable=program, input=stdin,
                                          timeout=60, **ways)
            return done.stdout, screen, done.returncode
        case [b"oldstyle" | b"./oldstyle" as name, *rest]:
            done = subprocess.run([name, *rest], executable=program, input=stdin, timeout=60,
                                  capture_output=True, check=False, **ways)
            return done.stdout, done.stderr, done.returncode
        case [b"cat", b">", name]:
            os.makedirs(os.path.dirname(os.path.join(folder, name)), exist_ok=True)
            with open(os.path.join(folder, name), "wb") as file:
                file.write(stdin)
            return b"", b"", 0
        case [b"cat", name]:
            with open(os.path.join(folder, name), "rb") as file:
                return file.read(), b"", 0
        case [b"ls"]:
            names = sorted(os.listdir(folder))
            return b"".join(name + b"\n" for name in names), b"", 0
        case [b"chmod" | b"ln" | b"mkdir" | b"readlink" | b"stat", *_]:
            done = subprocess.run(words, cwd=folder, capture_output=True, check=False)
            return done.stdout, done.stderr, done.returncode
    raise ValueError(f"line {step.line} is not a command")


def difference(expected, got):
    """The first line of some bytes that differs from the expected one, and that line."""
    lines = zip_longest(got.splitlines(True), expected.splitlines(True), fillvalue=b"(nothing)")
    return next((f"{is_there!r}, and not {other!r}" for is_there, other in lines
                 if is_there != other), "")


def run_case(program, name, head, case):
    """Runs a case after the head of its file, and returns how many commands it ran."""
    place = f"{name}:{case.line}: {case.title.decode()}"
    count = 0
    with tempfile.TemporaryDirectory() as folder:
        for step in [*head.steps, *case.steps]:
            if any(word.startswith(IN_MEMORY) for word in step.words):
                continue
            count += 1
            output, errors, status = left(program, os.fsencode(folder), step)
            for what, expected, got in (("errors", step.errors, errors),
                                        ("output", step.output, output),
                                        ("status", b"%d" % step.status, b"%d" % status)):
                check(f"{place}: line {step.line}, {what}:", expected == got,
                      difference(expected, got))
    return count


def check_title(program):
    """Checks that a terminal shows the title of a page in bold letters, unless the environment says
    that it doesn't."""
    command = [program, "territory", os.path.join(TOP, "examples", "samples.journal")]
    page = subprocess.run(command, capture_output=True, timeout=60, check=False).stdout
    title, lines = page.split(b"\n", 1)
    bold = b"\x1b[1m" + title + b"\x1b[0m\n" + lines
    for variables, expected in (({"TERM": "xterm"}, bold), ({"TERM": "dumb"}, page),
                                ({"TERM": "xterm", "NO_COLOR": "1"}, page)):
        terminal, output = pty.openpty()
        subprocess.run(command, stdout=output, env=variables, timeout=60, check=False)
        shown = os.read(terminal, 65_536).replace(b"\r\n", b"\n")
        os.close(output)
        os.close(terminal)
        check(f"a page on a terminal with {variables}:", shown == expected,
              difference(expected, shown))


def main():
    line = CommandLine(__doc__)
    line.add_program()
    line.add_argument("files", nargs="*", metavar="FILE", type=file_at,
                      help="a file of cases; by default all of the gate")
    options = line.read()
    cases = commands = 0
    for path in options.files or [*sorted(glob.glob(FILES)), OF_SYSTEM]:
        with open(path, "rb") as file:
            head, *rest = read_cases(file.read())
        with ThreadPoolExecutor(2) as pool:
            commands += sum(pool.map(lambda case: run_case(options.program, os.path.basename(path),
                                                           head, case), rest))
        cases += len(rest)
    check_title(options.program)
    return verdict(f"{cases} cases of {commands} commands hold over folders of the system")


if __name__ == "__main__":
    end(main)
