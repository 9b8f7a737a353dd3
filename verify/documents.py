#!/usr/bin/env python3
"""Compares what documents show with the program.

A session is the lines of one document that begin with '> ', its requests, and with '< ', its
replies. A run is a line that begins with '$ ./oldstyle ', in a folder that has all that is at the
top of the repository, and what earlier runs of the document made. It may end with '< FILE', its
input. What it prints, on standard output and then on standard error, are the lines after it, up to
the next run or the end of the block. They may also have the marks of the cases, '! ' and '[N]', and
then the status counts. After '$ cat > FILE << END', as in the cases, the lines up to END make a
file. Prints each reply and each run that differs.

Compares the completions too: those of each shell have the commands and options of the help. Each
text in the tables of docs/ERRORS.md must be printed by a case, or tried by a file in TRIED.
"""
import glob
import itertools
import os
import re
import shlex
import tempfile

from lib.common import TOP, CommandLine, end, file_at, run, text_of

RUN, FILE = "$ ./oldstyle ", "$ cat > "
HELP = "crates/osn_cases/data/help.cases"
SHELLS = "bash", "zsh", "fish"
ERRORS = "docs/ERRORS.md"
MARKED = re.compile(r"! |\[\d+\]$")
# Parts of the texts in its tables that no case prints, and the files of verify/ that try them.
TRIED = {
    "MiB of the transcript read": "audits.py", "no memory": "lib/command_cases.py",
    "of the letters read": "letters.py", "a record of more than": "letters.py",
    "may not be on the disk yet": "growths.py", "can't be opened for writing": "growths.py",
    "publish writes to it": "hard_publishes.py", "could not be printed": "hard_publishes.py",
    "nobody reads it any more": "hard_conditions.py", "the journal is in": "system_calls.py",
    "no space left on the device": "hard_conditions.py", "got shorter": "lib/keeper.py",
    "run of the program keeps": "lib/keeper.py", "no more is kept": "lib/keeper.py",
    "followed was replaced or removed": "lib/keeper.py",
}


def marked(lines, mark):
    return [line[len(mark) :] for line in lines if line.startswith(mark)]


def runs(lines, mark=RUN):
    """The words after each mark, and the lines that follow."""
    for place, line in enumerate(lines):
        if line.startswith(mark):
            ends = lambda one: not one.startswith((RUN, FILE, "```"))
            following = itertools.takewhile(ends, lines[place + 1 :])
            yield shlex.split(line[len(mark) :]), list(following)


def folder_of(lines, folder):
    """Makes a folder that has what is at the top, and the files that a document shows."""
    for name in os.listdir(TOP):
        os.symlink(os.path.join(TOP, name), os.path.join(folder, name))
    for (path, _, closing), text in runs(lines, FILE):
        with open(os.path.join(folder, path), "w", encoding="utf-8") as file:
            for line in itertools.takewhile(closing.__ne__, text):
                file.write(line + "\n")


def ended_run(program, words, folder):
    """A run that ended, with the input of the file that it names after '<'."""
    stdin = []
    if "<" in words:
        words, (_, path) = words[:-2], words[-2:]
        with open(os.path.join(folder, path), encoding="utf-8", newline="\n") as file:
            stdin = file.read().split("\n")[:-1]
    return run(program, words, lines=stdin, folder=folder)


def lines_of(ended, is_marked):
    """The lines that a run printed, with the marks of cases or without."""
    output, errors = ended.stdout.split("\n")[:-1], ended.stderr.split("\n")[:-1]
    if not is_marked:
        return output + errors
    status = [f"[{ended.returncode}]"] if ended.returncode else []
    return [*(f"! {line}" for line in errors), *output, *status]


def in_order(lines):
    """The lines with the marks of cases, those of standard error first, wherever they are."""
    return sorted(lines, key=lambda line: not line.startswith("! "))


def differences(program, lines):
    """Each request and run of a document that has another answer than it shows."""
    requests, expected_replies = marked(lines, "> "), marked(lines, "< ")
    replies = run(program, lines=requests).stdout.split("\n")[:-1]
    for request, expected, reply in itertools.zip_longest(requests, expected_replies, replies):
        if expected != reply:
            yield f"{request}\n  shown {expected}\n  given  {reply}"
    with tempfile.TemporaryDirectory() as folder:
        folder_of(lines, folder)
        for words, expected in runs(lines):
            is_marked = any(MARKED.match(line) for line in expected)
            printed = lines_of(ended_run(program, words, folder), is_marked)
            if (in_order(expected) if is_marked else expected) != printed:
                yield f"{shlex.join(words)}\n  shown {expected}\n  given  {printed}"


def names_in_help():
    """The commands and the options in the help, without their hyphens."""
    for page in text_of(HELP).split("\n== ")[1:]:
        yield from re.findall(r"^Usage: oldstyle ([a-z]+)", page, flags=re.M)
        yield from re.findall(r"^ +(?:-[a-zA-Z], )?--([a-z-]+)", page, flags=re.M)


def differences_of_completions(program):
    """The commands and options of the help that the completions of a shell lack."""
    helped = set(names_in_help())
    for shell in SHELLS:
        done = run(program, ["completions", shell])
        lacking = helped - {*re.findall("[a-z]+(?:-[a-z]+)*", done.stdout)}
        if lacking or done.returncode or done.stderr:
            yield f"completions {shell}: {done.stderr}\n  lacking {sorted(lacking)}"


def is_in(text, printed):
    """Whether a text of a table is printed: `<..>`, `..` and numbers may be any text or number."""
    parts = re.split(r"<[^>]+>|\.\.+", text)
    return re.search(".*".join(re.sub(r"\d+", r"\\d+", re.escape(part)) for part in parts), printed)


def is_tried(text):
    """Whether a text has a part that is in TRIED, and in the file that tries it."""
    return any(part in text and part in re.sub(r'"\s*f?"', "", text_of(f"verify/{file}"))
               for part, file in TRIED.items())


def untried_errors():
    """Each text in the tables of ERRORS.md that no case prints and no file of TRIED tries."""
    cases = [*glob.glob(f"{TOP}/{os.path.dirname(HELP)}/*.cases"), "verify/system.cases"]
    printed = "\n".join(line for path in cases for line in marked(text_of(path).split("\n"), "! "))
    for number, line in enumerate(text_of(ERRORS).split("\n"), 1):
        for text in re.findall("`([^`]+)`", line.split(" | ")[0]) if line.startswith("| `") else ():
            if not is_in(text, printed) and not is_tried(text):
                yield f"{ERRORS}:{number}: nothing prints {text}"


def main():
    line = CommandLine(__doc__)
    line.add_argument("files", nargs="+", type=file_at, metavar="FILE", help="a document")
    line.add_program()
    options = line.read()
    requests = all_runs = differ = 0
    for difference in [*differences_of_completions(options.program), *untried_errors()]:
        differ += 1
        print(difference)
    for path in options.files:
        with open(path, encoding="utf-8", newline="\n") as file:
            lines = file.read().split("\n")
        for difference in differences(options.program, lines):
            differ += 1
            print(f"{path}: {difference}")
        requests += len(marked(lines, "> "))
        all_runs += len(list(runs(lines)))
    print(f"{requests} requests and {all_runs} runs of {', '.join(options.files)}, and the "
          f"completions and the errors: {differ} differ")
    return 1 if differ else 0


if __name__ == "__main__":
    end(main)
