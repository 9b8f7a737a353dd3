"""A folder with journals and texts of registers, and runs over them, for register_text.py."""
import os

from lib.checks import check
from lib.common import compact, run
from reference import Service, version_of
from lib.text_draws import journal_lines

# A territory, whose code is put in.
LAND = '[{}]\nname = "n"\ncalendar = "julian"\nstyle = "january"\nrule = "julian"\n'


class Files:
    """A folder with journals and texts, and the program that works on them."""

    def __init__(self, program, folder):
        self.program, self.folder, self.runs = program, folder, 0

    def path(self, name):
        return os.path.join(self.folder, name)

    def write(self, name, text):
        with open(self.path(name), "w", encoding="utf-8", newline="") as file:
            file.write(text)
        return self.path(name)

    def journal(self, name, lands, version=None):
        lines = journal_lines(lands, version)
        return self.write(name, "".join(compact(line) + "\n" for line in lines))

    def run(self, *words, lines=()):
        self.runs += 1
        return run(self.program, words, lines)

    def printed(self, what, *words, stderr=""):
        """What a run prints on standard output, if its standard error is as given."""
        done = self.run(*words)
        check(f"{what}: {words[0]} ends {done.returncode} {done.stderr!r}",
              (done.returncode, done.stderr) == (0, stderr))
        return done.stdout


def bytes_of(path):
    with open(path, "rb") as file:
        return file.read()


def lines_of(content):
    """The lines of these bytes; names may hold other ends of lines than the line feed."""
    return content.decode().split("\n")[:-1]


def published(path):
    """The service that has run the lines of a journal, and those after the head."""
    head, *lines = lines_of(bytes_of(path))
    service = Service(version=version_of(head))
    faults = [line for line in lines if '"fault"' in service.reply(line.encode())]
    check(f"{path}: these lines are refused: {faults}", not faults)
    return service, lines


def refused(files, what, path, text, expected, journal):
    """A text is refused by `plan` and by `publish`, and nothing changes."""
    before = bytes_of(journal)
    for command in ("plan", "publish"):
        done = files.run(command, journal, text)
        result = done.returncode, done.stdout, done.stderr
        check(f"{what}: {command} gives {result}\n  and not {expected!r}",
              result == (1, "", f"oldstyle: {path}: {expected}\n"))
    check(f"{what}: the journal has changed", bytes_of(journal) == before)
