"""The command lines of scripts: options of one form, and mistakes reported in a line or two."""
import argparse
import os
import shlex
import shutil
import subprocess
import sys

from crates import TOP, crates_of_program

BUILT = os.path.join(TOP, "crates", "oldstyle", "out", "oldstyle")
SCRIPT = os.path.basename(sys.argv[0])


class CommandLine(argparse.ArgumentParser):
    """The arguments that a script takes. Its help says what the script's document says."""

    def __init__(self, document):
        super().__init__(description=document.strip(), allow_abbrev=False,
                         formatter_class=argparse.RawDescriptionHelpFormatter)
        self.programs = []

    def error(self, message):
        self.exit(2, f"{SCRIPT}: {message.removeprefix('argument ')}\n{self.format_usage()}"
                     f"{SCRIPT} --help says more\n")

    def add_number(self, name, default, what, least=1):
        """An option that takes a whole number."""
        beside = "" if default is None else f"; {default} by default"
        self.add_argument(name, type=lambda text: whole(text, least), default=default, metavar="N",
                          help=what + beside)

    def add_count(self, default, what):
        self.add_number("--count", default, what)

    def add_seed(self):
        self.add_number("--seed", 1, "what the random choices begin with", 0)

    def add_program(self):
        self.programs.append("program")
        self.add_argument("--program", default=BUILT, metavar="PATH",
                          help="the program; by default this tree's")

    def add_older(self, what, required=False):
        self.programs.append("older")
        self.add_argument("--older", metavar="PATH", required=required, help=what)

    def read(self):
        """The options that were given, with programs that are there."""
        options = self.parse_args()
        self.find_programs(options)
        return options

    def find_programs(self, options):
        """Replaces each program by its absolute path. Reports an old one, and takes it."""
        for name in self.programs:
            if (path := getattr(options, name)) is not None:
                setattr(options, name, self.program_at(name, path))
        if options.program == BUILT and (source := newer_source()):
            print(f"{SCRIPT}: the program is older than {source}: ./oldstyle --prove builds it "
                  "again", file=sys.stderr)

    def program_at(self, name, path):
        """The absolute path of a program. One that is named without a folder is on the PATH."""
        if result := shutil.which(path):
            return os.path.abspath(result)
        if path == BUILT:
            self.error("this tree's program is not built: build it by ./oldstyle --prove, or name "
                       "another by --program PATH")
        return self.error(f"--{name}: {path} is not a program: name one that is built")


def whole(text, least):
    """The number of a text, which must be at least that large."""
    if not (text.isascii() and text.isdigit() and int(text) >= least):
        raise argparse.ArgumentTypeError(f"{text} is not a whole number from {least} on")
    return int(text)


def file_at(path):
    """The path of a file, if one is there."""
    if not os.path.isfile(path):
        raise argparse.ArgumentTypeError(f"{path}: no such file: name one that is there")
    return path


def text_of(path):
    """The text of a file of the repository."""
    with open(os.path.join(TOP, path), encoding="utf-8") as file:
        return file.read()


def newer_source():
    """A source that was changed after this tree's program was built, if there is one."""
    built = os.path.getmtime(BUILT)
    for crate in crates_of_program():
        for folder, _, names in os.walk(os.path.join(TOP, "crates", crate, "src")):
            for path in (os.path.join(folder, name) for name in names if name.endswith(".rt")):
                if os.path.getmtime(path) > built:
                    return os.path.relpath(path)
    return None


# The status of a script that requires what is not there.
MISSING = 3


def need(command, package):
    """Ends the script if a command that it runs is missing."""
    if shutil.which(command) is None:
        print(f"{SCRIPT}: the command {command} is missing: install {package}", file=sys.stderr)
        sys.exit(MISSING)


def python_with(modules):
    """A Python that has modules, this one or the system's, or None."""
    for python in (sys.executable, "/usr/bin/python3"):
        if os.path.exists(python) and not subprocess.run(
                [python, "-c", f"import {modules}"], capture_output=True, check=False).returncode:
            return python
    return None


def need_python(modules, package):
    """A Python that has modules; the script ends if there is none."""
    if (python := python_with(modules)) is None:
        print(f"{SCRIPT}: no Python has {modules}: install {package}", file=sys.stderr)
        sys.exit(MISSING)
    return python


def end(main):
    """Ends the script with the status of its main function. A refusal of the system or of a command
    is reported in a line."""
    try:
        sys.exit(main())
    except KeyboardInterrupt:
        sys.exit(130)
    except subprocess.CalledProcessError as why:
        errors = why.stderr or ""
        errors = errors if isinstance(errors, str) else errors.decode(errors="replace")
        sys.exit(f"{SCRIPT}: {shlex.join(map(str, why.cmd))}: status {why.returncode} {errors}")
    except OSError as why:
        sys.exit(f"{SCRIPT}: {why.filename or 'the system'}: {why.strerror or why}")
