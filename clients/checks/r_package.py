#!/usr/bin/env python3
"""Builds and checks the package of clients/r as R does, with the program and without it.

`R CMD build` and `R CMD check --no-manual` have to report no error, no warning and no note. With
the program all tests of the package are run; without it they are skipped. R is kept off the
network. It requires R, and the packages jsonlite and testthat of R.
"""
import filecmp
import os
import re
import subprocess
import sys
import tempfile

from shared import MISSING, SAMPLES, TOP, CommandLine, end, need

SOURCE = os.path.join(TOP, "clients", "r")
PACKAGES = "Debian's packages r-base-core, r-cran-jsonlite and r-cran-testthat"
NOWHERE = "http://127.0.0.1:9"


def r_command(words, folder, **variables):
    """A run of R in a folder, and what it printed."""
    names = {"LC_ALL": "C.UTF-8", "http_proxy": NOWHERE, "https_proxy": NOWHERE, **variables}
    return subprocess.run(["R", "CMD", *words], cwd=folder, env={**os.environ, **names}, text=True,
                          stdin=subprocess.DEVNULL, stdout=subprocess.PIPE,
                          stderr=subprocess.STDOUT, check=False)


def tests_of(folder):
    """How many tests of a check failed, warned, were skipped and passed."""
    with open(os.path.join(folder, "oldstyle.Rcheck", "tests", "testthat.Rout"),
              encoding="utf-8") as file:
        match = re.search(r"FAIL (\d+) \| WARN (\d+) \| SKIP (\d+) \| PASS (\d+)", file.read())
    return tuple(map(int, match.groups()))


def checked(folder, name, variables):
    """What is wrong with a check of the package that was built in the folder, and its tests."""
    done = r_command(["check", "--no-manual", "oldstyle_0.1.0.tar.gz"], folder, **variables)
    if "\nStatus: OK\n" not in done.stdout:
        return f"R CMD check {name}: {done.stdout}", None
    return None, tests_of(folder)


def main():
    line = CommandLine(__doc__)
    line.add_program()
    options = line.read()
    need("R", PACKAGES)
    for package in ("jsonlite", "testthat"):
        if subprocess.run(["Rscript", "-e", f"library({package})"], capture_output=True,
                          check=False).returncode:
            print(f"R lacks {package}: install {PACKAGES}", file=sys.stderr)
            return MISSING
    copy = os.path.join(SOURCE, "inst", "extdata", "samples.journal")
    if not filecmp.cmp(copy, SAMPLES, shallow=False):
        sys.exit("inst/extdata/samples.journal is not examples/samples.journal: copy it again")
    with tempfile.TemporaryDirectory() as folder:
        built = r_command(["build", SOURCE], folder)
        if built.returncode or "WARNING" in built.stdout:
            sys.exit(f"R CMD build: {built.stdout}")
        os.mkdir(os.path.join(folder, "bin"))
        os.symlink(options.program, os.path.join(folder, "bin", "oldstyle"))
        on_path = {"PATH": f"{folder}/bin{os.pathsep}{os.environ['PATH']}", "OLDSTYLE": "oldstyle"}
        wrong, ran = checked(folder, "with the program", on_path)
        lacking, left = checked(folder, "without the program", {"OLDSTYLE": "no-such-oldstyle"})
    if wrong or lacking:
        sys.exit(wrong or lacking)
    is_true = not any(ran[:3]) and ran[3] > 0 and not any(left[:2]) and left[2] > 0
    print(f"R CMD build and check: OK with the program, of which {ran[3]} expectations hold and "
          f"{ran[2]} tests are skipped; OK without it, {left[2]} tests are skipped")
    return 0 if is_true else 1


if __name__ == "__main__":
    end(main)
