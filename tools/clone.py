"""A temporary clone of what is committed, for programs and edits that the gate doesn't try."""
import contextlib
import os
import re
import shutil
import subprocess
import sys
import tempfile

HERE = os.path.dirname(os.path.abspath(__file__))
ROOT = os.path.dirname(HERE)


def bring_libraries(clone):
    """Copies the libraries that earlier checks built, used if the sources are the same."""
    for crate in os.listdir(os.path.join(ROOT, "crates")):
        built, into = (os.path.join(top, "crates", crate, "out", "rlib") for top in (ROOT, clone))
        if os.path.isdir(built):
            shutil.copytree(built, into)


@contextlib.contextmanager
def cloned():
    """The folder of a clone with its libraries, which ends with the `with`."""
    with tempfile.TemporaryDirectory(prefix="clone-") as room:
        clone = os.path.join(room, "clone")
        subprocess.run(["git", "clone", "--quiet", ROOT, clone], check=True)
        bring_libraries(clone)
        yield clone


def libraries_of(source):
    """The libraries that a program of one source file names in its first comment."""
    with open(source, encoding="utf-8") as file:
        return " ".join(re.findall(r"^//! Libraries: (.*)$", file.read(), re.M))


def add_program(clone, source):
    """Adds a program of one source file to a clone, and returns the folder of its crate."""
    name = os.path.splitext(os.path.basename(source))[0]
    folder = os.path.join(clone, "crates", name)
    os.makedirs(os.path.join(folder, "src"))
    shutil.copy(source, os.path.join(folder, "src", "main.rt"))
    with open(os.path.join(clone, "crates.txt"), "a", encoding="utf-8") as crates:
        crates.write(f"{name}: {libraries_of(source)}\n")
    return folder


def built_program(folder, words=()):
    """The program of a crate, proved and built, for which it is run with words and no input."""
    print("proving and building what is run", file=sys.stderr)
    command = ["rt", "run", "--", *words]
    built = subprocess.run(command, cwd=folder, stdin=subprocess.DEVNULL, capture_output=True)
    if built.returncode != 0:
        sys.exit(built.stderr.decode())
    return os.path.join(folder, "out", os.path.basename(folder))
