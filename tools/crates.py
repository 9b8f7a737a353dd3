"""The crates that crates.txt names, and those of them that the program is made from."""
import os
import re

TOP = os.path.dirname(os.path.dirname(os.path.abspath(__file__)))
PROGRAM = "oldstyle"


def read_crates():
    """The crates of crates.txt, lowest first, each with the crates that it names."""
    below = {}
    with open(os.path.join(TOP, "crates.txt"), encoding="utf-8") as lines:
        for line in lines:
            if match := re.match(r"([a-z]\w*):(.*)", line):
                below[match[1]] = match[2].split()
    return {name: [it for it in names if it in below] for name, names in below.items()}


def crates_of_program():
    """The program's crate and those that it depends on, lowest first: all others are of tests."""
    below = read_crates()
    needed = {PROGRAM}
    for name in reversed(below):
        if name in needed:
            needed.update(below[name])
    return [name for name in below if name in needed]
