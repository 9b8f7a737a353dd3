#!/usr/bin/env python3
"""Gives the program what comes from outside, changed at random: tables, dates, requests, trees.

Each input is one of the samples with some bytes taken out, put in, doubled or exchanged. The target
says what is tried:

  letters  tables in CSV, through `letters`
  dates    dates as people write them, through `written`, `letters` and `read`
  web      requests to the page in the browser, as bytes and by its addresses
  stamp    trees of sources, whose stamp the script `oldstyle` keeps
  toml     texts of a register, through `plan`, `publish` and `text`

No run may end by a signal, with another status than 0 to 4, or with a fault that isn't reported.
Each line has one reply. If a program that was written independently knows the answer, it must be
that one: reference.py, date_meaning.py, letter_rows.py and territory_texts.py of lib/, and a reader
of CSV. An input that shows a fault is kept in a file, whose name is printed. After 20 of them the
run ends.

All that is tried follows from the seed: the rounds of a long run are those of a short one and more.
"""
import itertools
import multiprocessing
import os
import random
import sys
import tempfile
import time

from lib.common import CommandLine, end

MOST_FAULTS = 20
# A folder in memory, if the system has one: a run that syncs a journal waits for no disk there.
MEMORY = "/dev/shm" if os.access("/dev/shm", os.W_OK) else None


def letters():
    from lib.fuzz_letters import Letters
    return Letters


def dates():
    from lib.fuzz_dates import Dates
    return Dates


def web():
    from lib.fuzz_web import Web
    return Web


def stamp():
    from lib.fuzz_stamp import Stamps
    return Stamps


def toml():
    from lib.fuzz_toml import Registers
    return Registers


# Each returns the class that tries a target: its `round` takes a source of chance, and returns how
# many inputs it tried, and for each that went wrong why, with which words, and the input itself.
# Its `prepare`, if it has one, does once what all processes need.
TARGETS = {function.__name__: function for function in (letters, dates, web, stamp, toml)}


def keep(target, number, found):
    """Reports an input at which something is wrong, and keeps it."""
    why, words, stdin = found
    path = os.path.join(tempfile.gettempdir(), f"fuzz-{target}-{os.getpid()}-{number}")
    with open(path, "wb") as file:
        file.write(stdin)
    print(f"{path}, {words}: {why}"[:2_000], flush=True)


def try_rounds(target, program, seed, rounds, most):
    """Tries these rounds up to a number of inputs; returns how many were tried, of what, and how
    many went wrong."""
    tried = wrong = 0
    with tempfile.TemporaryDirectory(dir=MEMORY) as folder:
        fuzzed = TARGETS[target]()(program, folder)
        try:
            for number in rounds:
                if tried >= most or wrong >= MOST_FAULTS:
                    break
                count, found = fuzzed.round(random.Random(seed * 1_000_003 + number))
                for one in found:
                    keep(target, wrong, (f"round {number}: {one[0]}", *one[1:]))
                    wrong += 1
                tried += count
        finally:
            getattr(fuzzed, "close", lambda: None)()
    return tried, fuzzed.about, wrong


def main():
    line = CommandLine(__doc__)
    line.add_argument("target", choices=list(TARGETS), help="what is tried")
    line.add_program()
    line.add_count(2_000, "inputs, or some more")
    line.add_seed()
    line.add_number("--first", 0, "the first round that is tried", 0)
    line.add_number("--processes", 1, "how many work in parallel, and take the rounds in turn")
    options = line.read()
    began, step = time.monotonic(), options.processes
    shares = [(options.target, options.program, options.seed,
               itertools.count(options.first + number, step), -(-options.count // step))
              for number in range(step)]
    try:
        fuzzed = TARGETS[options.target]()
    except ImportError as why:
        sys.exit(f"fuzz.py: {options.target} can't be tried yet: {why.name} is missing")
    getattr(fuzzed, "prepare", lambda: None)()
    with multiprocessing.get_context("fork").Pool(step) as pool:
        done = pool.starmap(try_rounds, shares)
    tried, wrong = sum(one[0] for one in done), sum(one[2] for one in done)
    rate = tried / (time.monotonic() - began)
    print(f"{tried} {done[0][1]}, {rate:.0f} a second: {wrong} went wrong")
    return 1 if wrong else 0


if __name__ == "__main__":
    end(main)
