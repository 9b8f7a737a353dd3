#!/usr/bin/env python3
"""Checks that the Rattle programs compile whose names end in .rattle: the gate doesn't see them.

They are those of bench/. What is committed is cloned, each is added to it, and `rt try` runs it
there without a proof, without arguments and input.
"""
import glob
import os
import subprocess

from lib.checks import check, verdict
from lib.common import TOP, CommandLine, end, need
from clone import add_program, cloned


def main():
    CommandLine(__doc__).parse_args()
    need("rt", "the Rattle kit that KIT names")
    sources = sorted(glob.glob(os.path.join(TOP, "bench", "*.rattle")))
    with cloned() as clone:
        for source in sources:
            tried = subprocess.run(["rt", "try"], cwd=add_program(clone, source), text=True,
                                   stdin=subprocess.DEVNULL, capture_output=True, check=False)
            output = tried.stdout + tried.stderr
            check(f"{os.path.relpath(source, TOP)} compiles", "run=ended" in output,
                  output[-2_000:])
    return verdict(f"{len(sources)} programs outside of the gate compile")


if __name__ == "__main__":
    end(main)
