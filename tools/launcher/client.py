#!/usr/bin/env python3
"""Runs the client that this file is named for, from the packages that are installed with it."""
import importlib
import os
import sys

MODULES = {"oldstyle-web": "oldstyle_web.__main__", "oldstyle-tei": "oldstyle.tei",
           "oldstyle-gedcom": "oldstyle.gedcom"}
NAME = os.path.basename(sys.argv[0])
FOLDER = os.path.dirname(os.path.realpath(__file__))

# (what is written there would stay when the packages are removed)
sys.dont_write_bytecode = True
sys.path.insert(0, os.path.join(os.path.dirname(FOLDER), "share", "oldstyle", "python"))
os.environ.setdefault("OLDSTYLE", os.path.join(FOLDER, "oldstyle"))
try:
    main = importlib.import_module(MODULES[NAME]).main
except ModuleNotFoundError as why:
    sys.exit(f"{NAME}: Python has no module {why.name}: install the Debian packages python3-flask "
             "and python3-waitress, or let pip install flask and waitress")
sys.exit(main())
