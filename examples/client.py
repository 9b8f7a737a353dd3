#!/usr/bin/env python3
"""Prints which day a date means in Great Britain, with the package of clients/python.

Run it from the top of the repository, after `pip install ./clients/python`. The territory is a
sample that claims no history.
"""
from oldstyle import Register

print(Register("examples/samples.journal").read("GB", "11 Feb. 1731/32"))
