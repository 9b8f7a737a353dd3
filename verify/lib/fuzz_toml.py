"""Texts of a register in TOML, changed at random or hostile from the start: a target of fuzz.py.

Each text goes through `plan`, and one that is taken is published into a new journal. `text` of that
journal is a text of the same register: it plans nothing there, and another journal that it is
published into is written as the same text. A run ends with a status that docs/ERRORS.md names,
within a minute, and reports a fault in one line that has no control character, and may have one
of help below it.

What a text says, or its first fault, is by territory_texts.py, if Python's own reader of TOML
reads the text. Readers differ in numbers that 64 bits don't hold, and in how deep they go.
"""
import math
import os
import re
import tomllib

from lib.common import TOP
from lib.keeper import HEAD_4
from lib.mutations import Run, mutated
from lib.territory_texts import TextFault, lands_of, comparable
from lib.text_pages import fault_words

NOTHING = b"nothing to change\n"
CONTROL = re.compile(rb"[\0-\x1f\x7f]")
# A text of a later edition than the journal has is refused, whatever territories it has.
IS_LATER = re.compile(rb"[^\n]*: edition: [1-9]\d* is later than the newest edition of [^\n]*\n"
                      rb"help: [^\n]*\n")
HEAD = f"{HEAD_4}\n".encode()
# How deep both readers go, and the beginning of a text with a key that is deeper: for one with
# thousands of parts Python's reader takes seconds to find that it is a fault, or too deep to read.
DEPTH = 60
DEEP_KEY = re.compile(rb"\[{0,2}a(\.a){%d}" % DEPTH)
LARGE = [100, 1_000, 30_000]
OPENING = b'[GB]\nname = "n"\ncalendar = "julian"\nstyle = "january"\nrule = "julian"\n'


def sample_texts():
    """The texts that documents and examples show, and some of one table each."""
    with open(os.path.join(TOP, "examples", "europe.toml"), "rb") as file:
        europe = file.read()
    with open(os.path.join(TOP, "docs", "TERRITORIES.md"), "rb") as file:
        shown_there = re.findall(rb"```toml\n(.*?)```", file.read(), re.S)
    tables = europe.split(b"\n\n[")
    parts = [b"[" + table.rstrip() + b"\n" for table in tables[1:] if b"[" not in table[:4]]
    inline = (b'GB = { name = "n", calendar = "julian", style = "easter", rule = "julian", changes '
              b'= [ { from = { day = 5 }, style = "january", source = "a" } ], easters = [] }\n')
    return [*shown_there, *parts, *[OPENING + b"\n[" + table for table in tables[1:6]], inline,
            OPENING, OPENING + b"source = 'a bull'\r\nnote = '''\n'''\n", b"", b"# nothing\n"]


SAMPLES = sample_texts()
WORDS = [b"[GB]\n", b"[[GB.changes]]\n", b"[[GB.easters]]\n", b'name = "n"\n', b"source = ",
         b'source = ""\n', b"from = { day = 2 }\n", b"year = 1753\n", b"date = ", b'"""', b"'''",
         b'{ gregorian = "1752-09-14" }', b"1752-09-14", b"1979-05-27T07:32:00Z", b"07:32:00",
         b"0x7f", b"0b1", b"1_000", b"1e400", b"inf", b"-nan", b"9223372036854775808", b"true",
         b"[[", b"]]", b"[]", b"{}", b".", b" = ", b'"\\u0001" = 1\n', b'"\\n"', b"'\x1b[31m'",
         b'"\\ud800"', b'"\\U00110000"', b"\\e", b"# \xe2\x80\xae\n", b'"\\u0000"', b'calendar = "',
         b"changes = [", b"easters = 5\n", b'"a.b"', b"GB.name = 'x'\n", b"\xef\xbb\xbf"]


# ---- hostile texts


def random_bytes(chance):
    return chance.randbytes(chance.choice([1, 10, 100, 3_000]))


def deep(chance):
    """Tables, lists and keys within one another."""
    count = chance.choice([10, 79, 80, 81, 127, *LARGE])
    ended = count if chance.random() < 0.7 else chance.randrange(count)
    return chance.choice([
        b"a = " + b"[" * count + b"]" * ended, b"a = " + b"{a=" * count + b"1" + b"}" * ended,
        b"a" + b".a" * count + b" = 1", b"[a" + b".a" * count + b"]",
        b"[[a" + b".a" * count + b"]]",
        OPENING + b"changes = " + b"[" * count, b"a = " + b"[{a=" * count + b"1" + b"}]" * ended])


def large(chance):
    """Numbers, texts, keys and comments of many bytes, and many tables."""
    count = chance.choice(LARGE)
    return chance.choice([
        b"[GB]\nname = 1" + b"0" * count, b"[GB]\nname = 0x" + b"f" * count,
        b"[GB]\nname = 1." + b"0" * count, OPENING + b"source = '" + b"s" * count + b"'\n",
        b"a" * count + b" = 1", b"# " + b"x" * count, b"\n" * count + OPENING,
        b"".join(b"[T%d]\n" % number for number in range(min(count, 3_000))),
        OPENING + b"[[GB.easters]]\nyear = 1" + b"0" * count + b"\ndate = { day = 5 }\n",
        OPENING + b"".join(b"[[GB.changes]]\nfrom = { day = %d }\n" % (number + 2)
                           for number in range(min(count, 100)))])


def odd_keys(chance):
    """Keys and words with control characters, quotes and bytes that are not text."""
    odd = chance.choice([b"\\n", b"\\u0000", b"\\u001b[2J", b"\\u007f", b"\\u202e", b"\\\"",
                         b"\x1b", b"\xff", b"\xc3", b"\n", b"\\t", b"\xed\xa0\x80", b"\\U0010ffff"])
    return chance.choice([
        b'["A%s"]\nname = 1\n' % odd, b'"%s" = 1\n' % odd, b'[GB]\n"%s" = 1\n' % odd,
        b'[GB]\nname = "%s"\n' % odd, b'[GB]\nname = "n"\ncalendar = "%s"\n' % odd,
        OPENING + b'source = "%s"\n' % odd, OPENING + b'note = "%s"\n' % odd,
        OPENING + b'[[GB.changes]]\nfrom = { "%s" = "1752-09-14" }\n' % odd])


HOSTILE = [random_bytes, deep, large, odd_keys]


def text_drawn(chance):
    if chance.random() < 0.3:
        return chance.choice(HOSTILE)(chance)
    return mutated(chance, SAMPLES, WORDS)


# ---- what a text is known to say


def depth_of(value):
    if not isinstance(value, (dict, list)):
        return 0
    return 1 + max(map(depth_of, value.values() if isinstance(value, dict) else value), default=0)


def has_long_number(value):
    """Returns whether a number has more than 64 bits."""
    if isinstance(value, (dict, list)):
        return any(map(has_long_number, value.values() if isinstance(value, dict) else value))
    if isinstance(value, float):
        return math.isinf(value)
    return isinstance(value, int) and not -(2**63) <= value < 2**63


def known(text):
    """The territories that a text says, or what is reported for its first fault; None for both if
    that isn't known."""
    if DEEP_KEY.match(text):
        return None, None
    try:
        document = text.decode()
        tables = tomllib.loads(document)
        if depth_of(tables) > DEPTH or has_long_number(tables) or document.startswith("\ufeff"):
            return None, None
        return lands_of(document), None
    except TextFault as fault:
        return None, fault_words(fault)
    except (ValueError, RecursionError):
        return None, None


class Program:
    """The program over a folder of its own, and the first thing that is wrong with its runs."""

    def __init__(self, program, folder):
        self.program, self.folder, self.why = program, folder, ""

    def path(self, name):
        return os.path.join(self.folder, name)

    def put(self, name, content):
        with open(self.path(name), "wb") as file:
            file.write(content)

    def is_right(self, what, is_right):
        self.why = self.why or ("" if is_right else what)

    def run(self, *words):
        """A run whose words except the first are files, or None if it went wrong."""
        done = Run([self.program, words[0], *map(self.path, words[1:])])
        self.is_right(f"{words}: {done.why_wrong()}", not done.why_wrong())
        self.is_right(f"{words}: status {done.status}", done.status in (0, 1))
        return None if self.why else done


class Registers(Program):
    """A text each time."""

    about = "texts of a register"

    def round(self, chance):
        text = text_drawn(chance)
        self.why = ""
        self.put("a.toml", text)
        self.put("empty", HEAD)
        lands, fault = known(text)
        planned = self.run("plan", "empty", "a.toml")
        if planned and planned.status:
            self.check_fault(planned, lands, fault)
        elif planned:
            self.is_right(f"it is taken, expected {fault}", fault is None)
            self.check_taken(planned, lands)
        return 1, [(self.why, "plan", text)] if self.why else []

    def check_fault(self, planned, lands, fault):
        """Checks that a text that is refused has its first fault printed, and is not published."""
        stderr = planned.stderr
        is_later = IS_LATER.fullmatch(stderr)
        self.is_right(f"{stderr!r}, and the text is right", lands is None or is_later)
        self.is_right(f"it printed {planned.out!r}", planned.out == b"")
        if fault is not None:
            expected = f"oldstyle: {self.path('a.toml')}: {fault}\n".encode()
            self.is_right(f"printed {stderr!r}, expected {expected!r}", stderr == expected)
        self.is_right(f"printed {stderr!r}, with control characters",
                      is_later or not CONTROL.search(stderr[:-1].replace(b"\nhelp: ", b"", 1)))
        done = self.run("publish", "empty", "a.toml")
        self.is_right(f"publish prints {done and done.stderr!r}, plan {stderr!r}",
                      done and done.stderr == stderr)
        with open(self.path("empty"), "rb") as file:
            self.is_right("a publish that is refused changes the journal", file.read() == HEAD)

    def check_taken(self, planned, lands):
        """A text that is taken is published, and is read back as the same."""
        for name in ("first", "second"):
            self.put(name, HEAD)
        self.is_right(f"plan prints {planned.stderr!r}", planned.stderr == b"")
        self.run("publish", "first", "a.toml")
        first = self.run("text", "first")
        if first is None:
            return
        self.put("b.toml", first.out)
        for journal, text in (("first", "b.toml"), ("first", "a.toml")):
            again = self.run("plan", journal, text)
            self.is_right(f"{text} plans {again and again.out!r}", again and again.out == NOTHING)
        # (the line `edition = 1` goes: an empty journal has no such edition)
        self.put("b.toml", first.out.partition(b"\n")[2])
        self.run("publish", "second", "b.toml")
        second = self.run("text", "second")
        self.is_right("another text of its own text", second and second.out == first.out)
        if lands is not None:
            result = comparable(lands_of(first.out.decode()))
            self.is_right(f"read back as {result}, expected {comparable(lands)}",
                          result == comparable(dict(sorted(lands.items()))))
