#!/usr/bin/env python3
"""Compares the two ways of reading a request line with each other, and with an older program.

A line that is one flat object of few texts and whole numbers is read with no tree of values, any
other one by the tree of its JSON value. Each random line is near the border between them: escapes
in names and texts, members twice, nested, of other types and in any number, numbers with fractions,
exponents and many digits, spaces, bytes that are not text, lines cut off. It is sent twice: as it
is, and with another member that no op has and whose value is a list, which is never read the first
way and asks for the same. Both replies must be the same. A line that is not an object has no second
form. Some lines have about 65,536 bytes, or more: exactly those that have more are too long, in a
journal too.

If an older program is named, which must know the same ops and members, files of the lines are
sent to both, and they must write the same bytes.
"""
import random
import subprocess
import tempfile

from lib.common import CommandLine, end

LINE = CommandLine(__doc__)
LINE.add_program()
LINE.add_older("an older program, which knows the same ops and members")
LINE.add_count(100_000, "lines")
LINE.add_seed()
OPTIONS = LINE.read()
CHANCE = random.Random(OPTIONS.seed)
LINES_A_FILE = 32
LONGEST = 65_536
LENGTHS = [LONGEST - 1, LONGEST, LONGEST + 1, 2 * LONGEST + 1, 200_000]
TOO_LONG = b'{"fault":31,"name":"LineTooLong"}'

OPS = ["add_land", "add_change", "alter_change", "drop_change", "add_exception", "drop_exception",
       "publish", "read", "day", "periods", "exceptions", "changes", "lands", "easter", "figures",
       "feasts", "convert", "written", "fly"]
NAMES = ["op", "reader", "code", "name", "year", "month", "day", "calendar", "style", "rule",
         "date", "weekday", "source", "step", "ask", "journal", "Op", "op ", "", "~", "é",
         "o\\u0070", "\\u006fp", "co\\u0064e", "\\n"]
TEXTS = OPS + ["GB", "RM", "A1B2C3D4", "gb", "TOOLONGCODE", "Great Britain", "julian", "gregorian",
               "swedish", "january", "annunciation", "easter", "pisan", "friday", "n.d.",
               "x" * 64, "x" * 65, "x" * 1_000, "x" * 1_001, "é" * 501, "é", "",
               "G\\u0042", "\\u0047B", "a\\\"b", "\\\\", "\\/",
               "\\ud83d\\ude00", "\\ud83d", "\t", "\\t", "\x7f", "\\x", "\\u00"]
NUMBERS = ["0", "1", "2", "7", "12", "13", "31", "1752", "9999", "10000", "639797", "3652059",
           "3652060", "-1", "-0", "-7", "00", "01", "1.0", "1.5", "1e0", "1E2", "12e-1", "1e400",
           "9223372036854775807", "9223372036854775808", "-9223372036854775808",
           "-9223372036854775809", "18446744073709551615", "18446744073709551616", "9" * 40, "+1",
           ".5", "1.", "0x1", "--1", "1_0"]
OTHERS = ["null", "true", "false", "[]", "{}", "[1]", '{"op":"lands"}', "[[[[]]]]", "nul", "'GB'"]
SPACES = ["", "", "", "", " ", "  ", "\t", "\r", "\u00a0"]

USUAL = {
    "add_land": ["code", "name", "calendar", "style", "rule", "source"],
    "add_change": ["code", "day", "calendar", "style", "rule", "source"],
    "alter_change": ["code", "day", "calendar", "style", "rule", "source"],
    "drop_change": ["code", "day"], "add_exception": ["code", "year", "day", "source"],
    "drop_exception": ["code", "year"], "read": ["reader", "code", "year", "month", "day"],
    "day": ["reader", "code", "day"], "periods": ["reader", "code"],
    "exceptions": ["reader", "code"], "changes": ["reader", "code"], "lands": ["reader"],
    "easter": ["reader", "code", "year"], "feasts": ["reader", "code", "year"],
    "figures": ["reader", "year"],
    "convert": ["reader", "code", "calendar", "year", "month", "day"],
    "written": ["reader", "code", "date", "weekday"],
}
VALUES = {
    "reader": ["1", "8", "9", "0"], "code": ['"GB"', '"RM"'], "name": ['"Rome"'],
    "year": ["1752", "1582", "1"], "month": ["9", "2"], "day": ["3", "29", "639797", "577725"],
    "calendar": ['"julian"', '"gregorian"'], "style": ['"january"', '"annunciation"'],
    "rule": ['"julian"', '"gregorian"'], "date": ['"3 September 1752"', '"March 1731"', '"z"'],
    "weekday": ['"Friday"', '"SUNDAY"', '"Fryday"'],
    "source": ['"24 Geo. II c. 23"', '"a \\"bull\\""', '""', '"\\u00e9"'],
}


def space():
    return CHANCE.choice(SPACES)


def text_of(text):
    return '"' + text + '"'


def any_value():
    kind = CHANCE.random()
    if kind < 0.4:
        return text_of(CHANCE.choice(TEXTS))
    return CHANCE.choice(NUMBERS if kind < 0.85 else OTHERS)


def usual_members():
    """The members of a request that is one, or nearly one."""
    op = CHANCE.choice(list(USUAL))
    members = [("op", text_of(op))]
    members += [(name, CHANCE.choice(VALUES[name])) for name in USUAL[op]]
    CHANCE.shuffle(members)
    return members


def changed(members):
    """The members with one of them changed, added, left out, or put in twice."""
    place, kind = CHANCE.randrange(len(members)), CHANCE.randrange(5)
    name, value = members[place]
    if kind == 0:
        return members[:place] + [(name, any_value())] + members[place + 1 :]
    if kind == 1:
        return members[:place] + [(CHANCE.choice(NAMES), value)] + members[place + 1 :]
    if kind == 2:
        return members[:place] + members[place + 1 :] or members
    if kind == 3:
        return members + [(name, any_value())]
    return members[:place] + [(CHANCE.choice(NAMES), any_value())] + members[place:]


def objects(members, more):
    """The text of an object, and of the same with one more member; each with the same spaces."""
    parts = [f"{space()}{text_of(name)}{space()}:{space()}{value}{space()}"
             for name, value in members]
    before, behind = space(), space()
    return [before + "{" + ",".join(all_parts) + "}" + behind
            for all_parts in (parts, parts + [text_of(more) + ":[]"])]


def broken(line):
    """A line cut off, with a byte more or with one in another's place, or all of it twice."""
    place = CHANCE.randrange(len(line) + 1)
    byte = bytes([CHANCE.choice([0, 9, 34, 44, 58, 92, 123, 125, 128, 192, 255, 48])])
    return CHANCE.choice([line[:place], line[:place] + byte + line[place:],
                          line[:place] + byte + line[place + 1 :], line + line])


def lines():
    """A line, and the same with one more member, if it is an object."""
    members = usual_members()
    for _ in range(CHANCE.choice([0, 0, 1, 1, 2, 3, 9])):
        members = changed(members)
    one, other = (text.encode() for text in objects(members, "~~"))
    kind = CHANCE.random()
    if kind < 0.85:
        return one, other
    if kind < 0.86:
        return one + b" " * (CHANCE.choice(LENGTHS) - len(one)), None
    return broken(one).replace(b"\n", b" "), None


def replies(program, requests):
    """The replies to lines, one after the other; None for each that has none."""
    text = b"\n".join(requests) + b"\n"
    stdout = subprocess.run([program], input=text, capture_output=True, check=True).stdout
    return [*stdout.splitlines(), *[None] * len(requests)][:len(requests)]


def differs_in_journal(number, *lines):
    """Whether a journal is not refused for its line of this number, which is too long."""
    with tempfile.NamedTemporaryFile() as journal:
        journal.write(b"\n".join([*lines, b"x" * (LONGEST + 1)]))
        journal.flush()
        done = subprocess.run([OPTIONS.program, "serve", "--journal", journal.name],
                              stdin=subprocess.DEVNULL, capture_output=True, check=False)
    expected = b"oldstyle: journal line %d: 31 LineTooLong\n" % number
    if done.returncode == 1 and done.stderr.startswith(expected):
        return False
    print(f"a journal with a line that is too long: {done}")
    return True


def main():
    files = 0
    differ = differs_in_journal(1) + differs_in_journal(2, b'{"journal":2}')
    for _ in range(0, OPTIONS.count, LINES_A_FILE):
        pairs = [lines() for _ in range(LINES_A_FILE)]
        ones = [one for one, _ in pairs]
        others = [one if other is None else other for one, other in pairs]
        first, again = replies(OPTIONS.program, ones), replies(OPTIONS.program, others)
        before = replies(OPTIONS.older, ones) if OPTIONS.older else first
        files += 1
        for line, reply, other, old in zip(ones, first, again, before):
            is_wrong = (reply == TOO_LONG) != (len(line) > LONGEST)
            if reply is None or reply != other or reply != old or is_wrong:
                differ += 1
                print(line, reply, other, old, sep="\n    ")
    beside = f", {files} files by both programs" if OPTIONS.older else ""
    print(f"{files * LINES_A_FILE} lines in both forms{beside}: {differ} differ")
    return 1 if differ else 0


if __name__ == "__main__":
    end(main)
