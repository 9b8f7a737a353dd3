#!/usr/bin/env python3
"""Checks the clients of clients/ against the program.

The Python package is installed into an environment of its own without a network, and the examples
of its README are run as they are there. Its readings are compared with the program's own replies
and with days that are computed here. Faults are provoked, each with its exception. The two
commands fill in the samples of clients/samples, and the results are compared with files that were
written by hand. R, Gramps, pandas and xmllint are tried if they are installed; --schema names
TEI's schema in RELAX NG for xmllint. Prints what fails.
"""
import contextlib
import datetime
import itertools
import json
import math
import os
import random
import signal
import subprocess
import sys
import tempfile
import threading
import time

from shared import SAMPLES, TOP, CommandLine, compact, end, file_at, run

sys.path.append(os.path.join(TOP, "clients", "python", "src"))

import client_files
import client_tools
import oldstyle

ORDINAL_TO_JDN = 1_721_425
# What a date means in the samples, computed by hand. The Julian calendar was ten days after the
# Gregorian one from 1582 to February 1700, eleven in the 18th century, thirteen in the 20th. Great
# Britain counted its years from 25 March until 1751. Python's own dates give the weekdays.
WORKED = [
    ("GB", "11 Feb. 1731/32", "1732-02-22", "1732-02-22"),
    ("GB", "24 March 1699", "1700-04-04", "1700-04-04"),
    ("GB", "3-10 May 1640", "1640-05-13", "1640-05-20"),
    ("GB", "[1640?]", "1640-04-04", "1641-04-03"),
    ("GB", "March 1731", "1731-04-05", "1732-04-04"),
    ("GB", "before 25 March 1640", None, "1640-04-03"),
    ("GB", "after 25 March 1640", "1640-04-05", None),
    ("GB", "5 September 1752", None, None),
    ("GB", "n.d.", None, None),
    ("SE", "30 February 1712", "1712-03-11", "1712-03-11"),
    ("RU", "25 October 1917", "1917-11-07", "1917-11-07"),
    ("GB", "c. mai 1640", "1640-05-11", "1640-06-10"),
]


def rows_drawn(chance, count):
    """Rows of dates in several forms, one in ten of them with a weekday."""
    months = "January Feb. mars April Mai June 7bris October Nov. d\u00e9cembre".split()
    for _ in range(count):
        day, year = chance.randint(1, 31), chance.randint(1500, 1950)
        text = chance.choice([f"{day} {chance.choice(months)} {year}", f"{year}", "n.d.",
                              f"{chance.choice(months)} {year}", f"before {year}", f"{year}?",
                              f"{day} Feb. {year}/{(year + 1) % 100:02}", 'no "date" \\ at\nall'])
        weekday = chance.choice([None] * 9 + ["Friday"])
        yield chance.choice(["GB", "SE", "RU", "RM"]), text, weekday


PLAIN = ("approximate", "ends_in_next_year", "kind", "named_calendar", "named_weekday",
         "not_counted_double", "other_calendar", "reason", "supplied", "three_digits", "uncertain")


def request(row):
    query = {"op": "written", "reader": 1, "code": row[0], "date": row[1]}
    return compact({**query, "weekday": row[2]} if row[2] else query)


def reply_of(reading):
    """The reply that a reading was made of."""
    answer = {name: getattr(reading, name) for name in PLAIN}
    runs, year = ([{"first": vars(run.first), "last": vars(run.last)} for run in result]
                  for result in (reading.runs, reading.year))
    lists = {"nearest": list(map(vars, reading.nearest)), "read_as": list(reading.read_as),
             "runs": runs, "skipped": list(reading.skipped), "year": year}
    return {"answer": {**answer, **lists, "weekday": reading.weekday_fits},
            "edition": reading.edition, "reader": 1}


def is_day_right(day):
    """Returns whether the members of a day agree, by Python's own count of Gregorian days."""
    date = day.date
    return (date.toordinal() == day.day == day.jdn - ORDINAL_TO_JDN
            and date.strftime("%A") == day.weekday and date.isoformat() == day.gregorian)


def worked(register):
    """Dates that were computed by hand."""
    for code, text, first, last in WORKED:
        reading = register.read(code, text)
        result = [day and day.gregorian for day in (reading.earliest, reading.latest)]
        yield f"read {text}: {result}", result == [first, last]
        is_one = first == last is not None
        yield f"read {text}: one day: {reading.day}", (reading.day is not None) == is_one
        days = [day for run in reading.runs for day in (run.first, run.last)]
        yield f"read {text}: its days", all(map(is_day_right, days))
    friday = [register.read("GB", "11 Feb. 1731/32", day) for day in ("Friday", "Monday")]
    fits = datetime.date(1732, 2, 22).strftime("%A") == "Friday"
    yield "weekdays", fits and [reading.weekday_fits for reading in friday] == [True, False]
    named = register.read("GB", "11 February 1731 N.S.")
    yield f"by a named calendar as the place wrote it: {named}", named.other_calendar and (
        named.day.dual, named.day.gregorian) == ("31 January 1730/1", "1731-02-11")
    yield "two runs of March 1731", len(register.read("GB", "March 1731").runs) == 2
    yield "territories", [land.code for land in register.lands()] == "RM GB SE RU DE".split()
    periods = register.periods("GB")
    styles = [period.style for period in periods]
    yield "periods", styles == ["annunciation", "january", "january"]
    yield "no sources", [period.source for period in periods] == [None] * 3
    changes = [(change.found.gregorian, change.left_out) for change in register.changes("GB")]
    yield f"changes: {changes}", changes == [("1752-01-12", 0), ("1752-09-14", 11)]


def piped(register, program, options):
    """Compares the replies to many rows with what the program writes for the same lines."""
    rows = list(rows_drawn(random.Random(options.seed), options.count))
    replies = run(program, ["serve", "--journal", SAMPLES], map(request, rows)).stdout.splitlines()
    result = [reply_of(reading) for reading in register.read_many(rows)]
    yield f"{len(rows)} readings", result == list(map(json.loads, replies))
    few = rows[:500]
    one_by_one = [reply_of(reading) for reading in register.read_many(few, ahead=1)]
    yield "rows one by one", one_by_one == result[:500]
    counter = itertools.count()
    endless = (("GB", f"{next(counter) % 300 + 1500}") for _ in itertools.count())
    readings = list(itertools.islice(register.read_many(endless, ahead=50), 120))
    yield "an endless source", len(readings) == 120 and next(counter) <= 120 + 50
    long = [("GB", "x" * 60_000)] * 300
    yield "long lines", [reading.kind for reading in register.read_many(long)] == ["none"] * 300
    mixed = [(reading.date, register.read("GB", "1640").date)
             for reading in register.read_many([("GB", "1650"), ("GB", "1651")])]
    yield "a question meanwhile", mixed == [("1650", "1640"), ("1651", "1640")]
    yield from threaded(register, rows[:1000], result[:1000])


def threaded(register, rows, result):
    """Four threads that ask one register."""
    replies = {}

    def ask(place):
        replies[place] = [reply_of(register.read(*row)) for row in rows[place::4]]

    threads = [threading.Thread(target=ask, args=(place,)) for place in range(4)]
    for thread in threads:
        thread.start()
    for thread in threads:
        thread.join(60)
    yield "four threads", all(replies.get(place) == result[place::4] for place in range(4))


def failing_rows():
    yield "GB", "1640"
    raise LookupError("the source failed")


def raised(call):
    """The exception of a call, or None."""
    try:
        call()
    except Exception as why:
        return why
    return None


def faults(register, program, folder):
    """What is refused, and a program or a journal that fails: the exception and its message."""
    opened = lambda path=SAMPLES, **words: lambda: oldstyle.Register(path, **words)
    written = os.path.join(folder, "wrong.journal")
    with open(written, "w", encoding="utf-8") as file:
        file.write('{"journal":2}\nnothing\n')
    calls = [
        (lambda: register.read("FR", "1640"), "UnknownLand", "FR"),
        (lambda: register.read("gb", "1640"), "BadCode", "capital letters"),
        (lambda: register.read("GB", "x" * 70_000), "LineTooLong", "65536"),
        (lambda: register.read("GB", "\udc80"), "NotJson", "UTF-8"),
        (lambda: register.read("GB", "1640", "Freitag"), "BadField", "(Freitag) in GB: a"),
        (lambda: register.read("GB", None), "TypeError", "not a text"),
        (lambda: register.ask("publish"), "ReadOnly", "only read"),
        (lambda: register.ask("easter", code="GB", year=0), "YearOffRange", "9999"),
        (lambda: register.feasts("GB", 10_000), "YearOffRange", "9999"),
        (lambda: register.ask("fly"), "UnknownOp", "newer"),
        (lambda: list(register.read_many([("GB", "1640")], ahead=0)), "ValueError", "1 or more"),
        (lambda: list(register.read_many([("GB", "1640"), ("FR", "1")])), "UnknownLand", "FR"),
        (opened(os.path.join(folder, "none.journal"), program=program), "JournalRefused",
         "No such file"),
        (opened(os.path.join(folder, "none.journal"), program=program, follow=True),
         "JournalRefused", "No such file"),
        (opened(folder, program=program), "JournalRefused", "directory"),
        (opened(written, program=program), "JournalRefused", "line 2"),
        (opened(program="no-such-oldstyle"), "ProgramMissing", "OLDSTYLE"),
        (opened(program=written), "ProgramMissing", "OLDSTYLE"),
        (opened(program="cat"), "ProgramEnded", "status 1"),
        (opened(program="true"), "ProgramEnded", "before"),
    ]
    for place, (call, name, reason) in enumerate(calls):
        why = raised(call)
        yield f"fault {place}: {why!r}", type(why).__name__ == name and reason in str(why)
        is_alone = why.__context__ is None or why.__suppress_context__
        yield f"fault {place} has one cause", is_alone
        yield f"fault {place} can be shown", len(str(why)) < 900 and str(why).encode() != b""
    results = list(register.read_many([("FR", "1"), ("GB", "1640")], refused=True))
    kinds = [type(row).__name__ for row in results]
    yield "a fault in its place", kinds == ["UnknownLand", "Reading"]
    rows = register.read_many(failing_rows())
    yield "a source that fails", next(rows).date == "1640" and isinstance(
        raised(lambda: next(rows)), LookupError)
    yield from ended(program)
    yield from followed(program, os.path.join(folder, "followed.journal"))


def cited(program, journal):
    """A period, a change and a listed Easter with a source, and those without."""
    regime = {"code": "GB", "calendar": "julian", "rule": "julian"}
    opening = {"op": "add_land", "name": "n", "style": "annunciation", **regime}
    change = {"op": "add_change", "day": 639551, "style": "january", **regime, "source": "an act"}
    easter = {"op": "add_exception", "code": "GB", "year": 1724, "day": 629419}
    cited = {**easter, "year": 1744, "day": 636713, "source": "a table"}
    lines = [{"journal": 4}, opening, change, easter, cited, {"op": "publish"}]
    put(journal, "".join(compact(line) + "\n" for line in lines).encode())
    with oldstyle.Register(journal, program=program) as register:
        result = [one.source for ask in (register.periods, register.changes, register.exceptions)
                 for one in ask("GB")]
        years = [easter.year for easter in register.exceptions("GB")]
    yield f"sources: {result}", result == [None, "an act", "an act", None, "a table"]
    yield f"listed Easters: {years}", years == [1724, 1744]


def ended(program):
    """A program that is killed while it is asked, and a register that was closed."""
    register = oldstyle.Register(SAMPLES, program=program)
    rows = register.read_many(("GB", "1640") for _ in itertools.count())
    next(rows)
    os.kill(register._service._connection._process.pid, signal.SIGKILL)
    why = raised(lambda: list(rows))
    yield f"killed: {why!r}", isinstance(why, oldstyle.ProgramEnded) and "SIGKILL" in str(why)
    register.close()
    why = raised(lambda: register.read("GB", "1640"))
    yield f"closed: {why!r}", isinstance(why, oldstyle.ProgramEnded) and "closed" in str(why)


def followed(program, journal):
    """Editions that a keeper publishes meanwhile, and a journal that is cut, removed or broken."""
    with subprocess.Popen([program, "serve", "--keep", journal], text=True, bufsize=1,
                          stdin=subprocess.PIPE, stdout=subprocess.PIPE) as keeper:
        publish(keeper, 1)
        register = oldstyle.Register(journal, program=program, follow=True)
        for edition in range(2, 21):
            newest = publish(keeper, edition)
            result = register.read(f"L{edition}", "1640").edition
            yield f"a followed edition: {result}", result == newest == edition
        keeper.stdin.close()
    register.close()
    with open(journal, "rb") as file:
        whole = file.read()
    for text, reason in ((whole[:200], "got shorter"), (None, "replaced or removed"),
                         (whole + b"{}\n", "journal line")):
        put(journal, whole)
        register = oldstyle.Register(journal, program=program, follow=True)
        put(journal, text)
        why = raised(lambda: register.read("L1", "1640"))
        yield f"a followed journal: {why!r}", (isinstance(why, oldstyle.ProgramEnded)
                                               and reason in str(why) and journal in str(why))


def publish(keeper, edition):
    """Makes a keeper publish an edition with one more territory; returns the reported edition."""
    keeper.stdin.write(compact({"op": "add_land", "code": f"L{edition}", "name": f"Land {edition}",
                                "calendar": "julian", "style": "january", "rule": "julian"})
                       + '\n{"op":"publish"}\n')
    keeper.stdout.readline()
    return json.loads(keeper.stdout.readline())["edition"]


def put(path, text):
    """Writes a file in its place, or takes it away."""
    if text is None:
        return os.remove(path)
    with open(path, "wb") as file:
        file.write(text)


def in_frames(register):
    """A table of pandas."""
    import pandas

    client_tools.tried.append("pandas")
    frame = pandas.DataFrame({"code": ["GB", "FR", None, "GB"], "weekday": ["Friday", "", "", None],
                              "date": ["11 Feb. 1731/32", "1640", "1640", None]},
                             index=[7, 8, 9, 10])
    result = oldstyle.read_frame(register, frame, weekday="weekday")
    ordinal = datetime.date(1732, 2, 22).toordinal()
    yield "pandas: a day", result.loc[7, "day"] == ordinal and bool(result.loc[7, "weekday_fits"])
    fault_names = [None if pandas.isna(name) else name for name in result["fault"]]
    yield "pandas: faults", fault_names == [None, "UnknownLand", "BadCode", None]
    yield "pandas: no date", result.loc[10, "reason"] == "no date"
    years = pandas.DataFrame({"code": ["GB"] * 3, "date": [1731.0, None, 1640]})
    reasons = list(oldstyle.read_frame(register, years)["kind"])
    yield f"pandas: years with a gap: {reasons}", reasons == ["year", "none", "year"]
    twice = pandas.DataFrame([["GB", "1640", "1641"]], columns=["code", "date", "date"])
    why = raised(lambda: oldstyle.read_frame(register, twice))
    yield f"pandas: two columns of one name: {why!r}", "2 columns date" in str(why)
    yield "pandas: an empty table", len(oldstyle.read_frame(register, frame[:0])) == 0


def speed(program, count):
    """Prints the rows a second of the raw pipe, whose replies are only read, or read by json.loads,
    and of read_many, each as the best of three rounds that alternate."""
    rows = list(itertools.islice(itertools.cycle(rows_drawn(random.Random(1), 10_000)), count))
    lines = [line.encode() + b"\n" for line in map(request, rows)]
    ways = {"the raw pipe": lambda: piped_raw(program, lines, len),
            "by json.loads": lambda: piped_raw(program, lines, json.loads),
            "read_many": lambda: read_all(program, rows)}
    best = dict.fromkeys(ways, math.inf)
    for _ in range(3):
        for name, way in ways.items():
            best[name] = min(best[name], way())
    print(f"{count} rows: " + ", ".join(
        f"{name} {count / took:,.0f} a second" for name, took in best.items())
        + ", ratios of read_many " + " and ".join(
            f"{best[name] / best['read_many']:.2f}" for name in list(ways)[:2]))


def piped_raw(program, lines, read):
    """The seconds in which a run of the program answers lines, and the replies are read."""
    begun = time.perf_counter()
    with subprocess.Popen([program, "serve", "--journal", SAMPLES], stdin=subprocess.PIPE,
                          stdout=subprocess.PIPE) as process:
        writing = threading.Thread(target=write_all, args=(process.stdin, lines))
        writing.start()
        count = sum(read(line) is not None for line in process.stdout)
        writing.join()
    assert count == len(lines)
    return time.perf_counter() - begun


def write_all(pipe, lines):
    with pipe:
        pipe.writelines(lines)


def read_all(program, rows):
    """The seconds of read_many with a register of its own."""
    begun = time.perf_counter()
    with oldstyle.Register(SAMPLES, program=program) as register:
        count = sum(1 for _ in register.read_many(rows))
    assert count == len(rows)
    return time.perf_counter() - begun


def checks(options, folder):
    """All checks, each with whether it passes."""
    program = options.program
    with oldstyle.Register(SAMPLES, program=program) as register:
        yield from worked(register)
        yield from piped(register, program, options)
        yield from faults(register, program, folder)
        with contextlib.suppress(ImportError):
            yield from in_frames(register)
        if options.speed:
            speed(program, options.speed)
    yield from cited(program, os.path.join(folder, "cited.journal"))
    yield from client_files.checks(options, folder)


def main():
    line = CommandLine(__doc__)
    line.add_program()
    line.add_number("--count", 20_000, "rows that are asked in one run")
    line.add_seed()
    line.add_number("--speed", None, "prints how many of that many rows are read in a second too")
    line.add_argument("--schema", type=file_at, metavar="FILE", help="TEI's schema, RELAX NG")
    options = line.read()
    passed = differ = 0
    with tempfile.TemporaryDirectory() as folder:
        for what, is_true in checks(options, folder):
            passed += 1
            if not is_true:
                differ += 1
                print(f"failed: {what}")
    tried = ", ".join(client_tools.tried)
    print(f"{passed} checks of the clients, with {tried}: {differ} failed")
    return 1 if differ else 0


if __name__ == "__main__":
    end(main)
