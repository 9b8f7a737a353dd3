"""What the benchmarks share: requests, the two programs, and what a run of one costs.

Times are processor time, of user and system together, so that other work on the machine counts
little. The best of some rounds counts; the programs take turns in each round.
"""
import json
import os
import subprocess
import sys
import tempfile
import time
from typing import NamedTuple

HERE = os.path.dirname(os.path.abspath(__file__))
PLAIN = os.path.join(HERE, "plain")
sys.path.append(os.path.join(HERE, "..", "tools"))

from command_line import CommandLine, end, need

__all__ = ["CommandLine", "end", "need"]
ROUNDS = 5

CALENDARS = ["julian", "gregorian", "swedish"]
RULES = ["julian", "gregorian"]

# The loads are compared between commits, so they have the styles, years and days that all of these
# know. The other styles are measured by `reads --six`, and the whole line, to the end of the year
# 9999, by `reads --long`.
STYLES = ["january", "annunciation", "nativity", "september"]
SIX_STYLES = STYLES + ["pisan", "easter"]


class Line(NamedTuple):
    """The line of days: its end, and the days between the changes of a territory that has many."""

    last_day: int
    last_year: int
    apart: int


SHORT, LONG = Line(1_095_362, 2_999, 27_000), Line(3_652_059, 9_999, 90_000)

JULIAN = {"calendar": "julian", "style": "january", "rule": "julian"}
GREGORIAN = {"calendar": "gregorian", "style": "january", "rule": "gregorian"}
EASTER_STYLE = {**JULIAN, "style": "easter"}


def request(op, **members):
    """A request line, without its line feed."""
    return json.dumps({"op": op, **members}, separators=(",", ":"))


PUBLISH = request("publish")

EDITS, TERRITORIES = 20_000, 500


def edit(number):
    """The edit of that number, counted from 0. What a turn adds goes at its end, or stays."""
    code = f"T{number % TERRITORIES:05}"
    turn, phase = divmod(number // TERRITORIES, 5)
    day, year = 500_000 + turn * 1_000 + number % TERRITORIES, 1500 + turn
    if number < TERRITORIES:
        return request("add_land", code=code, name=f"Territory {code}", **JULIAN)
    if phase == 0:
        return request("alter_change", code=code, day=1, **GREGORIAN)
    if phase == 1:
        return request("add_change", code=code, day=day, **GREGORIAN)
    if phase == 2:
        return request("alter_change", code=code, day=day, **JULIAN)
    if phase == 3:
        return request("add_exception", code=code, year=year, day=day)
    if turn % 2 == 0:
        return request("drop_change", code=code, day=day)
    return request("drop_exception", code=code, year=year)


def published_after(count):
    """All edits, with a publish after each `count` of them."""
    lines = []
    for number in range(EDITS):
        lines.append(edit(number))
        if (number + 1) % count == 0:
            lines.append(PUBLISH)
    return lines


def regime(number, styles):
    """A regime of each calendar, style and rule in turn; that of the Easter style is Julian."""
    style = styles[number // 3 % len(styles)]
    if style == "easter":
        return EASTER_STYLE
    return {"calendar": CALENDARS[number % 3], "style": style, "rule": RULES[number % 2]}


def territory_edits(code, opening, changes):
    """The edits of a territory with its opening regime, and its changes by their days."""
    yield request("add_land", code=code, name=f"Territory {code}", **opening)
    for day, words in changes:
        yield request("add_change", code=code, day=day, **words)


def many_territories(count, styles=STYLES, line=SHORT):
    """500 territories with `count` changes each, spread over all days up to the last one, of all
    regimes of these styles."""
    edits = []
    for place in range(TERRITORIES):
        days = [(change * line.apart + place * 37, change) for change in range(1, count + 1)]
        changes = [(day, regime(place + change, styles)) for day, change in days]
        edits += territory_edits(f"T{place:05}", regime(place, styles), changes)
    return edits


def territory(n):
    return f"T{n * 7 % TERRITORIES:05}"


def year(n, line=SHORT):
    return 1 + n * 7919 % line.last_year


def read(code, label_year, month, day):
    return request("read", reader=1, code=code, year=label_year, month=month, day=day)


def usual_read(code, n, line=SHORT):
    return read(code, year(n, line), 1 + n % 12, 1 + n % 28)


def given_program(document):
    """The program that is measured, by a script that takes no other argument."""
    line = CommandLine(document)
    line.add_program()
    return line.read().program


def is_stale(built, sources):
    """Returns whether a program must be built: it isn't there, or a source file is newer."""
    if not os.path.exists(built):
        return True
    files = [os.path.join(sources, name) for name in os.listdir(sources)]
    return any(os.path.getmtime(file) > os.path.getmtime(built) for file in files)


def plain_program():
    """The plain Rust program, built first if that is needed."""
    built = os.path.join(PLAIN, "target", "release", "plain")
    if is_stale(built, os.path.join(PLAIN, "src")):
        need("cargo", "Rust, with Debian's package librust-serde-json-dev")
        print("building the plain Rust program", file=sys.stderr)
        build = ["cargo", "build", "--release", "--offline", "--quiet"]
        if subprocess.run(build, cwd=PLAIN).returncode != 0:
            sys.exit("the plain Rust program is not built: it requires Debian's package "
                     "librust-serde-json-dev")
    return built


def programs(program):
    """The commands to compare, by name."""
    return {"oldstyle": program, "plain": plain_program()}


class Load:
    """Request lines in a file of their own, which ends with the `with`."""

    def __init__(self, lines):
        self.count = len(lines)
        self.file = tempfile.NamedTemporaryFile()
        for line in lines:
            self.file.write((line if isinstance(line, bytes) else line.encode()) + b"\n")
        self.file.flush()

    def __enter__(self):
        return self

    def __exit__(self, *_):
        self.file.close()

    def run(self, command):
        """The processor seconds of a run over the file, and the replies."""
        with open(self.file.name, "rb") as source:
            return self.run_over(command, source)

    def run_through_pipe(self, command):
        """The same, the lines coming through a pipe."""
        with subprocess.Popen(["cat", self.file.name], stdout=subprocess.PIPE) as sender:
            return self.run_over(command, sender.stdout)

    def run_over(self, command, source):
        with tempfile.TemporaryFile() as sink:
            child = subprocess.Popen(command, stdin=source, stdout=sink)
            _, status, usage = os.wait4(child.pid, 0)
            child.returncode = os.waitstatus_to_exitcode(status)
            sink.seek(0)
            replies = sink.read()
        count = replies.count(b"\n")
        if child.returncode != 0 or count != self.count:
            sys.exit(f"{command}: status {child.returncode}, {count} of {self.count} lines")
        return usage.ru_utime + usage.ru_stime, replies

    def times(self, commands, run=None, rounds=ROUNDS):
        """The best time of each command, all of which must write the same bytes; and these."""
        run = run or self.run
        best, expected = {}, None
        for _ in range(rounds):
            for name, command in commands.items():
                took, replies = run(command)
                best[name] = min(took, best.get(name, took))
                expected = replies if expected is None else expected
                if replies != expected:
                    sys.exit(first_difference(name, expected, replies))
        return best, expected


def first_difference(name, expected, replies):
    pairs = enumerate(zip(expected.splitlines(), replies.splitlines()), 1)
    number, (one, other) = next((number, pair) for number, pair in pairs if pair[0] != pair[1])
    return f"line {number}:\n{one.decode()}\nbut {name}:\n{other.decode()}"


def peak_memory(child):
    """The peak of resident memory in MiB of a process that waits for more input."""
    with open(f"/proc/{child.pid}/status") as status:
        return next(int(line.split()[1]) for line in status if line.startswith("VmHWM")) / 1024


def run_watched(command, source=None):
    """The processor seconds of a run, its peak of resident memory in MiB, sampled as it runs,
    and what it wrote."""
    child = subprocess.Popen(command, stdin=source, stdout=subprocess.PIPE)
    peak = 0
    while not os.waitid(os.P_PID, child.pid, os.WEXITED | os.WNOHANG | os.WNOWAIT):
        try:
            peak = peak_memory(child)
        except StopIteration:
            break
        time.sleep(0.002)
    output = child.stdout.read()
    _, status, usage = os.wait4(child.pid, 0)
    child.returncode = os.waitstatus_to_exitcode(status)
    if child.returncode != 0:
        sys.exit(f"{command}: {output!r}, status {child.returncode}")
    return usage.ru_utime + usage.ru_stime, peak, output


def print_head(title, commands, *more):
    names = "".join(f"{name:>12}" for name in commands)
    print(f"{title:28}{names}{'ratio':>8}" + "".join(f"{name:>10}" for name in more))


def print_rates(title, rates, floor=None):
    """Prints the rates of the two programs and their ratio, and the rate of the floor, if there is
    one, with how many times its time the first program takes."""
    numbers = "".join(f"{rate:12,.0f}" for rate in rates)
    beside = f"{floor:10,.0f}{floor / rates[0]:10.2f}" if floor else ""
    print(f"{title:28}{numbers}{rates[0] / rates[1]:8.2f}{beside}")
