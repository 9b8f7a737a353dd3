#!/usr/bin/env python3
"""Runs the program while output, files, the disk or memory fail.

The conditions are: standard output that is full, closed or a pipe that nobody reads, and standard
error full as well; standard input that is closed or a folder; a folder in the place of each file
that is read or saved; a file that can't be read, one whose first line is longer than any line, one
that grows shorter while it is read; a full disk under `--save`, and a limit on the length of files;
and 6 MB of addresses. Under each one every command that it concerns is run. The status and what is
written are compared with docs/ERRORS.md and docs/SERVING.md. The files of the folder must be as
they were, their permissions too, with none beside them. Once the condition is over, the same
command must save what it should. A row is written for each condition. What went otherwise is
printed above the rows; so is what could not be tried.

A disk that is full is one in memory, which only root may mount.
"""
import os
import signal
import subprocess

from lib.checks import check
from lib.command_cases import ADD_ROME, BEGUN, COMMANDS, GREGORIAN, PUBLISH, REGIME, SESSION
from lib.command_cases import filled, contents_of, is_refused, is_transcript, text_of
from lib.common import CommandLine, end, mounted
from lib.conditions import WRITE_FAULT, closed_pipe, fill, full, limited, short_of_addresses

LINE = CommandLine(__doc__)
LINE.add_program()
PROGRAM = LINE.read().program

READ_FAULT = (3, "", "oldstyle: read fault\n")
NAMED = ("serve", "replay", "desk", "almanac", "audit")
FOR_PEOPLE = ("read", "day", "month", "territory", "letters", "text")
SAVING = "serve --journal a.journal --save saved.journal"
INPUT = text_of(SESSION[:-1])

counts, untried = {}, []


def not_read(words):
    """What a command prints for a file that is not there, or that is a folder."""
    for path, cause in ("a.gone", "no such file"), ("a.folder", "is a directory"):
        if path in words and words.startswith(FOR_PEOPLE):
            return 3, "", f"oldstyle: {path}: {cause}\n"
        if path in words:
            return 3, "", f"{READ_FAULT[2]}note: {path}: {cause}\n"
    return READ_FAULT


def not_written(condition, words):
    """The status of a command whose output fails, and what it prints on standard error."""
    if words.startswith(NAMED) or not words:
        notes = {"output full": "no space left on the device",
                 "output a closed pipe": "nobody reads it any more"}
        note = notes.get(condition)
        return 3, WRITE_FAULT[1] + (f"note: standard output: {note}\n" if note else "")
    if condition == "output a closed pipe":
        return 0, ""
    cause = "no space left on the device" if condition == "output full" else "write fault"
    return 3, f"oldstyle: standard output: {cause}\n"


def compare(condition, words, got, expected):
    """Counts a run under its condition, and checks its result."""
    tried, right = counts.get(condition, (0, 0))
    counts[condition] = (tried + 1, right + (got == expected))
    check(f"{condition}: oldstyle {words}", got == expected,
          f"\n  expected {expected}\n  got      {got}")


def run(folder, words, text="", **streams):
    """The status of a run in a folder, with what it wrote on the standard streams that are read. In
    the latter the folder has no name."""
    if "stdin" not in streams:
        streams["input"] = text
    streams = {"stdout": subprocess.PIPE, "stderr": subprocess.PIPE, **streams}
    done = subprocess.run([PROGRAM, *words.split()], cwd=folder, text=True, timeout=60, **streams)
    return done.returncode, done.stdout, done.stderr and done.stderr.replace(folder, "")


# ---- standard streams


def try_output(condition, words, lines, **streams):
    """A command whose output goes nowhere: nothing is saved."""
    with filled() as folder:
        before = contents_of(folder)
        status, _, errors = run(folder, words, text_of(lines), **streams)
        expected = not_written(condition, words)
        result = (status, expected[1] if errors is None else errors, contents_of(folder))
        compare(condition, words, result, (*expected, before))


def try_outputs():
    """Each command that writes anything."""
    for words, lines in COMMANDS:
        with filled() as folder:
            if not run(folder, words, text_of(lines))[1]:
                continue
        for condition, opened in [("output full", full), ("output a closed pipe", closed_pipe)]:
            output = opened()
            try_output(condition, words, lines, stdout=output)
            os.close(output)
        output = full()
        try_output("output and errors full", words, lines, stdout=output, stderr=output)
        os.close(output)
        try_output("output closed", words, lines, stdout=None, preexec_fn=lambda: os.close(1))


def try_input():
    """Standard input that fails, or is closed: nothing is saved."""
    for words in ["", SAVING, "serve --follow a.journal"]:
        with filled() as folder:
            before = contents_of(folder)
            input_folder = os.open(folder, os.O_RDONLY)
            result = run(folder, words, stdin=input_folder)
            compare("input a folder", words, (result, contents_of(folder)), (READ_FAULT, before))
            os.close(input_folder)
    with filled() as folder:
        before = contents_of(folder)
        result = run(folder, "", stdin=None, preexec_fn=lambda: os.close(0))
        compare("input closed", "", (result, contents_of(folder)), (READ_FAULT, before))
        result = run(folder, SAVING, stdin=None, preexec_fn=lambda: os.close(0))
        compare("input closed", SAVING, (result, contents_of(folder)), (READ_FAULT, before))


# ---- files

READING = [
    "serve --journal a.journal --save saved.journal",
    "almanac a.journal GB 1752",
    "read a.journal GB 1752-09-05",
    "letters a.journal",
    "text a.journal",
    "replay --readers 1 a.schedule",
    "desk a.script a.questions",
    "audit a.journal a.transcript",
]


def try_folders():
    """A folder, and nothing at all, in the place of each file that is read; a folder, and a file in
    no folder, in that of the file that is saved."""
    for words in READING:
        for name in [word for word in words.split() if word.startswith("a.")]:
            for condition, place in [("a folder as a file", "a.folder"), ("no file", "a.gone")]:
                with filled() as folder:
                    before = contents_of(folder)
                    changed = words.replace(name, place)
                    result = run(folder, changed, INPUT)
                    compare(condition, changed, (result, contents_of(folder)),
                            (not_read(changed), before))
    for condition, place, cause in [("a folder to save in", "a.folder", "write fault"),
                                    ("no folder", "none/saved", "no such folder")]:
        with filled() as folder:
            before, words = contents_of(folder), f"serve --save {place}"
            status, stdout, errors = run(folder, words, INPUT)
            got = (status, errors, stdout, contents_of(folder))
            noted = f"{WRITE_FAULT[1]}note: {place}: {cause}\n"
            compare(condition, words, got, (3, noted, run(folder, "", INPUT)[1], before))


def try_unread():
    """A file of which no byte can be read, and one whose first line is longer than any line is."""
    unread = "/proc/self/mem"
    for words in f"audit a.journal {unread}", f"audit {unread} a.transcript", f"text {unread}":
        with filled() as folder:
            compare("a file that can't be read", words, run(folder, words),
                    (3, "", f"{READ_FAULT[2]}note: {unread}: read fault\n"))
    errors = ("oldstyle: journal line 1: 31 LineTooLong\nhelp: a.long is not a journal: "
              "--journal FILE names one, and oldstyle publish FILE TEXT begins one in a new or "
              "empty file\n")
    for words in "read a.long GB 1752-09-05", "audit a.long a.transcript":
        with filled({"a.long": ["x" * 65_537]}) as folder:
            compare("a first line that is too long", words, run(folder, words), (1, "", errors))


def padded(line):
    """A line with a member that is ignored, so that a file of few lines is long."""
    return f'{line[:-1]},"x":"{"a" * 30_000}"}}'


ALTERED = [f'{{"op":"alter_change","code":"RM","day":1,{regime}}}'
           for regime in (REGIME, GREGORIAN)]
LOOK = '{"step":"look","op":"lands","reader":1}'
ASKED = '{"op":"lands","reader":1}'
LONG_JOURNAL = ['{"journal":2}', ADD_ROME, PUBLISH, *map(padded, ALTERED * 500)]
RECORD = '{"ask":{"op":"lands","reader":1},"reply":{"answer":{"lands":[]},"edition":0,"reader":1}}'
LONG_FILES = {
    "long.journal": LONG_JOURNAL,
    "long.schedule": [padded(LOOK)] * 1_000,
    "long.questions": [padded(ASKED)] * 1_000,
    "long.transcript": [padded(RECORD)] * 1_000,
    "empty.script": LONG_JOURNAL[:2],
}
TRIES = 20
SHORTENED = [
    ("serve --journal long.journal --save saved.journal", "long.journal"),
    ("serve --journal long.journal --save long.journal", "long.journal"),
    ("almanac long.journal RM 1500", "long.journal"),
    ("replay --readers 1 long.schedule", "long.schedule"),
    ("desk long.journal a.questions", "long.journal"),
    ("desk empty.script long.questions", "long.questions"),
    ("audit long.journal a.transcript", "long.journal"),
    ("audit a.journal long.transcript", "long.transcript"),
]


def read_so_far(process, path):
    """How many bytes of a file a process has read, None if it has not opened the file. A file
    that is locked too has a descriptor for that, which reads nothing."""
    folder = f"/proc/{process.pid}"
    places = []
    for number in os.listdir(f"{folder}/fd"):
        if os.path.realpath(f"{folder}/fd/{number}") == path:
            with open(f"{folder}/fdinfo/{number}", encoding="utf-8") as facts:
                places.append(int(facts.readline().split()[1]))
    return max(places, default=None)


def stopped_in_reading(process, path):
    """Stops a process that reads a file, and returns how far it is, or None if it was quicker."""
    try:
        while process.poll() is None and not read_so_far(process, path):
            pass
        process.send_signal(signal.SIGSTOP)
        os.waitid(os.P_PID, process.pid, os.WSTOPPED | os.WEXITED | os.WNOWAIT)
        return read_so_far(process, path)
    except (FileNotFoundError, PermissionError):
        return None


def shorten(folder, words, name, size_of):
    """What a command prints whose file is made shorter while it reads, the size that the file has
    then, and how many bytes of it there were to read. None if the command was too quick."""
    path, pipe = os.path.join(os.path.realpath(folder), name), subprocess.PIPE
    command = [PROGRAM, *words.split()]
    streams = {"stdin": pipe, "stdout": pipe, "stderr": pipe}
    with subprocess.Popen(command, cwd=folder, text=True, **streams) as process:
        place = stopped_in_reading(process, path)
        size = size_of(place or 0)
        is_within = place is not None and max(place, size) < os.path.getsize(path)
        if is_within:
            os.truncate(path, size)
        process.send_signal(signal.SIGCONT)
        stdout, errors = process.communicate(ASKED + "\n", timeout=60)
    return ((process.returncode, stdout, errors), size, max(place, size)) if is_within else None


def others(folder, name):
    """What a folder holds besides a file, and the length of that file."""
    length = os.path.getsize(os.path.join(folder, name))
    os.truncate(os.path.join(folder, name), 0)
    return contents_of(folder), length


def try_shortened(words, name, size_of):
    """Checks that a command whose file grows shorter does what it does with the bytes it found."""
    for _ in range(TRIES):
        with filled(LONG_FILES) as folder:
            if (outcome := shorten(folder, words, name, size_of)) is None:
                continue
            result, size, read = outcome
            left, length = others(folder, name)
        with filled(LONG_FILES) as folder:
            os.truncate(os.path.join(folder, name), read)
            expected = run(folder, words, ASKED + "\n")
            compare("a file that grows shorter", words, (result, left, length),
                    (expected, others(folder, name)[0], size))
        return
    untried.append(f"a file that grows shorter: oldstyle {words}")


# ---- the disk


def try_full_disk():
    """A journal that a full disk doesn't take, and takes once there is room again."""
    with filled() as folder, mounted(os.path.join(folder, "a.folder"), "size=64k") as disk:
        if disk is None:
            untried.append("a full disk: only root may mount one")
            return
        old, words = text_of(BEGUN[:2]), "serve --journal a.journal --save a.folder/saved.journal"
        with open(os.path.join(disk, "saved.journal"), "w", encoding="utf-8") as file:
            file.write(old)
        fill(os.path.join(disk, "other"))
        stdout = run(folder, "serve --journal a.journal", INPUT)[1]
        status, replies, errors = run(folder, words, INPUT)
        texts = {name: text for name, (_, text) in contents_of(disk).items() if name != "other"}
        noted = f"{WRITE_FAULT[1]}note: a.folder/saved.journal: no space left on the device\n"
        expected = (3, noted, stdout, {"saved.journal": old})
        compare("a full disk", words, (status, errors, replies, texts), expected)
        os.remove(os.path.join(disk, "other"))
        path = "a.folder/saved.journal"
        note = f"note: {path} contained another journal, which is now {path}.~1~\n"
        compare("a full disk", words, run(folder, words, INPUT), (0, stdout, note))


def try_long_files():
    """A journal that a limit on the length of files cuts off, anywhere."""
    with filled() as folder:
        stdout = run(folder, SAVING, INPUT)[1]
        whole = os.path.getsize(os.path.join(folder, "saved.journal"))
    for length in range(0, whole, 50):
        with filled() as folder:
            before = contents_of(folder)
            status, replies, errors = run(folder, SAVING, INPUT, preexec_fn=lambda: limited(length))
            got = (status, errors, replies, contents_of(folder))
            noted = f"{WRITE_FAULT[1]}note: saved.journal: write fault\n"
            compare("a limit on the length of files", SAVING, got, (3, noted, stdout, before))


# ---- memory


LARGE = [
    f'{{"op":"add_land","code":"L{place}","name":"{"a" * 64}",{REGIME}}}' for place in range(500)
] + [
    f'{{"op":"add_change","code":"L{place}","day":{600_000 + 10 * day},{REGIME}}}'
    for place in range(500) for day in range(38)
]


def is_front(stdout, lines):
    """Returns whether whole lines are a prefix of those that are expected."""
    stdout = stdout.splitlines(True)
    return stdout == lines.splitlines(True)[: len(stdout)]


def try_addresses(words, text, files):
    """Runs a command with too few addresses: it does what it does with ample memory, or reports
    that it lacks memory, a desk that it finds no thread; then nothing is saved, and it is run
    again."""
    with filled(files) as folder:
        before = contents_of(folder)
        ample, after = run(folder, words, text), contents_of(folder)
    is_desk = words.startswith("desk")
    with filled(files) as folder:
        got = run(folder, words, text, preexec_fn=short_of_addresses)
        left = contents_of(folder)
        status, stdout, errors = got
        is_short = is_refused(words, status, errors)
        if is_short and left == before and is_front(stdout, ample[1] if text else ""):
            got, left = run(folder, words, text), contents_of(folder)
    if is_desk and got[0] == 0 and is_transcript(PROGRAM, got[1]):
        ample = got
    condition = "6 MB of addresses, which are too few" if is_short else "6 MB of addresses"
    compare(condition, words, (got, left), (ample, after))


def try_all_addresses():
    """Runs each command over short files, and over a journal that needs more than there is."""
    for words, lines in COMMANDS:
        try_addresses(words, text_of(lines), {})
    for words in READING:
        try_addresses(words, "", {"a.journal": ['{"journal":2}', *LARGE, PUBLISH]})


def main():
    try_outputs()
    try_input()
    try_folders()
    try_unread()
    for words, name in SHORTENED:
        try_shortened(words, name, lambda place: place // 2)
        try_shortened(words, name, lambda place: place + 10_000)
    try_full_disk()
    try_long_files()
    try_all_addresses()
    print("| Condition | Runs | As they should be |\n|---|---|---|")
    for condition, (tried, right) in counts.items():
        print(f"| {condition} | {tried} | {right} |")
    for what in untried:
        print(f"not tried: {what}")
    tried, right = map(sum, zip(*counts.values()))
    print(f"{tried} runs under {len(counts)} conditions, {tried - right} differ, "
          f"{len(untried)} not tried")
    return 0 if tried == right else 1


if __name__ == "__main__":
    end(main)
