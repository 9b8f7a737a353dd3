"""A service that keeps its journal, and an editor who sends it requests."""
import json
import random
import subprocess
import threading
import time

from lib.common import JULIAN, compact

HEAD, PUBLISH = compact({"journal": 2}), compact({"op": "publish"})
HEAD_4 = compact({"journal": 4})
LOCKED = (3, "", "oldstyle: another run of the program keeps that journal\n")
REPLACED = ("oldstyle: another program moved, replaced or changed the journal: "
            "no more is kept in it\n")
# What is said of a journal that is followed.
FOLLOWED_SHORTER = ("oldstyle: the journal that is followed got shorter: "
                    "no further line is answered\n")
FOLLOWED_REPLACED = ("oldstyle: the journal that is followed was replaced or removed: "
                     "no further line is answered\n")


def land(number):
    return {"op": "add_land", "code": f"T{number}", "name": f"Town {number}", **JULIAN}


class Editor:
    """What an editor sends in turn, and which of it the register takes."""

    def __init__(self, seed):
        self.random, self.towns, self.pending, self.year = random.Random(seed), 0, 0, 0

    def next(self):
        """The next request, and whether it will be accepted."""
        kind = self.random.random()
        if kind < 0.3:
            accepted, self.pending = self.pending > 0, 0
            return {"op": "publish"}, accepted
        if kind < 0.4 and self.towns:
            return land(self.random.randrange(self.towns)), False
        self.pending += 1
        if self.towns < 400:
            self.towns += 1
            return land(self.towns - 1), True
        self.year += 1
        return {"op": "add_exception", "code": f"T{self.year % 400}",
                "year": 1 + self.year // 400, "day": 500_000}, True


def editor_after(seed, lines):
    """An editor who continues after these lines of a journal, without its head."""
    editor = Editor(seed)
    for line in lines:
        kind = json.loads(line)["op"]
        editor.towns += kind == "add_land"
        editor.year += kind == "add_exception"
        editor.pending = 0 if kind == "publish" else editor.pending + 1
    return editor


def journal_lines(path):
    """The lines of a file, and what is after them and not a line: its last line may lack the
    line feed alone."""
    with open(path, encoding="utf-8") as file:
        content = file.read()
    lines, rest = content.split("\n")[:-1], content.split("\n")[-1]
    return (lines + [rest], "") if rest.endswith("}") else (lines, rest)


class Run:
    """A run that keeps a file, and what it printed."""

    def __init__(self, program, path):
        self.process = subprocess.Popen([program, "serve", "--keep", path], stdin=subprocess.PIPE,
                                        stdout=subprocess.PIPE, stderr=subprocess.PIPE)
        self.replies = []
        self.reader = threading.Thread(target=self.read)
        self.reader.start()

    def read(self):
        for line in self.process.stdout:
            if line.endswith(b"\n"):
                self.replies.append(json.loads(line))

    def send(self, requests):
        """Sends requests, or as many as the run takes before it ends."""
        try:
            for request in requests:
                self.process.stdin.write((compact(request) + "\n").encode())
            self.process.stdin.flush()
        except BrokenPipeError:
            pass

    def wait_for(self, count):
        while len(self.replies) < count and self.process.poll() is None:
            time.sleep(0.0002)

    def stopped(self):
        """All that was printed, and what was on standard error, once it has ended."""
        self.process.wait()
        self.reader.join()
        errors = self.process.stderr.read().decode()
        for stream in (self.process.stdin, self.process.stdout, self.process.stderr):
            try:
                stream.close()
            except BrokenPipeError:
                pass
        return self.replies, errors
