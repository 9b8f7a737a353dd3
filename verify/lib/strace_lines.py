"""What a run does in a folder, by its system calls as strace prints them: for system_calls.py and
crashes.py.
"""
import os
import re
import subprocess
import tempfile
from typing import NamedTuple, Optional

CALL = re.compile(r"\d+ +(\w+)\((.*)\) += (-?\d+|\?|0x[0-9a-f]+)(?: (E[A-Z0-9]+) \(.*?\))?(.*)")
BEGUN = re.compile(r"(\d+) +(\w+)\((.*) <unfinished \.\.\.>")
GOES_ON = re.compile(r"(\d+) +<\.\.\. \w+ resumed>(.*)")
TEXT = re.compile(r'"((?:\\x[0-9a-f]{2})*)"')
FLAGS = re.compile(r"\b(?:O|AT|LOCK|F|MAP|PROT|RENAME)_[A-Z_0-9]+")
STREAMS = {0: "in", 1: "out", 2: "err"}
SECONDS = 120

KINDS = {"open": "open", "openat": "open", "creat": "open", "flock": "lock", "read": "read",
         "pread64": "read", "readv": "read", "write": "write", "pwrite64": "write",
         "writev": "write", "fsync": "sync", "fdatasync": "sync", "ftruncate": "cut",
         "truncate": "cut", "chmod": "rights", "fchmod": "rights", "fchmodat": "rights",
         "rename": "move", "renameat": "move", "renameat2": "move", "link": "link",
         "linkat": "link", "unlink": "remove", "unlinkat": "remove", "close": "close",
         "lseek": "seek", "stat": "look", "lstat": "look", "newfstatat": "look", "statx": "look",
         "readlink": "look", "readlinkat": "look", "access": "look", "faccessat": "look",
         "faccessat2": "look", "fstat": "look", "mmap": "map"}
# What changes a file or a name.
CHANGES = {"write", "cut", "rights", "move", "link", "remove"}
# Calls that don't go through a link at the end of their path.
AT_LINKS = {"lstat", "readlink", "readlinkat", "unlink", "unlinkat", "rename", "renameat",
            "renameat2", "link", "linkat"}
COPIES = {"dup", "dup2", "dup3"}


class Step(NamedTuple):
    """One system call that concerns the folder, or a standard stream."""
    kind: str
    # the file by its name in the folder, "." for the folder itself, or a standard stream
    name: str
    call: str
    # the number of the call among those of its name in the run
    turn: int
    # which open it belongs to, counted from 1; 0 if it uses the path
    file: int = 0
    data: bytes = b""
    flags: tuple = ()
    # the new name of what is moved or linked; the length of what is cut
    to: object = None
    # why it failed, as the system says it
    failed: str = ""
    was_refused: bool = False

    def __str__(self):
        to = f" to {self.to}" if self.to is not None else ""
        failed = f", {self.failed}" if self.failed else ""
        return f"{self.kind} {self.name}{to} ({self.call} {self.turn}{failed})"


class Traced(NamedTuple):
    """What a run ended with, and its steps."""
    status: int
    out: bytes
    err: str
    steps: list


class Reader:
    """Reads the lines of strace."""

    def __init__(self, folder):
        self.folder = os.path.realpath(folder)
        self.links = {os.path.relpath(os.path.join(at, name), self.folder)
                      for at, folders, names in os.walk(self.folder) for name in folders + names
                      if os.path.islink(os.path.join(at, name))}
        self.targets = {link: self.name_of(os.path.realpath(os.path.join(self.folder, link)))
                        for link in self.links}
        self.open, self.turns, self.files, self.begun = {}, {}, 0, {}

    def name_of(self, path):
        """A path as a name in the folder, or None."""
        at, last = os.path.split(os.path.join(self.folder, path))
        path = os.path.normpath(os.path.join(os.path.realpath(at), last))
        if path == self.folder:
            return "."
        return os.path.relpath(path, self.folder) if path.startswith(self.folder + "/") else None

    def step(self, line):
        """The step of a line, or None."""
        if match := BEGUN.fullmatch(line):
            self.begun[match[1]] = f"{match[1]} {match[2]}({match[3]}"
            return None
        if match := GOES_ON.fullmatch(line):
            line = self.begun.pop(match[1], "") + match[2]
        if not (match := CALL.fullmatch(line)):
            return None
        call, words, result, failed, more = match.groups()
        words = words.replace(" <unfinished ...>", "")
        self.turns[call] = self.turns.get(call, 0) + 1
        result = int(result, 0) if result != "?" else None
        return self.read(call, words, result, failed or "", "INJECTED" in more)

    def read(self, call, words, result, failed, was_refused):
        texts = [bytes.fromhex(text.replace("\\x", "")) for text in TEXT.findall(words)]
        flags = tuple(FLAGS.findall(TEXT.sub("", words)))
        number = re.match(r"\d+", words)
        number = int(number[0]) if number else None
        if call == "mmap":
            number = int(words.split(", ")[4])
        if call in COPIES or call == "fcntl" and flags[:1] == ("F_DUPFD_CLOEXEC",):
            if number in self.open and not failed:
                self.open[result] = self.open[number]
            return None
        by_number = number is not None and (not texts or texts[0] == b"" or call in (
            "read", "write", "pread64", "pwrite64", "readv", "writev"))
        if by_number:
            return self.by_number(call, words, number, (texts, flags, result, failed, was_refused))
        return self.by_path(call, words, (texts, flags, result, failed, was_refused))

    def by_number(self, call, words, number, match):
        """The step of a call on what is open."""
        texts, flags, result, failed, was_refused = match
        name, file = self.open.get(number, (STREAMS.get(number), 0))
        if call == "close" and not failed:
            self.open.pop(number, None)
            if file and file in {other for _, other in self.open.values()}:
                return None
        if name is None:
            return None
        kind = KINDS.get(call, call)
        kind = "unlock" if kind == "lock" and "LOCK_UN" in flags else kind
        # for a call in which the run was killed the result is not known
        whole = kind == "write" and result is None
        data = b"".join(texts)[:None if whole else max(result or 0, 0)]
        data = data if kind in ("read", "write") else b""
        last = words.rsplit(", ", 1)[-1]
        to = int(last) if kind == "cut" or call == "pwrite64" else None
        return Step(kind, name, call, self.turns[call], file, data, flags, to, failed, was_refused)

    def by_path(self, call, words, match):
        """The step of a call that names a file by its path."""
        texts, flags, result, failed, was_refused = match
        names = [self.name_of(os.fsdecode(text)) for text in texts]
        goes_on = call not in AT_LINKS and "AT_SYMLINK_NOFOLLOW" not in flags
        name = names[0] if names else None
        if goes_on:
            name = self.targets.get(name, name)
        file = 0
        if KINDS.get(call) == "open" and not failed and result is not None:
            self.files += 1
            file = self.files
            self.open[result] = (name, file)
        if name is None:
            return None
        to = names[1] if len(names) > 1 and KINDS.get(call) in ("move", "link") else None
        if call == "truncate":
            to = int(words.rsplit(", ", 1)[-1])
        return Step(KINDS.get(call, call), name, call, self.turns[call], file, b"", flags, to,
                    failed, was_refused)


def steps_of(text, folder_reader):
    """The steps that lines of strace show."""
    return [step for line in text.splitlines() if (step := folder_reader.step(line))]


def traced(command, folder, stdin=b"", inject: Optional[str] = None):
    """Runs a command under strace in a folder, with this input, a call of it refused or not."""
    reader = Reader(folder)
    with tempfile.TemporaryDirectory() as room:
        path = os.path.join(room, "trace")
        words = ["strace", "-f", "-qq", "-xx", "-s", "100000000", "-o", path,
                 "-e", "trace=%file,%desc"]
        words += ["-e", f"inject={inject}"] if inject else []
        with open(os.path.join(room, "stdin"), "w+b") as file:
            file.write(stdin)
            file.seek(0)
            done = subprocess.run([*words, *command], cwd=folder, stdin=file, capture_output=True,
                                  timeout=SECONDS, check=False)
        with open(path, encoding="ascii", errors="replace") as file:
            steps = steps_of(file.read(), reader)
    return Traced(done.returncode, done.stdout, done.stderr.decode(errors="replace"), steps)
