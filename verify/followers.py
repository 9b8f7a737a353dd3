#!/usr/bin/env python3
"""Follows a journal with 20 followers while it is kept, and audits every reply that they gave.

A run of `serve --keep` is sent edits and publishes, and is killed (SIGKILL) and started again at
random moments; at some of them an unfinished line is left after the last one, as by a machine that
stopped. Runs of `serve --follow` are asked meanwhile, some of them from before the file exists:
eight through pipes, six through a socket, and six on two copies. One of these grows in random
pieces, and one by `rsync --append`, if that is installed. Both are made again once the keeper has
cut a line off. The socket is `socat`'s if that is installed, otherwise Python's. Connections end at
random, by SIGKILL too.

In each connection the edition never falls, and whoever was given an edition of a file is given it
or a later one by any follower of the file that is asked after that. An edit is refused by 45
ReadOnly. A follower whose copy is made again says so, and no other one ends early. In the end each
one is at the last edition. Each connection's replies are audited against the journal by `audit`.

Then a follower's file is cut, removed, moved or replaced after a reply: it says so, and answers
nothing more.
"""
import json
import os
import random
import re
import shutil
import socket
import socketserver
import subprocess
import tempfile
import threading
import time
from concurrent.futures import ThreadPoolExecutor
from contextlib import contextmanager

from lib.checks import check, verdict
from lib.common import CommandLine, compact, end, run
from lib.conditions import copy_over
from lib.keeper import (FOLLOWED_REPLACED, FOLLOWED_SHORTER, HEAD, PUBLISH, journal_lines,
                        land)
from lib.keeper_rounds import TOWNS, keep_all

READ_ONLY = {"fault": 45, "name": "ReadOnly"}
# What the server and its followers say when a client has gone.
GONE = re.compile(r"(oldstyle: (read|write) fault\n|.* socat\[\d+\] [EWN] .*\n)*")


class FollowedFile:
    """A file that is followed, and the last edition of it that anybody was given."""

    def __init__(self, path):
        self.path, self.highest, self.times_made, self.lock = path, 0, 0, threading.Lock()

    def report(self, edition):
        with self.lock:
            self.highest = max(self.highest, edition)


# ---- copies


class Copies:
    """Copies of the journal, which grow until all is done: one in random pieces, and one by
    `rsync --append` if that is installed."""

    def __init__(self, journal, files, seed):
        self.journal, self.files, self.lock = journal, files, threading.Lock()
        self.chance, self.is_over = random.Random(seed), False
        self.rsync = shutil.which("rsync")

    def append_all(self):
        if not os.path.exists(self.journal.path):
            return
        self.append(self.files[0].path, self.chance.randint(1, 3))
        if not self.rsync:
            self.append(self.files[1].path, 1)
            return
        subprocess.run([self.rsync, "--append", self.journal.path, self.files[1].path], check=True)

    def append(self, path, pieces):
        """Appends what was added to the journal, cut anywhere."""
        with open(self.journal.path, "rb") as source, open(path, "ab", buffering=0) as copy:
            source.seek(copy.tell())
            more = source.read()
            cuts = sorted(self.chance.randint(0, len(more)) for _ in range(pieces - 1))
            for first, last in zip([0, *cuts], [*cuts, len(more)]):
                copy.write(more[first:last])
                time.sleep(self.chance.uniform(0, 0.002))

    def make_again(self):
        """Puts new files in the place of the copies."""
        for file in self.files:
            shutil.copyfile(self.journal.path, file.path + ".new")
            with file.lock:
                file.times_made += 1
                os.replace(file.path + ".new", file.path)

    def keep_up(self):
        while not self.is_over:
            with self.lock:
                self.append_all()
            time.sleep(self.chance.uniform(0.001, 0.03))
        self.append_all()


# ---- sockets


@contextmanager
def listening(program, journal, folder):
    """The path of a socket with a follower for each connection, and a file of what they say."""
    path, errors = os.path.join(folder, "reader.sock"), os.path.join(folder, "errors")
    words = [program, "serve", "--follow", journal]
    with open(errors, "wb") as errors_file:
        if shutil.which("socat"):
            command = ["socat", "-t", "60", f"UNIX-LISTEN:{path},fork,backlog=64",
                       "EXEC:" + " ".join(words)]
            with subprocess.Popen(command, stderr=errors_file) as server:
                try:
                    while not os.path.exists(path):
                        time.sleep(0.01)
                    yield path, errors
                finally:
                    server.terminate()
            return
        with server_of(path, words, errors_file) as server:
            threading.Thread(target=server.serve_forever, daemon=True).start()
            yield path, errors
            server.shutdown()


def server_of(path, words, errors_file):
    class Handler(socketserver.BaseRequestHandler):
        """A run of the follower over the connection itself."""

        def handle(self):
            stream = self.request.fileno()
            subprocess.run(words, stdin=stream, stdout=stream, stderr=errors_file, check=False)

    return socketserver.ThreadingUnixStreamServer(path, Handler)


# ---- followers


class Connection:
    """A follower of a file, by a socket pair or a listening socket, and what it was asked."""

    def __init__(self, program, file, listener=None):
        with file.lock:
            self.file, self.times_made = file, file.times_made
        self.transcript, self.edition, self.process = [], 0, None
        if listener:
            self.stream = socket.socket(socket.AF_UNIX)
            self.stream.connect(listener)
        else:
            self.stream, other = socket.socketpair()
            words = [program, "serve", "--follow", file.path]
            self.process = subprocess.Popen(words, stdin=other, stdout=other,
                                            stderr=subprocess.PIPE)
            other.close()
        self.stream.settimeout(60)
        self.replies = self.stream.makefile("rb")

    def ask(self, requests, chance):
        """Asks, in pieces cut anywhere, and compares the replies with the editions given before.
        Returns whether all were answered."""
        text = "".join(compact(request) + "\n" for request in requests).encode()
        highest, cut = self.file.highest, chance.randint(0, len(text))
        try:
            for piece in (text[:cut], text[cut:]):
                self.stream.sendall(piece)
        except (BrokenPipeError, ConnectionResetError):
            return False
        return all(self.take(request, highest) for request in requests)

    def take(self, request, highest):
        try:
            line = self.replies.readline()
        except ConnectionResetError:
            return False
        if not line.endswith(b"\n"):
            return False
        reply = json.loads(line)
        if request["op"] == "add_land":
            check(f"an edit is answered {reply}", reply == READ_ONLY)
            return True
        check(f"edition {reply['edition']} of {self.file.path}, after {highest} was given, and "
              f"{self.edition} here", reply["edition"] >= max(highest, self.edition))
        self.edition = reply["edition"]
        self.file.report(self.edition)
        self.transcript.append(f'{{"ask":{compact(request)},"reply":{line[:-1].decode()}}}\n')
        return True

    def close(self, is_killed):
        """Ends the follower, by SIGKILL or by the end of its lines."""
        if self.process and is_killed:
            self.process.kill()
        if not is_killed:
            self.stream.shutdown(socket.SHUT_WR)
            check("more is answered than was asked", self.replies.read() == b"")
        outcome = self.ended()
        check(f"a follower of {self.file.path} ends by {outcome}",
              is_killed or outcome == (0, "") or self.is_replaced(outcome))

    def ended(self):
        """The status of a follower that ends, and what it says."""
        self.replies.close()
        self.stream.close()
        if not self.process:
            return 0, ""
        errors = self.process.communicate()[1].decode()
        return self.process.returncode, errors

    def is_replaced(self, outcome):
        """Returns whether a follower says that its copy was made again, and it was."""
        with self.file.lock:
            return outcome == (1, FOLLOWED_REPLACED) and self.file.times_made > self.times_made

    def gave_up(self):
        """Checks why a follower stopped answering: its copy was made again."""
        outcome = self.ended()
        check(f"a follower of {self.file.path} gives up: {outcome if self.process else 'a socket'}",
              self.is_replaced(outcome))


def query(chance):
    """A query, or an edit now and then."""
    kind, code = chance.random(), f"T{chance.randrange(TOWNS)}"
    reader = {"reader": chance.randint(1, 8)}
    if kind < 0.02:
        return land(chance.randrange(TOWNS))
    if kind < 0.2:
        return {"op": "lands", **reader}
    if kind < 0.5:
        return {"op": "periods", "code": code, **reader}
    if kind < 0.8:
        return {"op": "read", "code": code, "year": chance.randint(1500, 1800), "month": 2,
                "day": 11, **reader}
    if kind < 0.9:
        return {"op": "day", "code": code, "day": chance.randint(500_000, 650_000), **reader}
    return {"op": "written", "code": code, "date": f"March {chance.randint(1500, 1800)}", **reader}


class Follower(threading.Thread):
    """A client of followers of a file, one connection after the other."""

    def __init__(self, program, file, seed, is_over, listener=None):
        super().__init__()
        self.program, self.file, self.listener = program, file, listener
        self.chance, self.is_over, self.connections = random.Random(seed), is_over, []
        self.given_up = 0

    def run(self):
        try:
            self.follow()
        except (OSError, ValueError) as why:
            check(f"a client of {self.file.path} ends by {why!r}", False)

    def follow(self):
        while not self.is_over.is_set():
            connection = self.connect()
            for _ in range(self.chance.randint(1, 150)):
                requests = [query(self.chance) for _ in range(self.chance.randint(1, 4))]
                if not connection.ask(requests, self.chance):
                    connection.gave_up()
                    self.given_up += 1
                    break
                time.sleep(self.chance.uniform(0, 0.02))
            else:
                connection.close(self.chance.random() < 0.5)

    def connect(self):
        self.connections.append(Connection(self.program, self.file, self.listener))
        return self.connections[-1]

    def last_edition(self):
        """The edition of a connection that begins once all is published."""
        connection = self.connect()
        connection.ask([{"op": "lands", "reader": 1}], self.chance)
        connection.close(False)
        return connection.edition


def follow_all(options, folder):
    """Keeps the journal and follows it. Returns the followers, and the number of stops."""
    journal, *files = [FollowedFile(os.path.join(folder, name))
                       for name in ("kept", "copy", "synced")]
    copies, is_over = Copies(journal, files, options.seed), threading.Event()
    with listening(options.program, journal.path, folder) as (listener, errors):
        places = [(journal, None)] * 8 + [(journal, listener)] * 6
        places += [(file, None) for file in files] * 3
        followers = [Follower(options.program, file, options.seed * 1_000 + number, is_over, by)
                     for number, (file, by) in enumerate(places)]
        copying = threading.Thread(target=copies.keep_up)
        for thread in [*followers, copying]:
            thread.start()
        time.sleep(0.3)
        try:
            stops = keep_all(options, journal, copies)
        finally:
            copies.is_over = True
            is_over.set()
            for thread in [copying, *followers]:
                thread.join()
        last = {follower.last_edition() for follower in followers}
        check(f"the followers end at the editions {last}", last == {options.count})
    with open(errors, encoding="utf-8") as file:
        text = file.read()
    check(f"followers of the socket say {text!r}", GONE.fullmatch(text))
    return journal, followers, stops


# What is done to a file after a reply, and what its follower says.
CHANGES = [(lambda path: os.truncate(path, len(HEAD) + 1), FOLLOWED_SHORTER),
           (os.remove, FOLLOWED_REPLACED),
           (lambda path: os.rename(path, path + ".moved"), FOLLOWED_REPLACED),
           (copy_over, FOLLOWED_REPLACED)]


def try_changed(program, folder, change, expected):
    """A follower whose file is changed after a reply."""
    path, lands = os.path.join(folder, "changed"), b'{"op":"lands","reader":1}\n'
    with open(path, "w", encoding="utf-8") as file:
        file.write("".join(line + "\n" for line in (HEAD, compact(land(0)), PUBLISH)))
    with subprocess.Popen([program, "serve", "--follow", path], stdin=subprocess.PIPE,
                          stdout=subprocess.PIPE, stderr=subprocess.PIPE) as follower:
        follower.stdin.write(lands)
        follower.stdin.flush()
        check("a follower is not answered", b'"edition":1' in follower.stdout.readline())
        change(path)
        out, errors = follower.communicate(lands)
    result = follower.returncode, out.decode(), errors.decode()
    check(f"a follower of a changed file: {result}", result == (1, "", expected))


def audited(program, journal, folder, number, connection):
    """How many replies of a connection the audit agrees to."""
    path = os.path.join(folder, f"{number}.transcript")
    with open(path, "w", encoding="utf-8") as file:
        file.writelines(connection.transcript)
    done = run(program, ["audit", journal.path, path])
    count = len(connection.transcript)
    check(f"{count} replies are audited: {done}", done.returncode == 0
          and done.stdout == f"audit: {count} replies agree\n")
    return count


def main():
    line = CommandLine(__doc__)
    line.add_program()
    line.add_count(2_000, "editions, 5,000 at most")
    line.add_seed()
    options = line.read()
    if options.count > 5_000:
        line.error(f"--count: {options.count}: a journal has 5,000 editions at most")
    with tempfile.TemporaryDirectory() as folder:
        journal, followers, stops = follow_all(options, folder)
        lines, rest = journal_lines(journal.path)
        check(f"the journal ends in {rest!r}", rest == "" and lines.count(PUBLISH) == options.count)
        every = [connection for follower in followers for connection in follower.connections]
        with ThreadPoolExecutor(4) as pool:
            counts = list(pool.map(lambda item: audited(options.program, journal, folder, *item),
                                   enumerate(every)))
        for change, expected in CHANGES:
            try_changed(options.program, folder, change, expected)
    given_up = sum(follower.given_up for follower in followers)
    print(f"{stops} stops of the keeper, {len(every)} connections of {len(followers)} followers; "
          f"{given_up} times a copy was made again meanwhile", flush=True)
    return verdict(f"{options.count} editions followed: {sum(counts)} replies agree, and no "
                   "edition falls")


if __name__ == "__main__":
    end(main)
