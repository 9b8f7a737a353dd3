#!/usr/bin/env python3
"""Has 200 readers ask the page for a minute, while a keeper publishes editions.

A run of `serve --keep` adds territories and moves a change, and publishes now and then. Meanwhile
each reader asks for dates, months, places and years, without a pause or with that of `--pause`. No
request may be refused or fail, no reader may be given an earlier edition than before, nor one that
is not published yet, and each answer of a typed date is compared with what a register with the
edits up to its edition answers. At the end the page is ended by a signal: no process may be left. Under gunicorn a worker
is killed before that, and all are started again.
"""
import http.client
import json
import os
import random
import shutil
import signal
import subprocess
import tempfile
import threading
import time
from urllib.parse import urlencode

from shared import SAMPLES, CommandLine, compact, end, need
from web_runs import Page, below, left_after, process_table

DATES = ["11 February 1731", "5 September 1752", "3 September 1752", "1731-02-11", "14 March 1731",
         "1 January 1700", "30 February 1712", "24 March 1731/2"]
CODES = ["GB", "SE", "RU", "MV"]
PAGES = ["/?code=GB&date=11+February+1731", "/month?code=GB&year=1752&month=9",
         "/place?code=SE", "/year?code=GB&year=1752", "/", "/?code=GB&date=3-10+May+1640"]
OPENING = {"calendar": "julian", "style": "january", "rule": "julian"}
FIRST = 5


class Keeper(threading.Thread):
    """Publishes editions, each of one edit or two, and knows which are out."""

    def __init__(self, program, journal, pause):
        super().__init__()
        self.process = subprocess.Popen([program, "serve", "--keep", journal], text=True,
                                        stdin=subprocess.PIPE, stdout=subprocess.PIPE)
        self.edition, self.stopped, self.pause = FIRST, False, pause

    def ask(self, request):
        self.process.stdin.write(compact(request) + "\n")
        self.process.stdin.flush()
        return json.loads(self.process.stdout.readline())

    def run(self):
        """Adds a territory, and then moves its change from edition to edition."""
        self.ask({"op": "add_land", "code": "MV", "name": "Moved", **OPENING})
        day = 600_000
        self.ask({"op": "add_change", "code": "MV", "day": day, "calendar": "gregorian",
                  "style": "january", "rule": "gregorian"})
        while not self.stopped:
            self.edition = self.ask({"op": "publish"})["edition"]
            time.sleep(self.pause)
            self.ask({"op": "drop_change", "code": "MV", "day": day})
            day += 1_000
            self.ask({"op": "add_change", "code": "MV", "day": day, "calendar": "gregorian",
                      "style": "january", "rule": "gregorian"})

    def stop(self):
        self.stopped = True
        self.join()
        self.process.communicate()


class Reader(threading.Thread):
    """Asks on one connection, and notes what it was given and how long each page took at most."""

    def __init__(self, page, keeper, until, pause, seed):
        super().__init__()
        self.page, self.keeper, self.until, self.pause = page, keeper, until, pause
        self.chance, self.edition = random.Random(seed), 0
        self.seen, self.wrong, self.times = {}, [], {}
        self.connection = None

    def run(self):
        time.sleep(self.chance.random() * self.pause)
        while time.monotonic() < self.until:
            try:
                self.ask()
            except (OSError, http.client.HTTPException) as why:
                self.wrong.append(f"no reply: {why!r}")
            time.sleep(self.pause)
        self.connection.close()

    def ask(self):
        """One request, of a typed date in most cases."""
        began, typed = time.monotonic(), self.chance.random() < 0.7
        words = {"code": self.chance.choice(CODES), "date": self.chance.choice(DATES)}
        if words["code"] == "MV" and self.keeper.edition <= FIRST:
            words["code"] = "GB"
        path = f"/answer.json?{urlencode(words)}" if typed else self.chance.choice(PAGES)
        if self.connection is None:
            self.connection = http.client.HTTPConnection(self.page.host, self.page.port, timeout=60)
        least = self.keeper.edition
        self.connection.request("GET", path)
        reply = self.connection.getresponse()
        body = reply.read()
        self.times.setdefault(path.partition("?")[0], []).append(time.monotonic() - began)
        if reply.status != 200:
            self.wrong.append(f"{path}: status {reply.status} {body[:200]}")
        elif typed:
            self.take(words, json.loads(body), least)
        else:
            self.look(path, int(reply.getheader("ETag").strip('"').split("-")[0]), least)

    def look(self, path, edition, least):
        if edition < max(self.edition, least) or edition > self.keeper.edition + 1:
            self.wrong.append(f"{path}: edition {edition} after {self.edition}, and {least} out")
        self.edition = max(self.edition, edition)

    def take(self, words, answer, least):
        """Notes an answer, by its edition and its question."""
        self.look(words, answer["edition"], least)
        key = answer["edition"], words["code"], words["date"]
        if self.seen.setdefault(key, answer["written"]) != answer["written"]:
            self.wrong.append(f"{key}: two answers")


def stay(page):
    """The processes that stay after a worker is killed, and after all workers are started again."""
    worker = next(process for process, (parent, *_) in process_table().items()
                  if parent == page.process.pid)
    its_own = below(worker)
    os.kill(worker, signal.SIGKILL)
    left = left_after(its_own)
    before = page.children()
    page.process.send_signal(signal.SIGHUP)
    left += left_after(before, 40)
    status = page.get(PAGES[0])[0]
    return left if status == 200 else [*left, f"status {status}"]


def differing(program, journal, seen):
    """The answers that differ from those of the journal up to their edition."""
    with open(journal, encoding="utf-8") as file:
        lines = file.read().splitlines()[1:]
    edition, by_edition, requests = 0, {}, []
    for key in seen:
        by_edition.setdefault(key[0], []).append(key)
    for line in lines:
        requests.append(line)
        if json.loads(line)["op"] == "publish":
            edition += 1
            requests += [compact({"op": "written", "reader": 1, "code": code, "date": date})
                         for _, code, date in by_edition.get(edition, [])]
    done = subprocess.run([program, "serve"], input="\n".join(requests) + "\n", check=True,
                          capture_output=True, text=True)
    answers = iter([reply["answer"] for reply in map(json.loads, done.stdout.splitlines())
                    if "answer" in reply])
    keys = [key for number in sorted(by_edition) if number <= edition for key in by_edition[number]]
    return [key for key, answer in zip(keys, answers, strict=True) if seen[key] != answer]


def main():
    line = CommandLine(__doc__)
    line.add_program()
    line.add_number("--readers", 200, "concurrent readers")
    line.add_number("--seconds", 60, "how long they ask")
    line.add_number("--workers", 0, "workers of gunicorn; 0 has the page serve itself", 0)
    line.add_number("--editions", 4, "editions a second")
    line.add_number("--pause", 0, "seconds that a reader waits after a reply", 0)
    options = line.read()
    if options.workers:
        need("gunicorn", "the Debian package gunicorn")
    with tempfile.TemporaryDirectory() as folder:
        journal = os.path.join(folder, "kept.journal")
        saved = [options.program, "serve", "--journal", SAMPLES, "--save", journal]
        shutil.copy(SAMPLES, journal)
        subprocess.run(saved, input="", text=True, check=True, capture_output=True)
        return with_readers(options, journal)


def with_readers(options, journal):
    """Makes the readers ask, and prints what they were given."""
    page = Page(options.program, journal, workers=options.workers, threads=64)
    keeper = Keeper(options.program, journal, 1 / options.editions)
    keeper.start()
    until = time.monotonic() + options.seconds
    readers = [Reader(page, keeper, until, options.pause, seed)
               for seed in range(options.readers)]
    for reader in readers:
        reader.start()
    for reader in readers:
        reader.join()
    keeper.stop()
    left = stay(page) if options.workers else []
    more, errors = page.stop()
    left += more
    wrong = [one for reader in readers for one in reader.wrong]
    seen = {}
    for reader in readers:
        for key, answer in reader.seen.items():
            if seen.setdefault(key, answer) != answer:
                wrong.append(f"{key}: two answers")
    wrong += [f"{key}: another answer than the program's"
              for key in differing(options.program, journal, seen)]
    for one in [*wrong[:10], *(errors.splitlines()[:10] if wrong else [])]:
        print(one)
    print(f"{options.readers} readers asked {print_times(readers)} times in {options.seconds} s "
          f"while editions {FIRST} to {keeper.edition} came: {len(wrong)} refused or wrong, "
          f"{len(seen)} answers held, {len(left)} processes left")
    return 1 if wrong or left or not seen else 0


def print_times(readers):
    """Prints for each page how long its replies took. Returns how many there are in all."""
    times = {}
    for reader in readers:
        for path, some in reader.times.items():
            times.setdefault(path, []).extend(some)
    for path, some in sorted(times.items()):
        some.sort()
        print(f"{path}: {len(some)} replies, half of them within {some[len(some) // 2]:.2f} s, "
              f"99 of 100 within {some[len(some) * 99 // 100]:.2f} s, all within {some[-1]:.2f} s")
    return sum(map(len, times.values()))


if __name__ == "__main__":
    end(main)
