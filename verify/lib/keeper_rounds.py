"""A journal that grows while its keeper is killed and started again at random moments."""
import json
import random
import threading
import time

from lib.checks import check
from lib.common import GREGORIAN, JULIAN, compact
from lib.keeper import PUBLISH, Run, journal_lines, land

TOWNS = 40


def edits_of(chance, towns):
    """The edits of an edition, each of which is taken if there are that many towns."""
    if towns < TOWNS:
        return [land(towns)]
    regimes = [JULIAN, GREGORIAN, {**JULIAN, "style": chance.choice(["pisan", "annunciation"])}]
    return [{"op": "alter_change", "code": f"T{chance.randrange(TOWNS)}", "day": 1,
             **chance.choice(regimes)} for _ in range(chance.randint(1, 3))]


def keep_until_killed(running, chance, journal, editions, count):
    """Publishes editions up to that count, or until the run is killed, which is within some
    milliseconds after a random number of them. Returns how many there are for sure."""
    towns = sum('"add_land"' in line for line in journal_lines(journal.path)[0])
    timer = threading.Timer(chance.uniform(0, 0.02), running.process.kill)
    last = editions + chance.randint(1, 120)
    while editions < count:
        if editions == last:
            timer.start()
        edits = edits_of(chance, towns)
        known = len(running.replies)
        running.send(edits + [json.loads(PUBLISH)])
        running.wait_for(known + len(edits) + 1)
        time.sleep(chance.uniform(0, 0.003))
        new_replies = running.replies[known:]
        check(f"{edits} are answered {new_replies}", all("ok" in reply for reply in new_replies))
        if len(new_replies) <= len(edits):
            break
        editions, towns = editions + 1, min(towns + 1, TOWNS)
        check(f"edition {editions} is answered {new_replies[-1]}",
              new_replies[-1].get("edition") == editions)
        journal.report(editions)
    timer.cancel()
    return editions


def has_front(chance, path):
    """Returns whether the file ends in an unfinished line. Every other time one is left there."""
    with open(path, "rb") as file:
        is_ended = file.read()[-1:] in (b"\n", b"")
    line = compact(land(chance.randrange(1_000)))
    if is_ended and chance.random() < 0.5:
        with open(path, "a", encoding="utf-8") as file:
            file.write(line[:chance.randrange(1, len(line))])
        time.sleep(chance.uniform(0, 0.05))
    return journal_lines(path)[1] != ""


def started(program, path):
    """A run that has cut off what was unfinished and has answered, and the edition."""
    running = Run(program, path)
    running.send([{"op": "lands", "reader": 1}])
    running.wait_for(1)
    return running, running.replies.pop()["edition"]


def keep_all(options, journal, copies):
    """Publishes all editions, by runs that are killed. Returns the number of the killed runs."""
    chance, stops, is_cut = random.Random(options.seed), 0, False
    running, editions = started(options.program, journal.path)
    while True:
        editions = keep_until_killed(running, chance, journal, editions, options.count)
        if editions == options.count:
            running.process.stdin.close()
        else:
            running.process.kill()
        _, errors = running.stopped()
        check(f"a keeper says {errors!r}", ("is cut off" in errors) == is_cut)
        if editions == options.count:
            return stops
        stops += 1
        with copies.lock:
            is_cut = has_front(chance, journal.path)
            copies.append_all()
            running, editions = started(options.program, journal.path)
            if is_cut:
                copies.make_anew()
