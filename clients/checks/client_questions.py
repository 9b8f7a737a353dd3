#!/usr/bin/env python3
"""Checks the Python client: no question gets another's answer, or is lost without an exception.

Registers are asked across forks, by pools of processes, from threads, while exceptions of signal
handlers and time limits cut their questions, and while another thread closes them. The program is a
stand-in that this script writes, which says what it was asked, or the one of --program. Each
reading must be that of its own question, or an exception of the package. It imports nothing except
the package and the standard library, so any Python from 3.9 on runs it. Prints what fails.
"""
import argparse
import concurrent.futures
import contextlib
import itertools
import multiprocessing
import os
import signal
import subprocess
import sys
import tempfile
import threading
import time

TOP = os.path.abspath(os.path.join(os.path.dirname(__file__), "..", ".."))
sys.path.insert(0, os.path.join(TOP, "clients", "python", "src"))

import oldstyle

JOURNAL = os.path.join(TOP, "examples", "samples.journal")
STAND_IN = '''#!{python} -SE
import json, sys, time
land = {{"code": "GB", "name": "Great Britain", "newer": 1}}
period = {{"calendar": "julian", "first": 1, "last": 9, "rule": "julian", "style": "january",
          "newer": [1]}}
day = {{"day": 1, "dual": "d", "gregorian": "0001-01-01", "jdn": 1721426, "julian": "j",
       "label": "l", "weekday": "Monday", "newer": None}}
for line in sys.stdin:
    asked = json.loads(line)
    answer = {{"lands": [land], "periods": [period]}}
    if asked["op"] == "written":
        text = asked["date"]
        if text == "hang":
            time.sleep(1000)
        if text == "end":
            sys.exit(1)
        days = [{{"first": day, "last": day, "newer": 1}}] * (text == "day")
        answer = {{"kind": "none", "runs": days, "reason": text, "approximate": False,
                  "supplied": False, "uncertain": False, "other_calendar": False, "weekday": None,
                  "newer": 1}}
    print(json.dumps({{"answer": answer, "edition": 1, "newer": 1, "reader": 1}}), flush=True)
'''
REGISTERS = []
failures = []


class Limit(Exception):
    """A time limit, which a signal handler raises."""


def text_of(number):
    """One of 9,300 dates, each of another day."""
    return f"{number % 31 + 1} May {1500 + number // 31 % 300}"


def is_own(reading, number):
    """Returns whether the reading is that of the question: the stand-in repeats it, the program
    gives its day."""
    text = text_of(number)
    if reading.day is None:
        return reading.reason == text
    day, _, year = text.split()
    return reading.day.label == f"{year}-05-{int(day):02}"


def check(what, is_true):
    if not is_true:
        failures.append(what)
        print(f"doesn't hold: {what}", flush=True)


def ask(number):
    """Asks the register of the module, as a function of a pool does."""
    return is_own(REGISTERS[0].read("GB", text_of(number)), number)


def ask_in_frames(number):
    readings = REGISTERS[0].read_many(("GB", text_of(number + i)) for i in range(30))
    return all(is_own(reading, number + i) for i, reading in enumerate(readings))


@contextlib.contextmanager
def opened(program, **words):
    with oldstyle.Register(JOURNAL, program=program, **words) as register:
        REGISTERS[:] = [register]
        yield register


def forks(program, count):
    """Pools of processes that were forked from one that had a register."""
    context = multiprocessing.get_context("fork")
    for function in (ask, ask_in_frames):
        with opened(program) as register:
            check("before a fork", ask(1))
            with concurrent.futures.ProcessPoolExecutor(4, mp_context=context) as pool:
                answers = list(pool.map(function, range(count)))
            check(f"{function.__name__} in a pool: {answers.count(True)} of {count}", all(answers))
            with context.Pool(4) as pool:
                results = pool.map_async(function, range(count), chunksize=1)
                own = [is_own(register.read("GB", text_of(number)), number)
                       for number in range(count)]
                answers = results.get(60)
            check(f"{function.__name__} beside its parent: {answers.count(True)}", all(answers))
            check(f"the parent: {own.count(True)} of {count}", all(own))
            check("after the pools", ask(2))


def in_child(work):
    """What a function in a forked process reports, or `silence`."""
    reader, writer = os.pipe()
    if (child := os.fork()) == 0:
        try:
            message = str(work())
        except BaseException as why:
            message = f"{type(why).__name__}: {why}"
        os.write(writer, message.encode())
        os._exit(0)
    os.close(writer)
    os.set_blocking(reader, True)
    ready = threading.Timer(20, os.kill, (child, signal.SIGKILL))
    ready.start()
    message = os.read(reader, 4096).decode() or "silence"
    ready.cancel()
    os.close(reader)
    os.waitpid(child, 0)
    return message


def one_fork(program, folder):
    """A fork amid a question of another thread, amid rows, after a change of folder, and at the
    end of a register."""
    with opened(program) as register:
        rows = register.read_many((("GB", text_of(number)) for number in range(5000)), ahead=100)
        next(rows)
        message = in_child(lambda: [next(rows) for _ in range(200)])
        check(f"rows of the parent in a child: {message}", message.startswith("ProgramEnded"))
        check("the same rows in the parent", all(is_own(reading, number)
                                                 for number, reading in enumerate(rows, 1)))
        is_over = threading.Event()
        asking = [threading.Thread(target=ask_until, args=(is_over, register)) for _ in range(3)]
        for thread in asking:
            thread.start()
        message = [in_child(lambda: all(map(ask, range(20)))) for _ in range(20)]
        is_over.set()
        for thread in asking:
            thread.join()
        check(f"forks beside threads: {message}", message == ["True"] * 20)
        message = in_child(lambda: (register.close(), "closed")[1])
        check(f"closed in a child: {message}", message == "closed" and ask(3))
        message = in_child(lambda: (os.chdir("/"), ask(4))[1])
        check(f"in another folder: {message}", message == "True")
    message = in_child(lambda: ask(5))
    check(f"a closed register in a child: {message}", "closed" in message)
    path = os.path.relpath(JOURNAL, os.getcwd())
    with oldstyle.Register(path, program=program) as register:
        message = in_child(lambda: (os.chdir(folder), register.read("GB", text_of(6)).code)[1])
        check(f"a relative path in another folder: {message}", message == "GB")
    register = oldstyle.Register(JOURNAL, program=program)
    if (child := os.fork()) == 0:
        time.sleep(30)
        os._exit(0)
    begun = time.monotonic()
    register.close()
    took = time.monotonic() - begun
    check(f"closing beside a child that holds the pipes took {took:.1f} s", took < 5)
    os.kill(child, signal.SIGKILL)
    os.waitpid(child, 0)


def ask_until(is_over, register):
    for number in itertools.count():
        if is_over.is_set():
            return
        if not is_own(register.read("GB", text_of(number)), number):
            check("a thread beside forks", False)
            return


def raise_limit(*_):
    raise Limit


def readings_of(register, is_one_by_one):
    """A thousand questions, one by one or as rows."""
    if is_one_by_one:
        return ((number, register.read("GB", text_of(number))) for number in range(1000))
    rows = (("GB", text_of(number)) for number in range(1000))
    return enumerate(register.read_many(rows, ahead=400))


def cut(program, seconds, pause, is_one_by_one):
    """Questions that exceptions of a signal handler cut, in the main thread, beside a thread."""
    right = wrong = cuts = 0
    beside = []
    is_over = threading.Event()
    with opened(program) as register:
        thread = threading.Thread(target=ask_beside, args=(is_over, register, beside), daemon=True)
        thread.start()
        signal.signal(signal.SIGALRM, raise_limit)
        until = time.monotonic() + seconds
        while time.monotonic() < until:
            try:
                signal.setitimer(signal.ITIMER_REAL, pause * (1 + cuts % 7))
                for number, reading in readings_of(register, is_one_by_one):
                    right += is_own(reading, number)
                    wrong += not is_own(reading, number)
                signal.setitimer(signal.ITIMER_REAL, 0)
            except Limit:
                cuts += 1
        is_over.set()
        thread.join(20)
        check("a thread beside interruptions hangs", not thread.is_alive())
        check("after interruptions", ask(7))
    kind = "questions" if is_one_by_one else "rows"
    what = (f"{kind} with {cuts} interruptions: {right} right, {wrong} wrong; beside them "
            f"{beside.count(True)} right, {beside.count(False)} wrong")
    print(what, flush=True)
    check(what, cuts and right and not wrong and False not in beside)


def ask_beside(is_over, register, beside):
    """Asks until it is over. What an interruption of the main thread cut is asked again."""
    number = 0
    while not is_over.is_set():
        number += 1
        with contextlib.suppress(oldstyle.ProgramEnded):
            beside.append(is_own(register.read("GB", text_of(number)), number))


def interrupted(program):
    """Ctrl-C in a terminal, which every process of the group gets, and kill -INT."""
    code = f"""
import os, signal, sys
sys.path.insert(0, {os.path.join(TOP, "clients", "python", "src")!r})
import oldstyle
register = oldstyle.Register({JOURNAL!r}, program={program!r})
for send in (os.killpg, os.kill) * 20:
    try:
        for number, _ in enumerate(register.read_many(("GB", "1640") for _ in range(10_000))):
            if number == 700:
                send(os.getpgid(0) if send is os.killpg else os.getpid(), signal.SIGINT)
        print("not interrupted")
    except KeyboardInterrupt:
        print(register.read("GB", "1641").date)
"""
    done = subprocess.run([sys.executable, "-c", code], capture_output=True, text=True,
                          start_new_session=True, timeout=120, check=False)
    check(f"Ctrl-C: {done.stdout} {done.stderr}", done.stdout == "1641\n" * 40)


def closing(program, has_hang):
    """A register that is closed while threads ask it."""
    for _ in range(20):
        register = oldstyle.Register(JOURNAL, program=program)
        raised, wrong = [], []
        threads = [threading.Thread(target=ask_to_end, args=(register, raised, wrong))
                   for _ in range(8)]
        for thread in threads:
            thread.start()
        time.sleep(0.02)
        register.close()
        for thread in threads:
            thread.join(10)
        check(f"threads of a closed register: {raised} {wrong}",
              not wrong and len(raised) == 8 and all("closed" in why for why in raised))
    if not has_hang:
        return
    register = oldstyle.Register(JOURNAL, program=program)
    raised = []
    thread = threading.Thread(target=ask_to_end, args=(register, raised, [], "hang"))
    thread.start()
    time.sleep(0.2)
    begun = time.monotonic()
    register.close()
    thread.join(10)
    took = time.monotonic() - begun
    check(f"a program that hangs is closed in {took:.1f} s: {raised}",
          took < 5 and len(raised) == 1 and "closed" in raised[0])


def ask_to_end(register, raised, wrong, text=None):
    """Asks until the register refuses to be asked."""
    for number in itertools.count():
        try:
            reading = register.read("GB", text or text_of(number))
            if not is_own(reading, number):
                wrong.append(reading)
        except oldstyle.ProgramEnded as why:
            raised.append(str(why))
            return
        except BaseException as why:
            wrong.append(why)
            return


def newer(program):
    """A program whose answers have more members, and one that ends."""
    with opened(program) as register:
        check("a newer territory", register.lands() == [oldstyle.Land("GB", "Great Britain")])
        check("a newer period", register.periods("GB")[0].source is None)
        day = register.read("GB", "day").day
        check(f"a newer day: {day}", day is not None and "newer" not in vars(day))
        for _ in range(2):
            why = None
            try:
                register.read("GB", "end")
            except oldstyle.ProgramEnded as raised:
                why = raised
            check(f"a program that ended: {why!r}", "status 1" in str(why))


def main():
    line = argparse.ArgumentParser(description=__doc__)
    line.add_argument("--program", help="the program; by default a stand-in")
    line.add_argument("--count", type=int, default=200, help="questions of a pool")
    line.add_argument("--seconds", type=float, default=4, help="seconds of interruptions")
    options = line.parse_args()
    with tempfile.TemporaryDirectory() as folder:
        program = options.program
        if program is None:
            program = os.path.join(folder, "stand_in")
            with open(program, "w", encoding="utf-8") as file:
                file.write(STAND_IN.format(python=os.path.realpath(sys.executable)))
            os.chmod(program, 0o755)
            newer(program)
        forks(program, options.count)
        one_fork(program, folder)
        interrupted(program)
        closing(program, options.program is None)
        for is_one_by_one in (True, False):
            for pause in (0.004, 0.03):
                cut(program, options.seconds, pause, is_one_by_one)
    print(f"Python {sys.version.split()[0]}: {len(failures)} failed")
    return 1 if failures else 0


if __name__ == "__main__":
    sys.exit(main())
