"""A pool of runs: which run gives which answer, and what happens if one fails."""
from __future__ import annotations

import os
import signal
import threading
import time
from concurrent.futures import ThreadPoolExecutor
from typing import Iterator, List

import pytest

from oldstyle import Pool, ProgramBusy, ProgramEnded, ProgramFailed, ProgramMissing, ProgramSlow
from oldstyle import service

ECHO = ["cat"]
NAMED = ["sh", "-c", "while read line; do echo \"$$ $line\"; done"]


@pytest.fixture
def pools() -> Iterator[List[Pool]]:
    construct: List[Pool] = []
    yield construct
    for pool in construct:
        pool.close()


def process_of(pool: Pool) -> int:
    return int(pool.ask([b"x\n"])[0].split()[0])


def test_replies_come_in_the_order_of_lines(pools: List[Pool]) -> None:
    pools.append(pool := Pool(ECHO, 1, seconds=5))
    lines = [f"{number} {'x' * 50}".encode() for number in range(20_000)]
    assert pool.ask([line + b"\n" for line in lines]) == lines


def test_no_thread_has_the_answer_of_another(pools: List[Pool]) -> None:
    pools.append(pool := Pool(ECHO, 3, seconds=5))

    def ask(number: int) -> bool:
        return pool.ask([b"%d\n" % number, b"%d again\n" % number]) == [b"%d" % number,
                                                                     b"%d again" % number]
    with ThreadPoolExecutor(16) as threads:
        assert all(threads.map(ask, range(1_000)))


def test_a_run_that_was_killed_is_replaced(pools: List[Pool]) -> None:
    pools.append(pool := Pool(NAMED, 1, seconds=5))
    first = process_of(pool)
    os.kill(first, signal.SIGKILL)
    assert process_of(pool) != first


def test_the_opening_is_asked_of_each_new_run(pools: List[Pool]) -> None:
    script = 'read first; echo; while read line; do echo "$first"; done'
    pools.append(pool := Pool(["sh", "-c", script], 1, seconds=5, opening=[b"opened\n"]))
    assert pool.ask([b"x\n"]) == [b"opened"]


def test_a_run_that_ends_is_reported_with_its_standard_error(pools: List[Pool]) -> None:
    pools.append(pool := Pool(["sh", "-c", "echo a reason >&2; exit 1"], 1, seconds=5))
    with pytest.raises(ProgramEnded) as why:
        pool.ask([b"x\n"])
    assert why.value.stderr == "a reason"


def test_a_slow_run_is_asked_no_more(pools: List[Pool]) -> None:
    pools.append(pool := Pool(["sh", "-c", "read x; exec sleep 60"], 1, seconds=0.3))
    began = time.monotonic()
    with pytest.raises(ProgramSlow):
        pool.ask([b"x\n"])
    assert time.monotonic() - began < 5


def test_a_pool_without_an_idle_run_is_busy(pools: List[Pool]) -> None:
    pools.append(pool := Pool(["sleep", "60"], 1, seconds=0.5))
    other = threading.Thread(target=lambda: pytest.raises(ProgramSlow, pool.ask, [b"x\n"]))
    other.start()
    time.sleep(0.2)
    pool._seconds = 0.05
    with pytest.raises(ProgramBusy):
        pool.ask([b"x\n"])
    other.join()


def test_a_program_that_is_missing_gives_its_place_back(pools: List[Pool]) -> None:
    pools.append(pool := Pool(["/none/of/it"], 1, seconds=0.2))
    for _ in range(2):
        with pytest.raises(ProgramMissing):
            pool.ask([b"x\n"])


def test_an_exception_leaves_no_reply_for_the_next_question(
        pools: List[Pool], monkeypatch: pytest.MonkeyPatch) -> None:
    pools.append(pool := Pool(ECHO, 1, seconds=5))
    real = service.Connection._read_block

    def interrupted(connection: service.Connection) -> None:
        raise KeyboardInterrupt
    monkeypatch.setattr(service.Connection, "_read_block", interrupted)
    with pytest.raises(KeyboardInterrupt):
        pool.ask([b"a reply that nobody read\n"])
    monkeypatch.setattr(service.Connection, "_read_block", real)
    assert pool.ask([b"another\n"]) == [b"another"]


def test_a_process_that_is_forked_has_runs_of_its_own(pools: List[Pool]) -> None:
    pools.append(pool := Pool(NAMED, 1, seconds=5))
    first = process_of(pool)
    reading, writing = os.pipe()
    if (child := os.fork()) == 0:
        try:
            os.write(writing, b"%d" % process_of(pool))
            pool.close()
        finally:
            os._exit(0)
    os.waitpid(child, 0)
    assert int(os.read(reading, 100)) != first
    assert process_of(pool) == first


def test_a_run_is_in_a_session_of_its_own(pools: List[Pool]) -> None:
    pools.append(pool := Pool(NAMED, 1, seconds=5))
    assert os.getsid(process_of(pool)) != os.getsid(0)


def test_a_pool_that_is_closed_ends_its_runs(pools: List[Pool]) -> None:
    pools.append(pool := Pool(NAMED, 1, seconds=5))
    process = process_of(pool)
    pool.close()
    with pytest.raises(ProcessLookupError):
        os.kill(process, 0)
    with pytest.raises(ProgramFailed):
        pool.ask([b"x\n"])
