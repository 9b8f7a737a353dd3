"""The command and its server: hosts, slow and idle clients, its log, and how it starts and ends."""
from __future__ import annotations

import re
import signal
import subprocess
import threading
import time
from pathlib import Path
from typing import Any, Callable

import pytest
from conftest import COMMAND, SAMPLES, VARIABLES, Served

TABLE = b"place,date\n" + b"GB,11 February 1731\n" * 300_000
POST = b"POST /letters HTTP/1.1\r\nContent-Length: %d\r\n\r\n"


def test_a_page_for_this_machine_answers_no_other_host(served: Callable[..., Served]) -> None:
    one = served()
    expected = {"127.0.0.1:8000": 200, "localhost": 200, "[::1]:80": 200, "127.9.9.9": 200,
                "example.org": 421, "127.0.0.1.example.org": 421, "[x": 421, "": 421}
    assert {host: one.ask(Host=host) for host in expected} == expected


def test_a_page_with_a_name_answers_to_it(served: Callable[..., Served]) -> None:
    one = served("--host", "register.example")
    assert one.ask(Host="register.example") == 200
    assert one.ask(Host="127.0.0.1") == 421
    every = served("--address", "0.0.0.0")
    assert every.ask(Host="example.org") == 200


@pytest.mark.parametrize("count, data", [
    (300, b""), (300, b"GET / HTTP/1.1\r\nX: "), (100, POST % 4_000_000 + b"place,date\n"),
    (9, POST % len(TABLE) + TABLE)], ids=["idle", "slow heads", "slow bodies", "stalled readers"])
def test_the_next_client_is_answered_within_a_second(
        program: str, script: Callable[[str], str], count: int, data: bytes) -> None:
    # (a table comes back as it was sent without delay, so that its reader alone is slow)
    one = Served(script(f'[ "$1" = letters ] && exec cat; exec {program} "$@"'))
    one.ask("/letters", b"place,date\nGB,1731\n")
    connections = [one.connect(data) for _ in range(count)]
    stop = threading.Event()

    def drip() -> None:
        while not stop.wait(0.5):
            for connection in connections[:200]:
                connection.sendall(b"x")
    dripping = threading.Thread(target=drip)
    if 0 < len(data) < 1_000:
        dripping.start()
    time.sleep(1)
    last = time.monotonic() + 120
    while one.ask("/letters", b"place,date\nGB,1731\n") != 200:  # (their tables come first)
        assert time.monotonic() < last
    took = []
    for _ in range(3):
        began = time.monotonic()
        assert one.ask("/?code=GB&date=11+February+1731") == 200
        took.append(time.monotonic() - began)
        assert one.ask("/letters", b"place,date\nGB,1731\n") == 200
    stop.set()
    if dripping.is_alive():
        dripping.join()
    for connection in connections:
        connection.close()
    print(f"{count} clients held: {min(took):.3f} to {max(took):.3f} s")
    assert min(took) < 1
    assert "Traceback" not in one.end()


def test_each_request_has_a_line_and_a_fault_its_traceback(served: Callable[..., Served]) -> None:
    one = served()
    one.ask("/?code=GB")
    one.ask("/nowhere", Host="example.org")
    with one.connect(b"PU\x1b / HTTP/1.0\r\nHost: localhost\r\n\r\n") as connection:
        assert connection.recv(100)
    errors = one.end()
    assert re.search(r'127\.0\.0\.1 - - \[.*\] "GET /\?code=GB HTTP/1\.1" 200 \d+', errors), errors
    assert re.search(r'"GET /nowhere HTTP/1\.1" 421 \d+', errors), errors
    assert '"PU<U+001B> / HTTP/1.0" 405' in errors, errors


@pytest.mark.parametrize("data, status", [
    (b"nonsense\r\n\r\n", "404"), (b"GET /?" + b"x" * 10_000 + b" HTTP/1.1\r\n\r\n", "414"),
    (b"GET / HTTP/1.1\r\nX: " + b"y" * 40_000 + b"\r\n\r\n", "431"),
    (b"GET / HTTP/1.1\r\nHost: example.org\r\n\r\n", "421"),
    ("GET /?code=GB&date=11+février+1650 HTTP/1.1\r\n\r\n".encode(), "400"),
    (b"POST /letters HTTP/1.1\r\n\r\n", "411"), (POST % 99_999_999_999, "413"),
    (b"POST /letters HTTP/1.1\r\nContent-Length: many\r\n\r\n", "400"),
    (b"POST /letters HTTP/1.1\r\nTransfer-Encoding: chunked\r\n\r\n"
     b"13\r\nplace,date\nGB,1731\n\r\n0\r\n\r\n", "200")],
    ids=["no request", "long address", "long head", "other host", "not encoded", "no length",
         "too large", "no number", "chunked"])
def test_broken_requests_have_a_status(served: Callable[..., Served], data: bytes,
                                       status: str) -> None:
    with served().connect(data) as connection:
        assert connection.recv(4096).split(b" ")[1].decode() == status


@pytest.mark.parametrize("number", [signal.SIGTERM, signal.SIGINT, signal.SIGKILL])
def test_it_ends_by_signals_and_leaves_no_run(served: Callable[..., Served], number: int) -> None:
    one = served()
    one.ask("/?code=GB&date=11+February+1731")
    children = Path(f"/proc/{one.process.pid}/task/{one.process.pid}/children")
    below = [int(name) for name in children.read_text().split()]
    errors = one.end(number)
    status = -number if number == signal.SIGKILL else 0
    assert "Traceback" not in errors and one.process.returncode == status
    last = time.monotonic() + 5
    while any(Path(f"/proc/{process}").exists() for process in below):
        assert time.monotonic() < last


def test_ctrl_c_while_the_journal_is_loaded(script: Callable[[str], str]) -> None:
    process = subprocess.Popen([*COMMAND, SAMPLES, "--program", script("exec sleep 60")], text=True,
                               env=VARIABLES, stderr=subprocess.PIPE)
    time.sleep(3)
    process.send_signal(signal.SIGINT)
    assert process.communicate(timeout=20)[1] == "" and process.returncode == 130


@pytest.mark.parametrize("words, expected", [
    ([SAMPLES, "--address", ""], "--address: name an address"),
    ([SAMPLES, "--port", "x"], "--port: x is not a whole number from 0 to 65535"),
    ([SAMPLES, "--port", "70000"], "--port: 70000 is not a whole number"),
    ([SAMPLES, "--connections", "1"], "--connections: 1 is not a whole number"),
    ([SAMPLES, "--max-upload", "0"], "--max-upload: 0 is not a whole number"),
    (["none.journal"], "none.journal: no such file"), ([], "JOURNAL"),
    ([SAMPLES, "--program", "/none"], "/none is not a program")])
def test_wrong_arguments_are_reported_in_a_line_or_two(words: list[str], expected: str) -> None:
    done: Any = subprocess.run([*COMMAND, *words], env={**VARIABLES, "OLDSTYLE": "/bin/true"},
                               capture_output=True, text=True, check=False)
    assert done.returncode and expected in done.stderr and "Traceback" not in done.stderr


def test_a_port_in_use_and_a_broken_journal_are_reported(served: Callable[..., Served],
                                                         program: str) -> None:
    for words, expected in (([SAMPLES, "--port", str(served().port)], "is in use: name another"),
                            ([__file__], "the program doesn't load it: journal line 1")):
        done = subprocess.run([*COMMAND, *words, "--program", program], env=VARIABLES, text=True,
                              capture_output=True, check=False, timeout=60)
        assert done.returncode == 1 and expected in done.stderr


def test_a_large_table_takes_bounded_memory(program: str, script: Callable[[str], str]) -> None:
    one = Served(script(f'[ "$1" = letters ] && exec cat; exec {program} "$@"'))
    status = Path(f"/proc/{one.process.pid}/status")

    def peak() -> int:
        return int(re.findall(r"VmHWM:\s+(\d+) kB", status.read_text())[0]) * 1024
    one.ask("/letters", b"place,date\nGB,1731\n")
    before, table = peak(), b"place,date\n" + b"GB,11 February 1731\n" * 2_500_000
    assert one.ask("/letters", table) == 200
    print(f"{len(table)} bytes took {peak() - before}")
    assert peak() - before < 16 * 1024 * 1024
    one.end()
