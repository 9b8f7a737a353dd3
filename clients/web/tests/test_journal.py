"""The page while its journal is published, cut or removed, and while its runs are killed."""
from __future__ import annotations

import json
import os
import shutil
import signal
import subprocess
import time
from pathlib import Path
from typing import Any, Callable

import pytest
from conftest import SAMPLES, Served

from oldstyle_web.context import Page

VENICE = {"op": "add_land", "code": "VE", "name": "Venice", "calendar": "julian",
          "style": "january", "rule": "julian"}
ASKED = "/answer.json?code=VE&date=1731-02-11"
TABLE = b"place,date\nVE,1731-02-11\n"


@pytest.fixture
def kept(tmp_path: Path) -> Path:
    return Path(shutil.copy(SAMPLES, tmp_path / "kept.journal"))


@pytest.fixture
def asked(page_of: Callable[..., Page], program: str, kept: Path) -> Any:
    """Asks a page that has been asked before its journal gets an edition with Venice."""
    client = page_of(program, str(kept)).test_client()
    assert client.get(ASKED).status_code == 404
    subprocess.run([program, "serve", "--journal", kept, "--save", kept], check=True, text=True,
                   input=f'{json.dumps(VENICE)}\n{{"op":"publish"}}\n', capture_output=True)
    return client


def test_an_edition_that_comes_is_seen(asked: Any) -> None:
    assert asked.get(ASKED).json["edition"] == 6


def test_a_line_that_is_not_finished_is_waited_for(asked: Any, kept: Path) -> None:
    with kept.open("a", encoding="utf-8") as file:
        file.write('{"op":"pub')
    assert asked.get(ASKED).status_code == 200


@pytest.mark.parametrize("left", [None, 400, 0, -1])
def test_a_journal_that_is_gone_cut_or_broken_is_reported_until_it_is_back(
        asked: Any, kept: Path, left: int | None) -> None:
    whole = kept.read_bytes()
    assert asked.get(ASKED).status_code == 200
    kept.unlink()
    if left is not None:
        kept.write_bytes(whole[:left] if left >= 0 else b"broken\n")
    assert asked.get(ASKED).status_code == 503
    reply = asked.post("/letters", data=TABLE, content_type="text/csv", buffered=True)
    # (a journal of whole lines is read by `letters`, which follows none)
    assert reply.status_code == 503 and b"/" not in reply.data or \
        left == 400 and b"UnknownLand" in reply.data
    kept.unlink(missing_ok=True)
    kept.write_bytes(whole)
    assert asked.get(ASKED).json["edition"] == 6


def runs_of(one: Served) -> list[int]:
    """The runs of the program that a page has, each of which any thread may have started."""
    folder = Path(f"/proc/{one.process.pid}/task")
    return [int(name) for path in folder.glob("*/children") for name in path.read_text().split()]


def test_runs_that_are_killed_are_replaced(served: Callable[..., Served]) -> None:
    one = served()
    for _ in range(20):
        for process in runs_of(one):
            os.kill(process, signal.SIGKILL)
        assert one.ask("/?code=GB&date=3-10+May+1640") == 200
    assert len(runs_of(one)) <= 3


def test_readers_that_go_away_leave_no_run(served: Callable[..., Served]) -> None:
    one, table = served(), b"place,date\n" + b"GB,11 February 1731\n" * 20_000
    assert one.ask("/letters", b"place,date\nGB,1731\n") == 200
    before = set(runs_of(one))
    for _ in range(5):
        head = b"POST /letters HTTP/1.1\r\nContent-Length: %d\r\n\r\n" % len(table)
        one.connect(head + table).close()
    last = time.monotonic() + 60
    while not set(runs_of(one)) <= before:
        assert time.monotonic() < last
        time.sleep(0.1)
    assert one.ask("/letters", b"place,date\nGB,1731\n") == 200
