"""What the tests share: the program, if there is one, stand-ins for it, and the page over both."""
from __future__ import annotations

import http.client
import json
import os
import re
import shutil
import signal
import socket
import subprocess
import sys
from pathlib import Path
from typing import Any, Callable, Iterator

import pytest

from oldstyle_web.application import create_app
from oldstyle_web.context import Page
from oldstyle_web.register import Asking, Register
from oldstyle_web.settings import Settings

TOP = Path(__file__).resolve().parents[3]
SAMPLES = str(TOP / "examples" / "samples.journal")
BUILT = TOP / "crates" / "oldstyle" / "out" / "oldstyle"
VARIABLES = {**os.environ, "PYTHONPATH": os.pathsep.join(sys.path)}
COMMAND = [sys.executable, "-m", "oldstyle_web"]
# (a shell has its background jobs ignore Ctrl-C, and what they start would too)
signal.signal(signal.SIGINT, signal.default_int_handler)


class Served:
    """A run of the command on a port of its own."""

    def __init__(self, program: str, *words: str):
        self.process = subprocess.Popen(
            [*COMMAND, SAMPLES, "--program", program, "--port", "0", *words], env=VARIABLES,
            text=True, stdout=subprocess.PIPE, stderr=subprocess.PIPE)
        assert self.process.stdout
        self.first_line = self.process.stdout.readline()
        match = re.search(r"http://(.*):(\d+)/", self.first_line)
        assert match, self.process.communicate()
        self.host, self.port = match[1].strip("[]"), int(match[2])

    def connect(self, data: bytes = b"") -> socket.socket:
        connection = socket.create_connection((self.host, self.port), 30)
        connection.setsockopt(socket.SOL_SOCKET, socket.SO_RCVBUF, 4096)
        connection.sendall(data)
        return connection

    def ask(self, path: str = "/", body: bytes | None = None, **headers: str) -> int:
        """The status of a reply."""
        connection = http.client.HTTPConnection(self.host, self.port, timeout=30)
        connection.request("GET" if body is None else "POST", path, body, headers)
        reply = connection.getresponse()
        reply.read()
        connection.close()
        return reply.status

    def end(self, number: int = signal.SIGTERM) -> str:
        """What it printed on standard error until it ended."""
        self.process.send_signal(number)
        return self.process.communicate(timeout=20)[1]


@pytest.fixture(scope="session")
def program() -> str:
    """The program, which OLDSTYLE names, or which is built here or on the PATH."""
    named = os.environ.get("OLDSTYLE") or (str(BUILT) if BUILT.exists() else "oldstyle")
    if (found := shutil.which(named)) is None:
        pytest.skip("it requires the program: let OLDSTYLE name it")
    return os.path.abspath(found)


@pytest.fixture
def script(tmp_path: Path) -> Callable[[str], str]:
    """Makes a stand-in for the program, which is a script of the shell."""
    def make(text: str) -> str:
        path = tmp_path / "program"
        path.write_text(f"#!/bin/sh\n{text}\n")
        path.chmod(0o755)
        return str(path)
    return make


@pytest.fixture
def journal_of(program: str, tmp_path: Path) -> Callable[..., str]:
    """Makes a journal of one edition."""
    def make(*edits: dict[str, Any]) -> str:
        path = str(tmp_path / "made.journal")
        lines = "".join(json.dumps(line) + "\n" for line in (*edits, {"op": "publish"}))
        subprocess.run([program, "serve", "--save", path], input=lines, text=True, check=True,
                       capture_output=True)
        return path
    return make


@pytest.fixture
def page_of() -> Iterator[Callable[..., Page]]:
    """Makes the page over a program, and ends its runs."""
    pages = []

    def make(program: str, journal: str = SAMPLES, **settings: Any) -> Page:
        pages.append(create_app(Settings(journal, program, **settings)))
        return pages[-1]
    yield make
    for page in pages:
        page.close()


@pytest.fixture(scope="session")
def page(program: str) -> Iterator[Page]:
    """The page over the samples."""
    made = create_app(Settings(SAMPLES, program))
    yield made
    made.close()


@pytest.fixture(scope="module")
def asking(program: str) -> Iterator[Asking]:
    """Asks the program about the samples."""
    register = Register(Settings(SAMPLES, program))
    yield Asking(register)
    register.close()


@pytest.fixture
def client(page: Page) -> Any:
    """Asks the page over the samples."""
    return page.test_client()


@pytest.fixture
def served(program: str) -> Iterator[Callable[..., Served]]:
    runs: list[Served] = []

    def start(*words: str) -> Served:
        runs.append(Served(program, *words))
        return runs[-1]
    yield start
    for run in runs:
        if run.process.poll() is None:
            run.end(signal.SIGKILL)
