"""A running program that is asked by lines: it is written to while its replies are read."""
from __future__ import annotations

import collections
import itertools
import os
import select
import shutil
import signal
import subprocess
import threading
import time
import weakref
from typing import (IO, Callable, Deque, Iterable, Iterator, List, Optional, Sequence, Tuple,
                    TypeVar)

from .faults import (JournalRefused, ProgramDiffers, ProgramEnded, ProgramFailed,
                     ProgramMissing, ProgramSlow)

Row = TypeVar("Row")
BLOCK = 1 << 16
EXIT_SECONDS = 2
# Milliseconds for which a thread keeps the others from the program while it waits for a reply.
LONGEST_POLL = 100
HOW_TO_FIND = ("install oldstyle, or name the program: program= in Python, --program of a command, "
               "or the environment variable OLDSTYLE")
STATUS_OF_ARGUMENTS = 2


class Batch:
    """Lines that were sent together: how many they are, and the replies that have come so far."""

    __slots__ = ("count", "replies")

    def __init__(self, count: int) -> None:
        self.count = count
        self.replies: List[bytes] = []


def program_at(named: Optional[str]) -> str:
    """The program that is named, otherwise that of the variable OLDSTYLE, otherwise of the PATH."""
    path = named or os.environ.get("OLDSTYLE") or "oldstyle"
    if found := shutil.which(path):
        return absolute(found)
    where = "is not on the PATH" if os.path.basename(path) == path else "is not a program"
    raise ProgramMissing(f"{path} {where}: {HOW_TO_FIND}")


def absolute(path: str) -> str:
    """The absolute path, since a program may be started again after the folder has changed."""
    return path if os.path.isabs(path) else os.path.join(os.getcwd(), path)


class Service:
    """The program with its words, which several threads may ask.

    It is started again for the next question in a process that was forked since, and after an
    exception amid a question, such as one that a signal raised or that the time was up.
    """

    def __init__(self, command: Sequence[str], timeout: Optional[float] = None):
        self._command = command
        self._timeout = timeout
        self._is_closed = False
        self._connection = Connection(command)

    def close(self) -> None:
        """Ends the program. Threads that wait for a reply get a `ProgramEnded`."""
        self._is_closed = True
        self._connection.close()

    def ask(self, line: bytes) -> bytes:
        """The reply to a line."""
        return self._current().ask([line], self._last())[0]

    def ask_many(self, rows: Iterable[Row], line_of: Callable[[Row], bytes],
                 ahead: int) -> Iterator[Tuple[Row, bytes]]:
        """Each row with the reply to its line, in order. At most `ahead` rows wait for replies.

        They go in halves, so that the program answers one half while the other is taken.
        """
        connection = self._current()
        rows = iter(rows)
        half = max(1, ahead // 2)
        waiting: Deque[Tuple[List[Row], Batch]] = collections.deque()
        failed, is_over = None, False
        while not is_over:
            chunk: List[Row] = []
            lines: List[bytes] = []
            try:
                for row in itertools.islice(rows, half):
                    lines.append(line_of(row))
                    chunk.append(row)
            except Exception as why:  # the caller's own rows failed: those before have replies
                failed = why
            waiting.append((chunk, connection.send(lines[: len(chunk)])))
            is_over = len(chunk) < half
            while len(waiting) > (1 if ahead > half and not is_over else 0):
                chunk, batch = waiting.popleft()
                yield from zip(chunk, self._replies(connection, batch))
        if failed is not None:
            raise failed

    def _replies(self, connection: "Connection", batch: Batch) -> Iterator[bytes]:
        """The replies of a batch, as they come."""
        start = 0
        while start < batch.count:
            connection.wait(batch, start + 1, self._last())
            came = batch.replies[start:]
            start += len(came)
            yield from came

    def _last(self) -> Optional[float]:
        """Until when the next reply is waited for."""
        return None if self._timeout is None else time.monotonic() + self._timeout

    def _current(self) -> "Connection":
        """The connection to ask, which is a new one if the last one can't be asked any more."""
        connection = self._connection
        if not self._is_closed and connection.is_lost():
            connection.close()
            connection = self._connection = Connection(self._command)
        if self._is_closed:
            connection.close()
            raise closed_error()
        return connection


class Connection:
    """A running program with the lines that wait for its replies."""

    def __init__(self, command: Sequence[str]):
        self._command = command
        self._owner = os.getpid()
        self._lock = threading.Lock()
        self._is_closing = False
        # What a question is refused with. During an exchange that is `_lost`, which stays if there
        # is an exception: then it is not known which replies are still to come.
        self._refusal: Optional[ProgramFailed] = None
        self._lost = ProgramEnded(f"an exception or a fork cut the exchange with {command[0]}: ask "
                                  "again", 0, "")
        self._batches: Deque[Batch] = collections.deque()
        self._unsent = bytearray()
        self._rest = b""
        # (In Python 3.9, tempfile.TemporaryFile closes its descriptor twice if a signal handler
        # raises an exception in it.)
        self._errors: IO[bytes] = os.fdopen(os.memfd_create("errors"), "w+b")
        try:
            # A session of its own, so that Ctrl-C in a terminal interrupts the caller alone.
            self._process = subprocess.Popen(command, stdin=subprocess.PIPE, bufsize=0,
                                             stdout=subprocess.PIPE, stderr=self._errors,
                                             start_new_session=True)
        except OSError as why:
            self._errors.close()
            raise ProgramMissing(f"{command[0]} can't be started: {why.strerror}: "
                                 f"{HOW_TO_FIND}") from why
        assert self._process.stdin and self._process.stdout
        self._in, self._out = self._process.stdin.fileno(), self._process.stdout.fileno()
        os.set_blocking(self._in, False)
        self._reading, self._both = select.poll(), select.poll()
        self._reading.register(self._out, select.POLLIN)
        self._both.register(self._out, select.POLLIN)
        self._both.register(self._in, select.POLLOUT)
        self._finalizer = weakref.finalize(self, end, self._process, self._errors, self._owner)

    def is_lost(self) -> bool:
        """Returns whether another process began it, or an exception interrupted an exchange, such
        as that the program was too slow."""
        if self._owner != os.getpid():
            return True
        with self._lock:
            return self._refusal is self._lost or isinstance(self._refusal, ProgramSlow)

    def close(self) -> None:
        """Ends the program if this process started it. Threads that wait for it stop waiting."""
        self._is_closing = True
        if self._owner != os.getpid():  # a thread that is not here may hold the lock
            self._finalizer()
            return
        with self._lock:
            self._finalizer()

    def send(self, lines: Sequence[bytes]) -> Batch:
        """Puts lines into the queue of what the program is asked."""
        batch = Batch(len(lines))
        self._check_owner()
        with self._lock:
            self._begin()
            if lines:
                self._batches.append(batch)
                self._unsent += b"".join(lines)
                self._write_block()
            self._refusal = None
        return batch

    def wait(self, batch: Batch, count: int, last: Optional[float] = None) -> None:
        """Waits for the first replies of a batch. If they don't come before the last moment, the
        program is no longer asked."""
        while len(batch.replies) < count:
            self._check_owner()
            with self._lock:
                if len(batch.replies) < count:
                    self._begin()
                    try:
                        if last is not None and time.monotonic() > last:
                            raise ProgramSlow(f"{self._command[0]} did not answer in time: ask "
                                              "again, or give it more time")
                        self._exchange()
                    except ProgramFailed as why:
                        self._refusal = why
                        raise
                    self._refusal = None

    def ask(self, lines: Sequence[bytes], last: Optional[float]) -> List[bytes]:
        """The replies to lines, all of which come before the last moment."""
        batch = self.send(lines)
        self.wait(batch, batch.count, last)
        return batch.replies

    def _check_owner(self) -> None:
        """Refuses questions of another process, in which the lock may be held for ever."""
        if self._owner != os.getpid():
            raise self._lost.with_traceback(None)

    def _begin(self) -> None:
        """Raises what a question is refused with, or begins an exchange."""
        if self._refusal is not None:
            raise self._refusal.with_traceback(None)
        if self._is_closing:
            raise closed_error()
        self._refusal = self._lost

    def _exchange(self) -> None:
        """Writes what can be written and reads what came. Waits a while if neither is possible."""
        for file, _ in (self._both if self._unsent else self._reading).poll(LONGEST_POLL):
            if file == self._out:
                self._read_block()
            elif self._unsent:
                self._write_block()

    def _write_block(self) -> None:
        try:
            del self._unsent[: os.write(self._in, bytes(self._unsent[:BLOCK]))]
        except BlockingIOError:
            pass
        except BrokenPipeError:
            self._unsent.clear()  # the program has ended, which its output says

    def _read_block(self) -> None:
        piece = os.read(self._out, BLOCK)
        if not piece:
            raise self._end_error()
        *lines, self._rest = (self._rest + piece).split(b"\n")
        start = 0
        while start < len(lines):
            if not self._batches:
                raise ProgramDiffers(f"{self._command[0]} answers what was not asked: is it "
                                     "oldstyle?")
            batch = self._batches[0]
            came = lines[start : start + batch.count - len(batch.replies)]
            batch.replies += came
            start += len(came)
            if len(batch.replies) == batch.count:
                self._batches.popleft()

    def _end_error(self) -> ProgramEnded:
        """Why the program ended, with its standard error. One that only closed its output is
        ended."""
        try:
            status = self._process.wait(timeout=EXIT_SECONDS)
        except subprocess.TimeoutExpired:
            self._process.kill()
            status = self._process.wait()
        self._errors.seek(0)
        errors = self._errors.read().decode(errors="replace").strip()
        return end_error(self._command, status, errors)


def closed_error() -> ProgramEnded:
    return ProgramEnded("this register was closed: open another one", 0, "")


def end_error(command: Sequence[str], status: int, stderr: str) -> ProgramEnded:
    """The exception of a program that ended, with the next step."""
    kind, advice = ProgramEnded, "open the register again"
    journal = command[-1]
    if status < 0:
        name = signal.Signals(-status).name
        return kind(f"{command[0]} was ended by {name} before it answered: {advice}", status,
                    stderr)
    if status == STATUS_OF_ARGUMENTS:
        advice = (f"this program doesn't know {' '.join(command[1:-1])}: use a newer one; "
                  f"{command[0]} --version prints its version")
    elif "journal that is followed" in stderr:
        advice = f"{journal}: {advice}"
    elif "journal line" in stderr:
        kind, advice = JournalRefused, f"{journal}: correct that line, or name another journal"
    elif "read fault" in stderr or "no such file" in stderr:
        kind, advice = JournalRefused, f"{journal}: {unreadable(journal)}"
    return kind(f"{command[0]} ended with status {status} before it answered: "
                f"{stderr or 'it printed nothing'}: {advice}", status, stderr)


def unreadable(path: str) -> str:
    """Why a file can't be read, as the system reports it."""
    try:
        with open(path, "rb") as file:
            file.read(1)
        return "it can't be read"
    except OSError as why:
        return f"{why.strerror}: name a journal that is there"


def end(process: "subprocess.Popen[bytes]", errors: IO[bytes], owner: int) -> None:
    """Closes the streams of a program. The process that started it also ends it, and doesn't wait
    for what it still writes."""
    files: List[Optional[IO[bytes]]] = [process.stdin, process.stdout, errors]
    for file in files:
        if file is not None:
            file.close()
    if owner != os.getpid():
        process.returncode = 0  # the program is not a child of this process
        return
    try:
        process.wait(timeout=EXIT_SECONDS)
    except subprocess.TimeoutExpired:
        process.kill()
        process.wait()
