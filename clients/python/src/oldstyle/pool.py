"""Runs of the program that answer lines, each used by one caller at a time."""
from __future__ import annotations

import os
import queue
import time
from typing import Dict, List, Optional, Sequence

from .faults import ProgramBusy, ProgramEnded, ProgramSlow
from .service import EXIT_SECONDS, Connection, closed_error


class Pool:
    """Runs of `command`, `size` at most, for callers in several threads and processes.

    A run is started if it is needed, and first asked the lines `opening`, whose replies are not
    looked at. One that ends or is too slow is replaced, and its question asked once more. A
    process that is forked starts runs of its own.
    """

    def __init__(self, command: Sequence[str], size: int, *, seconds: float,
                 opening: Sequence[bytes] = ()):
        self._command, self._size, self._seconds = command, size, seconds
        self._opening = opening
        self._is_closed = False
        # By the process that may use them: those of other processes are left alone.
        self._idle: Dict[int, "queue.LifoQueue[Optional[Connection]]"] = {}

    def ask(self, lines: Sequence[bytes]) -> List[bytes]:
        """The replies to lines, which end by line feeds, all by one run.

        Waiting for a run and its replies may take `seconds`, and a run that is started has that
        time again. After that `ProgramBusy` or `ProgramSlow` is raised.
        """
        idle = self._connections()
        last = time.monotonic() + self._seconds
        try:
            connection = idle.get(timeout=self._seconds)
        except queue.Empty:
            raise ProgramBusy(f"all {self._size} runs of {self._command[0]} answer others: ask "
                              "again in a moment") from None
        fit = None
        try:
            if connection is not None:
                try:
                    replies = connection.ask(lines, last)
                    fit = connection
                    return replies
                except (ProgramEnded, ProgramSlow):
                    connection.close()
            connection = self._start()
            replies = connection.ask(lines, time.monotonic() + self._seconds)
            fit = connection
            return replies
        finally:
            # (after an exception it is not known which replies are still to come)
            if fit is None and connection is not None:
                connection.close()
            idle.put(fit)

    def close(self) -> None:
        """Ends the runs of this process, those in use as soon as their callers are answered."""
        self._is_closed = True
        if (idle := self._idle.get(os.getpid())) is None:
            return
        last = time.monotonic() + EXIT_SECONDS
        for _ in range(self._size):
            try:
                connection = idle.get(timeout=max(0, last - time.monotonic()))
            except queue.Empty:
                return
            if connection is not None:
                connection.close()

    def _connections(self) -> "queue.LifoQueue[Optional[Connection]]":
        """The idle runs of this process, and a None for each that is not started yet."""
        if self._is_closed:
            raise closed_error()
        process = os.getpid()
        if process not in self._idle:
            places: "queue.LifoQueue[Optional[Connection]]" = queue.LifoQueue()
            for _ in range(self._size):
                places.put(None)
            self._idle.setdefault(process, places)
        return self._idle[process]

    def _start(self) -> Connection:
        connection = Connection(self._command)
        try:
            connection.ask(self._opening, time.monotonic() + self._seconds)
        except BaseException:
            connection.close()
            raise
        return connection
