"""Tables of letters: the command `letters` over a table that was sent."""
from __future__ import annotations

import codecs
import json
import os
import re
import subprocess
import tempfile
import threading
import time
from dataclasses import dataclass
from typing import IO, Mapping

from .problems import N_, Problem, busy, unavailable
from .settings import Settings, in_bytes, reason_of
from .words import order_of

BLOCK = 65536
# The byte between the table and the line of how it ended, if that is asked for.
MARK = b"\x1e"
ROLES = ["place", "date", "weekday", "year", "month", "day"]
SEPARATORS = ["comma", "semicolon", "tab"]
LONGEST_NAME = 200
# The fault of a line of the journal that is just being written, and the seconds to wait for it.
OF_JOURNAL, AWAITED = "journal line ", 1
NAME_YOURS = re.compile(r"name yours with --(\w+)(?:, or the place of all rows with --in)?$")
YOUR_NAME = r"name yours in the field “Column of \1s” (column_\1)"
# What an option of the command line would do.
REPLACE = re.compile(r", rename it, or replace all twelve with --replace$")
PLACES_FILE = re.compile(r"/dev/fd/\d+")


def options_of(fields: Mapping[str, str]) -> list[str]:
    """The options of `letters` that the fields of a form say."""
    words = []
    for role in ROLES:
        if name := fields.get(f"column_{role}", ""):
            if len(name) > LONGEST_NAME or "\0" in name:
                raise Problem(400, f"The name of the column of {role}s is too long.")
            words.append(f"--{role}={name}")
    if separator := fields.get("separator", ""):
        if separator not in SEPARATORS:
            raise Problem(400, "A separator is comma, semicolon or tab.")
        words += ["--separator", separator]
    if order := order_of(fields.get("order", "")):
        words += ["--order", order]
    return words


def byte_order_mark(file: IO[bytes]) -> bytes:
    """The byte order mark with which a table begins, if any. One that is not UTF-8, such as a
    workbook, is refused."""
    file.seek(0)
    mark = codecs.BOM_UTF8 if file.read(3) == codecs.BOM_UTF8 else b""
    file.seek(0)
    decoder = codecs.getincrementaldecoder("utf-8")()
    try:
        while block := file.read(BLOCK):
            if "\0" in decoder.decode(block):
                raise ValueError
        decoder.decode(b"", final=True)
    except ValueError:
        raise Problem(422, N_("The table is not UTF-8: save the table as CSV UTF-8.")) from None
    return mark


class Tables:
    """Runs `letters`, some in parallel, from files into files: neither a table nor its rows are
    held in memory, and no run waits for who reads its rows."""

    def __init__(self, settings: Settings):
        self.settings = settings
        self.places = threading.BoundedSemaphore(settings.tables)
        self.running: set[subprocess.Popen[bytes]] = set()
        self.is_closed = False

    def close(self) -> None:
        """Ends the runs of `letters`. One that begins later is ended at once."""
        self.is_closed = True
        for process in list(self.running):
            process.kill()

    def rows(self, fields: Mapping[str, str], table: IO[bytes],
             places: IO[bytes] | None) -> IO[bytes]:
        """A file of the rows of a table, and of how it ended if the fields ask for that."""
        options = options_of(fields)
        mark = byte_order_mark(table)
        if not self.places.acquire(timeout=self.settings.question_seconds):
            raise busy(N_("Other tables are read just now. Try again in a moment."))
        rows: IO[bytes] = tempfile.TemporaryFile()
        try:
            end = self.write_rows(options, table, places, rows, mark)
        except BaseException:
            rows.close()
            raise
        finally:
            self.places.release()
        if fields.get("report") == "1":
            rows.write(MARK + json.dumps({"status": end.status, "message": end.message}).encode())
        elif end.message:
            rows.write(f"{end.message}\n".encode())
        return rows

    def write_rows(self, options: list[str], table: IO[bytes], places: IO[bytes] | None,
                   rows: IO[bytes], mark: bytes) -> End:
        """Makes the program write the rows after a mark, or raises why there is none. Waits for a
        line of the journal that is just being written."""
        words, passed = [self.settings.program, "letters", self.settings.journal, *options,
                         *self.settings.limit_words()], []
        if places:
            passed.append(places.fileno())
            words += ["--places", f"/dev/fd/{passed[0]}"]
        rows.write(mark)
        last = time.monotonic() + AWAITED
        while True:
            for file in (table, places):
                if file:
                    file.seek(0)
            end = self.run_once(words, passed, table, rows)
            if rows.seek(0, os.SEEK_END) > len(mark):
                return end
            if not end.message.startswith(OF_JOURNAL) or time.monotonic() > last:
                break
            time.sleep(0.03)
        if end.status in (1, 2) and not end.message.startswith(OF_JOURNAL):
            message = NAME_YOURS.sub(YOUR_NAME, end.message)
            raise Problem(422, REPLACE.sub(" or rename it", message))
        raise unavailable(end.message)

    def run_once(self, words: list[str], passed: list[int], table: IO[bytes],
                 rows: IO[bytes]) -> End:
        """How a run of the program over a table ended."""
        rows.flush()
        try:
            with subprocess.Popen(in_bytes(words), stdin=table, stdout=rows, pass_fds=passed,
                                  stderr=subprocess.PIPE) as process:
                self.running.add(process)
                try:
                    if self.is_closed:
                        process.kill()
                    errors = process.communicate(timeout=self.settings.table_seconds)[1]
                finally:
                    process.kill()
                    self.running.discard(process)
        except subprocess.TimeoutExpired:
            return End(-1, "the table took too long, and was ended")
        except OSError as why:
            return End(-1, reason_of(why))
        # A line of help says what to do at the command line.
        lines = [line for line in errors.decode(errors="replace").splitlines()
                 if not line.startswith("help: ")]
        message = self.settings.public_report("\n".join(lines))
        message = PLACES_FILE.sub("the table of places", message)
        if process.returncode < 0 and not message:
            message = "the program was ended before the table did"
        return End(process.returncode, message)


@dataclass(frozen=True)
class End:
    """How a run ended: its status, and what it printed on standard error."""

    status: int
    message: str
