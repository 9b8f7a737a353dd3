"""Runs of the program's commands, which print for people."""
from __future__ import annotations

import subprocess
import threading

from .problems import N_, busy, unavailable
from .settings import Settings, in_bytes, reason_of


class Commands:
    """Runs commands of the program, some in parallel."""

    def __init__(self, settings: Settings):
        self.settings = settings
        self.places = threading.BoundedSemaphore(settings.commands)

    def run(self, command: str, journal: str, *words: str) -> tuple[int, str, str]:
        """The status of a command over a journal, and what it wrote on both streams."""
        settings = self.settings
        if not self.places.acquire(timeout=settings.question_seconds):
            raise busy(N_("Too many questions are asked now. Try again in a moment."))
        try:
            done = subprocess.run(
                in_bytes([settings.program, command, *settings.limit_words(), journal, *words]),
                stdin=subprocess.DEVNULL, capture_output=True, check=False,
                timeout=settings.question_seconds)
        except subprocess.TimeoutExpired:
            raise busy(N_("The program took too long for that question. Try again in a "
                          "moment.")) from None
        except OSError as why:
            raise unavailable(reason_of(why)) from None
        finally:
            self.places.release()
        return done.returncode, done.stdout.decode(), done.stderr.decode(errors="replace")
