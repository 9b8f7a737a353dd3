"""What a reader is sent who can't be answered: a status of HTTP and a sentence."""
from __future__ import annotations

from typing import Any, Mapping

from werkzeug.exceptions import HTTPException


def N_(message: str) -> str:
    """Marks a message that is translated elsewhere."""
    return message


SOON = {"Retry-After": "2"}


class Problem(HTTPException):
    """Ends a request with a status and with what to do next, a message and its parts."""

    def __init__(self, status: int, message: str, headers: Mapping[str, str] | None = None,
                 **parts: Any):
        super().__init__(message % parts if parts else message)
        self.code, self.message, self.parts = status, message, parts
        self.headers = headers or {}


def no_place(code: str) -> Problem:
    """The problem of a code that no territory has."""
    return Problem(404, N_("No territory of the register has the code %(code)s: choose one of the "
                           "list."), code=code)


def busy(message: str) -> Problem:
    """The problem of more concurrent requests than are allowed."""
    return Problem(503, message, SOON)


def unavailable(reason: str) -> Problem:
    """The problem of a program that can't be asked."""
    if reason := reason.removeprefix("oldstyle: "):
        return Problem(503, N_("The program doesn't answer: %(reason)s. Try again in a moment, or "
                               "ask those who run this page."), SOON, reason=reason)
    return Problem(503, N_("The program doesn't answer. Try again in a moment, or ask those who "
                           "run this page."), SOON)
