"""What can go wrong, by its name: faults that the program reports, and a program that fails."""
from __future__ import annotations

from typing import Any, Mapping

ADVICE = "see docs/FORMATS.md of the program for what a request takes"


LONGEST_SHOWN = 200


def printable(question: str) -> str:
    """What was asked, for a message: not too long, and of letters that can be printed."""
    text = question if len(question) <= LONGEST_SHOWN else f"{question[:LONGEST_SHOWN]}.."
    return text.encode("utf-8", "backslashreplace").decode("utf-8")


class OldstyleError(Exception):
    """Whatever this package itself raises."""


class Fault(OldstyleError):
    """A request that the program refused, or a line that it could not read.

    `number` and `name` are those of docs/FORMATS.md, `field` is the member that is wrong in a
    BadField, and `edition` the edition that a query was asked of.
    """

    number = 0
    advice = ADVICE

    def __init__(self, reply: Mapping[str, Any], question: str):
        self.number = reply["fault"]
        self.name: str = reply["name"]
        self.field: str | None = reply.get("field")
        self.edition: int | None = reply.get("edition")
        self.question = question
        field = f" {self.field}" if self.field else ""
        super().__init__(f"{self.name} ({self.number}){field}: {printable(question)}: "
                         f"{self.advice}")


class BadCode(Fault):
    number = 1
    advice = "a code is 2 to 8 capital letters or digits, the first a letter"


class UnknownLand(Fault):
    number = 3
    advice = "no territory of the register has that code: Register.lands() lists those it has"


class DayOffLine(Fault):
    number = 5
    advice = "the number of a day is 1 to 3652059"


class YearOffRange(Fault):
    number = 9
    advice = "a year is 1 to 9999, and 0 to 10000 as a document counts it"


class BadDate(Fault):
    number = 18
    advice = "a month is 1 to 12, and a day of a month 1 to 31"


class LineTooLong(Fault):
    number = 31
    advice = "a request has at most 65536 bytes: shorten the date"


class NotJson(Fault):
    number = 32
    advice = "the text can't be written in UTF-8: decode the bytes that it came from again"


class NotObject(Fault):
    number = 33


class BadField(Fault):
    number = 34

    def __init__(self, reply: Mapping[str, Any], question: str):
        if reply.get("field") == "weekday":
            self.advice = "a weekday is its English name, such as Friday"
        super().__init__(reply, question)


class UnknownOp(Fault):
    number = 35
    advice = "this program lacks the request: use a newer one; see `oldstyle --version`"


class UnknownReader(Fault):
    number = 36
    advice = "a reader is 1 to 8"


class ReadOnly(Fault):
    number = 45
    advice = "a Register is only read: edit the journal by `oldstyle serve --keep FILE`"


KINDS = {kind.number: kind for kind in Fault.__subclasses__()}


def fault_of(reply: Mapping[str, Any], question: str) -> Fault:
    """The fault in a reply, of the class that has its number."""
    return KINDS.get(reply["fault"], Fault)(reply, question)


class ProgramFailed(OldstyleError):
    """The program could not be asked. Its message says what to do."""


class ProgramMissing(ProgramFailed):
    """There is no program, or it can't be started."""


class ProgramEnded(ProgramFailed):
    """The program ended before it had answered. `status` is its status, and `stderr` what it
    printed on standard error."""

    def __init__(self, message: str, status: int, stderr: str):
        super().__init__(message)
        self.status = status
        self.stderr = stderr


class ProgramSlow(ProgramFailed):
    """The program did not answer in the time that was given. It is started again if it is asked
    again."""


class ProgramBusy(ProgramFailed):
    """All runs of a pool were busy with others for the whole time of waiting."""


class JournalRefused(ProgramEnded):
    """The program ended since it could not open or load the journal."""


class ProgramDiffers(ProgramFailed):
    """The program that answers is another one, or a version that lacks what was asked."""


class PlacesRefused(OldstyleError):
    """A table of places with a mistake, which the message names with its line."""
