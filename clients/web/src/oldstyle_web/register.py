"""The register as the page asks it: each answer of one edition, and none of an earlier one."""
from __future__ import annotations

import json
import os
import threading
import time
from dataclasses import dataclass
from typing import Any, Callable, Iterable, Sequence, TypeVar

from oldstyle import (Change, Day, Land, ListedEaster, Period, Pool, ProgramBusy, ProgramEnded,
                      ProgramFailed, ProgramSlow, Run)
from oldstyle.answers import day_of, from_members, run_of

from .problems import N_, SOON, Problem, busy, no_place, unavailable
from .settings import Settings

Result = TypeVar("Result")
TRIES = 20
UNKNOWN_LAND, BAD_CODE = 3, 1
# The queries for what pages show of a territory.
OF_LAND = ("periods", "changes", "exceptions")
# A register of its own, by which a day is named in the Swedish calendar.
SWEDISH = [b'{"op":"add_land","code":"SW","name":"Swedish","calendar":"swedish","style":"january",'
           b'"rule":"julian"}\n', b'{"op":"publish"}\n']


@dataclass(frozen=True)
class DatedDay:
    """A day as a territory dated it, its period, and its date by the Swedish calendar."""

    found: Day
    period: Period
    swedish: str


class Register:
    """Asks the runs of the program that answer lines."""

    def __init__(self, settings: Settings):
        self.settings = settings
        self.highest = 0
        self.lock = threading.Lock()
        self.pool = Pool(settings.serving_words(), settings.processes,
                         seconds=settings.question_seconds)
        self.swedish = Pool([settings.program, "serve"], 1, seconds=settings.question_seconds,
                            opening=SWEDISH)

    def of_one_edition(self, work: Callable[[Asking], Result]) -> tuple[int, Result]:
        """The edition, and what the work gives from it alone. The work is done again if an edition
        came between, or if the edition is an earlier one than somebody was given before. What such
        an edition lacks is never reported."""
        least = self.highest
        for _ in range(TRIES):
            asking = Asking(self)
            try:
                result = work(asking)
            except Problem:
                if self.may_answer(asking, least):
                    raise
            else:
                if self.may_answer(asking, least):
                    return next(iter(asking.editions), 0), result
            time.sleep(0.02)
        raise Problem(503, N_("The register's edition changes just now, or its journal has fewer "
                              "editions than before. Try again in a moment, or ask those who run "
                              "this page."), SOON)

    def may_answer(self, asking: Asking, least: int) -> bool:
        """Returns whether one edition alone was given, from the least one on. If the journal is
        gone there is none, whoever asks first."""
        if 0 in asking.editions and not os.path.exists(self.settings.journal):
            raise unavailable("its journal isn't there")
        with self.lock:
            self.highest = max({self.highest, *asking.editions})
        return len(asking.editions) <= 1 and all(edition >= least for edition in asking.editions)

    def replies(self, pool: Pool, lines: Sequence[bytes]) -> list[bytes]:
        """The replies to lines, or the problem of a program that gives none."""
        try:
            return pool.ask(lines)
        except ProgramBusy:
            raise busy(N_("All processes are at work. Try again in a moment.")) from None
        except ProgramSlow:
            raise unavailable("no answer in time") from None
        except ProgramEnded as why:
            raise unavailable(self.settings.public_report(why.stderr.partition("\n")[0])) from None
        except ProgramFailed:
            raise unavailable("it can't be started") from None

    def close(self) -> None:
        self.pool.close()
        self.swedish.close()


class Asking:
    """What one request asks, each question once, and the editions of the replies that it uses."""

    def __init__(self, register: Register):
        self.register = register
        self.editions: set[int] = set()
        self.lines: dict[bytes, bytes] = {}

    def reply(self, question: dict[str, Any]) -> tuple[bytes, dict[str, Any]]:
        """The reply to a question, an object of `op` and its members, as a line and as it reads."""
        line, = self.register.replies(self.register.pool, [line_of(question)])
        reply = json.loads(line)
        if "edition" in reply:
            self.editions.add(reply["edition"])
        return line, reply

    def answers(self, questions: Iterable[dict[str, Any]]) -> list[dict[str, Any]]:
        """The answers to questions."""
        queries = list(questions)
        self.prepare(queries)
        return [self.answer_of(one, json.loads(self.lines[line_of(one)])) for one in queries]

    def prepare(self, questions: Iterable[dict[str, Any]]) -> None:
        """Asks in one exchange the questions that were not asked yet."""
        lines = [line for line in map(line_of, questions) if line not in self.lines]
        if lines:
            self.lines.update(zip(lines, self.register.replies(self.register.pool, lines)))

    def answer_of(self, question: dict[str, Any], reply: dict[str, Any]) -> dict[str, Any]:
        if "edition" in reply:
            self.editions.add(reply["edition"])
        if "answer" in reply:
            answer: dict[str, Any] = reply["answer"]
            return answer
        if reply["fault"] in (UNKNOWN_LAND, BAD_CODE):
            raise no_place(question["code"])
        raise Problem(400, N_("The register refuses that: %(fault)s."),
                      fault=f"{reply['fault']} {reply['name']}")

    def lands(self, code: str = "", questions: Iterable[dict[str, Any]] = ()) -> list[Land]:
        """The territories by their names. What pages show of the one of a code, and some more
        questions, are asked in the same exchange, so that they are mostly of one edition."""
        of_land = [{"op": op, "code": code} for op in OF_LAND] if code else []
        self.prepare([{"op": "lands"}, *of_land, *questions])
        answer, = self.answers([{"op": "lands"}])
        return sorted((from_members(Land, land) for land in answer["lands"]),
                      key=lambda land: (land.name.casefold(), land.code))

    def periods(self, code: str) -> list[Period]:
        answer, = self.answers([{"op": "periods", "code": code}])
        return [from_members(Period, period) for period in answer["periods"]]

    def changes(self, code: str) -> list[Change]:
        answer, = self.answers([{"op": "changes", "code": code}])
        return [from_members(Change, change) for change in answer["changes"]]

    def changes_on(self, code: str, days: Sequence[int]) -> list[Change]:
        """The changes of a territory on these days."""
        return [change for change in self.changes(code) if change.found.day in days] if days else []

    def exceptions(self, code: str) -> list[ListedEaster]:
        """The Easters that a territory lists."""
        answer, = self.answers([{"op": "exceptions", "code": code}])
        return [from_members(ListedEaster, easter) for easter in answer["exceptions"]]

    def days(self, code: str, numbers: Iterable[int]) -> list[Day]:
        """The days with these numbers, as the territory dated them."""
        return [day_of(answer["found"]) for answer in self.answers(
            {"op": "day", "code": code, "day": number} for number in numbers)]

    def dated_days(self, code: str, days: Sequence[Day]) -> list[DatedDay]:
        """Days of a territory, each with its period."""
        periods = self.periods(code)
        of_days = [next(one for one in periods if one.first <= day.day <= one.last) for day in days]
        return list(map(DatedDay, days, of_days, self.swedish_texts([day.day for day in days])))

    def swedish_texts(self, numbers: Sequence[int]) -> list[str]:
        """The dates of days by the Swedish calendar."""
        lines = [line_of({"op": "day", "code": "SW", "day": number}) for number in numbers]
        replies = self.register.replies(self.register.swedish, lines) if lines else []
        return [json.loads(line)["answer"]["found"]["dual"] for line in replies]

    def runs(self, code: str, dates: Iterable[str]) -> list[list[Run]]:
        """The runs of days that each of some dates means."""
        return [[run_of(run) for run in answer["runs"]] for answer in self.answers(
            {"op": "written", "code": code, "date": date} for date in dates)]


def line_of(question: dict[str, Any]) -> bytes:
    """The line of a question."""
    return json.dumps({"reader": 1, **question}).encode() + b"\n"


def name_in(lands: list[Land], code: str) -> str:
    """The name of a territory, which the list must have."""
    for land in lands:
        if land.code == code:
            return land.name
    raise no_place(code)
