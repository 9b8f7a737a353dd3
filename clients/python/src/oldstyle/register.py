"""A register of territories, which the program oldstyle reads from its journal."""
from __future__ import annotations

import json
import os
from typing import (Any, Dict, Iterable, Iterator, List, Literal, NoReturn, Optional, Sequence,
                    Type, TypeVar, Union, overload)

from .answers import (Change, Day, Feast, Land, ListedEaster, Period, Reading, from_members,
                      reading_of)
from .faults import Fault, JournalRefused, ProgramDiffers, fault_of
from .service import Service, program_at, absolute, unreadable

Row = Sequence[Optional[str]]
Value = TypeVar("Value")
AHEAD = 1000
quoted = json.JSONEncoder(ensure_ascii=False).encode
decoded = json.JSONDecoder().raw_decode


class Register:
    """The territories of a journal, asked by queries alone. The journal is only read.

    `program` names the program; without it the environment variable OLDSTYLE does, or it is
    `oldstyle` on the PATH. With `follow` the answers are those of the editions that another run
    publishes meanwhile: that requires a program that knows `serve --follow`. A reply that takes
    more than `timeout` seconds raises `ProgramSlow`.

    Several threads may ask a register. A process that is forked, and the next question after an
    exception amid one, such as KeyboardInterrupt, open the journal again.
    """

    def __init__(self, journal: Union[str, "os.PathLike[str]"], *, program: Optional[str] = None,
                 follow: bool = False, timeout: Optional[float] = None):
        path = absolute(os.fspath(journal))
        words = ["--follow"] if follow else ["--read-only", "--journal"]
        if follow and not os.path.exists(path):
            raise JournalRefused(f"{path}: {unreadable(path)}", 0, "")
        self._program = program_at(program)
        self._service = Service([self._program, "serve", *words, path], timeout)
        try:
            self.lands()
        except BaseException:
            self.close()
            raise

    def __enter__(self) -> "Register":
        return self

    def __exit__(self, *_: object) -> None:
        self.close()

    def close(self) -> None:
        """Ends the program. A register that is no longer used ends it too."""
        self._service.close()

    def read(self, code: str, date: str, weekday: Optional[str] = None) -> Reading:
        """Which days a written date means in the territory of that code."""
        line = written_line(code, date, weekday)
        return self._reading((code, date, weekday), self._service.ask(line))

    @overload
    def read_many(self, rows: Iterable[Row], *, refused: Literal[False] = False,
                  ahead: int = AHEAD) -> Iterator[Reading]: ...

    @overload
    def read_many(self, rows: Iterable[Row], *, refused: bool,
                  ahead: int = AHEAD) -> Iterator[Union[Reading, Fault]]: ...

    def read_many(self, rows: Iterable[Row], *, refused: bool = False,
                  ahead: int = AHEAD) -> Iterator[Union[Reading, Fault]]:
        """The reading of each row of code and date, or code, date and weekday, in order.

        Rows are taken as readings are, at most `ahead` rows before them: 1 asks for each row
        alone. A row that is refused raises its fault, or with `refused` gives it in its place.
        """
        if ahead < 1:
            raise ValueError(f"ahead is {ahead}: it is 1 or more")
        for row, reply in self._service.ask_many(rows, line_of, ahead):
            try:
                reading = self._reading(row, reply)
            except Fault as fault:
                if not refused:
                    raise
                yield fault
            else:
                yield reading

    def lands(self) -> List[Land]:
        """The territories, in the order in which they were added."""
        return self._all_of(Land, "lands")

    def periods(self, code: str) -> List[Period]:
        """The periods of a territory, ascending."""
        return self._all_of(Period, "periods", code=code)

    def changes(self, code: str) -> List[Change]:
        """The changes of a territory, ascending."""
        return self._all_of(Change, "changes", code=code)

    def exceptions(self, code: str) -> List[ListedEaster]:
        """The Easters that a territory lists, in ascending order of their years."""
        return self._all_of(ListedEaster, "exceptions", code=code)

    def feasts(self, code: str, year: int) -> List[Feast]:
        """The principal feasts that a territory dated in a year, as it counted the year, in the
        order of their Easters."""
        return self._all_of(Feast, "feasts", code=code, year=year)

    def convert(self, code: str, calendar: str, year: int, month: int,
                day: int) -> Optional[Day]:
        """The day of a date by the calendar `gregorian`, `julian` or `swedish`, with the year from
        1 January, as a territory dated it; or None if no day has that date."""
        answer = self.ask("convert", code=code, calendar=calendar, year=year, month=month, day=day)
        try:
            days = [from_members(Day, item) for item in answer["days"]]
        except (KeyError, TypeError):
            self._differs("convert")
        return days[0] if days else None

    def ask(self, op: str, **members: Any) -> Dict[str, Any]:
        """The answer to any query of docs/FORMATS.md, such as
        `ask("easter", code="GB", year=1753)`."""
        request = {"op": op, "reader": 1, **members}
        line = json.dumps(request, ensure_ascii=False) + "\n"
        question = f"{op} {' '.join(map(str, members.values()))}".strip()
        reply = self._reply(self._service.ask(line.encode("utf-8", "surrogatepass")), question)
        answer = reply["answer"]
        if not isinstance(answer, dict):
            self._differs(question)
        return answer

    def _all_of(self, kind: Type[Value], op: str, **members: Any) -> List[Value]:
        """The list in the answer to a query, which has the query's name."""
        try:
            return [from_members(kind, item) for item in self.ask(op, **members)[op]]
        except (KeyError, TypeError):
            self._differs(op)

    def _reading(self, row: Row, line: bytes) -> Reading:
        try:
            text = line.decode()
            reply, length = decoded(text)
            if length == len(text):
                return reading_of(str(row[0]), str(row[1]), reply)
        except (KeyError, TypeError, ValueError):
            pass
        weekday = f" ({row[2]})" if len(row) > 2 and row[2] else ""
        question = f"{row[1]}{weekday} in {row[0]}"
        self._reply(line, question)
        self._differs(question)

    def _reply(self, line: bytes, question: str) -> Dict[str, Any]:
        """The reply of a line, or the fault that it has."""
        try:
            reply = json.loads(line)
        except ValueError:
            reply = None
        if not isinstance(reply, dict) or not ("answer" in reply or "fault" in reply):
            self._differs(question)
        if "fault" in reply:
            raise fault_of(reply, question)
        return reply

    def _differs(self, question: str) -> NoReturn:
        raise ProgramDiffers(f"{self._program} answered {question} in a form that this package "
                             f"doesn't know: does `{self._program} --version` print this package's "
                             "version?")


def line_of(row: Row) -> bytes:
    """The request line of a row."""
    if isinstance(row, str) or len(row) not in (2, 3):
        raise TypeError(f"{row!r} is not a row: a row is code and date, or code, date and weekday")
    return written_line(*row)


def written_line(code: Optional[str], date: Optional[str], weekday: Optional[str] = None) -> bytes:
    """The request line that asks for a date. An empty weekday is left out."""
    for text in (code, date, weekday or ""):
        if not isinstance(text, str):
            raise TypeError(f"{text!r} is not a text: a code, a date and a weekday are texts")
    member = f',"weekday":{quoted(weekday)}' if weekday else ""
    line = (f'{{"op":"written","reader":1,"code":{quoted(code)},'
            f'"date":{quoted(date)}{member}}}\n')
    return line.encode("utf-8", "surrogatepass")
