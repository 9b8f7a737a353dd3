"""Rows that are asked ahead: their order, how many are taken, and what happens if one fails."""
from __future__ import annotations

import itertools
import json
import time
from pathlib import Path
from typing import Any, Callable, Dict, Iterator, List

import pytest

from oldstyle import ProgramDiffers, ProgramEnded, ProgramSlow, Register
from oldstyle.service import Service

DAY: Dict[str, Any] = {"day": 1, "dual": "d", "gregorian": "0001-01-01", "jdn": 1721426, "julian": "j",
                       "label": "l", "weekday": "Monday"}
ANSWER: Dict[str, Any] = {
    "approximate": False, "kind": "day", "other_calendar": False, "reason": None,
    "runs": [{"first": DAY, "last": DAY}], "supplied": False, "uncertain": False, "weekday": None}


def line_of(number: int) -> bytes:
    return b"%d\n" % number


@pytest.fixture
def service() -> Iterator[Callable[..., Service]]:
    made: List[Service] = []

    def start(script: str, timeout: float = 5) -> Service:
        made.append(Service(["sh", "-c", script], timeout))
        return made[-1]
    yield start
    for one in made:
        one.close()


@pytest.mark.parametrize("ahead", [1, 2, 3, 7, 1000])
def test_replies_are_in_order_and_few_rows_are_taken(service: Callable[..., Service],
                                                     ahead: int) -> None:
    numbers: List[int] = []
    found: List[int] = []

    def rows() -> Iterator[int]:
        for number in range(3000):
            numbers.append(number)
            yield number
    for row, reply in service("cat").ask_many(rows(), line_of, ahead):
        assert reply == b"%d" % row and len(numbers) <= len(found) + ahead
        found.append(row)
    assert found == list(range(3000))


@pytest.mark.parametrize("ahead", [1, 10])
def test_rows_before_one_that_fails_have_replies(service: Callable[..., Service],
                                                 ahead: int) -> None:
    rows = (number if number < 25 else 1 // 0 for number in itertools.count())
    found = []
    with pytest.raises(ZeroDivisionError):
        for row, _ in service("cat").ask_many(rows, line_of, ahead):
            found.append(row)
    assert found == list(range(25))


def test_replies_before_the_end_of_the_program_are_given(service: Callable[..., Service]) -> None:
    found = []
    with pytest.raises(ProgramEnded):
        for row, _ in service("head -n 7").ask_many(range(100), line_of, 10):
            found.append(row)
    assert found == list(range(7))


def test_time_is_for_each_reply(service: Callable[..., Service]) -> None:
    slow = service("while read x; do sleep 0.1; echo $x; done", 0.5)
    assert len(list(slow.ask_many(range(12), line_of, 12))) == 12
    hung = service("read x; echo $x; exec sleep 60", 0.3)
    began, rows = time.monotonic(), hung.ask_many(range(12), line_of, 12)
    assert next(rows) == (0, b"0")
    with pytest.raises(ProgramSlow):
        next(rows)
    assert time.monotonic() - began < 5


def test_rows_that_nobody_takes_do_not_shift_the_next_replies(
        service: Callable[..., Service]) -> None:
    cat = service("cat")
    assert next(cat.ask_many(range(50), line_of, 40)) == (0, b"0")
    assert cat.ask(b"a question\n") == b"a question"
    first, second = cat.ask_many(range(9), line_of, 4), cat.ask_many(range(20, 29), line_of, 4)
    assert [row for pair in zip(first, second) for row, _ in pair] == [
        row for pair in zip(range(9), range(20, 29)) for row in pair]


def test_more_replies_than_lines_are_refused(service: Callable[..., Service]) -> None:
    with pytest.raises(ProgramDiffers):
        service("while read x; do printf 'one\\ntwo\\n'; done").ask(b"a question\n")


@pytest.fixture
def replying(tmp_path: Path) -> Callable[[str], Register]:
    """Opens a register whose program answers each date with one line."""
    def start(line: str) -> Register:
        program = tmp_path / "program"
        (tmp_path / "line").write_text(line + "\n")
        program.write_text("#!/bin/sh\nread x\necho '{\"answer\":{\"lands\":[]}}'\n"
                           f"while read x; do cat {tmp_path / 'line'}; done\n")
        program.chmod(0o755)
        return Register(program, program=str(program), timeout=5)
    return start


def test_members_of_a_newer_program_are_left_out(replying: Callable[[str], Register]) -> None:
    day = {**DAY, "newer": 1}
    answer = {**ANSWER, "runs": [{"first": day, "last": day, "newer": 1}], "newer": 1}
    with replying(json.dumps({"answer": answer, "edition": 1, "newer": 1})) as register:
        found, = register.read_many([("GB", "1")])
    assert found.day is not None and vars(found.day) == DAY
    assert vars(found.runs[0]).keys() == {"first", "last"} and "newer" not in vars(found)


@pytest.mark.parametrize("answer", [
    {name: value for name, value in ANSWER.items() if name != "kind"},
    {**ANSWER, "runs": [{"first": {"day": 1}, "last": {"day": 1}}]},
    {**ANSWER, "runs": [{"first": DAY}]},
    {**ANSWER, "runs": None}, [], None])
def test_an_answer_of_another_form_is_refused(replying: Callable[[str], Register],
                                              answer: object) -> None:
    with replying(json.dumps({"answer": answer, "edition": 1})) as register:
        with pytest.raises(ProgramDiffers):
            list(register.read_many([("GB", "1")]))


@pytest.mark.parametrize("line", ["", "[]", "{", '{"answer":{},"edition":1} {}', "\\xff"])
def test_a_line_that_is_no_reply_is_refused(replying: Callable[[str], Register],
                                            line: str) -> None:
    with replying(line) as register, pytest.raises(ProgramDiffers):
        list(register.read_many([("GB", "1")]))
