"""What a register has of a territory: periods, changes, listed Easters, feasts, and conversions."""
from __future__ import annotations

import json
from pathlib import Path
from typing import Any, Callable, Dict

import pytest

from oldstyle import (BadField, Change, Day, Feast, ListedEaster, ProgramDiffers, Regime,
                      Register)
from oldstyle.commands import Context

DAY: Dict[str, Any] = {"day": 1, "dual": "d", "gregorian": "0001-01-01", "jdn": 1721426,
                       "julian": "j", "label": "l", "weekday": "Monday"}
REGIME: Dict[str, str] = {"calendar": "julian", "rule": "julian", "style": "january"}
CHANGE: Dict[str, Any] = {
    "before": DAY, "found": DAY, "left_out": None, "regime": REGIME, "regime_before": REGIME,
    "twice": None}
EASTER: Dict[str, Any] = {"found": DAY, "year": 1753, "source": "a table"}


@pytest.fixture
def answering(tmp_path: Path) -> Callable[[Dict[str, Any]], Register]:
    """Opens a register whose program gives one answer to each line."""
    def start(answer: Dict[str, Any]) -> Register:
        program, line = tmp_path / "program", tmp_path / "line"
        line.write_text(json.dumps({"answer": {"lands": [], **answer}, "edition": 1}) + "\n")
        program.write_text(f"#!/bin/sh\nwhile read x; do cat {line}; done\n")
        program.chmod(0o755)
        return Register(program, program=str(program), timeout=5)
    return start


def test_members_of_a_newer_program_are_left_out(
        answering: Callable[[Dict[str, Any]], Register]) -> None:
    newer = {"newer": 1}
    change: Dict[str, Any] = {**CHANGE, **newer, "found": {**DAY, **newer},
                              "regime": {**REGIME, **newer}}
    feast = {"feast": "Easter", "found": DAY, "year": 1, **newer}
    with answering({"changes": [change], "exceptions": [{**EASTER, **newer}],
                    "feasts": [feast]}) as register:
        assert register.changes("GB") == [Change(
            Day(**DAY), Day(**DAY), None, Regime(**REGIME), Regime(**REGIME), None)]
        assert register.exceptions("GB") == [ListedEaster(Day(**DAY), 1753, "a table")]
        assert register.feasts("GB", 1) == [Feast("Easter", Day(**DAY), 1)]


@pytest.mark.parametrize("answer", [
    {}, {"changes": None}, {"changes": [None]}, {"changes": [{}]},
    {"changes": [{**CHANGE, "found": 1}]}, {"changes": [{**CHANGE, "regime": "julian"}]}])
def test_an_answer_of_another_form_is_refused(answering: Callable[[Dict[str, Any]], Register],
                                              answer: Dict[str, Any]) -> None:
    with answering(answer) as register, pytest.raises(ProgramDiffers):
        register.changes("GB")


def test_changes_join_the_periods(context: Context) -> None:
    register = context.register
    for land in register.lands():
        changes, periods = register.changes(land.code), register.periods(land.code)
        assert [(change.before.day, change.found.day) for change in changes] == [
            (old.last, new.first) for old, new in zip(periods, periods[1:])]
        assert [change.regime.calendar for change in changes] == [
            period.calendar for period in periods[1:]]
    assert register.changes("GB")[1].left_out == 11 and register.exceptions("GB") == []


def test_a_year_from_25_march_has_feasts_of_two_easters(context: Context) -> None:
    feasts = context.register.feasts("GB", 1731)
    assert [(one.feast, one.year, one.found.dual) for one in feasts] == [
        ("Easter", 1731, "18 April 1731"), ("Ascension", 1731, "27 May 1731"),
        ("Pentecost", 1731, "6 June 1731"), ("Trinity", 1731, "13 June 1731"),
        ("Septuagesima", 1732, "6 February 1731/2"), ("Ash Wednesday", 1732, "23 February 1731/2")]


def test_a_date_is_converted_to_what_a_territory_wrote(context: Context) -> None:
    found = context.register.convert("GB", "gregorian", 1732, 2, 22)
    assert found is not None and (found.day, found.dual) == (632287, "11 February 1731/2")
    assert context.register.convert("GB", "gregorian", 1700, 2, 29) is None
    with pytest.raises(BadField):
        context.register.convert("GB", "hebrew", 1732, 2, 22)
