"""The register as the page asks it: each answer of one edition, and none of an earlier one."""
from __future__ import annotations

import json
from typing import Any, Iterator, Sequence

import pytest
from conftest import SAMPLES

from oldstyle_web.problems import Problem
from oldstyle_web.register import Asking, Register
from oldstyle_web.settings import Settings
from oldstyle_web.years import questions_of, year_found

DAY = {"day": 632287, "dual": "11 February 1731/2", "gregorian": "1732-02-22", "jdn": 2353712,
       "julian": "1732-02-11", "label": "1731-02-11", "weekday": "Friday", "new": {"member": 1}}
PERIOD = {"calendar": "julian", "rule": "julian", "style": "annunciation", "first": 1,
          "last": 639550, "source": "A book", "new": 1}
EASTER = {"found": DAY, "year": 1732, "source": "A table", "new": 1}


class Answering(Register):
    """A register whose runs give editions in turn."""

    def __init__(self, *editions: int, journal: str = SAMPLES):
        super().__init__(Settings(journal, "/none"))
        self.editions = iter(editions)
        self.asked: list[Sequence[bytes]] = []
        self.answer: dict[str, Any] = {"lands": [{"code": "GB", "name": "x", "new": 1}],
                                       "periods": []}

    def replies(self, pool: object, lines: Sequence[bytes]) -> list[bytes]:
        self.asked.append(lines)
        return [json.dumps({"answer": self.answer, "edition": next(self.editions), "new": 1,
                            "reader": 1}).encode() for _ in lines]


def twice(asking: Asking) -> str:
    asking.periods("GB")
    return asking.lands()[0].name


def test_an_answer_is_of_one_edition() -> None:
    assert Answering(1, 2, 2, 2).of_one_edition(twice) == (2, "x")


def test_each_question_is_asked_once_and_those_of_a_territory_together() -> None:
    register = Answering(*[1] * 5)
    asking = Asking(register)
    asking.lands("GB", [{"op": "day", "code": "GB", "day": 1}])
    assert asking.periods("GB") == [] and asking.lands()[0].code == "GB"
    assert [[json.loads(line)["op"] for line in lines] for lines in register.asked] == [
        ["lands", "periods", "changes", "exceptions", "day"]]


def test_a_year_is_asked_in_one_exchange() -> None:
    register = Answering(*[1] * 19)
    register.answer |= {"changes": [], "exceptions": [EASTER], "runs": [],
                        "feasts": [{"feast": "Easter", "found": DAY, "year": 1732, "new": 1}]}
    asking = Asking(register)
    asking.lands("GB", questions_of("GB", 1731))
    found = year_found(asking, "GB", 1731)
    assert len(register.asked) == 1 and found.easters == found.listed
    assert [(one.feast, one.found.day, one.year) for one in found.feasts] == [
        ("Easter", 632287, 1732)]
    assert found.sources == ["A table"]


def test_editions_of_answers_never_fall() -> None:
    register = Answering(3, 3, 2, 2, 3, 3)
    assert [register.of_one_edition(twice)[0] for _ in range(2)] == [3, 3]


def test_editions_that_change_all_the_time_are_refused(monkeypatch: pytest.MonkeyPatch) -> None:
    monkeypatch.setattr("time.sleep", lambda _seconds: None)
    with pytest.raises(Problem) as why:
        Answering(*range(1, 100)).of_one_edition(twice)
    assert why.value.code == 503 and why.value.headers == {"Retry-After": "2"}


def test_what_an_earlier_edition_lacks_is_not_reported() -> None:
    def work(asking: Asking) -> str:
        asking.lands()
        if asking.editions == {1}:
            raise Problem(404, "there is no such place")
        return "found"
    register = Answering(2, 1, 2)
    register.of_one_edition(Asking.lands)
    assert register.of_one_edition(work) == (2, "found")


def test_a_missing_journal_is_reported() -> None:
    with pytest.raises(Problem) as why:
        Answering(0, journal="/none/of/it").of_one_edition(Asking.lands)
    assert why.value.code == 503 and "isn't there" in str(why.value.description)


def test_members_that_a_newer_program_adds_are_ignored() -> None:
    register = Answering(*[1] * 9)
    asking = Asking(register)
    assert asking.lands()[0].code == "GB"
    register.answer = {"periods": [PERIOD]}
    assert asking.periods("GB")[0].source == "A book"
    register.answer = {"changes": [{"before": DAY, "found": DAY, "left_out": None, "twice": None,
                                    "regime": PERIOD, "regime_before": PERIOD, "new": 1}]}
    change, = asking.changes("GB")
    assert (change.found.day, change.regime.style, change.left_out, change.source) == (
        632287, "annunciation", None, None)
    register.answer = {"exceptions": [EASTER]}
    easter, = asking.exceptions("GB")
    assert (easter.found.label, easter.year, easter.source) == ("1731-02-11", 1732, "A table")
    register.answer = {"found": DAY, "new": 1}
    found, = asking.dated_days("GB", asking.days("GB", [632287]))
    assert (found.found.label, found.period.style, found.period.source) == (
        "1731-02-11", "annunciation", "A book")
    register.answer = {"runs": [{"first": DAY, "last": DAY, "new": 1}]}
    assert asking.runs("GB", ["x"])[0][0].first.day == 632287


@pytest.fixture(params=["", "exit 1", "exec sleep 60"])
def failing(request: Any, script: Any) -> Iterator[Register]:
    program = script(request.param) if request.param else "/none/of/it"
    register = Register(Settings(SAMPLES, program, question_seconds=0.3))
    yield register
    register.close()


def test_a_failing_program_is_reported_without_a_path(failing: Register) -> None:
    with pytest.raises(Problem) as why:
        failing.of_one_edition(Asking.lands)
    assert why.value.code == 503 and "/" not in str(why.value.description)
