"""The words of a request, and texts with signs that are not printed."""
from __future__ import annotations

import pytest
from markupsafe import Markup

from oldstyle_web import texts, words
from oldstyle_web.problems import Problem


@pytest.mark.parametrize("sign", "\u202e\u2066\x85\x7f\0")
def test_signs_that_are_not_printed_are_refused_and_shown(sign: str) -> None:
    with pytest.raises(Problem):
        words.date_of(f"1 May{sign}1700")
    assert words.written_out(f"a{sign}b") == f"a<U+{ord(sign):04X}>b"


def test_letters_of_dates_stay() -> None:
    assert words.date_of(" 3–10 février 1650 ") == "3–10 février 1650"


def test_markup_and_nothing_are_written_as_they_are() -> None:
    assert words.written_out(Markup("<b>\n")) == "<b>\n"
    assert words.written_out(None) == ""


@pytest.mark.parametrize("read, text", [
    (words.code_of, "gb"), (words.code_of, "G"), (words.weekday_of, "Fryday"),
    (words.order_of, "x"), (words.month_of, "13"), (words.month_of, "Sept"),
    (words.date_of, "x" * 201)])
def test_wrong_words_are_refused(read: object, text: str) -> None:
    with pytest.raises(Problem) as why:
        read(text)  # type: ignore[operator]
    assert why.value.code == 400


def test_months_by_name_and_number() -> None:
    assert [words.month_of(text) for text in ("september", "9", " ")] == [9, 9, None]


def test_sources_stand_once_in_one_sentence() -> None:
    assert texts.sources_text([]) == ""
    assert texts.sources_text(["a.", "a."]) == "Source: a."
    assert texts.sources_text(["a", "b"]) == "Sources: a; b."
