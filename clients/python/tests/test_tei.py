"""Which places of a TEI file are beside its dates."""
from __future__ import annotations

import argparse

import pytest

from oldstyle.commands import Context
from oldstyle.tei import fill

DATE = "<date>30 Feb. 1712</date>"
FILLED = '<date when="1712-03-11" when-custom="1712-02-30" calendar="#swedish">30 Feb. 1712</date>'


def fill_date(opener: str, context: Context) -> str:
    front, end = '<TEI xmlns="http://www.tei-c.org/ns/1.0"><opener>', "</opener></TEI>"
    text = fill((front + opener + end).encode(), context, argparse.Namespace()).decode()
    return text[len(front) : -len(end)]


@pytest.mark.parametrize("silent", ["note", "del"])
def test_a_place_that_is_noted_in_another_one_is_not_read(context: Context, silent: str) -> None:
    place = f"<placeName>Lund<{silent}><placeName>Stockholm</placeName></{silent}></placeName>"
    assert fill_date(place + DATE, context) == place + DATE
    context.report_unknown()
    assert context.remarks == [(1, "unknown place Lund (1 date): list it in --places FILE")]


def test_of_a_choice_in_a_place_the_part_of_the_editor_is_read(context: Context) -> None:
    place = ("<placeName>at <choice><sic><settlement>London</settlement></sic>"
             "<corr><settlement>Stockholm</settlement></corr></choice></placeName>")
    assert fill_date(place + DATE, context) == place + FILLED


def test_a_dateline_in_the_note_of_a_place_has_its_own_place(context: Context) -> None:
    front = "<placeName>Lund<note><dateline><placeName>Stockholm</placeName>"
    end = "</dateline></note></placeName>"
    assert fill_date(front + DATE + end, context) == front + FILLED + end


def test_a_part_of_a_place_is_read_if_the_whole_is_unknown(context: Context) -> None:
    place = "<placeName>Gamla stan, <settlement>Stockholm</settlement></placeName>"
    assert fill_date(place + DATE, context) == place + FILLED


def test_a_date_in_an_unclear_text_is_in_doubt(context: Context) -> None:
    front = "<placeName>Stockholm</placeName><unclear>"
    doubtful = FILLED.replace(">30", ' cert="medium">30')
    assert fill_date(f"{front}{DATE}</unclear>", context) == f"{front}{doubtful}</unclear>"
    inner = "<placeName>Stockholm</placeName><date>30 <unclear>Feb.</unclear> 1712</date>"
    assert 'cert="medium"' in fill_date(inner, context)
    assert "cert" not in fill_date("<placeName>Stockholm</placeName><unclear/>" + DATE, context)
