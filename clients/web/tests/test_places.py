"""Places by their names, and one date in two of them."""
from __future__ import annotations

import re
from typing import Any, Callable

from oldstyle_web.context import Page

REGIME = {"calendar": "gregorian", "style": "january", "rule": "gregorian"}


def names_in(client: Any, path: str) -> list[str]:
    return re.findall(r"<tr data-place>.*?<a [^>]*>(.+?)</a>", client.get(path).text)


def test_places_are_in_the_order_of_their_names(client: Any) -> None:
    names = ["Great Britain", "Rome", "Russia", "Sample of a German territory", "Sweden"]
    assert names_in(client, "/place") == names
    options = re.findall(r"<option value=\"[A-Z]+\"[^>]*>(.+?) \(", client.get("/").text)
    assert options[:5] == names


def test_a_name_or_a_code_is_looked_for(client: Any) -> None:
    assert names_in(client, "/place?name=swe") == ["Sweden"]
    assert names_in(client, "/place?name=RU") == ["Russia"]
    assert names_in(client, "/place?name=none+of+these") == []
    text = client.get("/place?name=%22%3Cb%3E").text
    assert "<b>" not in text and 'value="&#34;&lt;b&gt;"' in text


def test_a_place_has_its_changes_and_listed_easters(
        page_of: Callable[..., Page], program: str, journal_of: Callable[..., str]) -> None:
    client = page_of(program, journal_of(
        {"op": "add_land", "code": "AA", "name": "A", **REGIME},
        {"op": "add_change", "code": "AA", "day": 639_965, **REGIME, "calendar": "julian"},
        {"op": "add_exception", "code": "AA", "year": 1724, "day": 629_412, "source": "A <table>"},
        {"op": "add_exception", "code": "AA", "year": 1744, "day": 636_720})).test_client()
    text = client.get("/place?code=AA").text
    day = '<a href="/day?code=AA&amp;day='
    assert f"<li>1724: {day}629412\">Sunday 9 April 1724</a>. Source: A &lt;table&gt;.</li>" in text
    assert f"<li>1744: {day}636720\">Sunday 12 April 1744</a>. </li>" in text
    assert ("<strong>Wednesday 28 February 1753 was followed by Thursday 18 February 1753. "
            "11 dates come twice.</strong> Until then: Gregorian calendar, ") in text
    text = client.get("/year?code=AA&year=1724").text
    assert "Sunday 9 April 1724</a>, as listed" in text
    assert "Source: A &lt;table&gt;." in text.partition('class="citation"')[2]
    assert "listed" not in client.get("/year?code=AA&year=1725").text


def test_one_date_in_two_places(client: Any) -> None:
    text = client.get("/compare?code=GB&other=SE&date=11+February+1731").text
    assert re.findall(r'<section aria-label="([^"]+)">', text) == ["Great Britain", "Sweden"]
    assert text.count("Friday 11 February 1731/2</h2>") == 1
    assert text.count("Thursday 11 February 1731</h2>") == 1
    assert "<title>11 February 1731 in Great Britain / Sweden – " in text
    cited = re.findall('<p class="citation"[^>]*>(.*?)</p>', text)[0]
    assert "in Great Britain (GB)" in cited and "in Sweden (SE)" in cited and "edition 5" in cited
    assert len(re.findall(' id="citation"', text)) == 1


def test_two_places_of_which_one_has_no_such_day(client: Any) -> None:
    text = client.get("/compare?code=GB&other=DE&date=5+September+1752").text
    assert "No day there has this date" in text and "Tuesday 5 September 1752</h2>" in text


def test_a_comparison_that_lacks_a_word_has_its_form(client: Any) -> None:
    for path in ("/compare", "/compare?code=GB", "/compare?code=GB&date=1+May+1700"):
        assert "Choose two places" in client.get(path).text
    assert client.get("/compare?code=GB&other=ZZ&date=1731").status_code == 404
    assert "/compare?code=GB&amp;date=1731" in client.get("/?code=GB&date=1731").text
