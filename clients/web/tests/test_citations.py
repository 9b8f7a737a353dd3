"""Citations: the editions that they name, titles that differ, and forms for other programs."""
from __future__ import annotations

import json
import re
import shutil
import subprocess
from pathlib import Path
from typing import Any, Callable

import pytest

from oldstyle_web import editions
from oldstyle_web.context import Page

FORMS = Path(editions.__file__).with_name("static") / "formats.js"
ANSWERS = ["/?code=GB&date=11+February+1731", "/day?code=GB&day=639797",
           "/month?code=GB&year=1752&month=9", "/place?code=SE", "/year?code=GB&year=1752"]
OTHERS = ["/", "/month", "/place", "/year", "/letters", "/edition?edition=2", "/edition?edition=3",
          "/edition?edition=3&code=SE", "/nowhere"]
ITEM = {"name": "The register", "what": "“1731” in Å & {B}_%",
        "version": "edition 5 of a.journal", "sources": "Source: 24 Geo. II.",
        "address": "http://127.0.0.1:8000/day?code=GB&day=1"}


@pytest.mark.parametrize("path", ANSWERS)
def test_an_answer_leads_to_its_edition_and_to_one_that_is_named(client: Any, path: str) -> None:
    text = client.get(f"{path}&edition=3").text
    links = re.findall(r'href="(/edition\?[^"]+)"', text)
    assert [re.findall(r"edition=(\d)", link) for link in links] == [["3"], ["5"]]
    for link in links:
        assert client.get(link.replace("&amp;", "&")).status_code == 200


def test_an_edition_is_what_it_changed_and_a_place_in_it(client: Any) -> None:
    text = client.get("/edition?edition=2&code=GB").text
    assert "GB: from Thursday 14 September 1752 (day 639797): gregorian calendar" in text
    assert "Great Britain (GB), edition 2\n" in text and "SE:" not in text
    assert "RM: new territory Rome" in client.get("/edition?edition=1").text
    assert client.get("/edition?edition=2&code=SE").status_code == 404
    for wrong in ("0", "6"):
        assert client.get(f"/edition?edition={wrong}").status_code == 404


def test_each_citation_has_the_sources_of_its_page(page_of: Callable[..., Page], program: str,
                                                   journal_of: Callable[..., str]) -> None:
    land = {"op": "add_land", "code": "AA", "name": "A\x85B", "calendar": "julian",
            "rule": "julian", "style": "january", "source": "The <first> source"}
    change = land | {"op": "add_change", "day": 577_736, "calendar": "gregorian",
                     "source": "An act"}
    del change["name"]
    client = page_of(program, journal_of(land, change)).test_client()
    for address in ("/?code=AA&date=October+1582", "/month?code=AA&year=1582&month=10",
                  "/year?code=AA&year=1582", "/place?code=AA",
                  "/compare?code=AA&other=AA&date=October+1582"):
        text = client.get(address).text
        before, _, cited = text.partition('class="citation"')
        for part in (before, cited.partition("</p>")[0]):
            assert "The &lt;first&gt; source; An act" in part, address
        assert "\x85" not in text and "A&lt;U+0085&gt;B" in text
    html = client.get("/edition?edition=1&code=AA").text
    assert "source: The &lt;first&gt; source" in html and "(source: An act)" in html


def test_each_page_has_a_title_of_its_own(client: Any) -> None:
    titles = [re.findall("<title>(.+)</title>", client.get(
        path, headers={"Accept": "text/html"}).text)[0] for path in ANSWERS + OTHERS]
    assert len(set(titles)) == len(titles) and all(" – " in title for title in titles)


def test_a_printed_page_has_its_whole_address(client: Any) -> None:
    style = client.get("/static/style.css").text.partition("@media print")[2]
    assert "attr(data-address)" in style
    assert "link.dataset.address = link.href" in client.get("/static/cite.js").text


@pytest.fixture
def written(tmp_path: Path) -> Callable[[str], str]:
    """Writes an item as a script of the page does."""
    if not (node := shutil.which("node")):
        pytest.skip("it requires node")
    script = tmp_path / "formats.mjs"
    shutil.copy(FORMS, script)

    def write(form: str) -> str:
        code = (f"import {{{form}}} from {json.dumps(str(script))};"
                f"const item = {{...{json.dumps(ITEM)}, seen: new Date(2026, 0, 2)}};"
                f"process.stdout.write({form}(item));")
        return subprocess.run([node, "--input-type=module", "--eval", code], capture_output=True,
                              check=True).stdout.decode()
    return write


def test_a_citation_as_bibtex(written: Callable[[str], str]) -> None:
    assert written("bibtex") == (
        "@misc{oldstyle-day-code-gb-day-1,\n"
        "  title = {{“1731” in Å \\& \\{B\\}\\_\\%}},\n"
        "  howpublished = {The register, edition 5 of a.journal},\n"
        "  note = {Source: 24 Geo. II.},\n"
        "  url = {http://127.0.0.1:8000/day?code=GB&day=1},\n  urldate = {2026-01-02},\n}\n")


def test_a_citation_as_ris(written: Callable[[str], str]) -> None:
    assert written("ris").split("\r\n") == [
        "TY  - ELEC", f"TI  - {ITEM['what']}", "T2  - The register",
        "ET  - edition 5 of a.journal", "N1  - Source: 24 Geo. II.", f"UR  - {ITEM['address']}",
        "Y2  - 2026/01/02", "ER  - ", ""]


def test_a_citation_as_csl(written: Callable[[str], str]) -> None:
    entry, = json.loads(written("csl"))
    assert entry["accessed"] == {"date-parts": [[2026, 1, 2]]} and entry["type"] == "webpage"
    assert (entry["title"], entry["URL"]) == (ITEM["what"], ITEM["address"])
