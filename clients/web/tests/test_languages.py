"""The languages of the page: complete catalogues, and how one is chosen."""
from __future__ import annotations

import gettext
import json
import re
import shutil
import subprocess
import sys
from pathlib import Path
from typing import Any
from urllib.parse import urlencode

import pytest

from oldstyle_web.languages import LANGUAGES

pytest.importorskip("babel")
FOLDER = Path(__file__).resolve().parent.parent
OTHERS = [language for language in LANGUAGES if language != "en"]
PART = re.compile(r"%\(\w+\)s")
PATHS = ["/", "/?code=GB&date=11+February+1731&weekday=Friday", "/?code=GB&date=March+1731",
         "/?code=GB&date=11%2F2%2F1731", "/day?code=GB&day=632287", "/place", "/place?code=GB",
         "/month?code=GB&year=1731&month=3", "/year?code=GB&year=1752", "/letters", "/forms",
         "/compare?code=GB&other=SE&date=1700", "/edition?edition=2&code=GB", "/nowhere"]


def messages_in_the_source() -> set[str]:
    """The messages of modules, templates and scripts, as Babel finds them."""
    from babel.messages.extract import extract_from_dir
    from babel.messages.frontend import parse_mapping
    with open(FOLDER / "babel.cfg", encoding="utf-8") as file:
        methods, options = parse_mapping(file)
    return {found[2] for found in extract_from_dir(str(FOLDER), methods, options)}


@pytest.mark.parametrize("language", OTHERS)
def test_no_message_is_untranslated(language: str) -> None:
    from babel.messages.pofile import read_po
    path = FOLDER / "src" / "oldstyle_web" / "locale" / language / "LC_MESSAGES" / "messages.po"
    with open(path, "rb") as file:
        catalogue = {message.id: message for message in read_po(file) if message.id}
    assert set(catalogue) == messages_in_the_source()
    for text, message in catalogue.items():
        assert message.string and not message.fuzzy
        assert sorted(PART.findall(text)) == sorted(PART.findall(message.string)), text


def test_catalogues_are_compiled_when_the_package_is_built(tmp_path: Path) -> None:
    pytest.importorskip("setuptools")
    shutil.copytree(FOLDER, tmp_path / "web", ignore=shutil.ignore_patterns("tests", "*.egg-info"))
    subprocess.run([sys.executable, "setup.py", "-q", "build", "--build-base", "made"], check=True,
                   cwd=tmp_path / "web", capture_output=True)
    made = tmp_path / "web" / "made" / "lib" / "oldstyle_web"
    assert (made / "forms.txt").read_text(encoding="utf-8").startswith("# Dates")
    for language in OTHERS:
        with open(made / "locale" / language / "LC_MESSAGES" / "messages.mo", "rb") as file:
            assert gettext.GNUTranslations(file).gettext("Undo") != "Undo"


@pytest.mark.parametrize("path", PATHS)
def test_each_page_is_in_each_language(client: Any, path: str) -> None:
    expected = {"en": "Pages", "de": "Seiten", "fr": "Pages", "sv": "Sidor"}
    for language in LANGUAGES:
        text = client.get(path, headers={"Accept": "text/html", "Accept-Language": language}).text
        assert f'<html lang="{language}"' in text
        assert f'<nav aria-label="{expected[language]}">' in text


@pytest.mark.parametrize("path", ["/?code=gb", "/?code=ZZ&date=1", "/month?code=GB&year=abc",
                                  "/?code=GB&date=1731&weekday=Fryday", "/nowhere",
                                  "/edition?edition=99", "/day?code=GB"])
def test_a_refusal_is_in_the_language_of_the_request(client: Any, path: str) -> None:
    sentences = [client.get(path, headers={"Accept-Language": language}).text
                 for language in LANGUAGES]
    assert len(set(sentences)) == len(LANGUAGES) and all(sentences)
    assert client.get(path).text == sentences[0]


def test_how_a_language_is_chosen(client: Any) -> None:
    def language(accepted: str, words: dict[str, str]) -> str:
        reply = client.get(f"/?{urlencode(words)}", headers={"Accept-Language": accepted})
        assert "Accept-Language" in reply.headers["Vary"]
        return str(re.findall(r'<html lang="(\w+)"', reply.text)[0])
    assert language("", {}) == language("nl", {}) == language("*", {}) == "en"
    assert language("nl, sv-SE;q=0.8, de;q=0.5", {}) == "sv"
    assert language("de-AT", {}) == "de" and language("de", {"lang": "fr"}) == "fr"
    assert language("de", {"lang": "xx"}) == "de"


def test_links_keep_the_language_that_the_address_names(client: Any) -> None:
    text = client.get("/day?code=GB&day=632287&lang=sv").text
    links = re.findall(r'href="(/[^"]*)"', text.partition("<main")[2].partition("</main>")[0])
    assert links and all("lang=sv" in link for link in links)
    assert 'href="?code=GB&amp;day=632287&amp;lang=de"' in text
    form = client.get("/?code=GB&lang=sv").text
    assert '<input type="hidden" name="lang" value="sv">' in form
    assert 'data-answer="/answer.json"' in form and 'action="/"' in form
    bare = client.get("/day?code=GB&day=632287").text
    assert "lang=" not in bare.partition("<main")[2].partition("<footer")[0]


def test_dates_have_the_names_of_the_language(client: Any) -> None:
    for language, date in (("de", "Freitag 11. Februar 1731/2"),
                           ("sv", "fredag 11 februari 1731/2"),
                           ("fr", "vendredi 11 février 1731/2")):
        text = client.get(f"/?code=GB&date=11+February+1731&lang={language}").text
        assert f">{date}</h2>" in text
        assert 'name="weekday"' in text and '<option value="Friday">' in text


def test_changes_are_in_the_language(client: Any) -> None:
    for language, sentence in (("de", "11 Daten fielen aus."), ("fr", "11 dates sautées."),
                               ("sv", "11 datum föll bort.")):
        for page in ("month?month=9&year=1752", "year?year=1752", "place?"):
            assert f" {sentence}</strong>" in client.get(f"/{page}&code=GB&lang={language}").text


def test_remarks_are_in_the_language(client: Any) -> None:
    text = client.get("/?code=GB&date=5+September+1752&lang=de").text
    assert "<li>Auf Mittwoch 2. September 1752 folgte Donnerstag 14. September 1752." in text
    text = client.get("/?code=GB&date=11+February+1731+N.S.&lang=fr").text
    assert "<li>Lu comme nouveau style, ainsi que le dit la date." in text


def test_what_the_program_says_is_quoted_in_its_language(client: Any) -> None:
    assert '<pre class="quoted" lang="en">' in client.get("/edition?lang=de").text


def test_scripts_have_their_messages(client: Any) -> None:
    for language in OTHERS:
        reply = client.get(f"/messages.js?lang={language}")
        assert reply.mimetype == "text/javascript"
        catalogue = json.loads(reply.text.removeprefix("export default ").rstrip(";\n"))
        assert catalogue["Undo"] and catalogue["Undo"] != "Undo"
    assert client.get("/messages.js?lang=en").text == "export default {};\n"


def test_names_in_messages_are_escaped_and_visible(page: Any) -> None:
    from markupsafe import Markup

    from oldstyle_web.languages import in_template
    with page.test_request_context("/?lang=de"):
        assert in_template("%(first)s to %(last)s.", first="<\x85>", last=Markup("<b>x</b>")) == (
            "&lt;&lt;U+0085&gt;&gt; to <b>x</b>.")
