"""The pages, asked of the application: what they carry, and how they report what is wrong."""
from __future__ import annotations

import io
import re
from typing import Any, Callable
from urllib.parse import urlencode

import pytest
from conftest import SAMPLES
from werkzeug.test import EnvironBuilder, run_wsgi_app

from oldstyle_web.context import Page

HTML = {"Accept": "text/html"}
PATHS = ["/", "/?code=GB&date=11+February+1731&weekday=Friday", "/?code=GB&date=March+1731",
         "/?code=GB&date=before+1640", "/?code=GB&date=11%2F2%2F1731", "/day?code=GB&day=639797",
         "/month?code=GB&year=1752&month=9", "/place", "/place?code=SE", "/year?code=GB&year=1752",
         "/letters", "/nowhere"]


@pytest.mark.parametrize("path", PATHS)
def test_what_each_page_carries(client: Any, path: str) -> None:
    reply = client.get(path, headers=HTML)
    policy = reply.headers["Content-Security-Policy"]
    assert policy.startswith("default-src 'none'; script-src 'self'") and "unsafe" not in policy
    assert reply.headers["X-Content-Type-Options"] == "nosniff"
    assert reply.headers["Referrer-Policy"] == "no-referrer"
    assert "<script>" not in reply.text and " style=" not in reply.text
    assert not re.search(r" on\w+=", reply.text)
    assert re.search(r"<title>.+</title>", reply.text)


def test_what_is_typed_is_escaped(client: Any) -> None:
    typed = '"><script>alert(1)</script>'
    for path in (f"/?{urlencode({'code': 'GB', 'date': typed})}",
                 f"/month?{urlencode({'code': 'GB', 'year': typed})}",
                 f"/letters?{urlencode({'separator': typed})}"):
        assert "<script>alert" not in client.get(path, headers=HTML).text


def test_a_page_that_is_held_is_not_sent_again(client: Any) -> None:
    path = "/?code=GB&date=11+February+1731"
    tag = client.get(path).headers["ETag"]
    assert tag.startswith('"5-')
    for tags in (tag, f'"x", W/{tag}'):
        again = client.get(path, headers={"If-None-Match": tags})
        assert (again.status_code, again.data) == (304, b"")


def test_a_file_is_kept_by_its_version(client: Any) -> None:
    path, = re.findall(r'href="(/static/style.css[^"]*)"', client.get("/").text)
    assert "max-age=31536000" in client.get(path).headers["Cache-Control"]
    assert client.get("/static/style.css").headers["Cache-Control"] == "no-cache"
    assert client.get("/static/../settings.py").status_code == 404


@pytest.mark.parametrize("path, status", [
    ("/?code=gb", 400), ("/?code=ZZ&date=1", 404), ("/?code=GB&date=1731&weekday=Fryday", 400),
    ("/?date=%ff", 400), ("/?" + "x" * 5000, 414), ("/?" + "&a=1" * 40, 400),
    ("/month?code=GB&year=99999", 400), ("/day?code=GB", 400), ("/day?code=GB&day=0", 400),
    ("/place?edition=abc", 400), ("/?code=GB&date=1+May%E2%80%AE+1700", 400), ("/nowhere", 404),
    ("/static/none.css", 404), ("/?code=GB&date=1&order=x", 400), ("/?date=%00&code=GB", 400),
    ("/?code=GB&date=" + "x" * 201, 400), ("/month?code=GB&year=1&month=13", 400),
    ("/day?code=GB&day=3652060", 400), ("/year?code=GB&year=0", 400), ("/place?code=ZZ", 404)])
def test_wrong_words_have_a_status_and_a_sentence(client: Any, path: str, status: int) -> None:
    for accept, kind in (("*/*", "text/plain"), ("text/html", "text/html"),
                         ("application/json", "application/json")):
        reply = client.get(path, headers={"Accept": accept})
        assert (reply.status_code, reply.mimetype) == (status, kind)
        assert reply.headers["Cache-Control"] == "no-store" and "ETag" not in reply.headers


@pytest.mark.parametrize("path, word", [
    ("/month?code=GB&year=abc&month=9", 'value="abc"'), ("/year?code=GB&year=0", 'value="0"'),
    ("/?code=ZZ&date=11+May+1700", 'value="11 May 1700"')])
def test_a_page_of_wrong_words_has_its_form_again(client: Any, path: str, word: str) -> None:
    text = client.get(path, headers=HTML).text
    assert word in text and 'class="question"' in text


def test_other_methods_are_refused(client: Any) -> None:
    reply = client.post("/")
    assert reply.status_code == 405 and "GET" in reply.headers["Allow"]
    assert client.head("/").status_code == 200
    for method, path in (("PUT", "/"), ("DELETE", "/letters"), ("BREW", "/")):
        assert client.open(path, method=method).status_code == 405


def test_a_fault_of_the_page_is_reported_and_logged(client: Any, page: Page, caplog: Any,
                                                monkeypatch: pytest.MonkeyPatch) -> None:
    monkeypatch.setattr(page.register, "of_one_edition", lambda _work: 1 / 0)
    reply = client.get("/place")
    assert reply.status_code == 500 and "Something is wrong in this page" in reply.text
    assert "ZeroDivisionError" in caplog.text


def test_a_year_of_three_digits_is_remarked(client: Any) -> None:
    for date, is_remarked in (("11+July+841", True), ("11+July+0841", False)):
        answer = client.get(f"/answer.json?code=GB&date={date}").json
        assert answer and ("Year of three digits." in answer["html"]) is is_remarked


def test_the_live_region_reads_one_sentence(client: Any) -> None:
    page = client.get("/?code=GB&date=11+February+1731").text
    assert re.findall(r'<[^>]*(?:aria-live|role="status")[^>]*>', page) == [
        '<p id="announcement" role="status" class="visually-hidden">']
    answer = client.get("/answer.json?code=GB&date=11+February+1731").json
    assert answer["announcement"] == (
        "“11 February 1731” in Great Britain (GB): Friday 11 February 1731/2, "
        "22 February 1732 Gregorian, 11 February 1732 Julian, JDN 2353712.")
    assert "aria-live" not in answer["html"]


def test_the_keyboard_reaches_each_day(client: Any) -> None:
    text = client.get("/month?code=GB&year=1752&month=9").text
    days = re.findall(r'<td[^>]*><a href="([^"]+)" aria-label="([^"]+)"', text)
    assert len(days) == 19 and "tabindex=\"-1\" class=\"month\"" not in text
    assert not re.search(r'<a [^>]*tabindex', text)
    assert [name for _, name in days if "change" in name] == [
        "Thursday 14 September 1752, the first day after a change"]


def test_a_table_is_sent_by_a_form_or_as_it_is(client: Any) -> None:
    table = b"place,date\nGB,11 February 1731\n"
    bare = client.post("/letters", data=table, content_type="application/x-www-form-urlencoded",
                       buffered=True)
    form = client.post("/letters", data={"table": (io.BytesIO(table), "my letters.csv")},
                       content_type="multipart/form-data", buffered=True)
    assert bare.status_code == form.status_code == 200 and bare.data == form.data
    assert b"Friday" in bare.data
    assert form.headers["Content-Disposition"] == 'attachment; filename="my letters-found.csv"'
    marked = client.post("/letters", data=b"\xef\xbb\xbf" + table, content_type="text/csv",
                         buffered=True)
    assert marked.data == b"\xef\xbb\xbf" + bare.data


@pytest.mark.parametrize("data, kind, status", [
    (b"place,date\n\xff", "text/csv", 422), (b"x\n", "text/csv", 422),
    ({"order": "dmy"}, "multipart/form-data", 400),
    (b"x", "multipart/form-data; boundary=b", 400),
    (b"x", "multipart/form-data; boundary b=c", 400), (b"x", "multipart/form-data", 400)])
def test_a_wrong_table_is_refused(client: Any, data: Any, kind: str, status: int) -> None:
    assert client.post("/letters", data=data, content_type=kind).status_code == status


def test_a_table_over_the_limit_is_refused(page_of: Callable[..., Page], program: str) -> None:
    client = page_of(program, max_upload=1024 * 1024).test_client()
    table = b"place,date\n" + b"GB,1731\n" * 140_000
    for data, kind in ((table, "text/csv"), ({"table": (io.BytesIO(table), "t.csv")}, None)):
        reply = client.post("/letters", data=data, content_type=kind or "multipart/form-data")
        assert reply.status_code == 413 and "larger than 1 MB" in reply.text
    reply = client.post("/letters", data=table[:1024 * 1024 - 5], content_type="text/csv")
    assert reply.status_code == 200 and reply.data.count(b"\n") == 131_071


def test_a_reply_with_a_table_has_its_length(page: Page) -> None:
    environ = EnvironBuilder("/letters", method="POST").get_environ()
    environ.pop("CONTENT_LENGTH", None)
    assert run_wsgi_app(page, environ, buffered=True)[1].startswith("411 ")


def test_other_hosts_are_refused_if_the_page_has_names(page_of: Callable[..., Page],
                                                       program: str) -> None:
    client = page_of(program, SAMPLES, hosts=("register.example",)).test_client()
    assert client.get("/", headers={"Host": "register.example:8000"}).status_code == 200
    assert client.get("/", headers={"Host": "example.org"}).status_code == 421
