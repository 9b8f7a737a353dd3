"""The interface for programs, compared with the service and with its description."""
from __future__ import annotations

import json
import re
import subprocess
from pathlib import Path
from typing import Any, Callable
from urllib.parse import urlencode

import pytest
from conftest import SAMPLES

from oldstyle_web import api
from oldstyle_web.context import Page

jsonschema = pytest.importorskip("jsonschema")
README = Path(__file__).resolve().parents[1] / "README.md"
SOURCE = Path(api.__file__).with_name("openapi.json")
DESCRIBED = json.loads(SOURCE.read_text(encoding="utf-8"))
ASKED: list[tuple[str, dict[str, str], int]] = [
    ("territories", {}, 200), ("territories", {"place": "GB"}, 400),
    ("periods", {"place": "GB"}, 200), ("periods", {"place": "ZZ"}, 404),
    ("periods", {"place": "gb"}, 404), ("periods", {}, 400), ("periods", {"code": "GB"}, 400),
    ("exceptions", {"place": "RM"}, 200), ("exceptions", {"place": "ZZ"}, 404),
    ("changes", {"place": "GB"}, 200), ("changes", {"place": "ZZ"}, 404),
    ("read", {"place": "GB", "date": "1731-02-11"}, 200),
    ("read", {"place": "GB", "date": "1752-09-05"}, 200),
    ("read", {"place": "GB", "date": "1731-13-11"}, 400),
    ("read", {"place": "GB", "date": "11 February 1731"}, 400),
    ("read", {"place": "ZZ", "date": "1731-02-11"}, 404),
    ("written", {"place": "GB", "date": "11 Feb. 1731/32"}, 200),
    ("written", {"place": "SE", "date": "30 February 1712", "weekday": "Friday"}, 200),
    ("written", {"place": "GB", "date": "3 September 1752"}, 200),
    ("written", {"place": "GB", "date": "Michaelmas é \u2028"}, 200),
    ("written", {"place": "GB", "date": ""}, 200),
    ("written", {"place": "GB", "date": "1731", "weekday": "Fryday"}, 400),
    ("written", {"place": "GB"}, 400), ("written", {"place": "GB", "date": "x" * 1001}, 400),
    ("day", {"place": "GB", "day": "639797"}, 200), ("day", {"place": "GB", "day": "0"}, 400),
    ("day", {"place": "GB", "day": "1e3"}, 400),
    ("easter", {"place": "RM", "year": "1582"}, 200), ("easter", {"place": "GB", "year": "0"}, 400),
    ("feasts", {"place": "GB", "year": "1731"}, 200),
    ("feasts", {"place": "GB", "year": "0"}, 400), ("feasts", {"place": "ZZ", "year": "0"}, 404),
    ("convert", {"place": "GB", "calendar": "gregorian", "date": "1732-02-22"}, 200),
    ("convert", {"place": "GB", "calendar": "swedish", "date": "1700-02-29"}, 200),
    ("convert", {"place": "GB", "calendar": "hebrew", "date": "1732-02-22"}, 400),
    ("convert", {"place": "ZZ", "calendar": "julian", "date": "1732-02-22"}, 404),
    ("convert", {"place": "GB", "calendar": "julian"}, 400),
    ("figures", {"year": "1731"}, 200), ("figures", {"year": "10000"}, 400)]


def resolve(node: Any) -> Any:
    """A part of the description, or that to which it refers."""
    if "$ref" in node:
        part: Any = DESCRIBED
        for name in node["$ref"].removeprefix("#/").split("/"):
            part = part[name]
        return part
    return node


def schema_of(name: str, status: int) -> dict[str, Any]:
    """The schema of a reply, with those that it refers to."""
    reply = resolve(DESCRIBED["paths"][f"/{name}"]["get"]["responses"][str(status)])
    return {"components": DESCRIBED["components"],
            **reply["content"]["application/json"]["schema"]}


@pytest.mark.parametrize("name, words, status", ASKED)
def test_a_reply_is_as_it_is_described(client: Any, name: str, words: dict[str, str],
                                       status: int) -> None:
    reply = client.get(f"/api/v1/{name}?{urlencode(words)}")
    assert reply.status_code == status, reply.text
    assert reply.content_type == "application/json"
    jsonschema.Draft202012Validator(schema_of(name, status)).validate(reply.json)


def test_each_address_and_word_is_described() -> None:
    described = {}
    for path, node in DESCRIBED["paths"].items():
        words = [resolve(word) for word in node["get"]["parameters"]]
        described[path[1:]] = {word["name"]: word["required"] for word in words}
    assert described == {name: {word: word not in query.optional for word in query.words}
                         for name, query in api.QUERIES.items()}


def test_each_described_object_names_all_its_members(client: Any) -> None:
    def close(node: Any) -> Any:
        if isinstance(node, dict):
            closed = {name: close(part) for name, part in node.items()}
            return closed | {"additionalProperties": False} if "properties" in node else closed
        return [close(part) for part in node] if isinstance(node, list) else node
    for name, words, status in ASKED:
        reply = client.get(f"/api/v1/{name}?{urlencode(words)}")
        jsonschema.Draft202012Validator(close(schema_of(name, status))).validate(reply.json)


def test_the_description_is_valid() -> None:
    validator = pytest.importorskip("openapi_spec_validator")
    validator.validate(DESCRIBED)


def test_a_reply_is_the_line_of_the_service(client: Any, program: str) -> None:
    lines = ['{"op":"written","reader":1,"code":"GB","date":"11 Feb. 1731/32"}',
             '{"op":"written","reader":1,"code":"ZZ","date":"11 Feb. 1731/32"}']
    done = subprocess.run([program, "serve", "--journal", SAMPLES, "--read-only"],
                          input="\n".join(lines) + "\n", text=True, capture_output=True, check=True)
    replies = [client.get(f"/api/v1/written?place={code}&date=11+Feb.+1731/32").text
               for code in ("GB", "ZZ")]
    assert "".join(replies) == done.stdout


def test_the_formula_for_a_spreadsheet_finds_the_first_day(client: Any) -> None:
    text = README.read_text(encoding="utf-8")
    quoted, = re.findall(r'REGEX\(C2;"((?:[^"]|"")*)"\)', text)
    found = {}
    for date in ("11 Feb. 1731/32", "March 1731", "5 September 1752", "n.d."):
        reply = client.get(f"/api/v1/written?{urlencode({'place': 'GB', 'date': date})}").text
        part = re.search(quoted.replace('""', '"'), reply)
        found[date] = part and part[0].rpartition('"')[2]
    assert found == {"11 Feb. 1731/32": "1732-02-22", "March 1731": "1731-04-05",
                     "5 September 1752": None, "n.d.": None}


def test_a_reply_that_is_held_is_not_sent_again(client: Any) -> None:
    reply = client.get("/api/v1/periods?place=GB")
    tag = reply.headers["ETag"]
    assert tag.startswith('"5-') and reply.headers["Cache-Control"] == "no-cache"
    again = client.get("/api/v1/periods?place=GB", headers={"If-None-Match": tag})
    assert (again.status_code, again.data) == (304, b"")


def test_an_error_says_what_to_do(client: Any) -> None:
    messages = [client.get(f"/api/v1/{path}").json["message"] for path in (
        "read?place=GB&date=1+May+1700", "day?place=GB", "day?code=GB&day=1", "nothing")]
    assert "as 1731-02-11" in messages[0] and "The day is missing" in messages[1]
    assert "it takes place, day" in messages[2] and "territories" in messages[3]
    assert client.post("/api/v1/day").status_code == 405
    assert client.get("/api/v1/day?place=%ff").status_code == 400


def test_pages_of_other_hosts_may_read_a_public_register(page_of: Callable[..., Page],
                                                         program: str) -> None:
    public, local = page_of(program).test_client(), page_of(
        program, hosts=("127.0.0.1", "localhost")).test_client()
    for path, status in (("periods?place=GB", 200), ("periods?place=ZZ", 404),
                         ("openapi.json", 200), ("nothing", 404)):
        reply = public.get(f"/api/v1/{path}")
        assert reply.status_code == status
        assert reply.headers["Access-Control-Allow-Origin"] == "*"
        assert reply.headers["Cross-Origin-Resource-Policy"] == "cross-origin"
        private = local.get(f"/api/v1/{path}")
        assert "Access-Control-Allow-Origin" not in private.headers
        assert private.headers["Cross-Origin-Resource-Policy"] == "same-origin"
    reply = public.options("/api/v1/periods", headers={"Origin": "https://example.org"})
    assert "GET" in reply.headers["Access-Control-Allow-Methods"]
    assert "Access-Control-Allow-Origin" not in public.get("/").headers


def test_the_description_is_served(client: Any) -> None:
    assert client.get("/api/v1/openapi.json").json == DESCRIBED
