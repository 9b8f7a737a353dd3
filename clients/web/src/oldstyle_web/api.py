"""The interface for programs: each query of the service by an address, and its reply as it is.

`openapi.json` describes it, and a test compares the two.
"""
from __future__ import annotations

import re
from dataclasses import dataclass
from typing import Any, Callable

from flask import Blueprint, Response, current_app, request

from .context import page
from .problems import Problem
from .register import BAD_CODE, UNKNOWN_LAND
from .replies import tagged, word
from .words import quoted

blueprint = Blueprint("api", __name__, url_prefix="/api/v1")
LONGEST_WORD = 1000
DATE = re.compile(r"(\d{1,5})-(\d{1,2})-(\d{1,2})")
CORS = {"Access-Control-Allow-Origin": "*", "Access-Control-Expose-Headers": "ETag",
        "Cross-Origin-Resource-Policy": "cross-origin"}
PREFLIGHT = {"Access-Control-Allow-Methods": "GET, HEAD, OPTIONS",
             "Access-Control-Allow-Headers": "If-None-Match", "Access-Control-Max-Age": "86400"}


def text(member: str) -> Callable[[str, str], dict[str, Any]]:
    """Reads a word that is a member of the query as it is."""
    return lambda _name, value: {member: value}


def number(name: str, value: str) -> dict[str, Any]:
    """Reads a whole number."""
    if not (value.isascii() and value.isdigit() and len(value) <= 15):
        raise Problem(400, f"{quoted(value)} is not a {name}: write a whole number.")
    return {name: int(value)}


def label(_name: str, value: str) -> dict[str, Any]:
    """Reads a date as the place counted it."""
    if not (parts := DATE.fullmatch(value)):
        raise Problem(400, f"{quoted(value)} is not a date of this form: write year, month and day "
                      "as 1731-02-11, or ask /api/v1/written, which reads dates as people write "
                      "them.")
    return dict(zip(("year", "month", "day"), map(int, parts.groups())))


@dataclass(frozen=True)
class Query:
    """A query of the service: its name there, and how each word of an address is read. The words
    that may be left out are named."""

    op: str
    words: dict[str, Callable[[str, str], dict[str, Any]]]
    optional: tuple[str, ...] = ()


PLACE = {"place": text("code")}
QUERIES = {
    "territories": Query("lands", {}),
    "periods": Query("periods", PLACE),
    "exceptions": Query("exceptions", PLACE),
    "changes": Query("changes", PLACE),
    "read": Query("read", PLACE | {"date": label}),
    "written": Query("written", PLACE | {"date": text("date"), "weekday": text("weekday")},
                     ("weekday",)),
    "day": Query("day", PLACE | {"day": number}),
    "easter": Query("easter", PLACE | {"year": number}),
    "feasts": Query("feasts", PLACE | {"year": number}),
    "convert": Query("convert", PLACE | {"calendar": text("calendar"), "date": label}),
    "figures": Query("figures", {"year": number}),
}


@blueprint.get("/<name>")
def answer(name: str) -> Response:
    """The reply of the service to a query."""
    if (query := QUERIES.get(name)) is None:
        raise Problem(404, f"There is no {quoted(name)} here: ask one of "
                      f"{', '.join(QUERIES)}, as openapi.json describes them.")
    question = {"op": query.op, **members_of(query)}
    edition, (line, reply) = page().register.of_one_edition(
        lambda asking: asking.reply(question))
    response = Response(line + b"\n", content_type="application/json")
    if "answer" in reply:
        return tagged(response, edition)
    response.status_code = 404 if reply["fault"] in (UNKNOWN_LAND, BAD_CODE) else 400
    return response


def members_of(query: Query) -> dict[str, Any]:
    """The members of a query, as the words of the address say them."""
    for name in request.args:
        if name not in query.words:
            known = ", ".join(query.words) or "none"
            raise Problem(400, f"{quoted(name)} is not a word of this address: it takes {known}.")
    members: dict[str, Any] = {}
    for name, read in query.words.items():
        value = word(name)
        if len(value) > LONGEST_WORD:
            raise Problem(400, f"The {name} has {len(value)} characters: write {LONGEST_WORD} at "
                          "most.")
        if value or name not in query.optional and name in request.args:
            members |= read(name, value)
        elif name not in query.optional:
            raise Problem(400, f"The {name} is missing: this address takes "
                          f"{', '.join(query.words)}.")
    return members


@blueprint.get("/openapi.json")
def description() -> Response:
    """What this interface takes and answers, as OpenAPI describes it."""
    with current_app.open_resource("openapi.json") as file:
        return tagged(Response(file.read(), content_type="application/json"), 0)


@blueprint.after_request
def shared(response: Response) -> Response:
    """Lets pages of other hosts read a reply, unless the page is for this machine alone: no foreign
    page may read what is kept here."""
    if not page().settings.is_local:
        response.headers.update(CORS)
        if request.method == "OPTIONS":
            response.headers.update(PREFLIGHT)
    return response
