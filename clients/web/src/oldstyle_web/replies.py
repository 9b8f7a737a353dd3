"""The words of an address, and replies that name their edition."""
from __future__ import annotations

import hashlib
from typing import Any

from flask import Response, render_template, request

from .words import number_of


def word(name: str) -> str:
    """A word of the address; of one that is given twice the last counts."""
    values = request.args.getlist(name)
    return values[-1] if values else ""


def named_edition() -> int | None:
    """The edition that the address names, if it names one."""
    return number_of(word("edition"), 0, 999_999_999)


def tagged(response: Response, edition: int) -> Response:
    """A reply of an edition, or status 304 if the browser has it already."""
    digest = hashlib.sha256(response.get_data()).hexdigest()[:16]
    response.set_etag(f"{edition}-{digest}")
    response.headers["Cache-Control"] = "no-cache"
    response.make_conditional(request)
    return response


def written(template: str, edition: int, **values: Any) -> Response:
    """A page of an edition."""
    return tagged(Response(render_template(template, edition=edition, **values)), edition)
