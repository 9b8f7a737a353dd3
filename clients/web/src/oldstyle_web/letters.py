"""The page of letters: its form, and the rows of a table that is sent."""
from __future__ import annotations

import os
import shutil
import tempfile
from dataclasses import dataclass, replace
from typing import IO

from flask import Blueprint, Response, abort, render_template, request
from werkzeug.wsgi import wrap_file

from .context import page
from .languages import gettext as _
from .problems import N_, Problem
from .replies import tagged
from .workbooks import as_csv

blueprint = Blueprint("letters", __name__)


@dataclass(frozen=True)
class SentTable:
    """What a request sent: the fields of a form, a table and its name, and a table of places."""

    fields: dict[str, str]
    table: IO[bytes]
    name: str
    places: IO[bytes] | None


@blueprint.get("/letters")
def form() -> Response:
    """The form, and the room for the rows."""
    text = render_template("letters.html", title=_("Letters"), here="letters",
                           most=page().settings.max_upload)
    return tagged(Response(text), 0)


@blueprint.post("/letters")
def rows() -> Response:
    """The rows of a table, as the program writes them."""
    sent = receive()
    rows = page().tables.rows(sent.fields, sent.table, sent.places)
    size = rows.tell()
    rows.seek(0)
    response = Response(wrap_file(request.environ, rows), direct_passthrough=True,
                        content_type="text/csv; charset=utf-8")
    response.content_length = size
    response.headers["Content-Disposition"] = f'attachment; filename="{found_name(sent.name)}"'
    return response


def receive() -> SentTable:
    """What a request sends: a form with files, or one table as it is. The words of the address
    count before those of the form."""
    if request.content_length is None:
        raise Problem(411, "The length of what is sent is missing: it must be in Content-Length.")
    if request.content_length > page().settings.max_upload:
        abort(413)
    fields = request.args.to_dict()
    if request.mimetype == "multipart/form-data":
        if not request.mimetype_params.get("boundary"):
            raise Problem(400, "The parts of the form can't be told apart: name their boundary in "
                               "Content-Type.")
        table, places = request.files.get("table"), request.files.get("places")
        return without_workbooks(SentTable(
            request.form.to_dict() | fields,
            table.stream if table and table.filename else pasted_table(),
            table.filename or "" if table else "",
            places.stream if places and places.filename else None))
    table_file = tempfile.TemporaryFile()
    shutil.copyfileobj(request.stream, table_file)
    return without_workbooks(SentTable(fields, table_file, "", None))


def pasted_table() -> IO[bytes]:
    """The rows that were pasted into a form without a file."""
    pasted = request.form.get("pasted", "")
    if not pasted.strip():
        raise Problem(400, N_("No table was sent: choose a file, or paste its rows."))
    table = tempfile.TemporaryFile()
    table.write(pasted.encode())
    return table


def without_workbooks(sent: SentTable) -> SentTable:
    """What was sent, with the first sheets of workbooks as CSV."""
    most = page().settings.max_upload
    if sent.places and (places := as_csv(sent.places, most)):
        sent = replace(sent, places=places)
    if table := as_csv(sent.table, most):
        sent = replace(sent, table=table, fields=sent.fields | {"separator": "comma"})
    return sent


def found_name(name: str) -> str:
    """The name of the table that is saved, of characters that are allowed in headers."""
    stem = os.path.splitext(name.replace("\\", "/").rpartition("/")[2])[0]
    safe_stem = "".join(sign for sign in stem
                        if sign.isascii() and (sign.isalnum() or sign in "-_ "))
    return f"{safe_stem.strip() or 'letters'}-found.csv"
