"""The languages of the page: which one a request asks for, and its messages.

A catalogue is compiled when the package is built. In a source tree Babel reads it, if it is there.
"""
from __future__ import annotations

import functools
import gettext as catalogues
import io
from importlib.resources import files
from typing import Any
from urllib.parse import urlencode

from flask import g, has_request_context, request
from markupsafe import Markup, escape

from .words import visible

LANGUAGES = {"en": "English", "de": "Deutsch", "fr": "Français", "sv": "Svenska"}


@functools.cache
def catalogue(language: str) -> catalogues.NullTranslations:
    """The messages of a language; those of English are in the code."""
    folder = files(__package__).joinpath("locale", language, "LC_MESSAGES")
    try:
        return catalogues.GNUTranslations(
            io.BytesIO(folder.joinpath("messages.mo").read_bytes()))
    except OSError:
        pass
    try:
        from babel.messages.mofile import write_mo
        from babel.messages.pofile import read_po
        made = io.BytesIO()
        write_mo(made, read_po(io.BytesIO(folder.joinpath("messages.po").read_bytes())))
        made.seek(0)
        return catalogues.GNUTranslations(made)
    except (ImportError, OSError):
        return catalogues.NullTranslations()


def language() -> str:
    """The language of the request, which is looked for once."""
    if not has_request_context():
        return "en"
    if "language" not in g:
        g.language = requested_language()
    return str(g.language)


def requested_language() -> str:
    """The language that the address names, or else the browser."""
    if (named := request.args.get("lang", "")) in LANGUAGES:
        return named
    tags = (tag.partition("-")[0].lower() for tag, quality in request.accept_languages if quality)
    return next((tag for tag in tags if tag in LANGUAGES), "en")


def gettext(message: str, **parts: Any) -> str:
    """A message in the language of the request, with its parts."""
    text = catalogue(language()).gettext(message) if message else ""
    return text % parts if parts else text


def in_template(message: str, **parts: Any) -> str:
    """A message for a template. If a part is markup, it is markup too."""
    if not any(isinstance(part, Markup) for part in parts.values()):
        return gettext(message, **parts)
    return escape(gettext(message)) % {
        name: part if isinstance(part, Markup) else visible(str(part))
        for name, part in parts.items()}


def other_language(named: str) -> str:
    """The address of this page in another language."""
    members = [member for member in request.args.items(multi=True) if member[0] != "lang"]
    return "?" + urlencode([*members, ("lang", named)])


def date_text(text: str) -> str:
    """A date or a month of the program, such as 11 February 1731/2, by the language's names."""
    *day, month, year = text.split(" ")
    parts = {"month": gettext(month), "year": year}
    return gettext("%(day)s %(month)s %(year)s", day=day[0], **parts) if day else \
        gettext("%(month)s %(year)s", **parts)


def messages() -> dict[str, str]:
    """All messages of the request's language that differ from the English ones."""
    catalog = getattr(catalogue(language()), "_catalog", {})
    return {message: text for message, text in catalog.items() if message and message != text}
