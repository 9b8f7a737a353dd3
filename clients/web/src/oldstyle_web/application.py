"""The application: its pages, what all replies carry, and what is sent for the others."""
from __future__ import annotations

import logging
from datetime import datetime, timezone
from typing import Any, Callable
from urllib.parse import unquote_to_bytes, urlsplit

from flask import Response, has_request_context, jsonify, request
from werkzeug.exceptions import HTTPException

from . import api, dates, languages, letters, pages, texts, words
from .context import NAME, Page, page
from .problems import N_, Problem
from .settings import Settings, is_loopback

LONGEST_QUERY = 4096
MOST_MEMBERS = 20
POLICY = ("default-src 'none'; script-src 'self'; style-src 'self'; img-src 'self'; "
          "connect-src 'self'; form-action 'self'; base-uri 'none'; frame-ancestors 'none'")
HEADERS = {"Content-Security-Policy": POLICY, "X-Content-Type-Options": "nosniff",
           "Referrer-Policy": "no-referrer", "Cross-Origin-Opener-Policy": "same-origin",
           "Cross-Origin-Resource-Policy": "same-origin"}
MESSAGES = {404: N_("There is no such page here. Begin with one date."),
            405: N_("That method is not taken here."),
            500: N_("Something is wrong in this page. The error has been logged.")}
access = logging.getLogger("oldstyle_web.access")


def create_app(settings: Settings) -> Page:
    """The application over a journal, for any server of WSGI."""
    app = Page(settings)
    app.config["MAX_CONTENT_LENGTH"] = settings.max_upload
    app.register_blueprint(pages.blueprint)
    app.register_blueprint(letters.blueprint)
    app.register_blueprint(api.blueprint)
    app.register_error_handler(HTTPException, error_response)
    app.before_request(refuse_other_hosts)
    app.before_request(refuse_broken_queries)
    app.after_request(finish)
    app.url_defaults(add_version)
    app.context_processor(lambda: {"journal": settings.journal_name})
    app.jinja_env.globals.update(
        NAME=NAME, WEEKDAYS=words.WEEKDAYS, MONTHS=words.MONTHS, ORDERS=words.ORDERS,
        KINDS=dates.KINDS, MONTH_CHOICES=list(enumerate(words.MONTHS, 1)),
        WEEKDAY_CHOICES=[("", N_("none given")), *((name, name) for name in words.WEEKDAYS)],
        ORDER_CHOICES=[("", N_("in the usual order")), *words.ORDERS.items()],
        LANGUAGES=languages.LANGUAGES, language=languages.language,
        other_language=languages.other_language, _=languages.in_template)
    filters: list[Callable[[Any], Any]] = [
        texts.full, texts.in_words, texts.regime_text, texts.sources_text, texts.month_text,
        texts.change_text, texts.difference, dates.cited_day, languages.date_text]
    for function in filters:
        app.add_template_filter(function)
    return app


def add_version(endpoint: str, values: dict[str, Any]) -> None:
    """Names the version in the address of a file, and the language in that of a page if the request
    does."""
    if endpoint == "static":
        values.setdefault("v", page().version)
    elif has_request_context() and request.args.get("lang") in languages.LANGUAGES:
        values.setdefault("lang", request.args["lang"])


def refuse_other_hosts() -> None:
    """Refuses a request that names another host, if the page has names: a foreign page may let a
    name of its own lead here (DNS rebinding)."""
    named, hosts = request.environ.get("HTTP_HOST"), page().settings.hosts
    if hosts and named is not None and not is_named(named, hosts):
        raise Problem(421, f"This page is not served by that name: ask {hosts[0]} for it.")


def is_named(host: str, hosts: tuple[str, ...]) -> bool:
    """Returns whether a header Host names one of some hosts. All loopback addresses are one."""
    try:
        name = urlsplit(f"//{host}").hostname or ""
    except ValueError:
        return False
    return name in hosts or is_loopback(name) and any(map(is_loopback, hosts))


def refuse_broken_queries() -> None:
    """Refuses addresses that are too long, or whose words are not text."""
    if len(request.query_string) > LONGEST_QUERY:
        raise Problem(414, f"The address has more than {LONGEST_QUERY} characters.")
    try:
        unquote_to_bytes(request.query_string).decode()
    except UnicodeDecodeError:
        raise broken_query() from None
    if request.query_string.count(b"&") >= MOST_MEMBERS:
        raise broken_query()


def broken_query() -> Problem:
    return Problem(400, "The address has too many members, or what is not text in UTF-8: ask again "
                   "by the form.")


def error_response(why: HTTPException) -> Response:
    """The reply to a request that can't be answered, in the form that it asks for."""
    status = why.code or 500
    if status == 413 and not isinstance(why, Problem):
        why = too_large(page().settings.max_upload)
    sentence = languages.gettext(why.message, **why.parts) if isinstance(why, Problem) else \
        languages.gettext(MESSAGES.get(status, f"{why.name}."))
    expected = request.accept_mimetypes
    is_for_programs = request.path == "/answer.json" or request.path.startswith("/api/")
    if is_for_programs or "application/json" in expected.values():
        response = jsonify(status=status, message=sentence)
    elif "text/html" in expected.values():
        response = Response(pages.problem(status, sentence))
    else:
        response = Response(f"{sentence}\n", mimetype="text/plain")
    response.status_code = status
    response.headers["Cache-Control"] = "no-store"
    headers = why.headers if isinstance(why, Problem) else {}
    response.headers.update(headers)
    if (methods := getattr(why, "valid_methods", None)) is not None:
        response.headers["Allow"] = ", ".join(sorted(methods))
    return response


def too_large(most: int) -> Problem:
    return Problem(413, N_("The table is larger than %(most)s MB, which is the most that is taken "
                           "here. Send it in parts, or use oldstyle letters."),
                   most=most // (1024 * 1024))


def finish(response: Response) -> Response:
    """Adds what all replies carry, and writes the line of the request."""
    for name, value in HEADERS.items():
        response.headers.setdefault(name, value)
    response.headers.setdefault("Cache-Control", "no-store")
    response.vary.add("Accept-Language")
    access.info('%s - - [%s] "%s %s %s" %s %s', request.remote_addr or "-",
                datetime.now(timezone.utc).strftime("%d/%b/%Y:%H:%M:%S %z"),
                words.visible(request.method),
                words.visible(request.environ.get("RAW_URI") or request_target()),
                request.environ.get("SERVER_PROTOCOL", ""), response.status_code,
                response.content_length if response.content_length is not None else "-")
    return response


def request_target() -> str:
    """The path and the words of a request."""
    query = request.query_string.decode("latin-1")
    return request.path + (f"?{query}" if query else "")
