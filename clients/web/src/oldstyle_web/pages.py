"""The pages: each reads its words, asks for what it shows, all of one edition, and is written."""
from __future__ import annotations

import json
from dataclasses import dataclass
from typing import Any

from flask import Blueprint, Response, jsonify, render_template, request, url_for
from oldstyle import Land

from . import dates, months, years
from .context import NAME, page
from .dates import DateFound, date_found
from .drawing import line_of_time, years_of
from .editions import edition_found
from .forms import forms_read
from .languages import gettext as _, messages
from .months import month_found
from .places import place_found
from .problems import N_, Problem
from .register import Asking, DatedDay, name_in
from .replies import named_edition, tagged, word, written
from .words import (LAST_DAY, code_of, date_of, month_of, number_of, order_of, visible,
                    weekday_of)
from .years import year_found

blueprint = Blueprint("pages", __name__)


@dataclass(frozen=True)
class Question:
    """The words of a question for one date."""

    code: str
    date: str
    weekday: str
    order: str


def date_of_question() -> tuple[Question, int, list[Land], DateFound | None]:
    """The question, the edition, the territories, and what was asked, if it is enough for an
    answer."""
    question = question_of_words()
    edition, lands, content = dates_found(question, [question.code])
    return question, edition, lands, content[0] if content else None


def question_of_words() -> Question:
    return Question(code_of(word("code")), date_of(word("date")), weekday_of(word("weekday")),
                    order_of(word("order")))


def dates_found(question: Question, codes: list[str]) -> tuple[int, list[Land], list[DateFound]]:
    """The edition, the territories, and what a date means in some of them, unless a word is
    missing."""
    def work(asking: Asking) -> tuple[list[Land], list[DateFound]]:
        lands = asking.lands(codes[0], [dates.question_of(code, question.date, question.weekday,
                                                          question.order) for code in codes])
        names = {code: name_in(lands, code) for code in codes if code}
        if not question.date or not all(codes):
            return lands, []
        return lands, [date_found(asking, code, names[code], question.date, question.weekday,
                                  question.order) for code in codes]
    edition, (lands, content) = page().register.of_one_edition(work)
    return edition, lands, content


@blueprint.get("/")
def date() -> Response:
    """One date: the question and its answer."""
    named = named_edition()
    question, edition, lands, content = date_of_question()
    title = _("%(date)s in %(name)s", date=question.date, name=content.name) if content else \
        _("One date")
    return written("date.html", edition, title=title, here="date", code=question.code,
                   named_edition=named, question=question, lands=lands, content=content)


@blueprint.get("/compare")
def compare() -> Response:
    """One date in two places."""
    named, question, other = named_edition(), question_of_words(), code_of(word("other"))
    edition, lands, both = dates_found(question, [question.code, other])
    title = _("%(date)s in %(name)s", date=question.date, name=" / ".join(
        content.name for content in both)) if both else _("Two places")
    return written("compare.html", edition, title=title, here="compare", code=question.code,
                   other=other, named_edition=named, question=question, lands=lands, both=both)


@blueprint.get("/answer.json")
def answer_json() -> Response:
    """The answer as it is typed: its fragment of the page, its title, its address, and the text
    for screen readers."""
    named_edition()
    question, edition, lands, content = date_of_question()
    title = visible(_("%(date)s in %(name)s", date=question.date, name=content.name)
                    + f" – {_(NAME)}") if content else _(NAME)
    answer = {"edition": edition, "title": title,
              "html": render_template("answer.html", question=question, edition=edition,
                                      lands=lands, content=content),
              "address": url_for("pages.date", **{
                  name: text for name, text in vars(question).items() if text})}
    if content:
        answer |= {"written": content.written, "announcement": visible(f"{content.cited}.")}
    return tagged(jsonify(answer), edition)


@blueprint.get("/day")
def day() -> Response:
    """A day by its number."""
    named, code = named_edition(), code_of(word("code"))
    number = number_of(word("day"), 1, LAST_DAY) or 0
    if not code or not number:
        raise Problem(400, N_("A day is asked for by its place and its number."))

    def work(asking: Asking) -> tuple[str, DatedDay]:
        lands = asking.lands(code, [{"op": "day", "code": code, "day": number}])
        name = name_in(lands, code)
        return name, asking.dated_days(code, asking.days(code, [number]))[0]
    edition, (name, content) = page().register.of_one_edition(work)
    return written("day.html", edition, title=_("Day %(number)s in %(name)s", number=number,
                                                  name=name), code=code, name=name,
                   day=content, named_edition=named)


@blueprint.get("/month")
def month() -> Response:
    """A month as it was dated."""
    named, code = named_edition(), code_of(word("code"))
    year_asked = number_of(word("year"), 0, 10_000)
    month_asked = month_of(word("month")) or 1

    def work(asking: Asking) -> tuple[list[Land], str, Any]:
        lands = asking.lands(code, [months.question_of(code, year_asked or 0, month_asked)])
        if not code or year_asked is None:
            return lands, "", None
        name = name_in(lands, code)
        return lands, name, month_found(asking, code, name, year_asked, month_asked)
    edition, (lands, name, content) = page().register.of_one_edition(work)
    return written("month.html", edition, title=content.title(name) if content else _("A month"),
                   here="month", code=code, name=name, year=year_asked, month=month_asked,
                   lands=lands, content=content, named_edition=named)


@blueprint.get("/place")
def place() -> Response:
    """A place's timeline, or the list of places."""
    named, code = named_edition(), code_of(word("code"))

    def work(asking: Asking) -> tuple[list[Land], Any]:
        lands = asking.lands(code)
        if not code:
            return lands, None
        return lands, place_found(asking, code, name_in(lands, code))
    edition, (lands, content) = page().register.of_one_edition(work)
    drawn = {"line": line_of_time(content), "details": [
        (detail, years_of(detail)) for detail in content.details]} if content else {}
    title = content.name if content else _("Places")
    return written("place.html", edition, title=title, here="place",
                   code=code, name=word("name").strip()[:60], lands=lands, content=content,
                   named_edition=named, **drawn)


@blueprint.get("/year")
def year() -> Response:
    """A year as the place counted it."""
    named, code = named_edition(), code_of(word("code"))
    year_asked = number_of(word("year"), 1, 9_999)

    def work(asking: Asking) -> tuple[list[Land], str, Any]:
        if not code or year_asked is None:
            return asking.lands(code), "", None
        lands = asking.lands(code, years.questions_of(code, year_asked))
        name = name_in(lands, code)
        return lands, name, year_found(asking, code, year_asked)
    edition, (lands, name, content) = page().register.of_one_edition(work)
    return written("year.html", edition, here="year", code=code, name=name, year=year_asked,
                   title=_("The year %(year)s in %(name)s", year=year_asked, name=name) if content
                   else _("A year"), lands=lands,
                   content=content, named_edition=named)


@blueprint.get("/edition")
def edition() -> Response:
    """What an edition changed, and a place in it."""
    named, code = named_edition(), code_of(word("code"))
    newest = page().register.of_one_edition(Asking.lands)[0]
    number = newest if named is None else named
    if not 1 <= number <= newest:
        raise Problem(404, N_("The journal has no edition %(number)s: its newest is %(newest)s."),
                      number=number, newest=newest)
    title = _("Edition %(number)s of %(journal)s", number=number,
              journal=page().settings.journal_name)
    return written("edition.html", newest, title=f"{title}: {code}" if code else title, code=code,
                   content=edition_found(page().commands, number, code))


@blueprint.get("/forms")
def forms() -> Response:
    """The forms of dates that are read."""
    return written("forms.html", 0, title=_("Dates that are read"), code=code_of(word("code")),
                   forms=forms_read())


@blueprint.get("/messages.js")
def messages_script() -> Response:
    """The messages of a language, as a script of the page."""
    catalogue = json.dumps(messages(), ensure_ascii=False)
    return tagged(Response(f"export default {catalogue};\n", mimetype="text/javascript"), 0)


def problem(status: int, sentence: str) -> str:
    """The page of what can't be answered: the form again if its words were wrong, or a link."""
    values: dict[str, Any] = {"title": _("No answer"), "sentence": sentence,
                             "page": request.path[1:]}
    if request.path[1:] in ("", "month", "place", "year", "day") and status in (400, 404):
        try:
            values["lands"] = page().register.of_one_edition(Asking.lands)[1]
            names = ("code", "date", "weekday", "order", "year", "month")
            values["question"] = {name: word(name) for name in names}
        except Problem:
            pass
    return render_template("problem.html", **values)
