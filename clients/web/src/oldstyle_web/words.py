"""Checks the words of a request, and gives the words for what comes back."""
from __future__ import annotations

from typing import Any
import re

from markupsafe import Markup

from .problems import N_, Problem

MONTHS = [N_("January"), N_("February"), N_("March"), N_("April"), N_("May"), N_("June"),
          N_("July"), N_("August"), N_("September"), N_("October"), N_("November"), N_("December")]
WEEKDAYS = [N_("Sunday"), N_("Monday"), N_("Tuesday"), N_("Wednesday"), N_("Thursday"),
            N_("Friday"), N_("Saturday")]
FEASTS = [N_("Septuagesima"), N_("Ash Wednesday"), N_("Easter"), N_("Ascension"), N_("Pentecost"),
          N_("Trinity")]
CALENDARS = [N_("Julian"), N_("Gregorian"), N_("Swedish")]
ORDERS = {"dmy": N_("day, month, year"), "mdy": N_("month, day, year")}
CODE = re.compile(r"[A-Z][A-Z0-9]{1,7}")
LONGEST_DATE = 200
LAST_DAY = 3_652_059
BEGINNINGS = {"january": N_("1 January"), "annunciation": N_("25 March"),
              "nativity": N_("25 December"), "september": N_("1 September"),
              "pisan": N_("the 25 March before"), "easter": N_("Easter")}
# Control characters, and those that turn the direction of the text around them.
HIDDEN = [*range(0x20), *range(0x7f, 0xa0), *range(0x202a, 0x202f), *range(0x2066, 0x206a)]
SHOWN = {sign: f"<U+{sign:04X}>" for sign in HIDDEN}


def visible(text: str) -> str:
    """A text with its characters that are not printed as their numbers."""
    return text.translate(SHOWN)


def written_out(value: Any) -> Any:
    """What a template writes for a value: a text that is visible, and nothing for None."""
    if value is None:
        return ""
    if isinstance(value, str) and not isinstance(value, Markup):
        return visible(value)
    return value


def code_of(text: str) -> str:
    """The code of the chosen territory, or an empty text without a choice."""
    if text and not CODE.fullmatch(text):
        raise Problem(400, N_("%(text)s is not a code of a territory: a code is 2 to 8 capital "
                             "letters or digits, the first a letter. Choose one of the list."),
                      text=quoted(text))
    return text


def date_of(text: str) -> str:
    """A date as it is written, without the blanks around it."""
    text = text.strip()
    if len(text) > LONGEST_DATE:
        raise Problem(400, N_("The date has %(count)s characters: write %(most)s at most."),
                      count=len(text), most=LONGEST_DATE)
    if text != visible(text):
        raise Problem(400, N_("The date has a character that is not printed: write it again."))
    return text


def weekday_of(text: str) -> str:
    """The English name of a weekday, or nothing."""
    if text and text.capitalize() not in WEEKDAYS:
        raise Problem(400, N_("%(text)s is not a weekday: write its English name, such as Friday."),
                      text=quoted(text))
    return text.capitalize()


def order_of(text: str) -> str:
    """The order of day and month in numbers, or nothing."""
    if text and text not in ORDERS:
        raise Problem(400, N_("%(text)s is not an order: it is dmy, for 11/2/1731 as 11 February, "
                             "or mdy, for 2/11/1731."), text=quoted(text))
    return text


def number_of(text: str, least: int, most: int) -> int | None:
    """A whole number, or None if the text is empty."""
    text = text.strip()
    if not text:
        return None
    if not (text.isascii() and text.isdigit() and len(text) <= 9 and least <= int(text) <= most):
        raise Problem(400, N_("%(text)s is not taken here: write a whole number from %(least)s to "
                             "%(most)s."), text=quoted(text), least=least, most=most)
    return int(text)


def month_of(text: str) -> int | None:
    """A month by its number or its English name, or None if the text is empty."""
    if (name := text.strip().capitalize()) in MONTHS:
        return MONTHS.index(name) + 1
    if text.strip() and not (text.strip().isascii() and text.strip().isdigit()):
        raise Problem(400, N_("%(text)s is not a month: write its English name, or 1 to 12."),
                      text=quoted(text))
    return number_of(text, 1, 12)


def quoted(text: str) -> str:
    """A word of a reader in quotes, shortened, for a sentence."""
    return f"“{text[:60]}{'…' if len(text) > 60 else ''}”"


def year_in(date: str) -> int:
    """The year of a date of the program."""
    return int(date.split("-")[0])
