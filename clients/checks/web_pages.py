#!/usr/bin/env python3
"""Compares the page with the program, by requests: dates, months and tables of letters.

A run of `oldstyle-web` answers over the samples, and then over random territories. Each answer
of a typed date, of the forms in docs/DATES.md and of random ones, is compared with what `read`
prints and what the query `written` answers; each month with `month`. Each table that is sent
comes back as `letters` writes it, byte by byte, or with the fault that it reports.
"""
import codecs
import os
import random
import subprocess
import tempfile
import time

from shared import SAMPLES, TOP, CommandLine, check, compact, end, verdict
from lib.date_draws import (MALFORMED, date_text, journal_lines, label_near, middle_day,
                            write_journal)
from lib.date_meaning import Territory
from web_answers import differences
from web_runs import Page, form_of, written

FORMS = ["11 Feb. 1731/32", "le 1er avril 1640", "1731 February 11", "11. 2. 1731", "25/12/1640",
         "11 February 1752/3", "11 May 1731/2", "Monday 11 February 1731/2", "1752-09-05",
         "1751-01-10", "1700-02-29", "1700-04-31", "29 8ber 1640", "March 1731", "1731", "1731/2",
         "3-10 May 1640?", "1 to 5 September 1752", "between 3 and 10 May 1640", "before 1640",
         "not before May 1640", "by 3 May 1640", "[about 11 February 1731?]", "1640-1645",
         "11 February 1731 N.S.", "11 February 1731 O.S.", "3 May 1640 (?)", "n.d.", "11/2/1731",
         "11/22 February 1731", "Easter 1640", "xi February 1731", "1731/3", "1731-13-11",
         "11 February 31", "no text of a date", "--strict", "-5", "a <b>&amp;\"'", "ä 1640 é",
         "1-10 March 1731", "February 1731/2", "10 to 3 May 1640", "Friday 11 February 1731",
         "[1543-04-11,1544-04-11]", "[1731-04-05..1731-04-11,1732-04-12?]"]


def check_dates(page, program, journal, dates):
    """Compares typed dates with `read` and `written`. Returns how many."""
    for code, date, weekday in dates:
        status, answer = page.answer(code=code, date=date, weekday=weekday)
        if status != 200:
            check(f"{code} {date!r} is answered", False, status, answer)
            continue
        reply = written(program, journal, code, date, weekday)
        check(f"{code} {date!r}: the query's answer", answer["written"] == reply["answer"])
        check(f"{code} {date!r}: the edition", answer["edition"] == reply["edition"])
        wrong = differences(answer["html"], program, journal, code, date, weekday)
        check(f"the answer of {code} {date!r}", not wrong, *wrong)
    return len(dates)


def sample_dates():
    places, weekdays = ["GB", "SE", "RU", "RM", "DE"], ["", "", "Friday", "Sunday"]
    return [(places[order % 5] if order % 2 else "GB", date, weekdays[order % 4])
            for order, date in enumerate(FORMS)]


def random_dates(program, folder, chance, count):
    """A journal of random territories, and dates near their changes."""
    journal, middle = os.path.join(folder, f"{chance.random()}.journal"), middle_day(chance)
    service = write_journal(journal, journal_lines(chance, middle))
    lands = {code: Territory(land) for code, land in service.published.items()}
    weekdays = ["", "", "Monday", "Friday"]
    dates = []
    for _ in range(count):
        code = chance.choice(sorted(lands))
        date = date_text(chance, label_near(chance, lands[code], middle)) \
            if chance.random() < 0.9 else chance.choice(MALFORMED)
        if date.strip() and date.isprintable():
            dates.append((code, date, chance.choice(weekdays)))
    return journal, dates


def month_grids(text):
    """The runs of a month as `month` prints them: a title, and weeks of seven days or gaps."""
    runs, lines = [], text.splitlines()[1:]
    for before, line in zip(lines, lines[1:]):
        if line.startswith("Su Mo"):
            runs.append([before.strip()])
        elif runs and not any(sign.isalpha() for sign in line):
            runs[-1].append([line[3 * place:3 * place + 2].strip() for place in range(7)])
    return runs


def page_grids(html):
    """The runs of a month, in the page's form."""
    runs = []
    for part in html.split('<table class="month"')[1:]:
        part = part.partition("</table>")[0]
        title = part.partition("<caption>")[2].partition("</caption>")[0]
        weeks = [[cell.partition("</a>")[0].rpartition(">")[2] if "</a>" in cell else ""
                  for cell in row.split("<td")[1:]]
                 for row in part.partition("<tbody>")[2].split("<tr>")[1:]]
        runs.append([title, *weeks])
    return runs


def check_months(page, program, journal):
    """Compares months of the samples with `month`. Returns how many."""
    months = [("GB", year, month) for year in (1731, 1751, 1752) for month in range(1, 13)]
    months += [("SE", 1712, 2), ("SE", 1700, 2), ("SE", 1753, 2), ("RU", 1918, 2), ("RM", 4, 3),
              ("GB", 0, 1), ("GB", 10_000, 1), ("GB", 9_999, 12), ("RM", 1, 1)]
    for code, year, month in months:
        status, _, body = page.get(f"/month?code={code}&year={year}&month={month}")
        done = subprocess.run([program, "month", journal, code, str(year), str(month)],
                              capture_output=True, text=True, check=False)
        check(f"the month {code} {year}-{month}", status == 200 and month_grids(done.stdout)
              == page_grids(body.decode()), status, page_grids(body.decode()))
    return len(months)


def check_new_style(page):
    """A date in New Style is shown as the place itself dated the day, and no other date of it."""
    for date in ("22 February 1732 N.S.", "22 February 1731/2 N.S."):
        status, answer = page.answer(code="GB", date=date)
        html = answer.get("html", "")
        check(f"{date}: as dated there", status == 200
              and "<dt>As dated there</dt><dd>11 February 1731/2</dd>" in html, html)
        check(f"{date}: one date of that day", "the place wrote 22 February" not in html, html)


def journal_of(program, folder, name, lines):
    """A journal that is made of edits."""
    path = os.path.join(folder, name)
    text = "".join(compact(line) + "\n" for line in lines)
    subprocess.run([program, "serve", "--save", path], input=text, text=True, check=True,
                   capture_output=True)
    return path


def paths_of(code):
    """A path to each page that names a place."""
    return [f"/compare?code={code}&other={code}&date=4+October+1582",
            f"/?code={code}&date=4+October+1582", f"/?code={code}&date=10+October+1582",
            f"/?code={code}&date=October+1582", f"/?code={code}&date=after+1600",
            f"/day?code={code}&day=577736", f"/month?code={code}&year=1582&month=10",
            f"/year?code={code}&year=1582", f"/place?code={code}"]


def check_sources(program, folder):
    """Each page has the sources of what it says, in its citation too, and names are one line."""
    name = "A\u2028B\x85C"
    land = {"op": "add_land", "code": "ES", "name": name, "calendar": "julian", "style": "january",
            "rule": "julian", "source": "The first source"}
    journal = journal_of(program, folder, "sources.journal", [
        land, {"op": "add_change", "code": "ES", "day": 577_736, "calendar": "gregorian",
               "style": "january", "rule": "gregorian", "source": "Acts no 24 of 1582"},
        {"op": "add_exception", "code": "ES", "year": 1582, "day": 577_544,
         "source": "The source of an Easter"}, {"op": "publish"}])
    page = Page(program, journal)
    for path in paths_of("ES"):
        expected = ["The first source"] if "=4+" in path else ["Acts no 24 of 1582"] if \
            "day=" in path or "=10+" in path or "after" in path else \
            ["The first source", "Acts no 24 of 1582"]
        expected += ["The source of an Easter"] if "year?" in path else []
        status, _, body = page.get(path)
        before, _, cited = body.decode().partition('class="citation"')
        cited = cited.partition("</p>")[0]
        check(f"the sources of {path}", status == 200 and all(
            text in before and text in cited for text in expected), status, cited)
        check(f"the name on {path}", "A\u2028B&lt;U+0085&gt;C" in before and "\x85" not in before)
    listed = page.get("/place?code=ES")[2].decode()
    check("the source of a listed Easter", ". Source: The source of an Easter.</li>" in listed)
    wrong = [line for date in ("10 October 1582", "11/2/1731", "March 1582")
             for line in differences(page.answer(code="ES", date=date)[1]["html"], program, journal,
                                     "ES", date)]
    check("dates of a name with separators", not wrong, *wrong)
    status, answer = page.answer(code="ES", date="11/2/1731", order="dmy")
    check("one that is open", status == 200 and "11 February 1731" in answer["html"], answer)
    return page.stop()[0]


def check_editions(page):
    """A link that names an edition says which one answered, on every page."""
    for path in [*paths_of("GB"), "/place?x=1", "/?x=1", "/month?x=1", "/year?x=1"]:
        sentence = "This link was created from edition 3; the answer shown comes from edition 5."
        check(f"{path} of edition 3", sentence in page.get(f"{path}&edition=3")[2].decode())
        check(f"{path} of edition 5", "was created from" not in
              page.get(f"{path}&edition=5")[2].decode())
        check(f"{path} of no edition", page.get(f"{path}&edition=abc")[0] == 400)


def letters_run(program, journal, table, *options):
    done = subprocess.run([program, "letters", journal, *options], input=table,
                          capture_output=True, check=False)
    return done.stdout, done.stderr.decode()


def check_tables(page, program, journal):
    """Compares tables that are sent with `letters`."""
    def read(name):
        with open(os.path.join(TOP, "examples", name), "rb") as file:
            return file.read()
    letters, places, typed = read("letters.csv"), read("places.csv"), read("transcribed.csv")
    status, _, body = page.ask("POST", "/letters", letters)
    check("a table as it is", (status, body) == (200, letters_run(program, journal, letters)[0]))
    status, _, body = page.ask("POST", "/letters", codecs.BOM_UTF8 + letters)
    check("a byte order mark is kept", (status, body) == (200, codecs.BOM_UTF8 + letters_run(
        program, journal, letters)[0]))
    form, headers = form_of({"order": "dmy"}, {"table": ("t.csv", typed),
                                               "places": ("places.csv", places)})
    status, reply_headers, body = page.ask("POST", "/letters", form, headers)
    expected = letters_run(program, journal, typed, "--order", "dmy", "--places",
                           os.path.join(TOP, "examples", "places.csv"))[0]
    check("a table with places", (status, body) == (200, expected), status, body[:200])
    check("its name", 'filename="t-found.csv"' in reply_headers.get("Content-Disposition", ""),
          reply_headers)
    other = letters.replace(b",", b";").replace(b"place;", b"Ort;").replace(b"date;", b"Datum;")
    form, headers = form_of({"column_place": "Ort", "column_date": "Datum"},
                            {"table": ("x.csv", other)})
    status, _, body = page.ask("POST", "/letters", form, headers)
    expected = letters_run(program, journal, other, "--place", "Ort", "--date", "Datum")[0]
    check("a table with semicolons", (status, body) == (200, expected), status, body[:200])
    many = letters + b"".join(b"%d,GB,11 February 1731,Friday\n" % row for row in range(100_000))
    began = time.monotonic()
    status, _, body = page.ask("POST", "/letters", many, seconds=60)
    took = time.monotonic() - began
    check("a table of 100,000 rows", (status, body) == (200, letters_run(program, journal,
                                                                         many)[0]))
    return took


def check_bad_tables(page, program, journal):
    """Tables that have a fault: the status and the program's own words, except its options."""
    for table in ("letter,place,date\nü,GB,1731\n".encode("cp1252"), b"\x00\x01\x02\xff" * 20,
                  "place,date\nGB,1731\n".encode("utf-16"), b"PK\3\4\0"):
        status, _, body = page.ask("POST", "/letters", table)
        check(f"the table {table[:10]!r}", status == 422 and body.decode() ==
              "The table is not UTF-8: save the table as CSV UTF-8.\n", status, body)
    bad = [(b"a,b\n1,2\n", 422), (b"", 422), (b"place,date\n\"GB,1731\n", 200)]
    for table, expected in bad:
        status, _, body = page.ask("POST", "/letters", table)
        message = letters_run(program, journal, table)[1].removeprefix("oldstyle: ").strip()
        message = message.replace("with --place, or the place of all rows with --in",
                                  "in the field “Column of places” (column_place)")
        check(f"the table {table[:10]!r}", status == expected and message in
              body.decode(errors="replace"), status, body[-100:], message)
    form, headers = form_of({"order": "xyz"}, {"table": ("t.csv", b"place,date\n")})
    check("another order", page.ask("POST", "/letters", form, headers)[0] == 400)
    form, headers = form_of({}, {})
    check("a form without a table", page.ask("POST", "/letters", form, headers)[0] == 400)
    check("a form that ends too early", page.ask("POST", "/letters", b"--x\r\nbroken",
          {"Content-Type": "multipart/form-data; boundary=x"})[0] == 400)


def main():
    line = CommandLine(__doc__)
    line.add_program()
    line.add_count(300, "random dates")
    line.add_seed()
    options = line.read()
    program, chance = options.program, random.Random(options.seed)
    page = Page(program, SAMPLES)
    dates = check_dates(page, program, SAMPLES, sample_dates())
    months = check_months(page, program, SAMPLES)
    took = check_tables(page, program, SAMPLES)
    check_bad_tables(page, program, SAMPLES)
    check_new_style(page)
    check_editions(page)
    left = page.stop()[0]
    with tempfile.TemporaryDirectory() as folder:
        left += check_sources(program, folder)
        for _ in range(3):
            journal, more = random_dates(program, folder, chance, options.count // 3)
            page = Page(program, journal)
            dates += check_dates(page, program, journal, more)
            left += page.stop()[0]
    check("no process is left", not left, left)
    return verdict(f"{dates} dates and {months} months are answered as the program does, and "
                   f"tables too; 100,000 rows in {took:.1f} s")


if __name__ == "__main__":
    end(main)
