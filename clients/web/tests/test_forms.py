"""The forms of dates that are read, compared with docs/DATES.md and with what the program reads."""
from __future__ import annotations

import json
import re
import subprocess
from importlib.resources import files
from typing import Any

from conftest import SAMPLES, TOP

from oldstyle_web.forms import forms_read

REFUSED = "What is refused"


def examples(title: str) -> list[str]:
    """The dates in the first column of a table, without words that go with a date."""
    return [text for table in forms_read() if table.title == title for row in table.rows
            for text, is_quoted in row[0] if is_quoted and re.search(r"\d", text)]


def test_the_tables_are_those_of_the_document() -> None:
    text = (TOP / "docs" / "DATES.md").read_text(encoding="utf-8")
    assert files("oldstyle_web").joinpath("forms.txt").read_text(encoding="utf-8") == text
    assert len(forms_read()) == text.count("\n| Written |")
    rows = re.findall(r"\n\| (?!Written)", text.partition("\n## Which days")[0])
    assert sum(len(table.rows) for table in forms_read()) == len(rows)


def test_each_example_is_read_as_its_table_says(program: str) -> None:
    forms = [(text, table.title) for table in forms_read() for text in examples(table.title)]
    lines = [json.dumps({"op": "written", "reader": 1, "code": "GB", "date": text})
             for text, _ in forms]
    done = subprocess.run([program, "serve", "--journal", SAMPLES, "--read-only"], text=True,
                          input="\n".join(lines) + "\n", capture_output=True, check=True)
    kinds = [json.loads(line)["answer"]["kind"] for line in done.stdout.splitlines()]
    wrong = [text for (text, title), kind in zip(forms, kinds)
             if (kind == "none") != (title == REFUSED)]
    assert len(forms) > 100 and not wrong


def test_each_example_leads_to_its_answer(client: Any) -> None:
    text = client.get("/forms?code=GB").text
    assert text.count('href="/?code=GB&amp;date=') == sum(
        len(examples(table.title)) for table in forms_read())
    assert "`" not in text and 'href="/?code=GB&amp;date=11.Feb.1731"' in text
    assert 'href="/forms?code=GB"' in client.get("/?code=GB").text
