"""Runs of the program's commands, and which pages require them."""
from __future__ import annotations

import subprocess
import sys
from typing import Any, Callable

import pytest
from conftest import SAMPLES

from oldstyle_web.commands import Commands
from oldstyle_web.editions import printed
from oldstyle_web.problems import Problem
from oldstyle_web.settings import Settings

NAME = "A\u2028B\x85C"


def test_a_name_with_line_separators_is_one_line(script: Callable[[str], str]) -> None:
    printing = script(f"printf '%s\\n' '{NAME} (AA), edition 2' 'second line'")
    lines = printed(Commands(Settings(SAMPLES, printing)), SAMPLES, "territory", "AA")
    assert lines == [f"{NAME} (AA), edition 2", "second line"]


def test_only_the_page_of_an_edition_requires_a_command(page: Any, client: Any,
                                                        monkeypatch: pytest.MonkeyPatch) -> None:
    monkeypatch.setattr(page.commands, "run", None)
    for path in ("/place?code=GB", "/month?code=GB&year=1752&month=9", "/year?code=GB&year=1731",
                 "/month?code=GB&year=0&month=1", "/?code=GB&date=10+January+1751",
                 "/?code=GB&date=11%2F2%2F1731&order=mdy",
                 "/?code=GB&date=Friday+11+February+1731%2F2"):
        assert client.get(path).status_code == 200


def test_a_missing_program_is_reported_without_its_path() -> None:
    with pytest.raises(Problem) as why:
        Commands(Settings(SAMPLES, "/none/of/it")).run("text", SAMPLES)
    assert why.value.code == 503 and "/" not in str(why.value.description)


def test_words_reach_the_program_in_utf_8() -> None:
    code = ("import sys; from oldstyle_web import commands, settings\n"
            "assert sys.getfilesystemencoding() == 'ascii'\n"
            "one = commands.Commands(settings.Settings('j', '/bin/echo'))\n"
            "print(one.run('read', 'j', 'f\\xe9vrier \\u2013 1650')[1].encode())")
    done = subprocess.run([sys.executable, "-c", code], capture_output=True, text=True, check=False,
                          env={"LC_ALL": "C", "PYTHONUTF8": "0", "PYTHONCOERCECLOCALE": "0",
                               "PYTHONPATH": ":".join(sys.path)})
    assert repr("read j février – 1650\n".encode()) in done.stdout, done
