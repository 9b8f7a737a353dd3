"""An edition of the journal: what it changed, and a territory in it, as the program prints them."""
from __future__ import annotations

import json
import os
import tempfile
from dataclasses import dataclass

from .commands import Commands
from .problems import N_, Problem, no_place, unavailable
from .settings import reason_of


@dataclass(frozen=True)
class EditionFound:
    """An edition: the plan that made it of the one before, and the page of a territory in it."""

    number: int
    plan: list[str]
    territory: list[str]


def edition_found(commands: Commands, number: int, code: str) -> EditionFound:
    """What the program prints of the journal up to an edition."""
    with tempfile.TemporaryDirectory() as folder:
        before, after, text = (os.path.join(folder, name) for name in ("before", "after", "text"))
        copy_editions(commands.settings.journal, number - 1, before)
        copy_editions(commands.settings.journal, number, after)
        territory = printed(commands, after, "territory", code) if code else []
        with open(text, "w", encoding="utf-8") as file:
            # (without its first line, which names an edition that the one before doesn't have)
            file.write("\n".join(printed(commands, after, "text")[1:]))
        return EditionFound(number, printed(commands, before, "plan", text), territory)


def copy_editions(journal: str, count: int, path: str) -> None:
    """Copies the head and as many editions of a journal."""
    try:
        with open(journal, "rb") as file, open(path, "wb") as copy:
            copy.write(file.readline())
            for line in file if count else ():
                copy.write(line)
                count -= b"publish" in line and json.loads(line)["op"] == "publish"
                if not count:
                    break
    except (OSError, ValueError) as why:
        raise unavailable(reason_of(why) if isinstance(why, OSError) else "") from None
    if count:
        raise Problem(404, N_("The journal has no such edition yet."))


def printed(commands: Commands, journal: str, command: str, *words: str) -> list[str]:
    """The lines that a command prints over a part of the journal."""
    status, out, errors = commands.run(command, journal, *words)
    if not status:
        return out.split("\n")[:-1]
    if "no territory has the code" in errors:
        raise no_place(words[0])
    raise unavailable("it can't read the journal up to that edition")
