"""The forms of dates that are read: tables of docs/DATES.md, which the package has as a file."""
from __future__ import annotations

from dataclasses import dataclass
from importlib.resources import files

Cell = list[tuple[str, bool]]
FIRST = "| Written |"


@dataclass(frozen=True)
class Forms:
    """A table of forms: its title, its headings, and rows of two cells. A cell has its texts, each
    with whether it is a date or a word of the program."""

    title: str
    headings: list[str]
    rows: list[list[Cell]]


def forms_read() -> list[Forms]:
    """The tables whose first column is what is written."""
    text = files(__package__).joinpath("forms.txt").read_text(encoding="utf-8")
    forms: list[Forms] = []
    for section in text.split("\n## ")[1:]:
        title, _, rest = section.partition("\n")
        lines = [line for line in rest.split("\n") if line.startswith("|")]
        if lines and lines[0].startswith(FIRST):
            head, _, *rows = [line.strip("| ").split(" | ") for line in lines]
            forms.append(Forms(title, head, [[cell_of(cell) for cell in row] for row in rows]))
    return forms


def cell_of(text: str) -> Cell:
    """The texts of a cell; those between backticks are quoted."""
    return [(part, place % 2 == 1) for place, part in enumerate(text.split("`")) if part]
