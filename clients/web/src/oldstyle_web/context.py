"""The application with what it asks, as each request finds it."""
from __future__ import annotations

import hashlib
import os

from flask import Flask, current_app, request

from . import problems, words
from .commands import Commands
from .register import Register
from .settings import Settings
from .tables import Tables

NAME = problems.N_("The calendar change register")
YEAR = 31_536_000


class Page(Flask):
    """The application with what it asks."""

    def __init__(self, settings: Settings):
        self.jinja_options = {**self.jinja_options, "finalize": words.written_out,
                              "trim_blocks": True, "lstrip_blocks": True}
        super().__init__("oldstyle_web")
        self.settings = settings
        self.register = Register(settings)
        self.commands = Commands(settings)
        self.tables = Tables(settings)
        self.version = version_of(os.path.join(self.root_path, "static"))

    def get_send_file_max_age(self, filename: str | None) -> int | None:
        """A file that is asked for by its version never changes."""
        return YEAR if request.args.get("v") == self.version else None

    def close(self) -> None:
        """Ends the runs of the program."""
        self.tables.close()
        self.register.close()


def page() -> Page:
    """The application that answers."""
    app = current_app._get_current_object()  # type: ignore[attr-defined]
    assert isinstance(app, Page)
    return app


def version_of(folder: str) -> str:
    """A word that changes with the files of a folder."""
    digest = hashlib.sha256()
    for name in sorted(os.listdir(folder)):
        with open(os.path.join(folder, name), "rb") as file:
            digest.update(name.encode() + b"\0" + file.read())
    return digest.hexdigest()[:12]
