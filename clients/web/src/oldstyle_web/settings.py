"""The settings of the page: the journal, the program and the limits."""
from __future__ import annotations

import ipaddress
import os
from dataclasses import dataclass
from typing import Mapping

from oldstyle import ProgramMissing
from oldstyle.service import program_at

MEBIBYTE = 1024 * 1024


class Misuse(Exception):
    """What keeps the page from being started, reported in one line."""


@dataclass(frozen=True)
class Settings:
    """The journal and the program, both by absolute paths, and how much may run in parallel.

    The page answers requests for `hosts` alone; it answers all if there are none.
    """

    journal: str
    program: str
    limits: str = ""
    hosts: tuple[str, ...] = ()
    processes: int = 2
    max_upload: int = 64 * MEBIBYTE
    commands: int = 4
    tables: int = 2
    question_seconds: float = 10
    table_seconds: float = 600

    @property
    def journal_name(self) -> str:
        return os.path.basename(self.journal)

    @property
    def is_local(self) -> bool:
        """Returns whether the page is for this machine alone."""
        return bool(self.hosts) and all(map(is_loopback, self.hosts))

    def public_report(self, report: str) -> str:
        """What the program printed, without its own name and the folder of the journal."""
        return report.strip().removeprefix("oldstyle: ").replace(self.journal, self.journal_name)

    def serving_words(self) -> list[str]:
        """The words of a run that answers lines, by the editions that others publish."""
        return [self.program, "serve", *self.limit_words(), "--follow", self.journal]

    def limit_words(self) -> list[str]:
        """The words that raise the limits of a register, in every run."""
        return ["--limits", self.limits] if self.limits else []


def is_loopback(name: str) -> bool:
    """Returns whether a name is an address of this machine alone."""
    if name == "localhost":
        return True
    try:
        return ipaddress.ip_address(name).is_loopback
    except ValueError:
        return False


def in_bytes(words: list[str]) -> list[bytes]:
    """Arguments of a program in UTF-8, whatever encoding Python has for the file system."""
    return [word.encode(errors="surrogateescape") for word in words]


def reason_of(why: OSError) -> str:
    """The system's reason for an error, without the paths that it met."""
    if isinstance(why, FileNotFoundError):
        return "no such file"
    return (why.strerror or str(why)).lower()


def program_named(name: str | None) -> str:
    """The path of the program, as the client package finds it."""
    try:
        return program_at(name)
    except ProgramMissing as why:
        raise Misuse(str(why)) from None


def journal_at(path: str) -> str:
    """The absolute path of a journal that can be read."""
    try:
        with open(path, "rb"):
            return os.path.abspath(path)
    except OSError as why:
        raise Misuse(f"{path}: {reason_of(why)}: name a journal, such as samples.journal") from None


def number_of(text: str, least: int, most: int) -> int:
    """A whole number that a variable or an option gives."""
    if not (text.isascii() and text.isdigit() and len(text) < 9 and least <= int(text) <= most):
        raise Misuse(f"{text} is not a whole number from {least} to {most}")
    return int(text)


def variable(variables: Mapping[str, str], name: str, least: int, most: int, default: int) -> int:
    """The number that a variable names."""
    try:
        return number_of(variables[name], least, most) if variables.get(name) else default
    except Misuse as why:
        raise Misuse(f"{name}: {why}") from None


def settings_from(variables: Mapping[str, str]) -> Settings:
    """The settings that the environment names, as servers of WSGI give them."""
    journal = variables.get("OLDSTYLE_JOURNAL")
    if not journal:
        raise Misuse("OLDSTYLE_JOURNAL is not set: let it name a journal")
    return Settings(journal_at(journal), program_named(None),
                    variables.get("OLDSTYLE_LIMITS", ""),
                    hosts=tuple(variables.get("OLDSTYLE_HOSTS", "").split()),
                    processes=variable(variables, "OLDSTYLE_PROCESSES", 1, 64, 2),
                    max_upload=variable(variables, "OLDSTYLE_MAX_UPLOAD", 1, 4096, 64) * MEBIBYTE)
