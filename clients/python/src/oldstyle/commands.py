"""What the commands share: their arguments, what they read and write, and how each one ends."""
from __future__ import annotations

import argparse
import errno
import os
import sys
from dataclasses import dataclass, field
from typing import (BinaryIO, Callable, Dict, Iterable, List, NoReturn, Optional, Sequence,
                    TextIO, Tuple)

from .answers import Period
from .faults import OldstyleError
from .places import Places, read_places
from .register import Register

REFUSED, WRONG_ARGUMENT, STREAM_FAULT, INTERRUPTED = 1, 2, 3, 130


class FileRefused(OldstyleError):
    """A file that can't be changed as the command promises. Nothing of it is written."""


class CommandLine(argparse.ArgumentParser):
    """The arguments of a command. A wrong one is reported in a line."""

    def error(self, message: str) -> NoReturn:
        self.exit(WRONG_ARGUMENT,
                  f"{self.prog}: {message}: {self.prog} --help lists the arguments\n")


@dataclass
class Context:
    """What a command works with: the register, the places, and the remarks on lines."""

    register: Register
    places: Places
    default: Optional[str]
    has_table: bool
    remarks: List[Tuple[int, str]] = field(default_factory=list)
    _unknown: Dict[str, List[int]] = field(default_factory=dict)
    _lacking: Dict[str, str] = field(default_factory=dict)
    _periods: Dict[str, List[Period]] = field(default_factory=dict)

    def report(self, line: int, what: str) -> None:
        self.remarks.append((line, what))

    def default_for(self, place: str, names: Iterable[str], line: int) -> Optional[str]:
        """The territory of --place, for a place that is unknown or empty, which is noted.

        With a table of places that is for dates without a place alone.
        """
        self._unknown.setdefault(place, []).append(line)
        if (code := self.places.lacking(names)) is not None:
            self._lacking[place] = code or "(empty)"
        return None if place and self.has_table else self.default

    def report_unknown(self) -> None:
        """Reports each unknown place once."""
        for place, lines in self._unknown.items():
            dates = f"{len(lines)} dates" if len(lines) > 1 else "1 date"
            what = f"unknown place {place} ({dates})" if place else f"no place with it ({dates})"
            step = "name their territory by --place CODE"
            if self.default and not (place and self.has_table):
                step = f"taken as {self.default}"
            elif place in self._lacking:
                step = (f"no territory of the register has its code {self._lacking[place]}: "
                        "name another in --places FILE")
            elif place:
                step = "list it in --places FILE"
            self.report(lines[0], f"{what}: {step}")

    def calendar(self, code: str, day: int) -> str:
        """The calendar of a territory on a day."""
        if code not in self._periods:
            self._periods[code] = self.register.periods(code)
        return next(period.calendar for period in self._periods[code]
                    if period.first <= day <= period.last)


def command_line(name: str, document: str, kind: str) -> CommandLine:
    line = CommandLine(prog=name, description=document, allow_abbrev=False,
                       formatter_class=argparse.RawDescriptionHelpFormatter)
    line.add_argument("journal", metavar="JOURNAL", help="the journal of the register")
    line.add_argument("--place", metavar="CODE", help="the territory of each date whose place is "
                      "unknown; with --places, of each date that has no place")
    line.add_argument("--places", metavar="FILE", help="a table of places: CSV with the columns "
                      "place and code")
    line.add_argument("--program", metavar="PATH", help="the program; otherwise $OLDSTYLE, or "
                      "oldstyle on the PATH")
    line.add_argument("--strict", action="store_true", help="end with status 1 if anything is "
                      f"reported on standard error; the {kind} is written whole")
    return line


def run(line: CommandLine, fill: Callable[[bytes, Context, argparse.Namespace], bytes],
        words: Optional[Sequence[str]]) -> int:
    """Runs a command over standard input, and returns its status."""
    options = line.parse_args(words)
    try:
        remarks = fill_input(options, fill)
    except OldstyleError as why:
        return end_with(line, REFUSED, why)
    except KeyboardInterrupt:
        return INTERRUPTED
    except BrokenPipeError:
        os.dup2(os.open(os.devnull, os.O_WRONLY), 1)
        return end_with(line, STREAM_FAULT, "standard output was closed")
    except OSError as why:
        return end_with(line, STREAM_FAULT, f"{why.filename or 'a stream'}: {why.strerror}")
    for what in remarks:
        print(f"{line.prog}: {what}", file=sys.stderr)
    return REFUSED if remarks and options.strict else 0


def end_with(line: CommandLine, status: int, why: object) -> int:
    print(f"{line.prog}: {why}", file=sys.stderr)
    return status


def fill_input(options: argparse.Namespace,
               fill: Callable[[bytes, Context, argparse.Namespace], bytes]) -> List[str]:
    """Writes the changed standard input, and returns the lines for standard error."""
    table = read_places(options.places) if options.places else {}
    with Register(options.journal, program=options.program) as register:
        places = Places(register.lands(), table)
        if options.place is not None and places.code(options.place) is None:
            codes = ", ".join(land.code for land in register.lands())
            raise FileRefused(f"--place {options.place}: no such territory: "
                              f"the register has {codes}")
        default = places.code(options.place) if options.place else None
        context = Context(register, places, default, options.places is not None)
        written = fill(buffer_of(sys.stdin).read(), context, options)
        context.report_unknown()
    buffer_of(sys.stdout).write(written)
    buffer_of(sys.stdout).flush()
    in_order = sorted(context.remarks, key=lambda remark: remark[0])
    return [f"line {line}: {what}" for line, what in in_order]


def buffer_of(stream: Optional[TextIO]) -> BinaryIO:
    """The bytes of a standard stream, which may be closed."""
    if stream is None:
        raise OSError(errno.EBADF, "a standard stream is closed")
    return stream.buffer
