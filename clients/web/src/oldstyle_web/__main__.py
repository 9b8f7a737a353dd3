"""The command `oldstyle-web JOURNAL`: serves the page by waitress."""
from __future__ import annotations

import argparse
import errno
import logging
import re
import resource
import signal
import sys
from typing import Any, Callable, NoReturn

from oldstyle import Pool, ProgramEnded, ProgramFailed
from waitress.parser import HTTPRequestParser
from waitress.server import create_server

from .application import access, create_app
from .context import Page
from .settings import (MEBIBYTE, Misuse, Settings, is_loopback, journal_at, number_of,
                       program_named)

NAME = "oldstyle-web"
REFUSED_LINE = re.compile(r"journal line \d+: \d+ \w+")
EXAMPLE = f"{NAME} examples/samples.journal"
HELLO = b'{"op":"lands","reader":1}\n'
LONGEST_HEAD = 32_768
# A connection on which nothing moves is closed after this many seconds.
IDLE_SECONDS, LOOK_SECONDS = 30, 5
# What a form has besides its files.
REST_OF_FORM = 65_536


class CommandLine(argparse.ArgumentParser):
    """The arguments of the command."""

    def error(self, message: str) -> NoReturn:
        self.exit(2, f"{NAME}: {message.removeprefix('argument ')}\n"
                     f"{NAME}: write it as {EXAMPLE}; --help says more\n")


def command_line() -> CommandLine:
    """The options that there are."""
    line = CommandLine(prog=NAME, allow_abbrev=False,
                       description="Serves the page of a register to browsers.")
    line.add_argument("journal", metavar="JOURNAL", help="the journal that keeps the register")
    line.add_argument("--program", metavar="PATH",
                      help="the program; otherwise $OLDSTYLE, or oldstyle on the PATH")
    line.add_argument("--address", type=address, default="127.0.0.1", metavar="ADDRESS",
                      help="the address on which it listens; by default 127.0.0.1")
    line.add_argument("--host", action="append", default=[], metavar="NAME",
                      help="a name by which the page is asked, which may be given again; by "
                      "default this machine alone at a loopback address, otherwise any")
    line.add_argument("--limits", default="", metavar="LIMITS",
                      help="what the register holds at most, in the form of oldstyle --limits")
    for name, least, most, default, what in (
            ("--port", 0, 65535, 8000, "the port; 0 takes a free one"),
            ("--processes", 1, 64, 2, "how many processes of the program answer lines"),
            ("--threads", 1, 1000, 16, "how many requests are answered in parallel"),
            ("--connections", 16, 100_000, 1000, "how many connections may be open"),
            ("--max-upload", 1, 4096, 64, "how many MB a table may have")):
        line.add_argument(name, type=whole(least, most), default=default, metavar="N",
                          help=f"{what}; {default} by default")
    return line


def address(text: str) -> str:
    """An address that is named: an empty one would be all addresses."""
    if not text:
        raise argparse.ArgumentTypeError("name an address, such as 127.0.0.1, or 0.0.0.0 for all")
    return text


def whole(least: int, most: int) -> Callable[[str], int]:
    """Reads a whole number of an option."""
    def read(text: str) -> int:
        try:
            return number_of(text, least, most)
        except Misuse as why:
            raise argparse.ArgumentTypeError(str(why)) from None
    return read


def settings_of(options: argparse.Namespace) -> Settings:
    hosts = tuple(options.host)
    if not hosts and is_loopback(options.address):
        hosts = (options.address, "localhost")
    return Settings(journal_at(options.journal), program_named(options.program), options.limits,
                    hosts, options.processes, options.max_upload * MEBIBYTE)


def try_journal(settings: Settings) -> None:
    """Ends the command if the program doesn't load the journal."""
    pool = Pool(settings.serving_words(), 1, seconds=settings.question_seconds)
    try:
        pool.ask([HELLO])
    except ProgramEnded as why:
        first = why.stderr.partition("\n")[0].removeprefix("oldstyle: ")
        reason = first or "it printed no reason"
        step = ": correct it, or name another journal" if REFUSED_LINE.fullmatch(reason) else ""
        raise Misuse(f"{settings.journal}: the program doesn't load it: {reason}{step}") from None
    except ProgramFailed as why:
        raise Misuse(str(why)) from None
    finally:
        pool.close()


def server_of(options: argparse.Namespace, app: Page) -> Any:
    """The server at the address and the port."""
    most = app.settings.max_upload + REST_OF_FORM
    try:
        return create_server(
            app, host=options.address, port=options.port, ident=NAME, threads=options.threads,
            connection_limit=options.connections, channel_timeout=IDLE_SECONDS,
            cleanup_interval=LOOK_SECONDS, asyncore_use_poll=True,
            max_request_header_size=LONGEST_HEAD, max_request_body_size=most,
            clear_untrusted_proxy_headers=True)
    except (OSError, ValueError) as why:
        at = f"the port {options.port} of {options.address}"
        if isinstance(why, OSError) and why.errno == errno.EADDRINUSE:
            raise Misuse(f"{at} is in use: name another by --port") from None
        reason = (getattr(why, "strerror", None) or str(why)).lower().rstrip(".")
        raise Misuse(f"{at}: {reason}: name another by --address and --port") from None


def addresses_of(server: Any) -> list[str]:
    """The addresses of a page, of which a name may have several."""
    listens = getattr(server, "effective_listen", None) or [
        (server.effective_host, server.effective_port)]
    return [f"http://[{host}]:{port}/" if ":" in host else f"http://{host}:{port}/"
            for host, port in listens]


def allow_files(connections: int) -> None:
    """Makes the system allow the files that these connections need: each one, and two more for what
    is received and what waits to be sent."""
    soft, hard = resource.getrlimit(resource.RLIMIT_NOFILE)
    expected = 3 * connections + 256
    if soft != resource.RLIM_INFINITY and soft < expected:
        most = expected if hard == resource.RLIM_INFINITY else min(expected, hard)
        resource.setrlimit(resource.RLIMIT_NOFILE, (most, hard))


def log_requests() -> None:
    """Writes a line for each request on standard error, and none for each one that waits."""
    handler = logging.StreamHandler()
    handler.setFormatter(logging.Formatter("%(message)s"))
    access.addHandler(handler)
    access.setLevel(logging.INFO)
    access.propagate = False
    logging.getLogger("waitress.queue").setLevel(logging.ERROR)
    # Waitress names the path of a request whose client has gone: one that can't be read has none.
    setattr(HTTPRequestParser, "path", "")  # not in its stubs


def stop(*_: object) -> NoReturn:
    """What the signal to end does."""
    raise KeyboardInterrupt


def main() -> int:
    """Serves until it is interrupted."""
    signal.signal(signal.SIGTERM, stop)
    try:
        serve(command_line().parse_args())
    except KeyboardInterrupt:
        return 130
    except (Misuse, OSError) as why:
        sys.exit(f"{NAME}: {why}")
    return 0


def serve(options: argparse.Namespace) -> None:
    """Loads the journal, and answers requests until it is interrupted."""
    settings = settings_of(options)
    try_journal(settings)
    app = create_app(settings)
    allow_files(options.connections)
    server = server_of(options, app)
    log_requests()
    print(f"{NAME}: {' '.join(addresses_of(server))} answers from {settings.journal_name}; Ctrl-C "
          "ends it", flush=True)
    try:
        server.run()
    finally:
        for name in (signal.SIGTERM, signal.SIGINT):
            signal.signal(name, signal.SIG_IGN)
        server.close()
        app.close()


if __name__ == "__main__":
    sys.exit(main())
