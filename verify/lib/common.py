"""What the scripts here share: the program's words and lines, two regimes, and a disk in memory."""
import json
import os
import pty
import subprocess
import sys
from contextlib import contextmanager

TOP = os.path.abspath(os.path.join(os.path.dirname(__file__), "..", ".."))
sys.path.append(os.path.join(TOP, "tools"))

from command_line import SCRIPT, CommandLine, end, file_at, need, text_of

__all__ = ["CommandLine", "end", "file_at", "need", "text_of"]
JULIAN = {"calendar": "julian", "style": "january", "rule": "julian"}
GREGORIAN = {"calendar": "gregorian", "style": "january", "rule": "gregorian"}


def compact(value):
    """A value as JSON text with no space, its members by their names."""
    return json.dumps(value, separators=(",", ":"), sort_keys=True, ensure_ascii=False)


def run(program, words=(), lines=(), folder=None):
    """A run of the program with these words and lines of input, in a folder."""
    text = "".join(line + "\n" for line in lines)
    return subprocess.run([program, *words], input=text, capture_output=True, text=True,
                          check=False, cwd=folder)


def run_at_terminal(command, **streams):
    """A run whose standard error is a terminal, and what this shows."""
    terminal, errors = pty.openpty()
    done = subprocess.run(command, stdout=subprocess.PIPE, stderr=errors, check=False, **streams)
    os.close(errors)
    try:
        screen = os.read(terminal, 4_096)
    except OSError:  # it was closed, and nothing was written
        screen = b""
    os.close(terminal)
    return done, screen.replace(b"\r\n", b"\n")


def replies(program, lines):
    """The replies of the service to these lines, each of which must have one."""
    lines = list(lines)
    done = run(program, lines=lines)
    output = done.stdout.splitlines()
    if len(output) != len(lines):
        sys.exit(f"{SCRIPT}: {program}: {len(output)} replies to {len(lines)} lines, status "
                 f"{done.returncode}: {done.stderr}")
    return output


@contextmanager
def mounted(folder, options):
    """A disk in memory at a folder, or None if it may not be mounted, which only root may."""
    mount = ["mount", "-t", "tmpfs", "-o", options, "tmpfs", folder]
    if os.getuid() != 0 or subprocess.run(mount, stderr=subprocess.DEVNULL, check=False).returncode:
        yield None
        return
    try:
        yield folder
    finally:
        subprocess.run(["umount", folder], check=True)
