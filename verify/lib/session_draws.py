"""Sessions of an editor, and what they make of a journal: for system_calls.py and crashes.py."""
import json
import os
from typing import NamedTuple

from lib.common import compact
from lib.keeper import HEAD, editor_after

LANDS = '{"op":"lands","reader":1}'
PERIODS = '{"op":"periods","reader":1,"code":"T0"}'


class Session(NamedTuple):
    """Lines that are sent, and those of them that change the register, in order."""
    sent: list
    accepted: list

    def stdin(self):
        return "".join(line + "\n" for line in self.sent).encode()


def session(chance, count, begun=()):
    """A session of an editor who continues after these lines of a journal, without its head. One
    line in ten is refused or is not a request, and one in ten asks."""
    editor, sent, accepted = editor_after(chance.random(), begun), [], []
    while len(accepted) < count:
        if chance.random() < 0.1:
            sent.append(chance.choice([LANDS, PERIODS, "no request", "[]"]))
        request, is_accepted = editor.next()
        sent.append(compact(request))
        if is_accepted:
            accepted.append(sent[-1])
    return Session(sent, accepted)


def journal(lines, head=HEAD):
    """The bytes of a journal of these lines."""
    return "".join(line + "\n" for line in [head, *lines]).encode()


def reported_changes(out):
    """How many of the replies in an output report a change, and the last edition in them. A last
    line that is not whole counts for nothing."""
    replies = [json.loads(line) for line in out.split(b"\n")[:-1]]
    changes = [reply for reply in replies if "ok" in reply]
    return len(changes), max((reply.get("edition", 0) for reply in changes), default=0)


def last_edition(out):
    """The last edition in an output, in a reply to a change or to a question. A last line that is
    not whole counts for nothing."""
    replies = [json.loads(line) for line in out.split(b"\n")[:-1]]
    return max((reply.get("edition", 0) for reply in replies), default=0)


def bytes_at(path):
    """The bytes of a file, None if there is no file."""
    if not os.path.isfile(path):
        return None
    with open(path, "rb") as file:
        return file.read()
