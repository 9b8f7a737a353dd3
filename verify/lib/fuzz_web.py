"""Requests to the page in the browser, changed at random: a target of fuzz.py.

A run of `oldstyle-web` is sent requests, as bytes that were changed and by addresses whose words
were. Each has a reply with a status that clients/web/README.md names, never 500, and a body as long
as its head says. The page reports no fault of its own, and the next good request is answered. What
it answers to a date is what the query `written` answers.
"""
import json
import os
import re
import socket
import sys
from urllib.parse import quote, urlencode

from lib.common import TOP, compact
from lib.fuzz_dates import CODES, SAMPLES as DATES, WEEKDAYS, WORDS as DATE_WORDS
from lib.fuzz_letters import JOURNAL, SAMPLES as TABLES
from lib.mutations import Run, mutated

sys.path.append(os.path.join(TOP, "clients", "checks"))

from web_runs import Page

AT_ONCE = 40
SECONDS = 40
# How long to wait for the reply to an incomplete request.
QUIET = 0.5
HEAD = re.compile(rb"HTTP/1\.[01] (\d{3}) [^\r\n]*\r\n(.*?)\r\n\r\n", re.S)
LENGTH = re.compile(rb"^content-length: (\d+)\r?$", re.I | re.M)
# The statuses in the page's README, and what waitress replies to what is not HTTP.
STATUSES = {200, 304, 400, 404, 405, 411, 413, 414, 421, 422, 431, 501, 503}
PATHS = ["", "answer.json", "month", "year", "day", "place", "letters", "static/page.css",
         "nowhere"]
MEMBERS = {"code": [*CODES, "ZZ", "gb", ""], "date": None, "weekday": [*WEEKDAYS, "", "Fryday"],
           "order": ["", "dmy", "mdy", "ymd"], "year": ["1731", "1752", "0", "10000", "10001"],
           "month": ["2", "9", "12", "13", "0"], "day": ["639797", "1", "3652059", "0"],
           "v": ["x"], "other": ["1"]}


def get(address, *headers):
    return "\r\n".join([f"GET {address} HTTP/1.1", "Host: localhost", *headers, "", ""]).encode()


def post(address, body, *headers):
    head = [f"POST {address} HTTP/1.1", "Host: localhost", f"Content-Length: {len(body)}",
            *headers, "", ""]
    return "\r\n".join(head).encode() + body


FORM = b'--b\r\nContent-Disposition: form-data; name="table"; filename="a.csv"\r\n\r\n' + \
    TABLES[0] + b'\r\n--b\r\nContent-Disposition: form-data; name="order"\r\n\r\ndmy\r\n--b--\r\n'
SAMPLES = [
    get("/"), get("/?code=GB&date=11+February+1731%2F2&weekday=Friday"), get("/place?code=SE"),
    get("/answer.json?code=GB&date=March+1731", "Accept: application/json"), get("/letters"),
    get("/month?code=GB&year=1752&month=9"), get("/year?code=GB&year=1752"), get("/nowhere"),
    get("/day?code=GB&day=639797", 'If-None-Match: "5-x", W/"y"'), get("/static/page.css"),
    b"HEAD / HTTP/1.1\r\n\r\n", b"PUT /letters HTTP/1.0\r\n\r\n", b"GET /\r\n\r\n",
    post("/letters", TABLES[0]), post("/letters?separator=semicolon&column_place=place", TABLES[1]),
    post("/letters", FORM, "Content-Type: multipart/form-data; boundary=b"),
    b"POST /letters HTTP/1.1\r\nTransfer-Encoding: chunked\r\n\r\n3\r\nabc\r\n0\r\n\r\n",
]
WORDS = [b"GET ", b"POST ", b"HEAD ", b" HTTP/1.1", b" HTTP/9.9", b" HTTP/1.1\r\n\r\n", b"\r\n\r\n",
         b"Content-Length: 5\r\n", b"Content-Length: -1\r\n", b"Expect: 100-continue\r\n", b"%00",
         b"%ff", b"%2e%2e/", b"../", b"/answer.json?", b"/letters", b"code=GB", b"&date=1731", b"+",
         b"boundary=", b"--b", b'name="table"', b"Host: ", b"X: y\r\n", b" folded\r\n", b"//", b"?"]


def sent(page, request):
    """The first reply to bytes. If they are not a whole request, none comes while it waits."""
    response = b""
    with socket.create_connection((page.host, page.port), SECONDS) as connection:
        try:
            connection.sendall(request)
            connection.settimeout(SECONDS if is_whole(request) else QUIET)
            while (size := reply_size(request, response)) is None or len(response) < size:
                if not (block := connection.recv(65_536)):
                    break
                response += block
        except (ConnectionError, TimeoutError):
            pass
    return response[:reply_size(request, response)]


def is_whole(request):
    """Returns whether bytes are a request that is complete, as far as can be seen from them."""
    head, ends, body = request.partition(b"\r\n\r\n")
    return bool(ends) and head.startswith(b"GET ") and not body and b"ontent-" not in head


def reply_size(request, response):
    """How many bytes a reply has, or None if its head doesn't say so yet."""
    if not (head := HEAD.match(response)):
        return None
    if request.startswith(b"HEAD ") or head[1] == b"304":
        return head.end()
    length = LENGTH.search(head[2])
    return head.end() + int(length[1]) if length else None


def why_wrong(request, response):
    """What is wrong with a reply."""
    words = request.partition(b"\n")[0].decode("latin-1").split()
    if not response and not is_whole(request) or len(words) < 3:
        # (no request; or one of the first version of HTTP)
        return ""
    head = HEAD.match(response)
    if not head or int(head[1]) not in STATUSES:
        return f"the reply {response[:200]!r}"
    length, body = LENGTH.search(head[2]), response[head.end():]
    has_body = words[0] != "HEAD" and head[1] != b"304"
    if length and has_body and int(length[1]) != len(body):
        return f"{len(body)} bytes of a body of {int(length[1])}"
    return ""


class Web:
    """Some requests each time."""

    about = "requests"

    def __init__(self, program, _folder):
        self.program, self.page = program, Page(program, JOURNAL)

    def close(self):
        self.page.stop()

    def round(self, chance):
        result, dates = [], []
        for _ in range(AT_ONCE):
            request, date = self.request(chance)
            response = sent(self.page, request)
            why = why_wrong(request, response)
            if not why and date:
                dates.append((request, date, response))
            result += [(why, "as bytes", request)] if why else []
        result += self.why_other_dates(dates)
        if why := self.why_broken():
            result.append((why, "after these requests", b""))
        return AT_ONCE, result

    def request(self, chance):
        """A request, and its question if it asks for a date."""
        if chance.random() < 0.6:
            return mutated(chance, SAMPLES, WORDS), None
        date = mutated(chance, DATES, DATE_WORDS).decode(errors="ignore")[:300]
        path = chance.choice(["answer.json", *PATHS])
        names = chance.sample(list(MEMBERS), chance.randint(0, 5))
        members = {name: chance.choice(MEMBERS[name] or [date]) for name in names}
        if chance.random() < 0.5:
            path, members = "answer.json", {"code": chance.choice(CODES), "date": date}
        text = urlencode(members, safe=chance.choice(["", "/", "/:,"]), quote_via=quote)
        return get(f"/{path}?{text}"), members if path == "answer.json" and set(members) <= {
            "code", "date", "weekday"} else None

    def why_other_dates(self, dates):
        """Each date for which the page has another answer than the query."""
        answered = [(request, date, json.loads(response[HEAD.match(response).end():]))
                 for request, date, response in dates if HEAD.match(response)[1] == b"200"]
        answered = [one for one in answered if "written" in one[2]]
        lines = [compact({"op": "written", "reader": 1, "code": date["code"],
                          "date": date["date"].strip(),
                          **({"weekday": date["weekday"]} if date.get("weekday") else {})})
                 for _, date, _ in answered]
        done = Run([self.program, "serve", "--journal", JOURNAL],
                   "".join(line + "\n" for line in lines).encode())
        replies = done.out.splitlines()
        if len(replies) != len(lines):
            return [(f"{len(replies)} replies: {done.stderr!r}", "serve",
                     "\n".join(lines).encode())]
        return [(f"{answer['written']}, but the query {reply!r}", "a date", request)
                for (request, _, answer), reply in zip(answered, replies)
                if answer["written"] != json.loads(reply).get("answer")]

    def why_broken(self):
        """What the page reported of itself, or that it answers no more."""
        if (errors := self.page.errors_text()) or self.page.process.poll() is not None:
            return f"it printed {errors!r}, status {self.page.process.poll()}"
        status = self.page.get("/")[0]
        return "" if status == 200 else f"a good request is answered by {status}"
