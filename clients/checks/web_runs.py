"""The page in runs of its own, by its command or by gunicorn: what it is asked, and what it
leaves."""
import atexit
import http.client
import json
import os
import re
import socket
import subprocess
import sys
import tempfile
import time
from urllib.parse import urlencode

from shared import TOP, compact, need_python

SERVES = re.compile(r"http://([0-9.]+):(\d+)/")
ACCESS = re.compile(r"[0-9a-f.:]+ - - \[.*\] \".*\" \d{3} \S+")
WAIT = 60


def free_port():
    with socket.socket() as free:
        free.bind(("127.0.0.1", 0))
        return free.getsockname()[1]


def python_of_page():
    """A Python that has what the page requires."""
    return need_python("flask, waitress", "the Debian packages python3-flask and python3-waitress")


def variables_of_page(**others):
    """The environment in which the page is found."""
    folders = [os.path.join(TOP, "clients", name, "src") for name in ("python", "web")]
    return {**os.environ, "PYTHONPATH": os.pathsep.join(folders), **others}


def process_table():
    """The parent and the time of start of each process."""
    table = {}
    for name in filter(str.isdigit, os.listdir("/proc")):
        try:
            with open(f"/proc/{name}/stat", encoding="utf-8", errors="replace") as file:
                words = file.read().rpartition(")")[2].split()
        except OSError:
            continue
        table[int(name)] = (int(words[1]), words[19], words[0])
    return table


def below(root):
    """The processes that a process started, directly or not, with their start times."""
    table, result, more = process_table(), {}, [root]
    while more:
        parent = more.pop()
        for process, (its_parent, start, _) in table.items():
            if its_parent == parent and process not in result:
                result[process] = start
                more.append(process)
    return result


def still_there(result):
    """Those of some processes that have not ended."""
    table = process_table()
    return [process for process, start in result.items()
            if process in table and table[process][1] == start]


def left_after(result, seconds=5):
    """Those that have not ended after some time."""
    last = time.monotonic() + seconds
    while (left := still_there(result)) and time.monotonic() < last:
        time.sleep(0.05)
    return left


class Page:
    """A run of the page. Its answers are asked for by http.client."""

    def __init__(self, program, journal, options=(), workers=0, threads=0):
        self.host, self.port, self.started = "127.0.0.1", free_port(), {}
        words = [python_of_page(), "-m", "oldstyle_web", journal, "--program", program, "--port",
                 str(self.port), *options]
        variables = variables_of_page(OLDSTYLE_JOURNAL=journal, OLDSTYLE=program)
        if workers:
            words = ["gunicorn", "--bind", f"{self.host}:{self.port}", "--worker-class", "gthread",
                     "--workers", str(workers), "--threads", str(threads), "--log-level",
                     "warning", *options, "oldstyle_web.wsgi:application"]
        self.errors = tempfile.TemporaryFile("w+")
        self.process = subprocess.Popen(words, cwd=TOP, env=variables, stdout=subprocess.DEVNULL,
                                        stderr=self.errors)
        atexit.register(self.process.terminate)  # a script that an exception ends leaves no page
        self.wait_until_it_answers()

    def wait_until_it_answers(self):
        last = time.monotonic() + WAIT
        while time.monotonic() < last and self.process.poll() is None:
            try:
                if self.get("/")[0] == 200:
                    return
            except OSError:
                time.sleep(0.05)
        self.process.kill()
        sys.exit(f"the page doesn't answer: {self.errors_text()}")

    def logged(self):
        """The lines of its log of requests."""
        return [line for line in self.lines() if ACCESS.fullmatch(line)]

    def errors_text(self):
        """What it printed on standard error beside that log."""
        return "\n".join(line for line in self.lines() if not ACCESS.fullmatch(line))

    def lines(self):
        self.errors.seek(0)
        return self.errors.read().splitlines()

    def get(self, path, **headers):
        return self.ask("GET", path, None, headers)

    def ask(self, method, path, body=None, headers=None, seconds=30):
        """The status, the headers and the body of a reply."""
        connection = http.client.HTTPConnection(self.host, self.port, timeout=seconds)
        try:
            connection.request(method, path, body, headers or {})
            reply = connection.getresponse()
            return reply.status, reply.headers, reply.read()
        finally:
            connection.close()

    def answer(self, **members):
        """What the endpoint of typed dates answers."""
        status, _, body = self.get("/answer.json?" + urlencode(members))
        return status, json.loads(body)

    def raw(self, text, seconds=30):
        """The first line that is replied to bytes as they are sent."""
        with socket.create_connection((self.host, self.port), seconds) as connection:
            connection.sendall(text)
            return first_line(connection)

    def children(self):
        return below(self.process.pid)

    def stop(self, signal=15, seconds=10):
        """Ends the run by a signal. Returns the processes that it left, and what it printed."""
        result = self.children()
        self.process.send_signal(signal)
        try:
            self.process.wait(timeout=seconds)
        except subprocess.TimeoutExpired:
            self.process.kill()
            return left_after(result), "it didn't end in time"
        return left_after(result), self.errors_text()


def first_line(connection):
    """The first line of a reply, or an empty one if the connection ended."""
    content = b""
    while b"\n" not in content:
        try:
            block = connection.recv(4096)
        except ConnectionError:
            break
        if not block:
            break
        content += block
    return content.partition(b"\r\n")[0].decode(errors="replace")


def form_of(fields, files, boundary="a-boundary-of-a-form"):
    """The body of a form with files, and its headers."""
    parts = [f'--{boundary}\r\nContent-Disposition: form-data; name="{name}"\r\n\r\n{text}\r\n'
             .encode() for name, text in fields.items()]
    for name, (file_name, content) in files.items():
        parts.append(f'--{boundary}\r\nContent-Disposition: form-data; name="{name}"; '
                     f'filename="{file_name}"\r\nContent-Type: text/csv\r\n\r\n'.encode())
        parts += [content, b"\r\n"]
    parts.append(f"--{boundary}--\r\n".encode())
    return b"".join(parts), {"Content-Type": f"multipart/form-data; boundary={boundary}"}


def written(program, journal, code, date, weekday=""):
    """The reply of the service to the query for a written date."""
    question = {"op": "written", "reader": 1, "code": code, "date": date}
    if weekday:
        question["weekday"] = weekday
    done = subprocess.run([program, "serve", "--journal", journal, "--read-only"], check=True,
                          input=compact(question) + "\n", capture_output=True, text=True)
    return json.loads(done.stdout)
