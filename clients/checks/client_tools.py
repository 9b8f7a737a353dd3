"""What clients.py checks by R, Gramps and xmllint, for each that is installed."""
import gzip
import os
import re
import shutil
import subprocess

from shared import TOP

CLIENTS = os.path.join(TOP, "clients")
FILES = os.path.join(CLIENTS, "samples")
# What Gramps must make of dates that were written: dual years are those from 1 January there.
IN_GRAMPS = {
    "@#DJULIAN@ 11 FEB 1731/32": 'dateval val="1732-02-11" cformat="Julian" dualdated="1"',
    "@#DJULIAN@ 25 MAR 1732": 'dateval val="1732-03-25" cformat="Julian"',
    "14 SEP 1752": 'dateval val="1752-09-14"',
    "ABT @#DJULIAN@ 11 FEB 1731/32":
        'dateval val="1732-02-11" type="about" cformat="Julian" dualdated="1"',
    "BEF @#DJULIAN@ 25 MAR 1640": 'dateval val="1640-03-25" type="before" cformat="Julian"',
    "AFT @#DJULIAN@ 3 JAN 1699/00":
        'dateval val="1700-01-03" type="after" cformat="Julian" dualdated="1"',
    "BET @#DJULIAN@ 1 FEB 1731/32 AND @#DJULIAN@ 5 MAY 1732":
        'daterange start="1732-02-01" stop="1732-05-05" cformat="Julian" dualdated="1"',
    "@#DJULIAN@ FEB 1731/32": 'dateval val="1732-02" cformat="Julian" dualdated="1"',
    "@#DJULIAN@ 29 FEB 1731/32": 'dateval val="1732-02-29" cformat="Julian" dualdated="1"',
}
tried = []


def read(path):
    with open(path, "rb") as file:
        return file.read()


def checks(installed, options, folder):
    """What R, Gramps and xmllint say, if they are installed."""
    if shutil.which("xmllint"):
        yield from lint(options.schema)
    if shutil.which("Rscript"):
        yield from in_r(installed, folder)
    if shutil.which("gramps"):
        yield from in_gramps(folder)


def lint(schema):
    tried.append("xmllint by TEI's schema" if schema else "xmllint without a schema")
    by = ["--relaxng", schema] if schema else []
    for name in ("letters.filled.xml", "cmif.filled.xml"):
        done = subprocess.run(["xmllint", "--noout", *by, os.path.join(FILES, name)],
                              capture_output=True, check=False)
        yield f"xmllint {name}: {done.stderr.decode()}", done.returncode == 0


def in_gramps(folder):
    """What Gramps makes of the dates that were written, in a home of its own."""
    tried.append("Gramps")
    home = os.path.join(folder, "gramps")
    os.mkdir(home)
    path, exported = os.path.join(FILES, "events.filled.ged"), os.path.join(home, "tree.gramps")
    done = subprocess.run(["gramps", "-q", "-y", "-i", path, "-e", exported, "-f", "gramps"],
                          capture_output=True, check=False,
                          env={**os.environ, "HOME": home, "GRAMPSHOME": home})
    output = (done.stdout + done.stderr).decode()
    yield f"Gramps: {output}", "No errors detected" in output and os.path.exists(exported)
    with gzip.open(exported, "rt", encoding="utf-8") as file:
        events = re.findall(r"<event .*?</event>", file.read(), re.DOTALL)
    dates = re.findall(r"^2 DATE (.*)$", read(path).decode(), re.MULTILINE)
    yield f"Gramps: {len(events)} events", len(events) == len(dates) == 50
    for date, expected in IN_GRAMPS.items():
        result = [event for event, written in zip(events, dates) if written == date]
        yield f"Gramps: {date}: {result}", bool(result) and all(f"<{expected}/>" in event
                                                              for event in result)


def in_r(installed, folder):
    """The package of R, installed as its README says, and the example that is there."""
    with open(os.path.join(CLIENTS, "r", "README.md"), encoding="utf-8") as file:
        blocks = dict(re.findall(r"```(\w+)\n(.*?)```", file.read(), re.DOTALL))
    library = os.path.join(folder, "library")
    os.mkdir(library)
    done = installed.run(["sh", "-c", blocks["sh"]], R_LIBS=library)
    yield f"R CMD INSTALL: {done.stdout}{done.stderr}", os.listdir(library) == ["oldstyle"]
    tried.append("R")
    done = installed.run(["Rscript", "-e", blocks["r"]], R_LIBS=library)
    yield f"R: {done.stdout}{done.stderr}", done.stdout.decode() == blocks["text"]
    done = installed.run(["Rscript", "-e", 'library(oldstyle); cat(ls("package:oldstyle"))'],
                         R_LIBS=library)
    yield f"R: what is exported: {done}", done.stdout == b"oldstyle_lands oldstyle_read"
