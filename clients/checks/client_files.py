"""What clients.py checks of files: an installed package and its commands."""
import os
import shutil
import subprocess

import client_tools
from client_tools import FILES, read
from shared import SAMPLES, TOP, need_python

PLACES = os.path.join(FILES, "places.csv")
TEI, GEDCOM = "oldstyle-tei", "oldstyle-gedcom"
HEAD = b'<TEI xmlns="http://www.tei-c.org/ns/1.0"><opener><placeName>London</placeName> '
TAIL = b"</opener></TEI>"
MAY = b' when="1640-05-13" when-custom="1640-05-03" calendar="#julian"'
# The lines of the samples that standard error names: counted in the files by hand.
REPORTS = {"letters.xml": (TEI, {"skipped": 2, "no date": 1, "several days": 1, "is left": 1,
                                 "unknown place": 1}),
           "cmif.xml": (TEI, {"declare it": 1}),
           "events.ged": (GEDCOM, {"skipped": 3, "several days": 1, "calendar changed": 1,
                                   "INT takes one date": 2, "a feast": 1, "is left": 1,
                                   "unknown place": 1, "no place": 1, "no date of its calendar": 1,
                                   "weekday differs": 1, "not the year that follows": 1}),
           "events7.ged": (GEDCOM, {"skipped": 1, "is left": 1})}


class Installed:
    """An environment with the package, installed as its README says, and the network off."""

    def __init__(self, program, folder):
        self.folder = os.path.join(folder, "environment")
        self.path = os.path.join(self.folder, "bin")
        self.variables = {**os.environ, "OLDSTYLE": program, "PIP_NO_INDEX": "1"}
        subprocess.run([need_python("setuptools, wheel", "python3-setuptools and python3-wheel"),
                        "-m", "venv", "--system-site-packages", self.folder], check=True)
        alone = ["unshare", "--net"] if os.getuid() == 0 and shutil.which("unshare") else []
        words = [*alone, os.path.join(self.path, "pip"), "install", "--no-build-isolation",
                 "./clients/python"]
        self.done = self.run(words)

    def run(self, words, data=b"", folder=TOP, **variables):
        words = [os.path.join(self.path, words[0]), *words[1:]]
        words[0] = words[0] if os.path.exists(words[0]) else os.path.basename(words[0])
        return subprocess.run(words, input=data, capture_output=True, check=False, cwd=folder,
                              env={**self.variables, **variables})

    def fill(self, command, data, *words):
        """What a command makes of a file, with the table of places of the samples."""
        return self.run([command, SAMPLES, "--places", PLACES, *words], data)


def checks(options, folder):
    """All checks of files."""
    installed = Installed(options.program, folder)
    yield f"pip install: {installed.done.stderr}", installed.done.returncode == 0
    client_tools.tried.append("the package installed without a network")
    yield from documents(installed)
    for name, (command, reports) in REPORTS.items():
        yield from samples(installed, name, command, reports)
    yield from letters(installed)
    yield from calendars(installed)
    yield from in_notes(installed)
    yield from by_place(installed)
    yield from trees(installed)
    yield from words(installed, folder)
    yield from client_tools.checks(installed, options, folder)


def documents(installed):
    """The Python examples of documents, as they are there, and the example of two lines."""
    for path in ("README.md", "clients/python/README.md"):
        done = installed.run(["python3", "-c", "import doctest, sys; print(*doctest.testfile("
                              "sys.argv[1], module_relative=False))", path])
        failed, count = map(int, done.stdout.split()[-2:])
        yield f"{path}: {done.stdout.decode()}", not failed and (count > 0 or path == "README.md")
    done = installed.run(["python3", "examples/client.py"])
    expected = b"Friday 11 February 1731/2, 1732-02-22 Gregorian (GB, edition 5)\n"
    yield f"examples/client.py: {done.stdout}", done.stdout == expected


def samples(installed, name, command, reports):
    """A sample: what comes out is the file that was written by hand, and a second run's input."""
    original = read(os.path.join(FILES, name))
    expected = read(os.path.join(FILES, name.replace(".", ".filled.")))
    done = installed.fill(command, original)
    yield f"{name} is filled in", (done.returncode, done.stdout) == (0, expected)
    lines = done.stderr.decode().splitlines()
    counts = {what: sum(what in line for line in lines) for what in reports}
    yield (f"{name}: standard error: {lines}",
           (counts, len(lines)) == (reports, sum(reports.values())))
    yield f"{name}: a second run", installed.fill(command, expected).stdout == expected
    ends = original.replace(b"\n", b"\r\n"), expected.replace(b"\n", b"\r\n")
    yield f"{name}: other line ends", installed.fill(command, ends[0]).stdout == ends[1]
    marked = b"\xef\xbb\xbf" + original, b"\xef\xbb\xbf" + expected
    yield f"{name}: a byte order mark", installed.fill(command, marked[0]).stdout == marked[1]
    strict = installed.fill(command, original, "--strict")
    yield f"{name}: --strict", (strict.returncode, strict.stdout) == (1, expected)


def letters(installed):
    """TEI: tags of all forms, and what can't be changed."""
    date = b"<date>3 May 1640</date>"
    for tag in (b"<date%s>", b"<date%s >", b"<date%s\n>", b"<date n = 'a>b'%s  >",
                b'<date n="1" \txml:id="a"%s>'):
        quote = b"'" if b"'" in tag else b'"'
        for text in (b"3 May 1640", b"3 <![CDATA[May]]> 1640", b"3 M&#97;y<!-- <date> --> 1640",
                     b"\n3 <hi>May</hi>\r\n 1640", b"3 May<note>or June</note> 1640"):
            made = [HEAD + tag % added + text + b"</date>" + TAIL
                    for added in (b"", MAY.replace(b'"', quote))]
            done = installed.fill(TEI, made[0])
            yield f"TEI {made[0]}: {done.stdout}", done.stdout == made[1]
    filled = HEAD + b"<date" + MAY + b">3 May 1640</date>" + TAIL
    latin = b"<?xml version='1.0' encoding='ISO-8859-1'?>", b"<p>\xe9</p>"
    done = installed.fill(TEI, latin[0] + HEAD + date + latin[1] + TAIL)
    yield "TEI in Latin-1", done.stdout == latin[0] + filled[: -len(TAIL)] + latin[1] + TAIL
    other = HEAD.replace(b"www.tei-c.org", b"example.org") + date + TAIL
    entity = b'<!DOCTYPE TEI [<!ENTITY d "' + date + b'">]>' + HEAD + b"&d;" + TAIL
    outside = HEAD.replace(b"opener", b"p") + date + TAIL.replace(b"opener", b"p")
    gap = HEAD + b"<date>3 May 16<gap/></date>" + TAIL
    named = HEAD + b"<date%s>11 February 1731 N.S.</date>" + TAIL
    done = installed.fill(TEI, named % b"")
    yield f"TEI by a named calendar: {done.stdout}", \
        done.stdout == named % b' when="1731-02-11" calendar="#gregorian"'
    differs = HEAD + b'<date calendar="#gregorian">3 May 1640</date>' + TAIL
    for what, left in (("namespace", other), ("entity", entity), ("", outside), ("gap", gap),
                       ('calendar="#gregorian" is left', differs)):
        done = installed.fill(TEI, left)
        yield f"TEI left: {what} {done.stderr}", (done.stdout == left
                                                  and (what in done.stderr.decode()))
    wide = (HEAD + date + TAIL).decode().encode("utf-16")
    for data, reason in ((wide, "UTF-16"), (b"", "no element"), (HEAD, "no element"),
                         (b"<a></b>", "mismatched"), (b"<a>\xff</a>", "not well-formed")):
        done = installed.fill(TEI, data)
        yield f"TEI refused: {done.stderr}", (done.returncode, done.stdout) == (1, b"") \
            and reason in done.stderr.decode()
    many = HEAD + date * 20_000 + TAIL
    done = installed.fill(TEI, many)
    yield "TEI of 20,000 dates", done.stdout == HEAD + filled[len(HEAD): -len(TAIL)] * 20_000 + TAIL


def calendars(installed):
    """TEI: the names of calendars that a file declares."""
    def declared(front, *names, encoding="utf-8"):
        header = "".join(f'<calendar xml:id="{name}"/>' for name in names)
        return front + HEAD.replace(b"<opener>", header.encode(encoding, "xmlcharrefreplace")
                                    + b"<opener>")

    date, pointer = b"<date>3 May 1640</date>", "#julian_f\u00fcr_GB"
    for front, encoding in ((b"", "utf-8"), (b"<?xml version='1.0' encoding='UTF-8'?>", "utf-8"),
                            (b"<?xml version='1.0' encoding='ISO-8859-1'?>", "latin-1"),
                            (b"<?xml version='1.0' encoding='US-ASCII'?>", "ascii")):
        file = declared(front, pointer[1:], encoding=encoding)
        written = MAY.replace(b"#julian", pointer.encode(encoding, "xmlcharrefreplace"))
        filled = file + b"<date" + written + b">3 May 1640</date>" + TAIL
        done = installed.fill(TEI, file + date + TAIL)
        yield f"TEI calendar in {encoding}: {done.stdout} {done.stderr}", done.stdout == filled
        yield f"TEI calendar in {encoding} again", installed.fill(TEI, filled).stdout == filled
    for names, pointer, report in (
            (["julian", "julian_old"], b"#julian", b""),
            (["julian_new", "julian_old"], None, b"julian_new and in julian_old: name one julian"),
            (["gregorian"], b"#julian", b'no <calendar xml:id="julian">')):
        written = MAY.replace(b"#julian", pointer) if pointer else MAY.partition(b" calendar")[0]
        done = installed.fill(TEI, declared(b"", *names) + date * 2 + TAIL)
        filled = declared(b"", *names) + (b"<date" + written + b">3 May 1640</date>") * 2 + TAIL
        yield f"TEI calendars {names}: {done}", done.stdout == filled and report in done.stderr
        yield f"TEI calendars {names}: said once", done.stderr.count(b"\n") == bool(report)


def in_notes(installed):
    """TEI: what an editor notes is not what the place wrote, and places may be in places."""
    date, filled = b"<date>3 May 1640</date>", b"<date" + MAY + b">3 May 1640</date>"
    inner = b"<placeName><placeName>London</placeName>, Middlesex</placeName>"
    letter = b"<dateline><placeName>London</placeName> %s</dateline>"
    for original, expected in (
            (HEAD + b"<note>or %s</note>" + TAIL, date), (HEAD + b"<del>%s</del>" + TAIL, date),
            (HEAD + b"<date>3 May 1640<note>or %s</note></date>" + TAIL, date),
            (HEAD + b"<choice><sic>%s</sic><corr/></choice>" + TAIL, date),
            (HEAD + b"<choice><sic/><corr>%s</corr></choice>" + TAIL, filled),
            (HEAD + b"<note>" + letter + b"</note>" + TAIL, filled),
            (HEAD.replace(b"<placeName>London</placeName>", inner) + b"%s" + TAIL, filled),
            (HEAD + b"<note><placeName>Stockholm</placeName></note>%s" + TAIL, filled)):
        done = installed.fill(TEI, original % date)
        text = original.replace(b"<date>3 May 1640<", b"<date" + MAY + b">3 May 1640<") % expected
        yield f"TEI {original}: {done}", done.stdout == text and done.returncode == 0


def by_place(installed):
    """What --place sets, with a table of places and without one."""
    date = b"<date>3 May 1640</date>"
    filled = b"<date" + MAY + b">3 May 1640</date>"
    lacking = HEAD.replace(b"<placeName>London</placeName> ", b"")
    unknown = lacking + b"<placeName>Nowhere</placeName>"
    two = lacking + b"<placeName>London</placeName> and <placeName>Stockholm</placeName>"
    parts = lacking + b"<placeName><settlement>Nowhere</settlement>, <country>England</country>" \
        b"</placeName>"
    for front, words, reason in (
            (lacking, ["--place", "GB"], "taken as GB"),
            (unknown, ["--place", "GB"], "taken as GB"),
            (parts, ["--places", PLACES], "")):
        done = installed.run([TEI, SAMPLES, *words], front + date + TAIL)
        yield f"TEI {front} {words}", (done.stdout == front + filled + TAIL
                                       and reason in done.stderr.decode())
    for front, words, reason in (
            (lacking, [], "by --place"), (unknown, ["--places", PLACES], "--places FILE"),
            (unknown, ["--places", PLACES, "--place", "GB"], "unknown place Nowhere (1 date)"),
            (two, ["--places", PLACES, "--place", "GB"], "more than one territory: GB, SE")):
        done = installed.run([TEI, SAMPLES, *words], front + date + TAIL)
        yield f"TEI left: {front} {words}", (done.stdout == front + date + TAIL
                                             and reason in done.stderr.decode())


def tree(*lines, version=b"5.5.1", charset=b"UTF-8"):
    head = [b"0 HEAD", b"1 GEDC", b"2 VERS " + version, b"1 CHAR " + charset, b"0 @I1@ INDI",
            b"1 BIRT"]
    return b"\n".join([*head, *lines, b"0 TRLR\n"])


def trees(installed):
    """GEDCOM: letters, places, the Gregorian date, and what is not a file of it."""
    place = b"2 PLAC London"
    pairs = [
        ((b"2 DATE 3 MAY 1640", place), (b"2 DATE @#DJULIAN@ 3 MAY 1640", place), ()),
        ((place, b"2 DATE 3 MAY 1640"), (place, b"2 DATE @#DJULIAN@ 3 MAY 1640"), ()),
        ((b"2 DATE 3 MAY 1640", place), (b"2 DATE INT 13 MAY 1640 (3 MAY 1640)", place),
         ("--gregorian",)),
        ((b"2 DATE BEF 3 MAY 1640", place), (b"2 DATE BEF 3 MAY 1640", place), ("--gregorian",)),
        ((b"2 DATE 3 MAY 1640",), (b"2 DATE @#DJULIAN@ 3 MAY 1640",), ("--place", "GB")),
        ((b"2 DATE (3 mai 1640)", place), (b"2 DATE INT @#DJULIAN@ 3 MAY 1640 (3 mai 1640)", place),
         ()),
        ((b"2 DATE 1 JAN 1751/52", place), (b"2 DATE @#DJULIAN@ 1 JAN 1751/52", place), ()),
        ((b"2 DATE 10 FEB 1753/54", place), (b"2 DATE INT 10 FEB 1754 (10 FEB 1753/54)", place),
         ()),
        ((b"2 DATE 11 FEB 1731/2", place), (b"2 DATE @#DJULIAN@ 11 FEB 1731/32", place), ()),
        ((b"2 DATE 11 FEB 1731/1732", place), (b"2 DATE @#DJULIAN@ 11 FEB 1731/32", place), ()),
        ((b"2 DATE FEB 1699/0", place), (b"2 DATE @#DJULIAN@ FEB 1699/00", place), ()),
        ((b"2 DATE 11  FEB  1731", place), (b"2 DATE @#DJULIAN@ 11 FEB 1731/32", place), ()),
        ((b"2 DATE Abt. 11 Feb 1731", place), (b"2 DATE ABT @#DJULIAN@ 11 FEB 1731/32", place),
         ()),
        ((b"2 DATE Bef. 3 May 1640", place), (b"2 DATE BEF @#DJULIAN@ 3 MAY 1640", place), ()),
        ((b"2 DATE Bet. 1 Feb 1731 - 5 May 1732", place),
         (b"2 DATE BET @#DJULIAN@ 1 FEB 1731/32 AND @#DJULIAN@ 5 MAY 1732", place), ()),
        *[((b"2 DATE " + left, place),) * 2 + ((),)
          for left in (b"Abt. 1731", b"Bet. 1731 - 1735", b"14  SEP  1752", b"11 FEB 1731/4")],
        ((b"2 DATE 3 MAY 1640", b"2 PLAC Cheapside", b"3 CONC , Lon", b"3 CONC don"),
         (b"2 DATE @#DJULIAN@ 3 MAY 1640", b"2 PLAC Cheapside", b"3 CONC , Lon", b"3 CONC don"),
         ()),
        ((b"2 DATE 3 MAY 16", b"3 CONC 40", place),) * 2 + ((),),
        ((b"2 SOUR @S1@", b"3 DATA", b"4 DATE 3 MAY 1640", place),) * 2 + ((),),
    ]
    for original, expected, more in pairs:
        done = installed.fill(GEDCOM, tree(*original), *more)
        yield f"GEDCOM {original}: {done.stdout}", done.stdout == tree(*expected)
        again = installed.fill(GEDCOM, done.stdout, *more)
        yield f"GEDCOM {original} again", again.stdout == done.stdout
    ansi = installed.fill(GEDCOM, tree(b"2 DATE (3 d\xe9c. 1640)", place, charset=b"ANSI"))
    yield f"GEDCOM in ANSI: {ansi.stdout}", b"INT @#DJULIAN@ 3 DEC 1640 (3 d\xe9c" in ansi.stdout
    wrong = installed.fill(GEDCOM, tree(b"2 DATE (3 d\xe9c. 1640)", place))
    yield "GEDCOM: bytes that are not UTF-8", b"CHAR" in wrong.stderr and b"INT" not in wrong.stdout
    for data, reason in ((b"", "0 HEAD"), (b"1 BIRT\n", "0 HEAD"), (tree(version=b"4.0"), "4.0"),
                         (tree(charset=b"UNICODE"), "UNICODE"),
                         (tree().decode().encode("utf-16"), "UTF-16")):
        done = installed.fill(GEDCOM, data)
        yield f"GEDCOM refused: {done.stderr}", (done.returncode, done.stdout) == (1, b"") \
            and reason in done.stderr.decode()
    lines = [line for _ in range(20_000) for line in (b"1 DEAT", b"2 DATE 3 MAY 1640", place)]
    done = installed.fill(GEDCOM, tree(*lines))
    yield "GEDCOM of 20,000 dates", done.stdout.count(b"@#DJULIAN@ 3 MAY 1640\n") == 20_000


def words(installed, folder):
    """Wrong arguments, tables of places with mistakes, and streams that fail."""
    original = read(os.path.join(FILES, "letters.xml"))
    table = os.path.join(folder, "table.csv")
    runs = [([TEI], 2, "JOURNAL"), ([TEI, SAMPLES, "--wrong"], 2, "--help"),
            ([TEI, "none.journal"], 1, "No such file"), ([TEI, TOP], 1, "directory"),
            ([TEI, SAMPLES, "--place", "FR"], 1, "RM, GB, SE, RU, DE"),
            ([TEI, SAMPLES, "--places", "none.csv"], 3, "none.csv"),
            ([TEI, SAMPLES, "--program", "no-such-oldstyle"], 1, "--program of a command"),
            ([GEDCOM, SAMPLES], 1, "0 HEAD"), ([TEI, "--help"], 0, "")]
    for line, status, reason in runs:
        done = installed.run(line, original)
        is_reported = reason in done.stderr.decode() and b"Traceback" not in done.stderr
        yield f"{line}: {done.stderr}", done.returncode == status and is_reported
    tables = [(b"", "no header"), (b"a,b\n", "no column place"),
              (b"place\tcode\nLondon\n", "line 2"),
              (b"place,code\nA,GB\nA,SE\n", "line 3"), (b"place,code\n\xff,GB\n", "line 2"),
              (b'"a;b",place\n', "no column code: the columns are a;b, place"),
              (b'place,code\n"A,GB\n', "quote")]
    for content, reason in tables:
        with open(table, "wb") as file:
            file.write(content)
        done = installed.run([TEI, SAMPLES, "--places", table], original)
        yield f"table {content}: {done.stderr}", (done.returncode, done.stdout) == (1, b"") \
            and reason in done.stderr.decode()
    for row, reason in ((b"London,FR", b"the register has its code FR"),
                        (b"England,", b"England (1 date): no territory of the register has its "
                         b"code (empty)")):
        with open(table, "wb") as file:
            file.write(b"place,code\n" + row + b"\n")
        done = installed.run([TEI, SAMPLES, "--places", table],
                             HEAD.replace(b"London", row.partition(b",")[0])
                             + b"<date>3 May 1640</date>" + TAIL)
        yield f"a code that is lacking: {done.stderr}", reason in done.stderr
    done = installed.run(["sh", "-c", f"{installed.path}/{TEI} {SAMPLES} --place GB >&-"], original)
    yield f"closed output: {done.stderr}", (done.returncode == 3 and b"closed" in done.stderr
                                            and b"Traceback" not in done.stderr)
    with open("/dev/full", "wb") as full:
        done = subprocess.run([os.path.join(installed.path, TEI), SAMPLES, "--place", "GB"],
                              input=original, stdout=full, stderr=subprocess.PIPE, check=False,
                              env=installed.variables)
    yield f"a full disk: {done.stderr}", done.returncode == 3 and b"No space" in done.stderr
