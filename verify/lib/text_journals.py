"""Journals into which texts are published: those that can't be, those of each version and
`--upgrade`, concurrent publishes, a keeper and a follower beside them. For register_text.py."""
import fcntl
import json
import os
import subprocess

from lib.checks import check
from lib.common import JULIAN, compact
from lib.keeper import FOLLOWED_REPLACED, HEAD, LOCKED, PUBLISH, Run
from reference import NEWEST
from lib.territory_texts import lands_of
from lib.text_files import LAND, bytes_of, published, refused

AT_ONCE = 8
CHANGED = "oldstyle: the file was changed meanwhile, and is left as it is: the journal is in "
EDIT = {"op": "add_change", "code": "GB", "day": 5, "calendar": "gregorian", "style": "january",
        "rule": "julian"}


def locked_at(journal):
    """What a publish prints for a journal that another run keeps."""
    status, out, errors = LOCKED
    return status, out, errors.replace("oldstyle: ", f"oldstyle: {journal}: ")


def result_of(files, command, journal, text):
    """What a run of a command prints, with whether the journal's bytes stay the same."""
    before = bytes_of(journal) if os.path.exists(journal) else None
    done = files.run(command, journal, text)
    after_it = bytes_of(journal) if os.path.exists(journal) else None
    return done.returncode, done.stderr.replace(journal, "J").replace(text, "T"), before == after_it


PENDING = ("oldstyle: publish refuses a journal with 1 pending edit: publish what is pending "
           'with serve --keep and the line {"op":"publish"}, or remove the lines after the last '
           "publish from the journal\n")
NOT_KEPT = ("oldstyle: publish refuses a journal of version 1: serve --keep with --upgrade saves "
            "it as version 4\nhelp: run oldstyle serve --keep J --upgrade < /dev/null, then "
            "publish\n")
NO_HEAD = ("oldstyle: journal line 1: 32 NotJson\nhelp: J is not a journal: --journal FILE names "
           "one, and oldstyle publish FILE TEXT begins one in a new or empty file\n")
# What a plan prints for a journal that its publish saves again.
SAVED_AGAIN = ("oldstyle: the journal is of version {}, which has no sources: publish saves it "
               "as version 4\n")
FULL = "oldstyle: {}17 EditionsFull (--limits editions=N allows more)\n"


def try_journals(files):
    """Journals and texts that are not there, and journals that can't be published into."""
    text, new = files.write("text", LAND.format("GB")), files.path("new")
    none = "note: J is a new journal\n"
    check("a plan of a new journal", result_of(files, "plan", new, text) == (0, none, True))
    for command in ("plan", "publish"):
        result = result_of(files, command, new, files.path("none"))
        check(f"no text: {result}", result == (3, "oldstyle: T: no such file\n", True))
    files.printed("a new journal", "publish", new, text)
    check("a new journal", published(new)[0].edition == 1)
    current, edit = bytes_of(new).decode(), compact(EDIT)
    older = current.replace(HEAD, HEAD.replace("2", "1"))
    for command, content, expected in (
            ("publish", current + edit + "\n", (1, PENDING, True)),
            ("plan", current + edit + "\n", (0, PENDING, True)),
            ("publish", older, (1, NOT_KEPT, True)),
            ("plan", older, (0, NOT_KEPT, True)),
            ("publish", "x\n", (1, NO_HEAD, True)),
            ("publish", current + edit[:9], (0, "", True))):
        result = result_of(files, command, files.write("journal", content), text)
        check(f"{command} with {content!r} gives {result}", result == expected)


CITED = '[GB]\nname = "n"\ncalendar = "julian"\nstyle = "january"\nrule = "julian"\n' \
        'source = "a bull"\n'
OPENING = {"op": "add_land", "code": "GB", "name": "n", **JULIAN, "source": "a bull"}
NEEDS_4 = '{"fault":46,"name":"NeedsUpgrade"}'
REFUSED = "oldstyle: line 1 is refused, and no line after it was answered\n"


def journal_of(version, *lines):
    return "".join(compact(line) + "\n" for line in [{"journal": version}, *lines])


def try_versions(files):
    """A kept journal takes sources from version 4 on; `--upgrade` and `publish` save it again."""
    plain = {key: value for key, value in OPENING.items() if key != "source"}
    edit, publish = {**OPENING, "code": "FR"}, {"op": "publish"}
    for version in (1, 2, NEWEST):
        lines = [plain if version < NEWEST else OPENING, publish]
        content = journal_of(version, OPENING, publish)
        path = files.write("journal", content)
        node = os.stat(path).st_ino
        if version == 2:
            done = files.run("serve", "--keep", path, lines=[compact(edit)])
            check(f"a source in version 2 gives {done}", done.stdout == NEEDS_4 + "\n"
                  and bytes_of(path).decode() == content)
            done = files.run("serve", "--keep", path, "--stop-at-refusal", lines=[compact(edit)])
            check(f"a batch with a source in version 2 gives {done.stderr!r}",
                  (done.returncode, done.stderr) == (1, REFUSED))
        done = files.run("serve", "--keep", path, "--upgrade", lines=[compact(edit)])
        check(f"version {version}, upgraded, gives {done}",
              (done.returncode, done.stdout, done.stderr)
              == (0, compact({"ok": "staged", "pending": 1}) + "\n", ""))
        content = bytes_of(path).decode()
        check(f"version {version}, upgraded, is {content!r}",
              content == journal_of(NEWEST, *lines, edit))
        check(f"version {version}: another file",
              (os.stat(path).st_ino == node) == (version == NEWEST))


def try_new(files):
    """Files that are not there yet: the version of a new journal."""
    text, path = files.write("cited text", CITED), files.path("cited")
    files.printed("a new journal with a source", "publish", path, text)
    check("a new journal with a source",
          bytes_of(path).decode() == journal_of(NEWEST, OPENING, {"op": "publish"}))
    for words, version in ((["--upgrade"], NEWEST), ([], 2)):
        path = files.path(f"kept{version}")
        files.run("serve", "--keep", path, *words)
        check(f"a new kept file of {words}", bytes_of(path).decode() == journal_of(version))
    older = files.write("journal", journal_of(1))
    result = result_of(files, "plan", older, text)
    check(f"a plan of sources in version 1 gives {result}",
          result == (0, SAVED_AGAIN.format(1), True))
    result = result_of(files, "publish", older, text)
    check(f"a source in version 1 gives {result}", result == (0, "", False))
    check("version 1, saved again", bytes_of(older) == bytes_of(files.path("cited")))
    try_nothing(files)


def try_nothing(files):
    """A text that says nothing makes an empty file, which a publish takes."""
    text, path = files.write("text", ""), files.path("nothing")
    result = result_of(files, "plan", path, text)
    check(f"a plan of nothing gives {result}",
          result == (0, "note: J is a new journal\n", True))
    result = result_of(files, "publish", path, text)
    check(f"a publish of nothing gives {result}",
          result == (0, "", False) and bytes_of(path) == b"")
    files.printed("an empty file", "publish", path, files.path("cited text"))
    check("an empty file", bytes_of(path) == bytes_of(files.path("cited")))


def try_cut(files):
    """A line that was not finished is cut off by a publish that has edits."""
    journal = files.write("journal", HEAD + "\n" + PUBLISH[:9])
    result = result_of(files, "publish", journal, files.write("text", LAND.format("GB")))
    check(f"a prefix of a line gives {result}",
          result == (0, "oldstyle: journal line 2 was unfinished, and is cut off\n", False))
    check("the beginning of a line is left", published(journal)[0].edition == 1)


def try_full(files):
    """A journal that has no room for another territory."""
    lands = lands_of("".join(LAND.format(f"T{number:03}") for number in range(500)))
    journal, text = files.journal("journal", lands), files.write("text", LAND.format("GB"))
    result = result_of(files, "publish", journal, text)
    check(f"a full journal gives {result}",
          result == (1, "oldstyle: T: GB: 12 TooManyLands (--limits lands=N allows more)\n", True))
    few = "--limits", "lands=501,editions=1"
    done = files.run("publish", journal, text, *few)
    check(f"an edition too many gives {done}",
          (done.returncode, done.stdout, done.stderr) == (1, "", FULL.format("")))
    files.printed("a plan of no edition more", "plan", journal, text, *few,
                  stderr=FULL.format("publish refuses the edits: "))
    files.printed("a larger journal", "publish", journal, text, "--limits", "lands=501")


def try_renamed(files):
    journal, text = files.path("new"), files.write("text", LAND.format("GB").replace('"n"', '"m"'))
    refused(files, "renamed", text, text,
            "GB: a name can't be changed: it is n, and the text has m\n"
            "help: write n again, or give m a code of its own", journal)


def try_locked(files):
    """A publish waits for nobody: neither for a lock nor for a keeper."""
    journal, text = files.path("new"), files.write("text", LAND.format("HELD"))
    before = bytes_of(journal)
    with open(journal, "rb") as file:
        fcntl.flock(file, fcntl.LOCK_EX)
        done = files.run("publish", journal, text)
    check(f"beside a lock {done}",
          (done.returncode, done.stdout, done.stderr) == locked_at(journal))
    keeper = Run(files.program, journal)
    keeper.send([{"op": "lands", "reader": 1}])
    keeper.wait_for(1)
    done = files.run("publish", journal, text)
    check(f"beside a keeper {done}",
          (done.returncode, done.stdout, done.stderr) == locked_at(journal))
    keeper.process.stdin.close()
    keeper.stopped()
    check("a publish that was refused changes the journal", bytes_of(journal) == before)


def publish_at_once(files, journal, codes, text):
    """Publishes a text of each code concurrently. Returns the codes that are editions, and what the
    others printed."""
    texts = [files.write(code, text.replace("CODE", code)) for code in codes]
    runs = [subprocess.Popen([files.program, "publish", journal, text], text=True,
                             stdout=subprocess.PIPE, stderr=subprocess.PIPE) for text in texts]
    ends = [(*running.communicate(), running.returncode) for running in runs]
    return ([code for code, (_, _, status) in zip(codes, ends) if status == 0],
            [(status, out, errors) for out, errors, status in ends if status])


def try_at_once(files, rounds):
    """Concurrent publishes: each is an edition, or reports that another run keeps the journal."""
    journal, done, refused_runs = files.journal("journal", {}), [], []
    for turn in range(rounds):
        codes = [f"R{turn}P{number}" for number in range(AT_ONCE)]
        more, others = publish_at_once(files, journal, codes, LAND.format("CODE"))
        done, refused_runs = done + more, refused_runs + others
    service, _ = published(journal)
    check(f"they print {set(refused_runs)}", set(refused_runs) == {locked_at(journal)})
    check("the journal has other territories than were published",
          sorted(service.published) == sorted(done) and service.edition == len(done))
    return len(done), len(refused_runs)


def try_upgrades_at_once(files, rounds):
    """The same of texts with sources, and a journal of version 2 or none: one of them saves it
    again. What another one would have saved meanwhile is beside it."""
    codes = [f"P{number}" for number in range(AT_ONCE)]
    for turn in range(rounds):
        journal = files.write("journal", f"{HEAD}\n")
        if turn % 2:
            os.remove(journal)
        done, others = publish_at_once(files, journal, codes, CITED.replace("GB", "CODE"))
        service, _ = published(journal)
        check("the journal has other territories than were saved again",
              sorted(service.published) == done and service.edition == len(done) > 0)
        for status, out, errors in others:
            is_changed = errors.startswith(CHANGED) and (status, out) == (3, "")
            check(f"a concurrent publish prints {errors!r}",
                  (status, out, errors) in (LOCKED, locked_at(journal)) or is_changed)
            if is_changed:
                os.remove(errors.removeprefix(CHANGED).rstrip("\n"))


def try_follower(files):
    """A follower continues after a publish, and reports its edition. One that has sources puts
    another file in the journal's place, which ends the follower."""
    journal = files.path("new")
    words = [files.program, "serve", "--follow", journal]
    lands = {"op": "lands", "reader": 1}
    with subprocess.Popen(words, stdin=subprocess.PIPE, stdout=subprocess.PIPE,
                          stderr=subprocess.PIPE) as follower:
        for number in range(2, 12):
            code = f"F{number}"
            files.printed(code, "publish", journal, files.write("text", LAND.format(code)))
            follower.stdin.write((compact(lands) + "\n").encode())
            follower.stdin.flush()
            reply = json.loads(follower.stdout.readline())
            codes = [land["code"] for land in reply["answer"]["lands"]]
            check(f"a follower gives {reply}", reply["edition"] == number and code in codes)
        files.printed("sources", "publish", journal, files.write("text", CITED))
        _, stderr = follower.communicate((compact(lands) + "\n").encode())
        check(f"a follower of a file that is saved again gives {stderr}",
              (follower.returncode, stderr.decode()) == (1, FOLLOWED_REPLACED))


def try_all_journals(files):
    """Tries all of these. Returns how many concurrent publishes were editions, or were refused."""
    try_journals(files)
    try_versions(files)
    try_new(files)
    try_cut(files)
    try_full(files)
    try_renamed(files)
    try_locked(files)
    try_follower(files)
    try_upgrades_at_once(files, 20)
    return try_at_once(files, 40)
