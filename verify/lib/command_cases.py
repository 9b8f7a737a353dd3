"""What growths.py and hard_conditions.py ask the program for, and the files that they give it."""
import json
import os
import stat
import subprocess
import tempfile
from contextlib import contextmanager

REGIME = '"calendar":"julian","style":"january","rule":"julian"'
GREGORIAN = '"calendar":"gregorian","style":"january","rule":"gregorian"'
PUBLISH = '{"op":"publish"}'
ADD_ROME = f'{{"op":"add_land","code":"RM","name":"Rome",{REGIME}}}'
BRITAIN = [
    '{"op":"add_land","code":"GB","name":"Great Britain","calendar":"julian",'
    '"style":"annunciation","rule":"julian"}',
    f'{{"op":"add_change","code":"GB","day":639551,{REGIME}}}',
    f'{{"op":"add_change","code":"GB","day":639797,{GREGORIAN},"source":"24 Geo. II c. 23"}}',
    '{"op":"add_exception","code":"GB","year":1753,"day":640010,"source":"a rubric"}',
]
FRANCE = ['{"op":"add_land","code":"FR","name":"France","calendar":"julian","style":"easter",'
          '"rule":"julian"}']
SETUP = [*BRITAIN, *FRANCE, PUBLISH]
EDITS = [
    ADD_ROME,
    f'{{"op":"add_change","code":"FR","day":577736,{GREGORIAN}}}',
    f'{{"op":"alter_change","code":"GB","day":639551,{GREGORIAN},"source":"an act"}}',
    '{"op":"drop_change","code":"GB","day":639551}',
    '{"op":"add_exception","code":"FR","year":1724,"day":629412}',
    '{"op":"drop_exception","code":"GB","year":1753}',
]
READ_TWO_DAYS = '{"op":"read","reader":1,"code":"FR","year":1543,"month":4,"day":1}'
QUERIES = [
    '{"op":"read","reader":1,"code":"GB","year":1731,"month":2,"day":11}',
    READ_TWO_DAYS,
    '{"op":"read","reader":1,"code":"GB","year":1752,"month":9,"day":3}',
    '{"op":"day","reader":1,"code":"GB","day":639797}',
    '{"op":"easter","reader":1,"code":"GB","year":1753}',
    '{"op":"figures","reader":1,"year":1954}',
    '{"op":"lands","reader":1}',
    '{"op":"periods","reader":1,"code":"GB"}',
    '{"op":"exceptions","reader":1,"code":"GB"}',
    '{"op":"changes","reader":1,"code":"GB"}',
    '{"op":"feasts","reader":1,"code":"GB","year":1731}',
    '{"op":"convert","reader":1,"code":"GB","calendar":"gregorian","year":1752,"month":9,"day":14}',
    '{"op":"written","reader":1,"code":"GB","date":"11 February 1731/2","weekday":"Friday"}',
]
LEFT = [
    PUBLISH,
    '{"op":"lands","reader":1}',
    '{"op":"periods","reader":1,"code":"GB"}',
    '{"op":"periods","reader":1,"code":"FR"}',
    '{"op":"easter","reader":1,"code":"GB","year":1753}',
    '{"op":"easter","reader":1,"code":"FR","year":1724}',
]
BEGUN = ['{"journal":4}', *SETUP, ADD_ROME]
SCRIPT = [*BEGUN, PUBLISH]
SESSION = [*SETUP, *EDITS, *QUERIES, "no request", PUBLISH, PUBLISH, READ_TWO_DAYS]
QUESTIONS = [query.replace('"reader":1', f'"reader":{1 + place % 2}')
             for place, query in enumerate(QUERIES)]
TRANSCRIPT = [
    '{"ask":{"op":"lands","reader":1},"reply":{"answer":{"lands":[]},"edition":0,"reader":1}}',
    '{"ask":{"code":"ZZ","op":"periods","reader":1},'
    '"reply":{"edition":1,"fault":3,"name":"UnknownLand","reader":1}}',
]
STEPS = [
    '{"step":"stage",' + ADD_ROME[1:],
    '{"step":"publish"}',
    '{"step":"look","op":"periods","reader":1,"code":"RM"}',
    '{"step":"pin","reader":1}',
    '{"step":"check","reader":1}',
    '{"step":"answer","reader":1}',
    '{"step":"leave","reader":1}',
    '{"step":"claim"}',
    '{"step":"absorb"}',
    '{"step":"absorb"}',
    '{"step":"stage",' + BRITAIN[0][1:],
    '{"step":"publish"}',
    '{"step":"look","op":"lands","reader":1}',
    '{"step":"pin","reader":1}',
    '{"step":"check","reader":1}',
    '{"step":"answer","reader":1}',
]
KEYS = ['calendar = "julian"', 'style = "january"', 'rule = "julian"']
TEXT = ["[GB]", 'name = "Great Britain"', *KEYS, "[[GB.changes]]",
        'from = { gregorian = "1752-09-14" }', 'calendar = "gregorian"', 'source = "an act"',
        "[[GB.easters]]", "year = 1753", "date = { day = 640017 }", 'source = "a rubric"',
        "[SE]", 'name = "Sweden"', *KEYS,
        "[[SE.changes]]", 'from = { swedish = "1700-03-01" }', 'calendar = "swedish"']
# Files by their names, and commands over them, each with the lines of its standard input.
FILES = {"a.journal": BEGUN, "a.script": SCRIPT, "a.questions": QUESTIONS, "a.schedule": STEPS,
         "a.transcript": TRANSCRIPT, "saved.journal": BEGUN[:2], "a.toml": TEXT,
         "a.older": ['{"journal":2}', ADD_ROME, PUBLISH],
         "a.places": ["note;place;code", "capital; London ;GB", ";Nowhere;XX"],
         "a.faulty": ["[GB]", 'name = "Great Britain"', "fly = 1"]}
LETTERS = ["id,place,date,weekday,text", '1, GB,11 February 1731,friday ,"Dear Sir, I"',
           '2,London,1752-09-05,,"said ""no"""', "3,FR,1 April 1543,,two",
           '4,Nowhere,1731-02-11,,"a line', 'and another"',
           '5,GB,"[1752-09-02,1752-09-14]",,']
COMMANDS = [
    ("", SESSION),
    ("serve --journal a.journal --save saved.journal", SESSION[:-1]),
    ("serve --journal a.journal --save a.journal --readers 1", EDITS[1:]),
    ("serve --save a.link", SESSION[:-1]),
    ("serve --save a.pipe", SESSION[:-1]),
    ("serve --save a.new", SESSION[:-1]),
    ("serve --follow a.journal", [*QUERIES, PUBLISH, "no request"]),
    ("serve --follow a.gone --readers 1", QUERIES),
    ("almanac a.journal GB 1752", []),
    ("almanac a.journal ZZ 1752", []),
    ("read a.journal GB 1752-09-05", []),
    ("read a.journal ZZ 1752-09-05", []),
    ("read a.journal GB 1700-02-29", []),
    ("read a.journal GB 1752-09", []),
    ("read a.journal GB [1752-09-02,1752-09-14]", []),
    ("read a.journal GB [1752-09-04,1752-09-05]", []),
    ("convert julian 1752-09-02", []),
    ("convert julian 1752-09-31", []),
    ("day a.journal GB 639797", []),
    ("month a.journal GB 1752 9", []),
    ("year a.journal GB 1752", []),
    ("year a.journal ZZ 1752", []),
    ("territory a.journal", []),
    ("territory a.journal GB", []),
    ("letters a.journal", ["place,date", "GB,1731/32-02-11", "FR,1543-04-01", "GB,1752-09-05"]),
    ("letters --places a.places --summary a.journal", LETTERS),
    ("text a.journal", []),
    ("text a.journal GB", []),
    ("text a.journal ZZ", []),
    ("plan a.script a.toml", []),
    ("plan a.script a.schedule", []),
    ("plan a.script a.faulty", []),
    ("replay --readers 1 a.schedule", []),
    ("desk a.script a.questions", []),
    ("audit a.journal a.transcript", []),
    ("audit a.journal a.questions", []),
    ("almanac a.gone GB 1752", []),
    ("completions bash", []),
    ("--help", []),
    ("help serve", []),
    ("--version", []),
    ("fly", []),
]

# Commands that change a file before they write on standard output; the second saves it again.
PUBLISHING = [("publish a.script a.toml", []), ("publish a.older a.toml", [])]

# How a command ends that found no memory; a desk may report a thread that could not be started.
NO_MEMORY, NO_PLACE = (4, "oldstyle: no memory\n"), (1, "oldstyle: 93 NoPlace\n")


def text_of(lines):
    return "".join(line + "\n" for line in lines)


@contextmanager
def filled(files=None):
    """A folder with the files, and beside them an empty folder, a link and an open pipe."""
    with tempfile.TemporaryDirectory() as folder:
        for name, lines in {**FILES, **(files or {})}.items():
            with open(os.path.join(folder, name), "w", encoding="utf-8") as file:
                file.write(text_of(lines))
        os.chmod(os.path.join(folder, "saved.journal"), 0o640)
        os.symlink("saved.journal", os.path.join(folder, "a.link"))
        os.mkdir(os.path.join(folder, "a.folder"))
        os.mkfifo(os.path.join(folder, "a.pipe"))
        pipe = os.open(os.path.join(folder, "a.pipe"), os.O_RDWR | os.O_NONBLOCK)
        yield folder
        os.close(pipe)


def contents_of(folder):
    """What a folder holds: of each name the kind and the permissions, and of a file its text."""
    result = {}
    for entry in os.scandir(folder):
        text = None
        if entry.is_file(follow_symlinks=False):
            with open(entry.path, encoding="utf-8") as file:
                text = file.read()
        result[entry.name] = (stat.filemode(entry.stat(follow_symlinks=False).st_mode), text)
    return result


def is_refused(words, status, errors):
    """Returns whether a command says that it found no memory."""
    return (status, errors) in ([NO_MEMORY, NO_PLACE] if words.startswith("desk") else [NO_MEMORY])


def is_transcript(program, output):
    """Returns whether a desk gave each question its reply, at an edition of the script."""
    questions = sorted(map(json.loads, QUESTIONS), key=lambda ask: ask["reader"])
    try:
        if [json.loads(line)["ask"] for line in output.splitlines()] != questions:
            return False
    except ValueError:
        return False
    with filled({"a.transcript": output.splitlines()}) as folder:
        command = [program, "audit", "a.script", "a.transcript"]
        audit = subprocess.run(command, cwd=folder, capture_output=True, text=True, timeout=60)
    return audit.stdout == f"audit: {len(questions)} replies agree\n"
