#!/usr/bin/env python3
"""Finds the forms of prose.words in documents, help texts, comments and the texts of programs.

None of them may have such a form, and no document a link that leads nowhere: each is printed with
its line, and the status is 1. Code, and what a document shows of a program's output, is ignored.
FOLDER.. names where to look.

The words of README.md and docs/ are counted as `wc -w` does, without what scripts write there.
"""
import ast
import collections
import io
import os
import re
import subprocess
import tokenize

from lib.common import TOP, CommandLine, end

LIST = os.path.join(TOP, "verify", "prose.words")
MADE = re.compile(r"<!-- \w+: .*?<!-- end -->", re.S)
CODE = "\N{DOTTED CIRCLE}"


def read_list():
    """The forms with what to write instead, and the texts that are allowed in a file."""
    forms, allowed = [], collections.defaultdict(list)
    with open(LIST, encoding="utf-8") as file:
        for line in file.read().splitlines():
            if line.startswith("allow "):
                path, _, text = line.removeprefix("allow ").partition(": ")
                allowed[path].append(text)
            elif line and not line.startswith("# "):
                form, _, better = line.partition(" => ")
                forms.append((re.compile(form), better))
    return forms, allowed


def listed():
    """The files of the repository."""
    names = subprocess.run(["git", "ls-files", "-co", "--exclude-standard"], cwd=TOP, check=True,
                           capture_output=True, text=True).stdout
    return [name for name in names.splitlines() if os.path.isfile(os.path.join(TOP, name))]


def joined(lines):
    """Lines with their numbers, as blocks: the number of the first line, and the text."""
    block = []
    for number, line in [*lines, (0, None)]:
        if line and block and number == block[-1][0] + 1:
            block.append((number, line))
            continue
        if block:
            yield block[0][0], "\n".join(text for _, text in block)
        block = [(number, line)] if line else []


def in_markdown(text):
    """The blocks of a document: paragraphs, items and the cells of tables."""
    text = MADE.sub(lambda made: "\n" * made[0].count("\n"), text)
    text = re.sub(r"^```.*?^```$", lambda code: "\n" * code[0].count("\n"), text, flags=re.M | re.S)
    text = re.sub(r"`+[^`]+`+", lambda code: CODE + "\n" * code[0].count("\n"), text)
    text = re.sub(r"\]\([^)\s]*\)", "]", text)
    lines = []
    for number, line in enumerate(text.split("\n"), 1):
        if line.startswith("|"):
            yield from ((number, cell.strip()) for cell in line.strip("|").split("|"))
            line = ""
        elif re.match(r"#+ |\s*(?:[-*]|\d+\.) ", line):
            lines.append((number - 0.5, ""))
            line = re.sub(r"^(?:#+ |\s*(?:[-*]|\d+\.) )", "", line)
        lines.append((number, line.strip()))
    yield from joined(lines)


def in_manual(text):
    """The blocks of the manual: a macro of a font is code, any other one begins a block."""
    text = re.sub(r"^\.EX\n.*?^\.EE$", lambda code: "\n" * code[0].count("\n"), text,
                  flags=re.M | re.S)
    lines = []
    for number, line in enumerate(text.split("\n"), 1):
        if re.match(r"\.[BIR]{1,2} ", line):
            line = CODE + (line[-1] if line[-1] in ".,;:" else "")
        lines.append((number, "" if line.startswith(".") else line))
    yield from joined(lines)


def in_python(text):
    """The comments and strings of a script, and the docstrings of its functions and classes."""
    tokens = list(tokenize.generate_tokens(io.StringIO(text).readline))
    yield from joined((token.start[0], token.string.lstrip("#! ")) for token in tokens
                      if token.type == tokenize.COMMENT)
    yield from ((token.start[0], text_in(token.string)) for token in tokens
                if token.type == tokenize.STRING and not token.string.endswith('"""'))
    for node in ast.walk(ast.parse(text)):
        if isinstance(node, (ast.Module, ast.ClassDef, ast.FunctionDef)) and node.body:
            first = node.body[0]
            if isinstance(first, ast.Expr) and isinstance(first.value, ast.Constant):
                yield first.lineno, str(first.value.value)


def after(mark):
    """The blocks of comments that begin with a mark and end with their line."""
    def found(text):
        lines = enumerate(text.split("\n"), 1)
        return joined((number, re.sub(mark, "", line.strip())) for number, line in lines
                      if re.match(mark, line.strip()))
    return found


def text_in(string):
    """A text in quotes, if it has words: what is put into it is code."""
    text = re.sub(r"\\\n|\\n", "\n", string[string.index(string[-1]) + 1:-1])
    return re.sub(r"\$?\{[^{}]*\}|\$\w+", CODE, text) if " " in text else ""


def also_strings(read, marks=r'(?<!\\)"(?:[^"\\]|\\.|\\\n)*"'):
    """The blocks of a reader, and the texts in double quotes, or with other marks around them."""
    def found(text):
        yield from read(text)
        for match in re.finditer(marks, text):
            yield text.count("\n", 0, match.start()) + 1, text_in(match[0])
    return found


def in_tags(text):
    """The texts of a page, between its tags."""
    text = re.sub(r"<[^>]*>|\{[%#].*?[%#]\}", lambda tag: "\n" * tag[0].count("\n"), text,
                  flags=re.S)
    return joined((number, re.sub(r"\{\{ (?:_\(\"(.*?)\")?.*?\}\}", r"\1", line.strip()))
                  for number, line in enumerate(text.split("\n"), 1))


def in_stars(text):
    """The blocks of comments in a script or a style of the page."""
    yield from after(r"(?://+|/?\*+/?)\s?")(text)


READERS = {".md": in_markdown, ".1": in_manual, ".py": in_python,
           ".rt": also_strings(after(r"//[/!]?\s?")), ".html": in_tags,
           ".po": also_strings(after(r"#\s"), r'(?<=msgid )"(?:[^"\\]|\\.)*"'),
           ".Rd": after(r"(?!\\\\|%)"), ".service": after(r"#\s|Description="),
           ".socket": after(r"#\s|Description="),
           ".rattle": after(r"//[/!]?\s?"), ".antt": after(r"--\s?"), ".js": in_stars,
           ".css": in_stars, ".bash": also_strings(after(r"#!?\s?")),
           ".cases": after(r"(?:#|==)\s"), ".toml": after(r"#\s"), ".edits": after(r"#\s"), ".edit": after(r"#\s"),
           ".R": after(r"#'?\s?")}
HELP = "help.cases"


def reader_of(path, text):
    """The reader of the blocks of a file, if it has any."""
    if os.path.basename(path) == HELP:
        return lambda text: joined(enumerate(text.split("\n"), 1))
    first = text.split("\n", 1)[0]
    if first.startswith("#!"):
        return in_python if "python" in first else READERS[".bash"]
    return READERS.get(os.path.splitext(path)[1])


def finds(path, text, forms, allowed):
    """Each form in a file: its line, the text that has it, and what to write instead."""
    reader = reader_of(path, text)
    for begin, block in reader(text) if reader else ():
        for form, better in forms:
            for match in form.finditer(block.replace("\n", " ")):
                line = block[block.rfind("\n", 0, match.start()) + 1:].split("\n")[0]
                if not any(it in line for it in allowed[path]):
                    at = int(begin + 0.5) + block.count("\n", 0, match.start())
                    yield at, " ".join(match[0].split()), better


def anchors(text):
    """What a link may name of a document: its headings, in small letters, joined by hyphens."""
    for line in re.sub(r"^```.*?^```$", "", text, flags=re.M | re.S).split("\n"):
        if line.startswith("#"):
            yield re.sub(r"[^\w -]", "", line.lstrip("# ").lower()).replace(" ", "-")


def lost_links(path, text):
    """Each link of a document whose file or heading is not there, with its line."""
    for number, line in enumerate(text.split("\n"), 1):
        for link in re.findall(r"\]\(([^)\s]+)\)", re.sub(r"`[^`]*`", "", line)):
            if "://" in link:
                continue
            name, _, anchor = link.partition("#")
            at = os.path.normpath(os.path.join(TOP, os.path.dirname(path), name)) if name else path
            at = os.path.join(TOP, at)
            if not os.path.exists(at):
                yield number, link
            elif anchor and at.endswith(".md"):
                with open(at, encoding="utf-8") as file:
                    if anchor not in anchors(file.read()):
                        yield number, link


def words_of(text):
    return len(MADE.sub("", text).split())


def main():
    line = CommandLine(__doc__)
    line.add_argument("folders", nargs="*", metavar="FOLDER", help="where to look; all without one")
    options = line.parse_args()
    forms, allowed = read_list()
    files, words, wrong = 0, 0, 0
    for path in listed():
        if options.folders and not path.startswith(tuple(options.folders)):
            continue
        try:
            with open(os.path.join(TOP, path), encoding="utf-8") as file:
                text = file.read()
        except UnicodeDecodeError:
            continue
        files += 1
        if path.endswith(".md") and path.split("/")[0] in ("README.md", "docs"):
            words += words_of(text)
        faults = [(number, f"{found}: write {better}")
                  for number, found, better in finds(path, text, forms, allowed)]
        if path.endswith(".md"):
            faults += [(number, f"{link} leads nowhere") for number, link in lost_links(path, text)]
        wrong += len(faults)
        for number, fault in faults:
            print(f"{path}:{number}: {fault}")
    print(f"{wrong} faults in {files} files; README.md and docs have {words} words")
    return 1 if wrong else 0


if __name__ == "__main__":
    end(main)
