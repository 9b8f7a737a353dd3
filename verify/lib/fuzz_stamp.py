"""Trees of sources with odd names, rights, links and times: a target of fuzz.py.

The script `oldstyle` keeps the sum of the sources that its program was built from
(tools/launcher/stamp.bash). For each random tree a twin is made with the same contents, and another
tree with one change of them. The twin has other dates, rights and links, other folders that are not
sources, and is summed in another locale: its sum must be the same. The sum of the other tree must
be another one.
"""
import os
import shutil
import subprocess
from typing import NamedTuple

from lib.common import TOP

STAMP = os.path.join(TOP, "tools", "launcher", "stamp.bash")
# Prints the sum of each folder that is named, with a line for each.
SUMS = r"""
set -euo pipefail
. "$1"
shift
for folder; do
    cd "$folder"
    kits=()
    mapfile -t kits < KIT
    find_sources
    sum_of_sources
done
"""
SECONDS = 60
CRATES = ["oldstyle", "osn_one", "osn_two"]
LIST = ["osn_two: jiff", "osn_one: osn_two itoa", "osn_apart: osn_two", "oldstyle: osn_one"]
PARTS = ["src", "specs", "proofs/deep/er"]
NAMES = [b"lib.rt", b"a b.rt", b"a\nb.rt", b"a\\nb.rt", b"\\", b"-n", b"*", b"?[a].rt", b"'\".rt",
         b"\xc3\xa9.rt", b"\xff.rt", b".hidden", b"out", b"must-fail", b"x" * 200, b"$(x).rt",
         b"\t", b" lead", b"trail ", b"a.rt", b"A.rt", b"crates", b"#", b"~", b"!", b";", b"&",
         b"\r"]
TEXTS = [b"", b"\n", b"fn main() {}\n", b"\0\xff", b"x" * 70_000, b"crates/osn_two/src/lib.rt\n"]
LOCALES = ["C", "C.UTF-8", "POSIX"]


class Tree(NamedTuple):
    """The contents of a tree: the lists, and what each file holds, by its path."""
    crates: list
    kits: list
    files: dict
    # the paths of files that are links; their contents are elsewhere
    links: frozenset


def drawn(chance):
    """A random tree."""
    files = {b"HANDLES": b"Threads\n"}
    for crate in CRATES:
        for _ in range(chance.randint(1, 5)):
            part = chance.choice(PARTS)
            path = f"crates/{crate}/{part}/".encode() + chance.choice(NAMES)
            files[path] = chance.choice([*TEXTS, chance.randbytes(20)])
        if chance.random() < 0.3:
            files[f"crates/{crate}/".encode() + chance.choice(NAMES[:11])] = b"top\n"
    sources = sorted(set(files) - {b"HANDLES"})
    links = frozenset(chance.sample(sources, chance.choice([0, 0, 1, 2])))
    return Tree(list(LIST), ["rattle-kit-1 logic 1", "rattle-kit-2"], files, links)


def crate_of(path):
    return path.split(b"/")[:2]


def is_only_one(files, path):
    """Returns whether the crate of a file has no other: without files it has no sum."""
    return [crate_of(other) for other in files].count(crate_of(path)) == 1


def changed(chance, tree):
    """A tree with one change of its contents, and which one it is. Each crate keeps a file."""
    files, sources = dict(tree.files), sorted(tree.files)
    path, other = chance.choice(sources), chance.choice(sources)
    kind = chance.choice(["byte", "name", "none", "more", "swap", "kit", "list", "move"])
    if kind == "byte":
        files[path] += chance.choice([b"\n", b"\0", b" ", b"x"])
    elif kind == "name" and path != b"HANDLES":
        files[path + b"2"] = files.pop(path)
    elif kind == "none" and not is_only_one(files, path):
        del files[path]
    elif kind == "more":
        files[b"crates/osn_two/src/new.rt"] = chance.choice(TEXTS)
    elif kind == "swap":
        files[path], files[other] = files[other], files[path]
    elif kind == "kit":
        return tree._replace(kits=[*tree.kits, chance.choice(["more", ""])]), kind
    elif kind == "list":
        return tree._replace(crates=[*LIST[:-1], LIST[-1] + " itoa"]), kind
    elif kind == "move" and not is_only_one(files, path):
        files[b"crates/osn_one/moved/" + os.path.basename(path)] = files.pop(path)
    links = frozenset(link for link in tree.links if link in files)
    return tree._replace(files=files, links=links), kind


def is_other(tree, other):
    return tree._replace(links=None) != other._replace(links=None)


def write(folder, path, content):
    path = os.path.join(folder, path)
    os.makedirs(os.path.dirname(path), exist_ok=True)
    with open(path, "wb") as file:
        file.write(content)


def build(chance, folder, tree, links):
    """Builds a tree in a folder: with these links or without, and what makes no difference."""
    paths, by_text = list(tree.files), {}
    chance.shuffle(paths)
    for number, path in enumerate(paths):
        content, full = tree.files[path], os.path.join(folder, path)
        os.makedirs(os.path.dirname(full), exist_ok=True)
        if path in links:
            write(folder, b"elsewhere/%d" % number, content)
            os.symlink(os.path.join(folder, b"elsewhere/%d" % number), full)
        elif content in by_text and chance.random() < 0.3:
            os.link(by_text[content], full)
        else:
            write(folder, path, content)
            by_text[content] = full
            os.chmod(full, chance.choice([0o644, 0o600, 0o755, 0o444]))
        if chance.random() < 0.5:
            os.utime(full, (chance.randrange(2**31),) * 2)
    build_lists(chance, folder, tree)


def build_lists(chance, folder, tree):
    """Writes the lists of a tree, and files that are not sources."""
    crates = [*tree.crates, "osn_last: oldstyle"] if chance.random() < 0.5 else tree.crates
    remark = chance.choice(["", "# A remark: with a colon.\n", "\n"])
    end = chance.choice(["\n", ""])
    write(folder, b"crates.txt", (remark + "\n".join(crates) + end).encode())
    write(folder, b"KIT", "".join(line + "\n" for line in tree.kits).encode())
    for path in (b"crates/osn_one/out/x", b"crates/osn_two/must-fail/x.edit", b"README.md",
                 b"crates/osn_apart/src/lib.rt", b"crates/osn_one/.hidden"):
        if chance.random() < 0.5:
            write(folder, path, chance.randbytes(5))
    os.makedirs(os.path.join(folder, b"crates/osn_one/src/empty%d" % chance.randrange(3)))


class Stamps:
    """Three trees each time."""

    about = "trees"

    def __init__(self, _program, folder):
        self.folder = os.fsencode(folder)

    def round(self, chance):
        tree = drawn(chance)
        other, kind = changed(chance, tree)
        folders = [os.path.join(self.folder, name) for name in (b"one", b"twin", b"other")]
        try:
            build(chance, folders[0], tree, tree.links)
            build(chance, folders[1], tree, chance.choice([tree.links, frozenset()]))
            build(chance, folders[2], other, other.links)
            sums = [sum_of(folder, chance.choice(LOCALES)) for folder in folders]
        finally:
            for folder in folders:
                shutil.rmtree(folder, ignore_errors=True)
        why = ""
        if not all(len(line) > 100 for line in sums):
            why = f"a tree has no sum: {sums}"
        elif sums[0] != sums[1]:
            why = "the twin has another sum"
        elif (sums[0] != sums[2]) != is_other(tree, other):
            why = f"the sum is the same after a change of kind {kind}"
        return 3, [(why, sorted(tree.links), repr(tree).encode())] if why else []


def sum_of(folder, locale):
    """The sum of the sources in a folder."""
    done = subprocess.run(["bash", "-c", SUMS, "bash", STAMP, folder], capture_output=True,
                          timeout=SECONDS, check=False, env={**os.environ, "LC_ALL": locale})
    return done.stdout if done.returncode == 0 and not done.stderr else done.stderr[:90]
