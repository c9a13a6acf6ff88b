#!/usr/bin/env python3
"""Checks the names in backquotes of README.md and docs/*.md against the sources under crates/.

A name is an identifier, perhaps with `::` in it, or a path. An identifier must occur in the code (comments don't count);
a path must name a file or a folder. In docs/PROMISES.md the calls in the first column of a table must be declared in
the crate that the heading above names. All other texts in backquotes, as lines of the protocol, are left alone.
Prints each name that isn't found, and ends with status 1 then.
"""
import itertools
import pathlib
import re
import sys

TOP = pathlib.Path(__file__).resolve().parent.parent
IDENTIFIER = re.compile(r"[A-Za-z_]\w*(::[A-Za-z_]\w*)*")
PATH = re.compile(r"[\w.{},-]+(/[\w.{},-]*)+")
# Words of the machine, of the line protocol and of other programs, which no source declares.
FOREIGN = set("""
    rt strace fdatasync fsync flock serde_json orjson json clap getopts unicode cat grep python3 ci nopin norange
    conflict twice ahead back old new spent file Box Vec Arc stdin stdout std
""".split())


def sources(pattern):
    """The files of all crates that match, without what was built."""
    return [path for path in TOP.glob(f"crates/*/{pattern}") if "out" not in path.relative_to(TOP).parts]


def code_of(path):
    """The text of a source file without its comments."""
    comment = r"//.*" if path.suffix == ".rt" else r"(?<!\S)--.*"
    return re.sub(comment, "", path.read_text(encoding="utf-8"))


def words_of(paths):
    return {word for path in paths for word in re.findall(r"[A-Za-z_]\w*", code_of(path))}


def expand(path):
    """`a/{b,c}` is `a/b` and `a/c`."""
    parts = [piece.split(",") for piece in re.split(r"[{}]", path)]
    return ["".join(choice) for choice in itertools.product(*parts)]


def path_exists(path):
    """Whether the path lies in the repository, below crates/ or in a crate, perhaps without the ending of its file."""
    return any(next(TOP.glob(f"{base}{path.rstrip('/')}{ending}"), None)
               for base in ("", "crates/", "crates/*/", "docs/") for ending in ("", ".antt", ".rt"))


def unknown_names(text, known):
    """The names in backquotes that nothing declares, each with the number of its line."""
    for number, line in enumerate(text.splitlines(), 1):
        for name in re.findall(r"`([^`]+)`", line):
            if IDENTIFIER.fullmatch(name):
                if not all(word in known for word in name.split("::")):
                    yield number, name
            elif PATH.fullmatch(name) and not name.startswith(("/", "./")):
                if not all(path_exists(path) for path in expand(name)):
                    yield number, name


def misplaced_calls(text):
    """The calls in the first columns below a heading `### CRATE ..` that none of the named crates declares."""
    crates = []
    for number, line in enumerate(text.splitlines(), 1):
        if line.startswith("#"):
            crates = re.findall(r"`(\w+)`", line) if line.startswith("### ") else []
            declared = words_of(path for crate in crates for path in (TOP / "crates" / crate / "src").rglob("*.rt"))
        cells = line.split("|")
        if not crates or len(cells) < 4:
            continue
        for name in re.findall(r"`([^`]+)`", cells[1]):
            if IDENTIFIER.fullmatch(name) and not all(word in declared | set(crates) for word in name.split("::")):
                yield number, f"{name} in {' '.join(crates)}"


def main():
    crates = {path.name for path in (TOP / "crates").iterdir()}
    known = words_of(sources("**/*.rt")) | words_of(sources("**/*.antt")) | crates | FOREIGN
    known |= {path.stem for path in sources("**/*.antt")} | set((TOP / "crates.txt").read_text().replace(":", " ").split())
    found = False
    for path in [TOP / "README.md", *sorted((TOP / "docs").glob("*.md"))]:
        text = path.read_text(encoding="utf-8")
        wrong = list(unknown_names(text, known))
        if path.name == "PROMISES.md":
            wrong += misplaced_calls(text)
        for number, name in sorted(set(wrong)):
            print(f"{path.relative_to(TOP)}:{number}: {name}")
            found = True
    return 1 if found else 0


if __name__ == "__main__":
    sys.exit(main())
