#!/usr/bin/env python3
"""Checks the tables of crates in docs/ARCHITECTURE.md against crates.txt and the sources.

Each crate of crates.txt has one row, and within a table the rows are in the order of crates.txt. The column "Does" is
the first sentence of the crate's `//!` comment. The column "Uses" names, in the order of crates.txt, the libraries of
the crate's line there that a file of the crate cites.
Prints what differs, and ends with status 1 then. With --write it first puts both columns right; with --trim it first
takes the libraries that no file of a crate cites away from its line in crates.txt, which the toolchain doesn't need.
"""
import pathlib
import re
import sys

TOP = pathlib.Path(__file__).resolve().parent.parent
PAGE = TOP / "docs" / "ARCHITECTURE.md"
LIST = TOP / "crates.txt"
ROW = re.compile(r"^\| `(?P<crate>\w+)` \| (?P<does>.*?) \| (?P<contract>.*?) ?\| (?P<uses>.*?) ?\|$")


def libraries():
    """The crates of crates.txt in their order, each with the libraries of its line."""
    lines = [line.split("#")[0].strip() for line in LIST.read_text(encoding="utf-8").splitlines()]
    named = [line.split(":", 1) for line in lines if line]
    return {crate.split()[0]: needs.split() for crate, needs in named}


def cited(crate, needs):
    """Those of the libraries that a file of the crate cites."""
    folder = TOP / "crates" / crate
    files = [path for kind in ("src", "specs", "proofs") for path in (folder / kind).rglob("*")
             if path.suffix in (".rt", ".antt")]
    text = "\n".join(path.read_text(encoding="utf-8") for path in files)
    return [need for need in needs if re.search(rf"\b{need}(::[\w{{*]|\.\w)", text)]


def first_sentence(crate):
    """The first sentence of the comment at the head of the crate, without its full stop."""
    source = TOP / "crates" / crate / "src"
    root = next(source / name for name in ("lib.rt", "main.rt") if (source / name).exists())
    words = []
    for line in root.read_text(encoding="utf-8").splitlines():
        if not line.startswith("//!") or line.strip() == "//!":
            break
        words.append(line[3:].strip())
    sentence = re.split(r"(?<=[^.])\.(?= |$)", " ".join(words))[0]
    return sentence.replace("|", "\\|")


def in_order(crates, order):
    return [crate for crate in order if crate in crates]


def differences(tables, needs):
    """What differs between the tables, each a list of rows, and the repository."""
    order = list(needs)
    shown = [row["crate"] for table in tables for row in table]
    yield from (f"{crate}: no row" for crate in order if crate not in shown)
    yield from (f"{crate}: not in crates.txt" for crate in shown if crate not in needs)
    yield from (f"{crate}: two rows" for crate in set(shown) if shown.count(crate) > 1)
    for table in tables:
        rows = [row["crate"] for row in table]
        right = in_order(rows, order)
        yield from (f"{was}: out of order, crates.txt has {should} here"
                    for was, should in zip(rows, right) if was != should)
    for row in (row for table in tables for row in table if row["crate"] in needs):
        crate = row["crate"]
        if row["does"] != first_sentence(crate):
            yield f"{crate}: does: {row['does']}\n    its crate says: {first_sentence(crate)}"
        uses, right = re.findall(r"`(\w+)`", row["uses"]), cited(crate, needs[crate])
        if uses != right:
            yield f"{crate}: uses: {' '.join(uses)}\n    its files cite: {' '.join(right)}"


def tables_of(text):
    """The rows of each table of crates; a table ends at the first line that is no row."""
    tables, rows = [], []
    for line in text.splitlines() + [""]:
        row = ROW.match(line)
        if row:
            rows.append(row.groupdict())
        elif rows:
            tables.append(rows)
            rows = []
    return tables


def mended(line, needs):
    row = ROW.match(line)
    if not row or row["crate"] not in needs:
        return line
    crate = row["crate"]
    uses = ", ".join(f"`{name}`" for name in cited(crate, needs[crate]))
    return f"| `{crate}` | {first_sentence(crate)} | {row['contract']} | {uses} |"


def trimmed(line):
    """A line of crates.txt without the libraries that no file of its crate cites."""
    words, hash_sign, comment = line.partition("#")
    if not words.strip():
        return line
    head, needs = words.split(":", 1)
    kept = " ".join([f"{head}:", *cited(head.split()[0], needs.split())])
    return f"{kept} {hash_sign}{comment}" if hash_sign else kept


def main():
    if "--trim" in sys.argv[1:]:
        lines = LIST.read_text(encoding="utf-8").splitlines()
        LIST.write_text("".join(trimmed(line) + "\n" for line in lines), encoding="utf-8")
    needs = libraries()
    text = PAGE.read_text(encoding="utf-8")
    if "--write" in sys.argv[1:]:
        text = "".join(mended(line, needs) + "\n" for line in text.splitlines())
        PAGE.write_text(text, encoding="utf-8")
    found = list(differences(tables_of(text), needs))
    print("\n".join(found), end="\n" if found else "")
    return 1 if found else 0


if __name__ == "__main__":
    sys.exit(main())
