"""Compares what the rules alone say with the rows of crates/text_rows/stdin, without docdb.

    python3 bench/rows.py crates/text_rows/stdin
"""

import sys

import plain_json
import plain_queries
import plain_shapes
from plain_lines import unescaped

KINDS = {"json": "Syntax", "utf8": "Utf8", "depth": "Depth", "number": "Number"}


def fault(bad):
    return "%s { place: %d }" % (KINDS[bad.kind], bad.place)


def query_text(data):
    try:
        return plain_json.write(plain_shapes.node_of(plain_shapes.judge(plain_json.read(data))))
    except plain_json.Bad as bad:
        return "Json(%s)" % fault(bad)
    except plain_shapes.Shape as bad:
        return "Shape { node: %d }" % bad.node


def json_text(data):
    try:
        return plain_json.write(plain_json.read(data))
    except plain_json.Bad as bad:
        return fault(bad)


def rule(there, data):
    indexes = [tuple(pair.rsplit(":", 1)) for pair in there.split()]
    if len(indexes) > 64 or len(set(indexes)) < len(indexes):
        return "indexes refused"
    found = plain_queries.broken(plain_shapes.judge(plain_json.read(data)), indexes)
    if found is None:
        return "kept"
    names = {"deep": "TooDeep { limit: 32 }", "many": "TooMany { limit: 10000 }", "directory": "BadDirectory"}
    return "NoRange %s %s" % found[1:] if found[0] == "norange" else names.get(found[0], "NearChild")


def strokes(items):
    return "/" + "".join(f"{item}/" for item in items)


def of_document(kind, place, root, query):
    uri, *collections = place.split(" ")
    root, query = plain_json.read(unescaped(root)), plain_shapes.judge(plain_json.read(unescaped(query)))
    if kind == "starts":
        return strokes(plain_queries.starts(query, root))
    return str(plain_queries.holds(query, uri, collections, root)).lower()


def near(terms, lists):
    distance, order = terms.split(" ")
    children = [[int(word) for word in one.split()] for one in lists[1:].split("/")[:-1]]
    return str(plain_queries.is_near(children, int(distance), order == "ordered")).lower()


def answer(kind, cells):
    if kind == "json":
        return json_text(unescaped(cells[0]))
    if kind == "cts":
        return query_text(unescaped(cells[0]))
    if kind in ("words", "folded"):
        found = plain_queries.words(cells[0].decode())
        return strokes(found if kind == "words" else [word.casefold() for word in found])
    if kind in ("query", "starts"):
        return of_document(kind, cells[0].decode(), cells[1], cells[2])
    if kind == "check":
        return rule(cells[0].decode(), unescaped(cells[1]))
    if kind in ("near", "leaps"):
        return near(cells[0].decode(), cells[1].decode())
    return None


def main():
    rows, judged, differ = 0, 0, 0
    with open(sys.argv[1], "rb") as file:
        for line in file.read().split(b"\n"):
            if line == b"" or line.startswith(b"#"):
                continue
            kind, *cells = line.split(b" | ")
            rows += 1
            found = answer(kind.decode(), cells[:-1])
            judged += found is not None
            if found is not None and found.encode() != unescaped(cells[-1]):
                differ += 1
                print(line[:300].decode(), "\n  found", found[:300])
    print(f"rows {rows}, judged {judged}, differ {differ}")


if __name__ == "__main__":
    main()
