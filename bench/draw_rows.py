"""Draws rows for crates/text_rows whose answers are those of the rules alone.

    python3 bench/draw_rows.py SEED COUNT >rows && (cd crates/text_rows && rt try --seconds 250 <rows)

Its last line is then `rows N, differ 0`.
"""

import re
import sys

import plain_json
import plain_queries
import plain_shapes
import rows
from drawing import URIS, Draw

ESCAPED = re.compile(rb"\\x[0-9a-fA-F]{2}")
LONGEST = 20_000


def cell(data):
    """The bytes of a cell, those that aren't printable ASCII as `\\xNN`."""
    out = "".join(chr(byte) if 0x20 < byte < 0x7F or byte == 0x20 else f"\\x{byte:02x}" for byte in data)
    out = re.sub(r"^ | $", r"\\x20", out)
    return out.replace(" | ", " \\x7c ")


def bent(draw, text, one_in):
    data = text.encode("utf-8")
    while draw.seldom(one_in):
        data = draw.broken(data)
    return data


def tree(data):
    try:
        return plain_json.read(data)
    except plain_json.Bad:
        return None


def query(draw):
    """The bytes of a query that is taken, and the query."""
    while True:
        data = draw.query_text().encode("utf-8")
        try:
            return data, plain_shapes.judge(plain_json.read(data))
        except plain_shapes.Shape:
            continue


def text_row(draw, kind):
    data = bent(draw, draw.document(), 2) if kind == "json" else bent(draw, draw.query_text(), 4)
    answer = rows.json_text(data) if kind == "json" else rows.query_text(data)
    return [] if ESCAPED.search(data) else [kind, cell(data), cell(answer.encode())]


def query_row(draw):
    data, asked = query(draw)
    document = draw.document().encode("utf-8")
    root = tree(document)
    if root is None and document.strip() != b"null":
        return []
    place = [draw.choice(URIS), *sorted(set(draw.choices(["/a", "/b", "x"], k=draw.randrange(3))))]
    holds = plain_queries.holds(asked, place[0], place[1:], root)
    return ["query", " ".join(place), cell(document), cell(data), str(holds).lower()]


def check_row(draw):
    data, _ = query(draw)
    pairs = {draw.choice("abtu") + ":" + draw.choice(["decimal", "string"]) for _ in range(draw.randrange(6))}
    there = " ".join(sorted(pairs))
    return ["check", there, cell(data), cell(rows.rule(there, data).encode())]


def near_row(draw):
    lists = [[draw.randrange(30) for _ in range(draw.randrange(5))] for _ in range(draw.randrange(5))]
    terms = "%d %s" % (draw.randrange(12), draw.choice(["ordered", "unordered"]))
    starts = "/" + "".join(" ".join(map(str, one)) + "/" for one in lists)
    return ["near", terms, starts, rows.near(terms, starts)]


def main():
    draw = Draw(int(sys.argv[1]))
    kinds = [lambda d: text_row(d, "json"), lambda d: text_row(d, "cts"), query_row, query_row, check_row, near_row]
    for _ in range(int(sys.argv[2])):
        row = draw.choice(kinds)(draw)
        if row and sum(map(len, row)) < LONGEST:
            print(" | ".join(row))


if __name__ == "__main__":
    main()
