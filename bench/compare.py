"""Times JSON parsers on documents that this file makes; compare_json.sh runs it."""

import json
import os
import platform
import random
import shutil
import subprocess
import sys
import time

PROGRAM, WORK = sys.argv[1], sys.argv[2]
ROUNDS = 7


def record(i, rng):
    return {
        "id": i,
        "name": "".join(rng.choice("abcdefghij klmnop") for _ in range(20)),
        "price": round(rng.random() * 1000, 2),
        "tags": ["new", "sale\n", "Größe"],
        "open": i % 2 == 0,
        "note": None,
    }


def records(size):
    rng = random.Random(1)
    rows, length = [], 0
    while length < size:
        row = record(len(rows), rng)
        length += len(json.dumps(row, ensure_ascii=False).encode()) + 2
        rows.append(row)
    return json.dumps(rows, ensure_ascii=False).encode()


def members(names):
    return ("{" + ", ".join('"name%d": %d' % (n, i) for i, n in enumerate(names)) + "}").encode()


DOCUMENTS = {
    "1 KB": records(1_000),
    "1 MB": records(1_000_000),
    "4 MB": records(4_000_000),
    "one text, 4 MB": json.dumps("a plain text " * 320_000).encode(),
    "one array of 1e6 zeros": ("[" + ",".join("0" * 1_000_000) + "]").encode(),
    "one number, 1 MB": ("0." + "0" * 1_000_000).encode(),
    "50,000 distinct names": members(range(50_000)),
    "100,000 distinct names": members(range(100_000)),
    "100,000 members, 1,000 names": members(i % 1_000 for i in range(100_000)),
}

NODE = """const b=require('fs').readFileSync(process.argv[1]);const s=b.toString();
for(let i=0;i<%d;i++){const t=process.hrtime.bigint();const v=JSON.parse(s);const u=process.hrtime.bigint();
const w=JSON.stringify(v);const x=process.hrtime.bigint();console.log(String(u-t),String(x-u),w.length)}"""


def best(rows):
    return [min(column) for column in zip(*rows)]


def lines(words):
    out = subprocess.run(words, capture_output=True, text=True, check=True).stdout
    return [[int(word) for word in line.split()] for line in out.splitlines()]


def timed(call, argument):
    spent = []
    for _ in range(ROUNDS):
        start = time.perf_counter_ns()
        result = call(argument)
        spent.append(time.perf_counter_ns() - start)
    return min(spent), result


def of_python(module, text):
    read, value = timed(module.loads, text)
    written, _ = timed(module.dumps, value)
    return read, written


def rates(text):
    """How many bytes json_text writes, and the nanoseconds of reading and of writing, by parser."""
    path = os.path.join(WORK, "document.json")
    with open(path, "wb") as file:
        file.write(text)
    rounds = 300 if len(text) < 10_000 else ROUNDS
    ours = best(lines([PROGRAM, path, str(rounds)]))
    found = {"json_text": (ours[0], ours[2]), "serde_json": (ours[1], ours[3]), "Python": of_python(json, text)}
    try:
        import orjson

        found["orjson"] = of_python(orjson, text)
    except ImportError:
        pass
    if shutil.which("node"):
        node = best(lines(["node", "-e", NODE % rounds, path]))
        found["node"] = (node[0], node[1])
    return ours[4], found


def main():
    print("machine:", platform.platform(), os.cpu_count(), "processors; load", os.getloadavg()[0])
    for name, text in DOCUMENTS.items():
        written, found = rates(text)
        for act, place, length in (("read", 0, len(text)), ("write", 1, written)):
            ours = found["json_text"][place]
            figures = ", ".join(
                "%s %.1f (%.2f)" % (parser, length * 1e3 / spent[place], ours / spent[place]) for parser, spent in found.items()
            )
            print("%s, %s %d bytes in MB/s (times json_text): %s" % (name, act, length, figures))


main()
