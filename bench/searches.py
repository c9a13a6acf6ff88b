"""Times searches for one word in docdb, less the puts before them; searches.sh runs it."""

import os
import platform
import sys
import tempfile

from timing import ROUNDS, best, draws, in_memory, make

PROGRAM, MOST = sys.argv[1], int(sys.argv[2])
COUNTS = [count for count in (1_000, 10_000, 100_000) if count <= MOST]
WORDS, SEARCHES = 40, 10


def put_lines(count):
    draw = draws(1)
    for i in range(1, count + 1):
        text = " ".join("word%d" % (next(draw) % 4_096) for _ in range(WORDS))
        yield 'put /g/%d.json {"t":"%s"}\n' % (i, text)


def search_lines():
    for i in range(SEARCHES):
        yield 'search {"wordQuery":{"text":["word%d"]}}\n' % (397 * (i + 1) % 4_096)


def write(path, *parts):
    with open(path, "w") as file:
        for part in parts:
            file.writelines(part)


def found_in(path):
    with open(path) as file:
        return [line for line in file if line.startswith("found ")]


def main():
    print("%s, Python %s, best of %d" % (platform.platform(), platform.python_version(), ROUNDS))
    print("a search: milliseconds of each of %d, and microseconds of each for one document" % SEARCHES)
    print("ratio: of the last to that of the line above; grep: milliseconds that grep -cw takes over the puts")
    print("%10s %10s %10s %9s %9s" % ("documents", "a search", "a document", "ratio", "grep"))
    before = None
    with tempfile.TemporaryDirectory(dir=in_memory()) as work:
        directory, puts, both, target = (os.path.join(work, name) for name in ("d", "puts", "both", "replies"))
        run = [PROGRAM, "run", directory]
        for count in COUNTS:
            write(puts, put_lines(count))
            write(both, put_lines(count), search_lines())
            alone, _ = best(run, puts, target, lambda: make(PROGRAM, directory))
            whole, _ = best(run, both, target, lambda: make(PROGRAM, directory))
            if len(found_in(target)) != SEARCHES:
                sys.exit("%d searches were answered" % len(found_in(target)))
            matched, _ = best(["grep", "-cw", "word397", puts], puts, target)
            each = (whole - alone) / SEARCHES
            one = each / count
            ratio = "%.2f" % (one / before) if before else "-"
            row = (count, each * 1e3, one * 1e6, ratio, matched * 1e3)
            print("%10d %10.2f %10.2f %9s %9.2f" % row, flush=True)
            before = one


main()
