"""Times puts into docdb, from a file and with the replies to a file; puts.sh runs it."""

import os
import platform
import sys
import tempfile

from timing import ROUNDS, best, draws, in_memory, make

PROGRAM, MOST = sys.argv[1], int(sys.argv[2])
COUNTS = [count for count in (10_000, 100_000, 1_000_000) if count <= MOST]


def write_puts(path, count):
    draw = draws(1)
    with open(path, "w") as file:
        for i in range(1, count + 1):
            words = " ".join("w%d" % (next(draw) % 256) for _ in range(3))
            file.write('put /g/%d/%d.json {"t":"%s"}\n' % (i % 16, i, words))


def last_line(path):
    with open(path, "rb") as file:
        file.seek(max(0, os.path.getsize(path) - 64))
        return file.read().splitlines()[-1].decode()


def main():
    print("%s, Python %s, best of %d" % (platform.platform(), platform.python_version(), ROUNDS))
    print("ratio: of puts/s to those of the line above; added: puts/s of the puts beyond those of the line above")
    print("cpu: seconds of the processor; cat: seconds that cat takes for the same file")
    print("%10s %9s %9s %9s %9s %9s %9s" % ("puts", "seconds", "puts/s", "ratio", "added", "cpu", "cat"))
    put_before, took_before = 0, 0.0
    with tempfile.TemporaryDirectory(dir=in_memory()) as work:
        directory, source, target = (os.path.join(work, name) for name in ("d", "puts", "replies"))
        for count in COUNTS:
            write_puts(source, count)
            copied, _ = best(["cat"], source, target)
            took, worked = best([PROGRAM, "run", directory], source, target, lambda: make(PROGRAM, directory))
            if last_line(target) != "ok %d" % count:
                sys.exit("the last reply is %r" % last_line(target))
            ratio = "%.2f" % (count / took * took_before / put_before) if put_before else "-"
            added = (count - put_before) / (took - took_before)
            row = (count, took, count / took, ratio, added, worked, copied)
            print("%10d %9.3f %9.0f %9s %9.0f %9.3f %9.3f" % row, flush=True)
            put_before, took_before = count, took


main()
