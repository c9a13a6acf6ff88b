"""Times commits of docdb beside a loop in C over the same bytes, in turn; commits.sh runs it."""

import os
import platform
import shutil
import statistics
import subprocess
import sys
import time

PROGRAM, WORK, COUNT = sys.argv[1], sys.argv[2], int(sys.argv[3])
ROUNDS = 5
DIRECTORY, SOURCE, COPY = (os.path.join(WORK, name) for name in ("d", "puts", "copy"))


def seconds(command, source, wanted):
    with open(source, "rb") as read:
        start = time.perf_counter()
        done = subprocess.run(command, stdin=read, stdout=subprocess.PIPE)
        end = time.perf_counter()
    if done.returncode != 0 or not done.stdout.endswith(b"%s\n" % wanted):
        sys.exit("%s ended with status %d, and %r" % (command[0], done.returncode, done.stdout[-64:]))
    return end - start


def docdb():
    shutil.rmtree(DIRECTORY, ignore_errors=True)
    subprocess.run([PROGRAM, "init", DIRECTORY], stdout=subprocess.DEVNULL, check=True)
    return seconds([PROGRAM, "run", DIRECTORY], SOURCE, b"ok %d" % COUNT)


def in_c():
    journal = os.path.join(DIRECTORY, "journal-0")
    took = seconds([os.path.join(WORK, "commits"), journal, COPY], SOURCE, b"%d" % COUNT)
    if open(journal, "rb").read() != open(COPY, "rb").read():
        sys.exit("the loop in C wrote other bytes")
    return took


def main():
    with open(SOURCE, "w") as file:
        file.writelines('put /k/%d.json {"t":"a b"}\n' % i for i in range(1, COUNT + 1))
    print("%s, load %.1f, %d commits, %d rounds in turn" % (platform.platform(), os.getloadavg()[0], COUNT, ROUNDS))
    took = [(docdb(), in_c()) for _ in range(ROUNDS)]
    print("%-8s %12s %12s" % ("", "docdb", "C"))
    for name, least in (("best", min), ("median", statistics.median)):
        ours, theirs = (COUNT / least(column) for column in zip(*took))
        print("%-8s %10.0f/s %10.0f/s   ratio %.2f" % (name, ours, theirs, ours / theirs), flush=True)


main()
