"""Kills docdb while a client puts, and looks at what is there when it is opened again; crash.sh runs it."""

import contextlib
import os
import random
import subprocess
import sys
import tempfile
import threading

PROGRAM, KILLS = sys.argv[1], int(sys.argv[2])
LONGEST = 0.1
# No run of the program takes so long.
SECONDS = 60


def start(directory):
    return subprocess.Popen([PROGRAM, "run", directory], stdin=subprocess.PIPE, stdout=subprocess.PIPE)


def put_until_killed(directory, turn):
    """How many puts were acknowledged, one by one, until the process was killed: in each tenth turn perhaps as it opens
    the directory, else behind the first of them."""
    process = start(directory)
    killer = threading.Timer(random.uniform(0, LONGEST), process.kill)
    guard = threading.Timer(SECONDS, process.kill)
    guard.start()
    acknowledged = 0
    try:
        while True:
            if acknowledged == (0 if turn % 10 == 0 else 1):
                killer.start()
            process.stdin.write(b'put /%d/%d.json {"t":"turn%d b"}\n' % (turn, acknowledged + 1, turn))
            process.stdin.flush()
            reply = process.stdout.readline()
            if not reply.endswith(b"\n"):
                break
            if not reply.startswith(b"ok "):
                sys.exit("turn %d: a put was answered %r" % (turn, reply))
            acknowledged += 1
    except BrokenPipeError:
        pass
    finally:
        guard.cancel()
        if killer.ident is None:
            process.kill()
        else:
            killer.join()
        process.wait()
        with contextlib.suppress(BrokenPipeError):
            process.stdin.close()
        process.stdout.close()
    if killer.ident is None:
        sys.exit("turn %d: the first put wasn't acknowledged" % turn)
    return acknowledged


def found(directory, turn):
    """How many of the turn's first puts are there, without a gap, and how many entries there are."""
    asked = b'search {"wordQuery":{"text":["turn%d"]}}\nquit\n' % turn
    done = subprocess.run([PROGRAM, "run", directory], input=asked, stdout=subprocess.PIPE, timeout=SECONDS)
    lines = done.stdout.splitlines()
    if done.returncode != 0 or lines[-1] != b"bye":
        sys.exit("opening after a kill ended with status %d, and %r" % (done.returncode, done.stdout[-64:]))
    uris = set(lines[1:-2])
    count = sum(1 for _ in iter_first(uris, turn))
    if count != len(uris):
        sys.exit("turn %d: %r" % (turn, sorted(uris)))
    return count, int(lines[0].split()[5])


def iter_first(uris, turn):
    number = 1
    while b"/%d/%d.json" % (turn, number) in uris:
        yield number
        number += 1


def main():
    random.seed(7)
    missing = more = most = acknowledged = 0
    with tempfile.TemporaryDirectory() as work:
        directory = os.path.join(work, "d")
        subprocess.run([PROGRAM, "init", directory], stdout=subprocess.DEVNULL, check=True, timeout=SECONDS)
        entries = 0
        for turn in range(1, KILLS + 1):
            told = put_until_killed(directory, turn)
            there, front = found(directory, turn)
            if front - entries != there:
                sys.exit("turn %d: %d entries, and %d documents" % (turn, front - entries, there))
            missing += max(0, told - there)
            more += max(0, there - told)
            most = max(most, there - told)
            acknowledged, entries = acknowledged + told, front
    print("%d kills, %d puts acknowledged, %d entries in the end" % (KILLS, acknowledged, entries))
    print("acknowledged and missing: %d; there and not acknowledged: %d, at most %d a kill" % (missing, more, most))
    sys.exit(0 if missing == 0 and most <= 1 else 1)


main()
