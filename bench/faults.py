"""Has each call of the system fail in turn, by strace; faults.sh runs it."""

import itertools
import os
import re
import shutil
import subprocess
import sys
import tempfile
from typing import Callable, NamedTuple

PROGRAM = sys.argv[1]
DISK = ("mkdir", "openat", "statx", "flock", "pread64", "pwrite64", "fsync", "fdatasync", "ftruncate", "rename", "unlink")
STREAMS = ("read", "write")
CALLS = DISK + STREAMS + ("fcntl",)
# Calls that a signal interrupts.
SLOW = ("openat", "flock", "pread64", "pwrite64", "fsync", "fdatasync", "ftruncate", "read", "write")
PUTS = b'put /k/1.json {"t":"a b"}\nput /k/2.json {"t":"a b"}\n'
REPLIES = b"ok 1\nok 2\n"
# No scene makes so many calls of one name. One that does is reported, and its further calls aren't tried.
MOST = 1000
SECONDS = 60


class Scene(NamedTuple):
    """A run of the program, the calls of it that fail in turn, and whether it ended as it should."""

    name: str
    words: list
    lines: bytes
    prepare: Callable
    calls: tuple
    fits: Callable
    error: str = "EIO"
    closed: bool = False


def run(command, **more):
    return subprocess.run(command, timeout=SECONDS, **more)


def traced(scene, how):
    """The calls that were made, and how the program ended."""
    command = ["strace", "-f", "-o", "calls", *how, "--"]
    if scene.closed:
        command += ["sh", "-c", 'exec "$0" "$@" <&-']
    done = run(command + [PROGRAM, *scene.words], input=scene.lines, stdout=subprocess.PIPE, stderr=subprocess.PIPE)
    with open("calls", errors="replace") as file:
        return file.read().splitlines(), done


def before_ours(scene, call):
    """How many calls of this name are made to load the program, before it comes to the directory."""
    scene.prepare()
    made, _ = traced(scene, ["-e", "trace=" + ",".join(CALLS)])
    first = next(i for i, line in enumerate(made) if re.search(r'"d(/|")', line))
    return sum(1 for line in made[:first] if re.search(r"\b%s\(" % call, line))


def fresh():
    shutil.rmtree("d", ignore_errors=True)


def made():
    fresh()
    run([PROGRAM, "init", "d"], stdout=subprocess.DEVNULL, check=True)


def filled():
    made()
    run([PROGRAM, "run", "d"], input=PUTS, stdout=subprocess.DEVNULL, check=True)


def front():
    """How many entries the directory has when it is served again."""
    asked = b'search {"wordQuery":{"text":["a"]}}\n'
    done = run([PROGRAM, "run", "d"], input=asked, stdout=subprocess.PIPE)
    if done.returncode != 0 or not done.stdout.startswith(b"found "):
        return None
    return int(done.stdout.split(None, 6)[5])


def fits_init(done, call, number):
    """The status is a fault, and what was begun can be made or is made."""
    if (done.returncode, done.stdout) != (3, b"fault\n"):
        return False
    again = run([PROGRAM, "init", "d"], stdout=subprocess.PIPE)
    return (again.returncode, again.stdout) in ((0, b"made\n"), (2, b"already there\n")) and front() == 0


def fits_print(done, call, number):
    """The status is a fault, nothing is printed, and the database is made."""
    return (done.returncode, done.stdout) == (3, b"") and front() == 0


def fits_opening(done, call, number):
    """The status is a fault, and all is there."""
    return (done.returncode, done.stdout) == (3, b"fault\n") and front() == 2


def fits_puts(done, call, number):
    """Each put is acknowledged until one fails; at most that one is there unacknowledged."""
    replies = done.stdout.splitlines()
    acknowledged = sum(1 for reply in replies if reply.startswith(b"ok "))
    there = front()
    if there is None or not acknowledged <= there <= acknowledged + 1:
        return False
    wanted = [b"ok %d" % (i + 1) for i in range(acknowledged)]
    if done.returncode == 0:
        return replies == wanted + [b"fault", b"down"][: 2 - acknowledged]
    return done.returncode == 3 and replies == wanted + [b"fault"]


def fits_streams(done, call, number):
    """The status is a fault. The first read brings both puts, and they are in the log before a reply is written."""
    if (call, number) == ("read", 1):
        return (done.returncode, done.stdout) == (3, b"fault\n") and front() == 0
    told = b"" if call == "write" else REPLIES
    return (done.returncode, done.stdout) == (3, told + b"fault\n") and front() == 2


def fits_interrupted_init(done, call, number):
    """A call that a signal interrupted was made again."""
    return (done.returncode, done.stdout, done.stderr) == (0, b"made\n", b"") and front() == 0


def fits_interrupted_puts(done, call, number):
    """A call that a signal interrupted was made again."""
    return (done.returncode, done.stdout, done.stderr) == (0, REPLIES, b"") and front() == 2


SCENES = (
    Scene("init", ["init", "d"], b"", fresh, DISK, fits_init),
    Scene("its print", ["init", "d"], b"", fresh, ("write",), fits_print),
    Scene("init, its input closed", ["init", "d"], b"", fresh, ("fcntl",), fits_init, closed=True),
    Scene("an opening", ["run", "d"], b"", filled, DISK, fits_opening),
    Scene("two puts", ["run", "d"], PUTS, made, DISK, fits_puts),
    Scene("their streams", ["run", "d"], PUTS, made, STREAMS, fits_streams),
    Scene("init, interrupted", ["init", "d"], b"", fresh, SLOW, fits_interrupted_init, error="EINTR"),
    Scene("two puts, interrupted", ["run", "d"], PUTS, made, SLOW, fits_interrupted_puts, error="EINTR"),
)


def ends_well(scene, call, number, done):
    """Whether the failure was told, and the program ended as it should."""
    told = done.stderr.startswith(b"docdb: ") and done.stderr.endswith(b"Input/output error (os error 5)\n")
    return (told or scene.error != "EIO") and scene.fits(done, call, number)


def try_call(scene, call, number, skipped):
    """Whether there was such a call to fail, and whether all went well."""
    scene.prepare()
    inject = "inject=%s:error=%s:when=%d" % (call, scene.error, skipped + number)
    try:
        calls, done = traced(scene, ["-e", "trace=" + call, "-e", inject])
        if not any("(INJECTED)" in line for line in calls):
            return False, True
        if ends_well(scene, call, number, done):
            return True, True
    except subprocess.TimeoutExpired as error:
        print("  %s %d: no end in %d seconds: %s" % (call, number, SECONDS, error.cmd))
        return True, False
    print("  %s %d: status %d, %r, %r" % (call, number, done.returncode, done.stdout, done.stderr))
    return True, False


def try_calls(scene, call):
    """How many calls of this name were failed, and how many of them ended otherwise than they should."""
    skipped = before_ours(scene, call)
    wrong = 0
    for number in itertools.count(1):
        if number > MOST:
            print("  %s: more than %d calls, and the rest wasn't tried" % (call, MOST))
            return MOST, wrong + 1
        was_made, is_well = try_call(scene, call, number, skipped)
        if not was_made:
            return number - 1, wrong
        wrong += not is_well


def main():
    tried, wrong = dict.fromkeys(CALLS, 0), 0
    with tempfile.TemporaryDirectory() as work:
        os.chdir(work)
        for scene in SCENES:
            counts = {call: try_calls(scene, call) for call in scene.calls}
            shown = ", ".join("%s %d" % (call, count) for call, (count, _) in counts.items() if count)
            print("%-22s %s in turn: %s" % (scene.name, scene.error, shown or "nothing"), flush=True)
            for call, (count, bad) in counts.items():
                tried[call] += count
                wrong += bad
        os.chdir("/")
    unmade = [call for call, count in tried.items() if not count]
    if unmade:
        print("no scene makes: %s" % ", ".join(unmade))
    print("%d faults, %d of them ended otherwise than they should" % (sum(tried.values()), wrong))
    sys.exit(1 if wrong else 0)


main()
