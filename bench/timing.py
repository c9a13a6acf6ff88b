"""What the scripts of this folder share: texts drawn by a fixed rule, and the times of a command."""

import os
import resource
import shutil
import subprocess
import sys
import time

ROUNDS = 3


def draws(seed):
    while True:
        seed = (seed * 1_103_515_245 + 12_345) % 2**31
        yield seed >> 16


def seconds(command, source, target):
    """By the clock on the wall, and of the processor."""
    used = resource.getrusage(resource.RUSAGE_CHILDREN)
    with open(source, "rb") as read, open(target, "wb") as written:
        start = time.perf_counter()
        status = subprocess.run(command, stdin=read, stdout=written).returncode
        end = time.perf_counter()
    if status != 0:
        sys.exit("%s ended with status %d" % (command[0], status))
    now = resource.getrusage(resource.RUSAGE_CHILDREN)
    return end - start, now.ru_utime - used.ru_utime + now.ru_stime - used.ru_stime


def best(command, source, target, prepare=lambda: None):
    rounds = []
    for _ in range(ROUNDS):
        prepare()
        rounds.append(seconds(command, source, target))
    return [min(column) for column in zip(*rounds)]


def in_memory():
    """A folder in memory, where a sync takes no time, or none where there is no such folder."""
    return "/dev/shm" if os.access("/dev/shm", os.W_OK) else None


def make(program, directory):
    """An empty database in the directory."""
    shutil.rmtree(directory, ignore_errors=True)
    subprocess.run([program, "init", directory], stdout=subprocess.DEVNULL, check=True)
