"""Draws lines of every form, lets docdb answer them, and tells each reply that the rules alone give otherwise.

    python3 bench/lines.py [--seed N] [--count N] [--built FORM,..] -- ./docdb run d

Behind `--` stand the words of the program, which reads lines and writes replies. The seed is printed, and gives the same
lines again. The rules stand in plain_lines.py and below it: they share no code with docdb. Words are by the categories of
python3's unicodedata, so letters that are drawn are those on which its tables and the program's agree.
"""

import argparse
import subprocess
import sys
import time

import plain_lines
from drawing import Draw

TOLD = 20


def script(seed, count):
    """So many lines; some end with a carriage return too, and the last may have no line feed."""
    draw = Draw(seed)
    ends = lambda: b"\r\n" if draw.seldom(20) else b"\n"
    data = b"".join(draw.line() + ends() for _ in range(count))
    return data + draw.choice([b"", b"stamp", b"stamp\r", b"quit\n"])


def take(lines, at):
    """The lines of one reply from here on."""
    head = lines[at] if at < len(lines) else b"(nothing)"
    words = head.split(b" ")
    rows = 1
    if words[0] == b"found" and len(words) == 6 and words[1].isdigit():
        rows = int(words[1]) + 2
    elif words[0] == b"doc" and len(words) == 6:
        rows = 4
    return lines[at : at + rows] or [head]


def shown(data):
    text = data.decode("utf-8", "backslashreplace")
    return text if len(text) < 400 else text[:400] + f".. ({len(data)} bytes)"


def compare(data, output, built):
    """How many lines were served, and how many of them were answered otherwise."""
    lines = output.split(b"\n")
    if lines.pop() != b"":
        print("the last reply has no line feed")
    at, served, differ = 0, 0, 0
    for line, wanted in plain_lines.replies(data, built):
        served += 1
        if not wanted:
            continue
        found = take(lines, at)
        at += len(found)
        if found != wanted:
            differ += 1
            if differ <= TOLD:
                print(f"line {served}: {shown(line)}")
                print(f"  by the rules {shown(b' / '.join(wanted))}\n  by docdb     {shown(b' / '.join(found))}")
    if at < len(lines):
        differ += 1
        print(f"{len(lines) - at} lines of replies are left, the first: {shown(lines[at])}")
    return served, differ


def main():
    parser = argparse.ArgumentParser(description=__doc__.split("\n")[0])
    parser.add_argument("--seed", type=int, default=time.time_ns() % 2**31)
    parser.add_argument("--count", type=int, default=5_000)
    parser.add_argument("--built", help="the forms that aren't answered with later, with commas between them")
    parser.add_argument("--print", action="store_true", help="prints the lines alone")
    parser.add_argument("command", nargs="*")
    asked = parser.parse_args()
    data = script(asked.seed, asked.count)
    if asked.print:
        sys.stdout.buffer.write(data)
        return
    built = set(asked.built.split(",")) if asked.built else plain_lines.BUILT
    print(f"seed {asked.seed}, {asked.count} lines")
    run = subprocess.run(asked.command, input=data, stdout=subprocess.PIPE)
    served, differ = compare(data, run.stdout, built)
    print(f"lines {served}, differ {differ}, status {run.returncode}")
    sys.exit(1 if differ or run.returncode else 0)


if __name__ == "__main__":
    main()
