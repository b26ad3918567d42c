#!/usr/bin/env python3
"""Compares a program with the model on random traces.   check.py FIRST LAST LINES COMMAND [ARGUMENT ..]

Seeds FIRST to LAST, each a trace of so many lines. For the program of this repository, once ./run has built it:
    python3 model/check.py 1 100 400 ./run -
"""

import subprocess
import sys

import gen
import replay

def first_difference(got, want):
    a, b = got.split(b"\r\n"), want.split(b"\r\n")
    for n in range(max(len(a), len(b))):
        x, y = a[n] if n < len(a) else None, b[n] if n < len(b) else None
        if x != y:
            return "output line %d (from 0): got %r, expected %r" % (n, x, y)
    return "?"


def one(name, text, want, command):
    done = subprocess.run(command, input=text, stdout=subprocess.PIPE)
    if done.returncode != 0:
        print("%s: exit %d" % (name, done.returncode))
        return False
    if done.stdout != want:
        print("%s: %s" % (name, first_difference(done.stdout, want)))
        return False
    return True


def main():
    if len(sys.argv) < 5:
        sys.exit(__doc__)
    first, last, lines = map(int, sys.argv[1:4])
    command = sys.argv[4:]
    good = 0
    for seed in range(first, last + 1):
        text = gen.Gen(seed).trace(lines)
        good += one("seed %d" % seed, text, replay.replay(text), command)
        print("\r%d of %d agree" % (good, seed - first + 1), end="", flush=True)
    print()
    sys.exit(0 if good == last - first + 1 else 1)


if __name__ == "__main__":
    main()
