#!/usr/bin/env python3
"""Runs a program on the cases of crates/vectors_silk and on examples/: check_silk.py [PROGRAM [ARGUMENT...]], none: the model (silk.py).

Prints each input whose output is another than the stored one, and how many were tried.
"""

import glob
import os
import re
import subprocess
import sys

import silk

ROOT = os.path.join(os.path.dirname(os.path.abspath(__file__)), "..")


def unquoted(line):
    line = re.sub(r"<(.)\*(\d{6})>", lambda run: run[1] * int(run[2]), line)
    return re.sub(r"\\(n|x..)", lambda c: chr(10 if c[1] == "n" else int(c[1][1:], 16)), line).encode("latin-1")


def cases():
    with open(os.path.join(ROOT, "crates/vectors_silk/data/silk_cases.txt"), encoding="ascii") as file:
        lines = file.read().splitlines()
    for i in range(0, len(lines), 3):
        yield lines[i][2:], unquoted(lines[i + 1]), unquoted(lines[i + 2])
    for path in sorted(glob.glob(os.path.join(ROOT, "examples/*.txt"))):
        with open(path, "rb") as file, open(path[:-3] + "out", "rb") as out:
            yield os.path.basename(path), file.read(), out.read()


def output(program, data):
    if not program:
        return silk.silk(data)
    return subprocess.run(program, input=data, stdout=subprocess.PIPE, check=False).stdout


def main(program):
    tried, differing = 0, 0
    for name, data, expected in cases():
        printed = output(program, data)
        tried += 1
        if printed != expected:
            differing += 1
            print(f"{name}: printed {printed[:200]!r}, stored {expected[:200]!r}")
    print(f"{tried} inputs, {differing} differ")
    return 1 if differing else 0


if __name__ == "__main__":
    sys.exit(main(sys.argv[1:]))
