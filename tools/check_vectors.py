#!/usr/bin/env python3
"""Replays stored answers on the model: check_vectors.py [ENTRY [FILE]], FILE '-': standard input, none: the entry's own file. Without ENTRY: all of them.

Prints each case that differs, and how many cases were tried.
"""

import glob
import os
import struct
import sys

import model

ROOT = os.path.join(os.path.dirname(os.path.abspath(__file__)), "..")

SPARE = {"bytes": 0x5A, "cells": 0x5A5A5A5A, "words": 0x5A5A5A5A, "reals": 0x5A5A5A5A5A5A5A5A}

# n: a number; i: a signed 32-bit number; f: a double; work: the work area; others: lists.
SHEET = ["cells", "n", "n"]
PALETTE = ["reals", "n"]
LINE = ["n", "f", "n", "n", "n"]
ARGUMENTS = {
    "label_regions": SHEET + ["words", "work", "words"],
    "label4": ["bytes", "n", "n", "words", "work", "words"],
    "binary_dilation8": ["bytes", "n", "n", "n", "bytes", "work"],
    "remove_orphans": SHEET + PALETTE + ["i", "n", "f", "work", "words"],
    "fix_jaggies": SHEET + ["work"],
    "add_outline": SHEET + PALETTE + LINE + ["n", "n", "work", "words"],
    "apply_saturation": PALETTE + ["f"],
    "run": SHEET + PALETTE + ["f", "n", "i", "f", "n"] + LINE + ["n", "n", "n", "i", "work", "words"],
    "rgb8_to_lab": ["bytes", "reals"],
    "lab_to_rgb8": ["reals", "bytes"],
    "delta_e": ["reals", "reals", "reals"],
    "nearest_index": ["reals", "reals", "cells"],
    "palette_distance_matrix": ["reals", "reals"],
    "hex_to_rgb8": ["bytes", "bytes"],
}


def stored(name):
    """The file of an entry's stored answers: it stands beside the program that replays it."""
    (path,) = glob.glob(os.path.join(ROOT, "crates/vectors_*/data", name + ".txt"))
    return path


def signed(n):
    return n - (1 << 32) if n >> 31 else n


def double(n):
    return struct.unpack("<d", struct.pack("<Q", n))[0]


def bits(v):
    return struct.unpack("<Q", struct.pack("<d", v))[0]


def read(kind, numbers):
    if kind == "reals" or kind == "f":
        return [double(n) for n in numbers]
    return [signed(n) for n in numbers] if kind in ("cells", "i") else numbers


def written(kind, values):
    if kind == "reals":
        return [bits(v) for v in values]
    return [v & 0xFFFFFFFF for v in values] if kind == "cells" else values


class Case:
    """The numbers of one case, taken one after another."""

    def __init__(self, words):
        self.numbers = [int(word, 16) for word in words]
        self.place = 0

    def take(self):
        self.place += 1
        return self.numbers[self.place - 1]

    def some(self):
        return [self.take() for _ in range(self.take())]


def replay(name, words):
    """None, or what differs."""
    case, kinds = Case(words), ARGUMENTS[name]
    args, before = [], []
    for kind in kinds:
        if kind in ("n", "work"):
            args.append(case.take())
        elif kind in ("i", "f"):
            args.append(read(kind, [case.take()])[0])
        else:
            length, given = case.take(), case.some()
            before.append(given + [SPARE[kind]] * (length - len(given)))
            args.append(read(kind, before[-1]))
    answer = getattr(model, name)(*args)
    expected = case.take()
    if answer != expected:
        return f"answer {answer}, stored {expected}"
    lists = [(kind, arg) for kind, arg in zip(kinds, args) if kind in SPARE]
    for number, (old, (kind, new)) in enumerate(zip(before, lists)):
        changed = case.some()
        if written(kind, new) != changed + old[len(changed):]:
            return f"list {number} is another"
    return None if case.place == len(case.numbers) else "numbers left over"


def main(name, path=None):
    tried, differing = 0, 0
    with (sys.stdin if path == "-" else open(path or stored(name), encoding="ascii")) as file:
        for line in file:
            count, *words = line.split()
            found = "wrong count" if int(count, 16) != len(words) else replay(name, words)
            tried += 1
            if found:
                differing += 1
                print(f"{name}, case {tried}: {found}\n  {line.strip()[:2000]}")
    print(f"{name}: {tried} cases, {differing} differ")
    return 1 if differing else 0


if __name__ == "__main__":
    sys.exit(main(*sys.argv[1:]) if sys.argv[1:] else max([main(name) for name in ARGUMENTS]))
