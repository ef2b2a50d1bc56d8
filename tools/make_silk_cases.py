#!/usr/bin/env python3
"""Writes crates/vectors_silk/data/silk_cases.txt: inputs of the program `silk` and what it has to print.

Three lines a case: its name after '# ', the input, the output; vectors/README.md says how bytes are
written. The program vectors_silk replays them, and so does `check_silk.py PROGRAM`.
"""

import os
import random
import re

import silk

HERE = os.path.dirname(os.path.abspath(__file__))

BASE = [
    "height=3", "width=3", "colours=2", "beta=100", "orphans=1", "min=2", "delta=25", "jaggies=0",
    "outline=none", "darken=0", "tileset=0", "margin=0", "saturated=0", "fixed=0",
    "colour=000000", "colour=101010", "row=0,0,0", "row=0,1,0", "row=0,0,0",
]
KEYS = [line.split("=")[0] for line in BASE]
SWITCHES = ["orphans", "jaggies", "tileset", "saturated", "fixed"]
NUMBERS = ["height", "width", "colours", "beta", "min", "delta", "darken", "margin"]

CASES = []


def add(name, lines, tail=""):
    """A case of whole lines, text after them unended."""
    data = "".join(line + "\n" for line in lines) + tail
    add_bytes(name, data.encode("latin-1"))


def add_bytes(name, data):
    CASES.append((name, data, silk.silk(data)))


def changed(**values):
    """The base text with other values; `colour` and `row` lists replace those lines."""
    rows = values.pop("row", [line[4:] for line in BASE if line.startswith("row=")])
    colours = values.pop("colour", [line[7:] for line in BASE if line.startswith("colour=")])
    heads = [f"{key}={values.pop(key, line.split('=', 1)[1])}"
             for key, line in zip(KEYS[:14], BASE)]
    assert not values
    return heads + [f"colour={c}" for c in colours] + [f"row={r}" for r in rows]


def at(place, line):
    return BASE[:place] + ([] if line is None else [line]) + BASE[place + 1:]


def malformed():
    for place in list(range(15)) + [16]:
        key, value = BASE[place].split("=")
        name = f"line {place + 1} ({key})"
        add(f"{name}: missing", at(place, None))
        add(f"{name}: twice", BASE[:place + 1] + BASE[place:])
        add(f"{name}: another key", at(place, "x" + BASE[place]))
        add(f"{name}: key in capitals", at(place, f"{key.upper()}={value}"))
        add(f"{name}: no equals sign", at(place, key + value))
        add(f"{name}: key alone", at(place, key))
        add(f"{name}: empty value", at(place, key + "="))
        add(f"{name}: empty line", at(place, ""))
        add(f"{name}: space before the key", at(place, " " + BASE[place]))
        add(f"{name}: space before the value", at(place, f"{key}= {value}"))
        add(f"{name}: space after the value", at(place, BASE[place] + " "))
        add(f"{name}: carriage return", at(place, BASE[place] + "\r"))
        add(f"{name}: zero byte after the value", at(place, BASE[place] + "\0"))
        add(f"{name}: text ends within it", BASE[:place], BASE[place])
        add(f"{name}: text ends before it", BASE[:place])
    for key in NUMBERS + SWITCHES:
        place = KEYS.index(key)
        for value in ["00", "01", "-0", "-1", "+1", "a", "1a", "1/", "1:", "1234567890"]:
            add(f"{key}={value}", at(place, f"{key}={value}"))
    for key in SWITCHES:
        for value in ["2", "9", "10", "255", "256", "yes"]:
            add(f"{key}={value}", at(KEYS.index(key), f"{key}={value}"))
    for key in NUMBERS:
        add(f"{key}=999999999", at(KEYS.index(key), f"{key}=999999999"))
    add_bytes("empty input", b"")
    add_bytes("one line end", b"\n")
    add_bytes("carriage returns throughout", "".join(s + "\r\n" for s in BASE).encode())


def limits():
    add("example", BASE)
    for beta in [0, 1, 99, 130, 1600, 1601]:
        add(f"beta {beta}", changed(beta=beta, colour=["803020", "204080"]))
    add("saturation beyond 1024", changed(beta=1600, colour=["ff0000", "0000ff"]))
    add("saturation beyond 1024, saturated", changed(beta=1600, saturated=1, colour=["ff0000", "0000ff"]))
    add("saturation beyond 1024, fixed", changed(beta=1600, fixed=1, colour=["ff0000", "0000ff"]))
    add("beta 1601, fixed", changed(beta=1601, fixed=1))
    for delta in [0, 5, 1024, 1025]:
        add(f"delta {delta}", changed(delta=delta))
    add("delta 1025, orphans off", changed(delta=1025, orphans=0))
    for minimum in [0, 1, 2, 9, 10]:
        add(f"min {minimum}", changed(min=minimum))
    for darken in [0, 50, 100, 101]:
        add(f"auto, darken {darken}", changed(outline="auto", darken=darken))
        add(f"hex, darken {darken}", changed(outline="ff8000", darken=darken))
    add("none, darken 999999999", changed(darken=999999999))
    add("none, darken malformed", changed(darken="x"))
    for margin in [0, 1, 999999999]:
        add(f"auto, margin {margin}", changed(outline="auto", margin=margin))
    add("auto, tileset", changed(outline="auto", tileset=1))
    add("auto, fixed", changed(outline="auto", fixed=1, darken=50))
    add("height 0", changed(height=0, row=[]))
    add("height 0, a row", changed(height=0, row=["0,0,0"]))
    add("width 0", changed(width=0, row=["", "", ""]))
    add("width 0, a cell", changed(width=0, row=["", "0", ""]))
    add("height and width 0, no colours", changed(height=0, width=0, colours=0, colour=[], row=[], outline="auto"))
    forty = [",".join(str((x * y) % 2) for x in range(40)) for y in range(40)]
    add("40 x 40", changed(height=40, width=40, row=forty, min=4))
    add("40 x 40, padded", changed(height=40, width=40, row=forty, min=4, outline="auto", darken=100))
    add("40 x 1", changed(height=40, width=1, row=["0"] * 40))
    add("1 x 40", changed(height=1, width=40, row=forty[:1]))
    add("height 41", changed(height=41))
    add("width 41", changed(width=41))
    add("height 41, 257 colours", changed(height=41, colours=257))
    add("height 41, text ends after fixed", changed(height=41)[:14])
    add("height 41, fixed unended", changed(height=41)[:13], "fixed=0")
    add("height 41, fixed malformed", changed(height=41, fixed=2))
    add("height 41, outline no colour", changed(height=41, outline="x"))
    add("height 41, a colour that is none", changed(height=41, colour=["x"]))
    add("257 colours, text ends after fixed", changed(colours=257)[:14])
    add("257 colours, fixed unended", changed(colours=257)[:13], "fixed=0")
    many = [f"{i:02x}{255 - i:02x}80" for i in range(256)]
    add("256 colours", changed(colours=256, colour=many, row=["255,0,0", "0,128,0", "0,0,-1"]))
    add("256 colours, outline overwrites", changed(colours=256, colour=many, outline="010203", row=["-1,-1,-1", "-1,7,-1", "-1,-1,-1"]))
    add("255 colours, outline appends", changed(colours=255, colour=many[:255], outline="010203", row=["-1,-1,-1", "-1,7,-1", "-1,-1,-1"]))
    add("257 colours", changed(colours=257, colour=many + ["000000"]))
    add("0 colours, cells transparent", changed(colours=0, colour=[], row=["-1,-1,-1"] * 3, outline="auto"))
    add("0 colours, a cell, orphans on: 7 before 8", changed(colours=0, colour=[], outline="auto"))
    add("0 colours, a cell, orphans off, auto", changed(colours=0, colour=[], outline="auto", orphans=0))
    add("0 colours, a cell, orphans off, hex", changed(colours=0, colour=[], outline="ff8000", orphans=0))
    add("0 colours, a cell, orphans off, hex, fixed", changed(colours=0, colour=[], outline="ff8000", orphans=0, fixed=1))
    add("row 0,-1, auto, orphans off, no colours", changed(height=1, width=2, colours=0, colour=[], outline="auto", orphans=0, tileset=1, row=["0,-1"]))
    add("cell 2 of 2 colours", changed(row=["0,0,0", "0,2,0", "0,0,0"]))
    add("cell 2 of 2 colours, orphans off", changed(orphans=0, row=["0,0,0", "0,2,0", "0,0,0"]))
    add("cell 2 of 2 colours, min 1", changed(min=1, row=["0,0,0", "0,2,0", "0,0,0"]))
    add("cell 999999999, orphans off", changed(orphans=0, row=["0,0,0", "0,999999999,0", "0,0,0"]))
    add("6 before 7", changed(delta=1025, row=["0,0,0", "0,2,0", "0,0,0"]))


def colours_and_rows():
    for value in ["#101010", "##101010", " 101010", "101010 ", "\t101010\v\f", "101010\r", " ##101010 ",
                  "aBcDeF", "ABCDEF", "10101", "1010101", "10101g", "# 101010", "#", "", "101 010",
                  "\xc2\xa0101010", "101010\0", "\x1c101010", "101010#", "0x1010", "+10101", "10101/",
                  "10101:", "10101@", "10101G", "10101`"]:
        add(f"colour={value!a}", changed(colour=["000000", value]))
        add(f"outline={value!a}", changed(outline=value, row=["-1,-1,-1", "-1,0,-1", "-1,-1,-1"]))
    for value in ["None", "AUTO", "none ", " none", "auto\r", "none\r", "nonee", "aut", "no"]:
        add(f"outline={value!a}", changed(outline=value))
    add("colour unended", BASE[:14], "colour=000000")
    add("no colour, unended", BASE[:14], "colour=x")
    add("outline unended, no colour", BASE[:8], "outline=x")
    add("9 then 10", changed(colour=["x", "101010"], row=["x"] * 3))
    add("10 then 9", changed(darken="x", colour=["x", "101010"]))
    add("9 of the outline before 10", changed(outline="x", darken="x"))
    for value in ["0,0", "0,0,0,0", "0,0,", ",0,0", "0,,0", "", "0 ,0,0", "0, 0,0", "0;0;0", "0,0,0,",
                  "-0,0,0", "00,0,0", "01,0,0", "-01,0,0", "--1,0,0", "-,0,0", "0-,0,0", "+0,0,0",
                  "0,0,0\r", "1234567890,0,0", "-1234567890,0,0", "0,0,x", "0.0,0"]:
        add(f"row={value!a}", changed(row=["0,0,0", value, "0,0,0"]))
    add("cells -1 and other negative ones", changed(row=["-1,-2,-999999999", "0,0,-7", "0,1,0"], outline="auto"))
    add("bytes after the last row: a line end", BASE + [""])
    add("bytes after the last row: a zero byte", BASE, "\0")
    add("bytes after the last row: a row", BASE + ["row=0,0,0"])
    add("bytes after the last row, and 7", changed(row=["0,0,0", "0,2,0", "0,0,0"]), "x")
    add("bytes after the last row, and 6", changed(delta=1025), "x")
    add("last line end missing", BASE[:-1], BASE[-1])
    add("one row too few", BASE[:-1])
    add("7 and the last row malformed", changed(row=["0,2,0", "0,0,0", "0,0"]))


def long_inputs():
    """Spaces of a colour line bring the text to the length wanted."""
    for length in [65535, 65536, 65537, 70000]:
        short = sum(len(line) + 1 for line in BASE)
        add(f"{length} bytes", changed(colour=["000000" + " " * (length - short), "101010"]))
    short = sum(len(line) + 1 for line in BASE)
    add("65536 bytes and one more after the last row", changed(colour=["000000" + " " * (65536 - short), "101010"]), "x")
    add("65537 bytes, the line end of a colour line is the last", BASE[:14] + ["colour=" + " " * (65536 - 6 - 7 - sum(len(s) + 1 for s in BASE[:14])) + "000000"])
    before = sum(len(line) + 1 for line in BASE[:14]) + len("colour=")
    for end in [65536, 65537]:
        add(f"no colour, its line end is byte {end}", BASE[:14] + ["colour=" + " " * (end - 1 - before)] + BASE[15:])
    add("65536 bytes without a line end", [], "h" * 65536)
    add("70000 bytes, 9 early", changed(outline="x", colour=["000000" + " " * (70000 - short), "101010"]))
    add("70000 bytes, height 41", changed(height=41, colour=["000000" + " " * (70000 - short), "101010"]))


def random_sheets():
    rng = random.Random(40)
    for number in range(60):
        h, w, k = rng.randrange(1, 9), rng.randrange(1, 9), rng.randrange(1, 5)
        dark = 40 if rng.random() < 0.3 else 256
        colours = ["".join(f"{rng.randrange(dark):02x}" for _ in range(3)) for _ in range(k)]
        rows = [",".join(str(rng.choice([rng.randrange(-1, k), 0])) for _ in range(w)) for _ in range(h)]
        line = "".join(f"{rng.randrange(dark):02x}" for _ in range(3))
        add(f"sheet {number}", changed(
            height=h, width=w, colours=k, beta=rng.choice([0, 80, 100, 120, 300]),
            orphans=rng.choice([0, 1, 1, 1]), min=rng.choice([1, 2, 2, 3, 4]),
            delta=rng.choice([0, 10, 25, 60, 1024]), jaggies=rng.randrange(2),
            outline=rng.choice(["none", "auto", "auto", line, "#" + rng.choice(colours)]),
            darken=rng.choice([0, 25, 50, 100]), tileset=rng.choice([0, 0, 1]),
            margin=rng.choice([0, 0, 1]), saturated=rng.randrange(2), fixed=rng.choice([0, 0, 1]),
            colour=colours, row=rows))


def quoted(data):
    """Line ends as \\n, other bytes that do not print as \\xHH, long runs counted."""
    text = "".join(
        "\\n" if c == 10 else chr(c) if 32 <= c < 127 and c not in b"\\<" else f"\\x{c:02x}" for c in data)
    return re.sub(r"([ h])\1{99,}", lambda run: f"<{run[1]}*{len(run[0]):06}>", text)


if __name__ == "__main__":
    limits()
    malformed()
    colours_and_rows()
    random_sheets()
    long_inputs()
    with open(os.path.join(HERE, "../crates/vectors_silk/data/silk_cases.txt"), "w", encoding="ascii") as file:
        for name, data, out in CASES:
            file.write(f"# {quoted(name.encode())}\n{quoted(data)}\n{quoted(out)}\n")
    print(len(CASES), "cases")
