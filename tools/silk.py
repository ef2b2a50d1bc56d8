#!/usr/bin/env python3
"""The program `silk` on the Python model: standard input to standard output.

Written from the specification document alone, to be held against the program.
"""

import sys

import model
from model import AUTO, NONE, TRIPLE, Refused, refuse

LIMIT = 65536
SIDE = 40
SWITCH = "switch"
NUMBER = "number"
HEADS = [
    ("height", NUMBER), ("width", NUMBER), ("colours", NUMBER), ("beta", NUMBER),
    ("orphans", SWITCH), ("min", NUMBER), ("delta", NUMBER), ("jaggies", SWITCH),
    ("outline", "outline"), ("darken", NUMBER), ("tileset", SWITCH), ("margin", NUMBER),
    ("saturated", SWITCH), ("fixed", SWITCH),
]


class Text:
    """The input, read line by line."""

    def __init__(self, data):
        self.data, self.place = data[:LIMIT], 0

    def value(self, key):
        """The value of the next line, which has to have this key."""
        end = self.data.find(b"\n", self.place)
        refuse(10, end < 0)
        line = self.data[self.place:end]
        self.place = end + 1
        refuse(10, not line.startswith(key.encode() + b"="))
        return line[len(key) + 1:]

    def ended(self, data):
        return self.place == len(data)


def number(value, signed=False):
    digits = value[1:] if signed and value.startswith(b"-") else value
    refuse(10, not 1 <= len(digits) <= 9 or any(c not in b"0123456789" for c in digits))
    refuse(10, len(digits) > 1 and digits[:1] == b"0")
    refuse(10, digits is not value and digits == b"0")
    return int(value)


def head(kind, value):
    if kind == "outline":
        if value == b"none":
            return NONE, [0, 0, 0]
        if value == b"auto":
            return AUTO, [0, 0, 0]
        return TRIPLE, hex_colour(value)
    if kind == SWITCH:
        refuse(10, value not in (b"0", b"1"))
    return number(value)


def hex_colour(value):
    colour = model.hex_value(value)
    refuse(9, colour is None)
    return colour


def row(value, width):
    cells = [number(cell, True) for cell in value.split(b",")] if value or width else []
    refuse(10, len(cells) != width)
    return cells


def answer(data):
    text = Text(data)
    s = {key: head(kind, text.value(key)) for key, kind in HEADS}
    h, w, k = s["height"], s["width"], s["colours"]
    refuse(1, h > SIDE or w > SIDE)
    refuse(4, k > 256)
    palette = [v for _ in range(k) for v in model.lab_of(hex_colour(text.value("colour")))]
    cells = [c for _ in range(h) for c in row(text.value("row"), w)]
    refuse(10, not text.ended(data))
    needed = (h + 2) * (w + 2)
    palette += [0.0] * (768 - 3 * k)
    cells += [-1] * (needed - len(cells))
    facts = [0] * 7
    kind, rgb = s["outline"]
    refusal = model.run(
        cells, h, w, palette, k, s["beta"] / 100, s["orphans"], s["min"], float(s["delta"]),
        s["jaggies"], kind, s["darken"] / 100 if kind == AUTO else 0.0, *rgb, s["tileset"],
        s["saturated"], s["fixed"], s["margin"], 8 * needed, facts)
    refuse(refusal, refusal != 0)
    return printed(cells, palette, facts)


def printed(cells, palette, facts):
    h, w, k, index, clipped = facts[:5]
    lines = [f"height={h}", f"width={w}", f"colours={k}",
             "outline_index=" + (str(index - 1) if index else "none"), f"outline_clipped={clipped}"]
    for c in model.colours_of(palette[:3 * k]):
        lines.append("colour=" + bytes(model.rgb_of(c)).hex())
    for y in range(h):
        lines.append("row=" + ",".join(str(c) for c in cells[y * w:y * w + w]))
    return "".join(line + "\n" for line in lines).encode()


def silk(data):
    try:
        return answer(data)
    except Refused as refusal:
        return b"refused=%d\n" % refusal.args[0]


if __name__ == "__main__":
    sys.stdout.buffer.write(silk(sys.stdin.buffer.read()))
