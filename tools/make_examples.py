#!/usr/bin/env python3
"""Writes the sheets of examples/ and what `silk` prints for them (by the Python model)."""

import os
import random

import silk

HERE = os.path.dirname(os.path.abspath(__file__))
EMPTY = -1
TILE_H, TILE_W = 13, 12

# One runner, 12 x 10 cells: c cap, f face, s sleeve, j jacket, b breeches, a boot, u cap button.
FIGURE = [
    "....uu....",
    "...cccc...",
    "..cccccc..",
    "...ffff...",
    "..jjjjjj..",
    ".sjjjjjjs.",
    ".sjjjjjjs.",
    ".ssjjjjss.",
    "...jjjj...",
    "...bbbb...",
    "...b..b...",
    "...a..a...",
]


def colours(*texts):
    return list(texts)


def runner(sheet, top, left, paint, pattern):
    """Draws a figure; `paint` gives an index for each letter, `pattern` the jacket's second index."""
    for y, line in enumerate(FIGURE):
        for x, letter in enumerate(line):
            if letter == "." or (letter == "u" and x != 4):
                continue
            index = paint[letter]
            if letter == "j" and pattern(y - 4, x - 2):
                index = paint["p"]
            sheet[top + y][left + x] = index


def hoops(y, x):
    return y % 2 == 1


def halves(y, x):
    return x >= 3


def quarters(y, x):
    return (y >= 2) != (x >= 3)


def plain(y, x):
    return False


def sash(y, x):
    """A line along the diagonal with one doubled corner."""
    return (y, x) in {(0, 0), (1, 1), (1, 2), (2, 2), (3, 3), (4, 4)}


def spots(y, x):
    return (y, x) in {(1, 1), (1, 4), (3, 2)}


def specks(sheet, rng, count, indices):
    """Single cells of other indices on the figures, as dirt in a scan."""
    places = [(y, x) for y, line in enumerate(sheet) for x, c in enumerate(line) if c >= 0]
    for y, x in rng.sample(places, count):
        sheet[y][x] = rng.choice(indices)


def text(sheet, palette, **settings):
    """The program's input."""
    values = {
        "height": len(sheet), "width": len(sheet[0]), "colours": len(palette), "beta": 100,
        "orphans": 1, "min": 2, "delta": 25, "jaggies": 1, "outline": "auto", "darken": 50,
        "tileset": 0, "margin": 1, "saturated": 0, "fixed": 0,
    }
    values.update(settings)
    lines = [f"{key}={value}" for key, value in values.items()]
    lines += [f"colour={c}" for c in palette]
    lines += ["row=" + ",".join(map(str, line)) for line in sheet]
    return "".join(line + "\n" for line in lines)


def blank(h, w):
    return [[EMPTY] * w for _ in range(h)]


PAINT = [
    {"c": 0, "s": 0, "j": 0, "p": 1}, {"c": 1, "s": 0, "j": 0, "p": 1},
    {"c": 2, "s": 3, "j": 2, "p": 3}, {"c": 3, "s": 3, "j": 3, "p": 2},
    {"c": 4, "s": 5, "j": 4, "p": 5}, {"c": 5, "s": 4, "j": 4, "p": 5},
]
SKIN = {"f": 6, "b": 7, "a": 8, "u": 9}
# brown and a brown near it, two greens, two blues; face, breeches, boots, the white button
SILKS = colours("6b4423", "7a5230", "1f6b3a", "2b7a46", "23408e", "2f4c9c",
                "d8a37c", "e8e4d8", "20180f", "ffffff")


def card():
    """Six runners in two rows, specks of near colours, white buttons on dark caps."""
    sheet, rng = blank(2 * TILE_H, 3 * TILE_W), random.Random(1)
    patterns = [hoops, quarters, plain, halves, spots, sash]
    for i, pattern in enumerate(patterns):
        top, left = i // 3 * TILE_H, i % 3 * TILE_W + 1
        runner(sheet, top + 1 if i < 3 else top, left, {**PAINT[i], **SKIN}, pattern)
    specks(sheet, rng, 24, range(6))
    return text(sheet, SILKS, min=3)


def sashes():
    """Four jackets as large fields with diagonal sashes whose corners are doubled."""
    sheet = blank(20, 36)
    for i in range(4):
        left = 9 * i
        for y in range(2, 18):
            for x in range(left, left + 8):
                sheet[y][x] = 2 * (i % 3)
        y, x, down = (3, left, 1) if i % 2 == 0 else (16, left, -1)
        while x < left + 8 and 2 <= y < 18:
            sheet[y][x] = 2 * (i % 3) + 1
            if (x - left) % 4 == 2 and x + 1 < left + 8:
                x += 1
                sheet[y][x] = 2 * (i % 3) + 1
                y += down
                sheet[y][x] = 2 * (i % 3) + 1
            x, y = x + 1, y + down
    return text(sheet, SILKS, outline="#101418", darken=0, tileset=1, min=1, delta=40)


def edge():
    """Figures that reach the sheet's edge: the sheet grows by one cell on every side."""
    sheet, rng = blank(40, 40), random.Random(3)
    for i in range(12):
        top, left = i // 4 * TILE_H + i // 8, i % 4 * 10
        pattern = [hoops, plain, spots, quarters][i % 4]
        runner(sheet, top, left, {**PAINT[(i * 5) % 6], **SKIN}, pattern)
    for y in range(12, 40, 13):
        for x in range(40):
            sheet[y][x] = 8
    specks(sheet, rng, 60, range(9))
    return text(sheet, SILKS, beta=115, margin=0, min=4, delta=30, darken=40)


def fixed():
    """A fixed palette of sixteen hardware colours; transparent cells of several numbers; clipped."""
    palette = colours("000000", "9d9d9d", "ffffff", "be2633", "e06f8b", "493c2b", "a46422", "eb8931",
                      "f7e26b", "2f484e", "44891a", "a3ce27", "1b2632", "005784", "31a2f2", "b2dcef")
    sheet, rng = blank(26, 24), random.Random(4)
    paint = [{"c": 3, "s": 3, "j": 3, "p": 8}, {"c": 13, "s": 14, "j": 13, "p": 14},
             {"c": 10, "s": 11, "j": 10, "p": 11}, {"c": 5, "s": 6, "j": 5, "p": 6}]
    for i, pattern in enumerate([hoops, halves, sash, spots]):
        figure = {**paint[i], "f": 7, "b": 2, "a": 12, "u": 2}
        runner(sheet, i // 2 * TILE_H + 1, i % 2 * 14, figure, pattern)
    specks(sheet, rng, 20, range(16))
    for y, line in enumerate(sheet):
        for x, c in enumerate(line):
            if c < 0 and (y + x) % 7 == 0:
                line[x] = -2 - (y % 3)
    return text(sheet, palette, beta=130, fixed=1, tileset=1, margin=0, min=3, delta=35, darken=100)


if __name__ == "__main__":
    folder = os.path.join(HERE, "../examples")
    os.makedirs(folder, exist_ok=True)
    for make in [card, sashes, edge, fixed]:
        data = make().encode()
        for ending, content in [("txt", data), ("out", silk.silk(data))]:
            with open(os.path.join(folder, f"{make.__name__}.{ending}"), "wb") as file:
                file.write(content)
