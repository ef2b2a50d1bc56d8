#!/usr/bin/env python3
"""Wrong rules that the stored answers have to notice: mutants.py

Each is the model with one place changed, among them every error that the specification says this
code invites. Prints how many stored answers of the entry differ, and fails if some wrong rule
passes them all.
"""

import os
import sys
import types

import check_vectors

HERE = os.path.dirname(os.path.abspath(__file__))

# entry, name, old text, new text
MUTANTS = [
    ("remove_orphans", "small regions vote",
     "for q in neighbours(p, h, w, EIGHT) if q in large}",
     "for q in neighbours(p, h, w, EIGHT) if cells[q] >= 0 and q not in region}"),
    ("remove_orphans", "a shared neighbour counts twice",
     "beside = {q for p in region for q in neighbours(p, h, w, EIGHT) if q in large}",
     "beside = [q for p in region for q in neighbours(p, h, w, EIGHT) if q in large]"),
    ("remove_orphans", "frozen cells thaw", "frozen.update(region)", "pass"),
    ("remove_orphans", "indices checked at region limit 1", "limit >= 2 and any", "any"),
    ("remove_orphans", "ties go to the highest index",
     "c) for c in votes if votes[c] == most)",
     "-c) for c in votes if votes[c] == most); target = -target"),
    ("remove_orphans", "any voted index", "for c in votes if votes[c] == most)", "for c in votes)"),
    ("remove_orphans", "the colour limit included", "if away < delta:", "if away <= delta:"),
    ("remove_orphans", "a region of the limit's size is small",
     "if len(region) >= limit:", "if len(region) > limit:"),
    ("remove_orphans", "reading what this pass painted",
     "own = palette[cells", "cells = after; own = palette[cells"),
    ("remove_orphans", "passes that repaint nothing count",
     "            break\n        cells, count", "            return cells, count + 1\n        cells, count"),
    ("fix_jaggies", "corners tested on replaced cells",
     "return cells[y * w + x] if", "return after[y * w + x] if"),
    ("fix_jaggies", "no arm goes on", "(sy, 0), (-sy, 2 * sx), (2 * sy, -sx)]", "(sy, 0)]"),
    ("fix_jaggies", "one arm goes on", "(-sy, 2 * sx), (2 * sy, -sx)]", "(-sy, 2 * sx)]"),
    ("add_outline", "the nearest entry by squares",
     "first_least([distance(c, line)", "first_least([square(c, line)"),
    ("add_outline", "the ring by eight neighbours",
     "for q in neighbours(p, h, w, FOUR))]", "for q in neighbours(p, h, w, EIGHT))]"),
    ("add_outline", "the last darkest entry",
     "palette[first_least([c[0] for c in palette])]",
     "palette[-1 - first_least([c[0] for c in reversed(palette)])]"),
    ("add_outline", "the same entry by its doubles", "if rgb_of(c) == rgb_of(line)]", "if c == line]"),
    ("add_outline", "darkening checked without auto", "refuse(6, kind == AUTO and", "refuse(6,"),
    ("run", "five passes in the second cleaning", "entries, limit, 1, delta)", "entries, limit, 5, delta)"),
    ("run", "the second cleaning only with a ring",
     "        if orphans:\n            sheet, second", "        if orphans and index is not None:\n            sheet, second"),
    ("run", "saturated palettes saturated again", "if not fixed and not saturated:", "if not fixed:"),
    ("run", "the margin ignored", "pad = not tileset and margin == 0", "pad = not tileset"),
    ("run", "work area for the sheet before padding", "refuse(3, work < 8 * needed)", "refuse(3, work < 8)"),
    ("apply_saturation", "products not checked", "refuse(6, beyond(c[1] * beta) or beyond(c[2] * beta))", "pass"),
    ("label_regions", "four neighbours", "steps=EIGHT", "steps=FOUR"),
    ("binary_dilation8", "0 means 0", "by = k or max(h, w)", "by = k"),
    ("nearest_index", "by distances", "first_least([square(p, c)", "first_least([distance(p, c)"),
    ("rgb8_to_lab", "the cube root by a power", "cube_root(t) if", "t ** (1 / 3) if"),
    ("lab_to_rgb8", "a threshold itself is below", "bisect_right(THRESHOLDS, c)", "sum(t < c for t in THRESHOLDS)"),
    ("lab_to_rgb8", "z below zero kept", "if z < 0.0:", "if False:"),
    ("delta_e", "4 before 2", "refuse(2, len(out) < len(a) // 3)", "refuse(4, len(a) % 3 != 0)"),
]


def noticed(entry, model):
    """How many stored answers of the entry the wrong model misses."""
    check_vectors.model = model
    count = 0
    with open(check_vectors.stored(entry), encoding="ascii") as file:
        for line in file:
            try:
                count += check_vectors.replay(entry, line.split()[1:]) is not None
            except (IndexError, KeyError, AssertionError):
                count += 1
    return count


def main():
    with open(os.path.join(HERE, "model.py"), encoding="ascii") as file:
        source = file.read()
    passed = 0
    for entry, name, old, new in MUTANTS:
        assert old in source, name
        model = types.ModuleType("mutant")
        exec(compile(source.replace(old, new), name, "exec"), model.__dict__)  # pylint: disable=exec-used
        count = noticed(entry, model)
        passed += count == 0
        print(f"{entry}, {name}: {count} answers differ")
    print(f"{len(MUTANTS)} wrong rules, {passed} unnoticed")
    return 1 if passed else 0


if __name__ == "__main__":
    sys.exit(main())
