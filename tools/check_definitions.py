#!/usr/bin/env python3
"""Holds the definitions of crates/rules against the independent model (model.py) on random small sheets.

    check_definitions.py OUT [ROWS [SEED]]

writes a crate to the folder OUT whose one theorem, computed by the checker, says that cleaning, corners, outline and run
of the definitions give what the model gives, row by row. `make definitions` writes it and has it proved.
"""
import os
import random
import re
import struct
import sys

sys.path.insert(0, os.path.dirname(os.path.abspath(__file__)))
import model

CRATES = os.path.join(os.path.dirname(os.path.abspath(__file__)), "..", "crates")

# what computing by the definitions opens
OPENED = ["base/Places", "base/Outputs", "base/Doubles", "roots/Computed", "roots/Units", "channel/Channel", "color/Lab"] + [
    "rules/" + name for name in ("Sheet", "Palette", "Grid", "Regions", "Pass", "Corners", "Outline", "Run")]
IEEE = "of_int add sub mul div round lt le eq neg sum units odd size span climb of_bits of_fields to_bits"


def opened():
    """The imports, and the names that are unfolded."""
    imports, names = [], []
    for place in OPENED:
        crate, module = place.split("/")
        imports.append(f"use Rattle.{crate}.specs.{module}")
        with open(os.path.join(CRATES, crate, "specs", module + ".antt"), encoding="utf-8") as file:
            found = re.findall(r"^ *unfoldable pub ([^ ]+) ", file.read(), re.M)
        names += [f"{module}.{name}" for name in found]
    return imports, names + [f"Ieee.{name}" for name in IEEE.split()] + ["Count.count_trailing_zeros"]


def z(n):
    return f"pos {n}" if n >= 0 else f"negsuc {-n - 1}"


def lst(xs):
    return "(" + " ∷ ".join(list(xs) + ["[]"]) + ")"


def bits(x):
    return struct.unpack("<Q", struct.pack("<d", x))[0]


def dbl(x):
    return f"(of_bits binary64 {bits(x)})"


def sheet(cells, h, w):
    return f"(record {{ cells = {lst(z(c) for c in cells)}; height = {h}; width = {w} }})"


def palette(entries):
    return f"(record {{ lab = {lst(dbl(v) for c in entries for v in c)}; count = {len(entries)} }})"


def limits(region, colour):
    return f"(record {{ region = {z(region)}; colour = {dbl(colour)} }})"


def boolean(b):
    return "true" if b else "false"


def entry(index):
    return "None" if index is None else f"(Some {index})"


def numbers(*xs):
    return lst(str(int(x)) for x in xs)


def outcome(cells, lab, index, *facts):
    return f"(record {{ cells = {lst(z(c) for c in cells)}; lab = {lst(str(bits(v)) for v in lab)}; index = {entry(index)}; facts = {numbers(*facts)} }})"


def random_sheet(rng, h, w, k, low=-2):
    if rng.random() < 0.3 and h >= 4 and w >= 4:
        cells = [0] * (h * w)
        y, x = rng.randrange(h), rng.randrange(w)
        sy, sx = rng.choice((-1, 1)), rng.choice((-1, 1))
        for _ in range(8):
            if 0 <= y < h and 0 <= x < w:
                cells[y * w + x] = 1
            move = rng.randrange(3)
            y, x = (y + sy, x) if move == 0 else (y, x + sx) if move == 1 else (y + sy, x + sx)
        return cells
    return [rng.choice([rng.randrange(low, k), 0, 0]) for _ in range(h * w)]


def random_palette(rng, k):
    return [[float(rng.choice([0, 1, 2, 3, 6, 8, 20, 50, 97])) + rng.choice([0.0, 0.1]) for _ in range(3)] for _ in range(k)]


def rows(n, rng):
    kinds = ["clean"] * 5 + ["trim"] * 3 + ["outline"] * 3 + ["run"] * 4
    for i in range(n):
        kind = kinds[i % len(kinds)]
        h, w = rng.randrange(0, 5), rng.randrange(1, 6)
        if kind == "trim" or rng.random() < 0.3:
            h, w = rng.choice([(4, 4), (4, 5), (5, 4), (5, 5)])
        k = rng.randrange(2, 4)
        cells, pal = random_sheet(rng, h, w, k), random_palette(rng, k)
        region, colour = rng.choice([-3, 0, 1, 2, 2, 3, 4, 6]), rng.choice([0.0, 5.0, 25.0, 100.0, 1024.0])
        if kind == "clean":
            passes = rng.randrange(0, 5)
            after, count = model.cleaned(cells, h, w, pal, region, passes, colour)
            yield f"cleaned {passes} {palette(pal)} {limits(region, colour)} {sheet(cells, h, w)}", outcome(after, [], None, count)
        elif kind == "trim":
            yield f"trimmed {sheet(cells, h, w)}", outcome(model.cornered(cells, h, w), [], None)
        else:
            # a palette that is not fixed has the bytes of its entries worked out, which is more than one theorem may compute
            fixed = True
            if rng.random() < 0.6:
                how, darken, rgb = 1, rng.choice([0.0, 0.25, 0.5, 1.0]), [0, 0, 0]
                text = f"(Auto {dbl(darken)})"
            else:
                how, darken, rgb = 2, 0.0, [rng.randrange(256) for _ in range(3)]
                text = f"(Rgb {rgb[0]} {rgb[1]} {rgb[2]})"
            if kind == "outline":
                pad = rng.random() < 0.5
                c, hh, ww, p, index, clipped = model.outlined(cells, h, w, pal, how, darken, rgb, pad, fixed)
                yield (f"lined {boolean(pad)} {boolean(fixed)} {text} {sheet(cells, h, w)} {palette(pal + [[0.0] * 3])}".replace(f"count = {k + 1}", f"count = {k}"),
                       outcome(c, sum(p, []) + [0.0] * (3 * (k + 1 - len(p))), index, hh, ww, len(p), clipped))
            else:
                if rng.random() < 0.2:
                    how, text = 0, "Unlined"
                beta, orphans, jag = rng.choice([0.0, 1.0, 1.5]), rng.random() < 0.7, rng.random() < 0.6
                tileset, saturated, margin = rng.random() < 0.2, rng.random() < 0.3, rng.choice([0, 0, 0, 1, -1])
                lent, lab = list(cells) + [7] * (2 * h + 2 * w + 4), sum(pal, []) + [0.0] * (768 - 3 * k)
                facts = [0] * 7
                got = model.run(lent, h, w, lab, k, beta, orphans, region, colour, jag, how, darken, *rgb, tileset, saturated, fixed, margin, 8 * len(lent), facts)
                assert got == 0, got
                config = (f"(record {{ saturation_beta = {dbl(beta)}; remove_orphans = {boolean(orphans)}; orphan_min_region = {z(region)}; "
                          f"orphan_max_delta = {dbl(colour)}; fix_jaggies = {boolean(jag)}; outline = {text}; tileset = {boolean(tileset)} }})")
                hh, ww, kk, index, clipped, first, second = facts
                yield (f"ran {config} {boolean(saturated)} {boolean(fixed)} ({z(margin)}) {sheet(cells, h, w)} {palette(pal + [[0.0] * 3])}".replace(f"count = {k + 1}", f"count = {k}"),
                       outcome(lent[:hh * ww], lab[:3 * (k + 1)], None if index == 0 else index - 1, hh, ww, kk, clipped, first, second))


def main():
    out = sys.argv[1]
    n = int(sys.argv[2]) if len(sys.argv) > 2 else 60
    seed = int(sys.argv[3]) if len(sys.argv) > 3 else 1
    imports, names = opened()
    pairs = list(rows(n, random.Random(seed)))
    text = "-- The definitions against an independent model. Assumes nothing.\n" + "\n".join(imports) + """
use Rattle.std.proofs.Common.{◌≡◌, refl}
use lib.Ieee as Ieee
use lib.Count
use Rattle.std.specs.Prelude.{ℕ, ◌*◌, Bool, true, false, cond, List, [], ◌∷◌, ℤ, pos, negsuc, length, Option, None, Some}
use mathlib.Core.List.{map}
use Rattle.std.specs.Float.{binary64}
use lib.Ieee.{of_bits, to_bits}
use Rattle.rules.specs.declared.Outline.{Outline as How}
use Rattle.rules.specs.declared.Outline.TheVariants.{None as Unlined, Auto, Rgb}
use Rattle.rules.specs.declared.Limits.{Limits}
use Rattle.rules.specs.declared.PostConfig.{PostConfig}

record Shown : Type 0 where
  cells : List ℤ
  lab : List ℕ
  index : Option ℕ
  facts : List ℕ

unfoldable cleaned : ℕ → Palette.Palette → Limits → Sheet.Sheet → Shown
cleaned k p l s = let t = Run.clean_sheet k p l s in record { cells = t.sheet.cells; lab = []; index = None; facts = t.passes ∷ [] }

unfoldable trimmed : Sheet.Sheet → Shown
trimmed s = record { cells = (Corners.trim s).cells; lab = []; index = None; facts = [] }

unfoldable lined : Bool → Bool → How → Sheet.Sheet → Palette.Palette → Shown
lined pad fixed how s p =
    let o = Outline.outline (λ i. true) (record { outline = how; allow_pad = pad; fixed_palette = fixed }) p s in
    record { cells = o.sheet.cells; lab = map (to_bits binary64) o.palette.lab; index = o.index; facts = o.sheet.height ∷ o.sheet.width ∷ o.palette.count ∷ cond o.clipped 1 0 ∷ [] }

unfoldable ran : PostConfig → Bool → Bool → ℤ → Sheet.Sheet → Palette.Palette → Shown
ran config saturated fixed margin s p =
    let lent : Sheet.LentSheet = record { cells = s.cells; height = s.height; width = s.width; work = 8 * length s.cells } in
    let o = Run.process (record { lent = lent; palette = p; config = config; saturated = saturated; fixed = fixed; margin = margin }) in
    record { cells = o.sheet.cells; lab = map (to_bits binary64) o.palette.lab; index = o.index; facts = o.sheet.height ∷ o.sheet.width ∷ o.palette.count ∷ cond o.clipped 1 0 ∷ o.passes ∷ o.again ∷ [] }

"""
    words = " ".join(["cleaned", "trimmed", "lined", "ran"] + names)
    for j in range(0, len(pairs), 8):
        part = pairs[j:j + 8]
        text += f"rows{j} : ◌≡◌ {{A = List Shown}}\n    ({lst(chr(10) + '    ' + a for a, _ in part)[1:-1]})\n    ({lst(chr(10) + '    ' + b for _, b in part)[1:-1]})\n"
        text += f"unfolding {words}\nrows{j} = refl\n\n"
    os.makedirs(os.path.join(out, "src"), exist_ok=True)
    os.makedirs(os.path.join(out, "specs"), exist_ok=True)
    open(os.path.join(out, "src/lib.rt"), "w").write("// Rows of the definitions against the model.\n#![tactic(auto)]\n")
    open(os.path.join(out, "specs/Lib.antt"), "w").write("pub mod Rows\n")
    open(os.path.join(out, "specs/Rows.antt"), "w").write(text)
    print(f"{len(pairs)} rows")


main()
