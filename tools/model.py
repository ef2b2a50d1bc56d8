"""The specification's rules in plain Python: every entry, with its refusals.

Written from the specification document alone, to be held against the Rust reference
(`check_vectors.py`). Each entry takes its arguments in the order of the C interface, lists as
Python lists that it changes in place, and returns 0 or the refusal's number.
"""

import math
from bisect import bisect_right

import tables

DECODE = tables.decode_table()
THRESHOLDS = tables.threshold_table()

EIGHT = [(dy, dx) for dy in (-1, 0, 1) for dx in (-1, 0, 1) if (dy, dx) != (0, 0)]
FOUR = [(-1, 0), (1, 0), (0, -1), (0, 1)]
NONE, AUTO, TRIPLE = 0, 1, 2


class Refused(Exception):
    """A row of the table of refusals."""


def refuse(number, condition):
    if condition:
        raise Refused(number)


# ------------------------------------------------------------------------------ colours

XYZ_FROM_RGB = [
    [0.412453, 0.357580, 0.180423],
    [0.212671, 0.715160, 0.072169],
    [0.019334, 0.119193, 0.950227],
]
RGB_FROM_XYZ = [
    [3.2404813432005266, -1.5371515162713183, -0.4985363261688878],
    [-0.9692549499965682, 1.8759900014898907, 0.04155592655829283],
    [0.055646639135177166, -0.20404133836651123, 1.0573110696453443],
]
WHITE = [0.95047, 1.0, 1.08883]


def cube_root(t):
    """The double nearest to the cube root of a positive normal double, by whole numbers."""
    p, q = t.as_integer_ratio()
    # q is a power of two; scale so that the root has at least 60 bits.
    e = q.bit_length() - 1
    shift = 3 * 70 + (-e) % 3
    n = p << shift
    guess = 1 << ((n.bit_length() + 2) // 3)
    while True:
        better = (2 * guess + n // (guess * guess)) // 3
        if better >= guess:
            break
        guess = better
    exact = guess**3 == n
    # The root is guess * 2^-((e + shift) / 3), and a little more unless exact.
    drop = guess.bit_length() - 53
    m, rest = guess >> drop, guess & ((1 << drop) - 1)
    half = 1 << (drop - 1)
    assert not (rest == half and exact)
    if rest >= half:
        m += 1
    return math.ldexp(m, drop - (e + shift) // 3)


def product(m, v):
    return [v[0] * row[0] + v[1] * row[1] + v[2] * row[2] for row in m]


def lab_of(rgb):
    x, y, z = product(XYZ_FROM_RGB, [DECODE[c] for c in rgb])
    f = [cube_root(t) if t > 0.008856 else 7.787 * t + 16.0 / 116.0
         for t in (x / WHITE[0], y / WHITE[1], z / WHITE[2])]
    return [116.0 * f[1] - 16.0, 500.0 * (f[0] - f[1]), 200.0 * (f[1] - f[2])]


def rgb_of(lab):
    y = (lab[0] + 16.0) / 116.0
    x = lab[1] / 500.0 + y
    z = y - lab[2] / 200.0
    if z < 0.0:
        z = 0.0
    back = [t * t * t if t > 0.2068966 else (t - 16.0 / 116.0) / 7.787 for t in (x, y, z)]
    linear = product(RGB_FROM_XYZ, [f * white for f, white in zip(back, WHITE)])
    return [bisect_right(THRESHOLDS, c) for c in linear]


def square(a, b):
    d = [p - q for p, q in zip(a, b)]
    return d[0] * d[0] + d[1] * d[1] + d[2] * d[2]


def distance(a, b):
    return math.sqrt(square(a, b))


def colours_of(values):
    return [values[i:i + 3] for i in range(0, len(values) - 2, 3)]


def first_least(values):
    return min(range(len(values)), key=lambda i: values[i])


# ------------------------------------------------------------------------------ refusals

def beyond(v):
    return math.isnan(v) or abs(v) > 1024.0


def outside(v, low, high):
    return not low <= v <= high


def row_1(h, w):
    refuse(1, h > 512 or w > 512)


def rows_2_3(needed, grids, work, facts=(), facts_needed=0):
    refuse(2, any(len(g) < needed for g in grids) or len(facts) < facts_needed)
    refuse(3, work < 8 * needed)


def rows_4_5(palette, k):
    refuse(4, k > 256 or len(palette) != 768)
    refuse(5, any(beyond(v) for v in palette[:3 * k]))


def row_7(cells, k, limit):
    refuse(7, limit >= 2 and any(c >= k for c in cells))


def saturated_entry(c, beta):
    return [c[0], c[1] * beta, c[2] * beta]


def row_6_saturation(palette, k, beta):
    for c in colours_of(palette[:3 * k]):
        refuse(6, beyond(c[1] * beta) or beyond(c[2] * beta))


def entry(function):
    """An entry that gives the number of the refusal it meets, 0 if none."""
    def called(*args):
        try:
            function(*args)
        except Refused as refusal:
            return refusal.args[0]
        return 0
    return called


# ------------------------------------------------------------------------------ regions, passes

def neighbours(p, h, w, steps):
    y, x = divmod(p, w)
    for dy, dx in steps:
        if 0 <= y + dy < h and 0 <= x + dx < w:
            yield (y + dy) * w + x + dx


def regions(cells, h, w, steps=EIGHT, counts=lambda c: c >= 0):
    """The regions as lists of places, in raster order of their first cells."""
    seen, found = [False] * (h * w), []
    for start in range(h * w):
        if seen[start] or not counts(cells[start]):
            continue
        region, waiting = [], [start]
        seen[start] = True
        while waiting:
            p = waiting.pop()
            region.append(p)
            for q in neighbours(p, h, w, steps):
                if not seen[q] and cells[q] == cells[start]:
                    seen[q] = True
                    waiting.append(q)
        found.append(region)
    return found


def labels_of(found, n):
    labels = [0] * n
    for number, region in enumerate(found, 1):
        for p in region:
            labels[p] = number
    return labels


def one_pass(cells, h, w, palette, limit, delta, frozen):
    """The sheet after a pass; freezes cells. None if nothing is repainted."""
    found = regions(cells, h, w)
    large = set()
    for region in found:
        if len(region) >= limit:
            large.update(region)
    after = list(cells)
    for region in found:
        if len(region) >= limit or any(p in frozen for p in region):
            continue
        beside = {q for p in region for q in neighbours(p, h, w, EIGHT) if q in large}
        if not beside:
            continue
        votes = {}
        for q in beside:
            votes[cells[q]] = votes.get(cells[q], 0) + 1
        own = palette[cells[region[0]]]
        most = max(votes.values())
        away, target = min((distance(own, palette[c]), c) for c in votes if votes[c] == most)
        if away < delta:
            for p in region:
                after[p] = target
        else:
            frozen.update(region)
    return after if after != cells else None


def cleaned(cells, h, w, palette, limit, passes, delta):
    """The sheet after at most so many passes, and how many of them repainted."""
    count, frozen = 0, set()
    if limit <= 1:
        return cells, 0
    while count < passes:
        after = one_pass(cells, h, w, palette, limit, delta, frozen)
        if after is None:
            break
        cells, count = after, count + 1
    return cells, count


# ------------------------------------------------------------------------------ corners

def cornered(cells, h, w):
    if h < 4 or w < 4:
        return cells

    def at(y, x):
        return cells[y * w + x] if 0 <= y < h and 0 <= x < w else None

    after = list(cells)
    for y in range(h):
        for x in range(w):
            a = at(y, x)
            if a < 0:
                continue
            for sy in (-1, 1):
                for sx in (-1, 1):
                    arms = [(0, sx), (sy, 0), (-sy, 2 * sx), (2 * sy, -sx)]
                    others = {at(y + dy, x + dx) for dy, dx in EIGHT if (dy, dx) not in arms[:2]}
                    b = others.pop()
                    if others or b is None or b < 0 or b == a:
                        continue
                    if all(at(y + dy, x + dx) == a for dy, dx in arms):
                        after[y * w + x] = b
    return after


# ------------------------------------------------------------------------------ outline

def touches_edge(cells, h, w):
    return any(cells[y * w + x] >= 0 for y in range(h) for x in range(w)
               if y in (0, h - 1) or x in (0, w - 1))


def padded(cells, h, w):
    blank = [-1] * (w + 2)
    rows = [[-1] + cells[y * w:y * w + w] + [-1] for y in range(h)]
    return sum([blank] + rows + [blank], [])


def ring_of(cells, h, w):
    return [p for p in range(h * w)
            if cells[p] < 0 and any(cells[q] >= 0 for q in neighbours(p, h, w, FOUR))]


def outlined(cells, h, w, palette, kind, darken, rgb, pad, fixed):
    """Cells, height, width, palette, index (None without one), clipped."""
    touched = touches_edge(cells, h, w)
    clipped = touched and not pad
    if touched and pad:
        cells, h, w = padded(cells, h, w), h + 2, w + 2
    ring = ring_of(cells, h, w)
    if not ring:
        return cells, h, w, palette, None, clipped
    refuse(8, not palette and (kind == AUTO or fixed))
    if kind == AUTO:
        dark = palette[first_least([c[0] for c in palette])]
        line = [v * (1.0 - darken) for v in dark]
    else:
        line = lab_of(rgb)
    palette = list(palette)
    nearest = first_least([distance(c, line) for c in palette]) if palette else None
    if fixed:
        index = nearest
    else:
        same = [i for i, c in enumerate(palette) if rgb_of(c) == rgb_of(line)]
        if same:
            index = same[0]
        elif len(palette) < 256:
            index = len(palette)
            palette.append(line)
        else:
            index = nearest
            palette[index] = line
    cells = list(cells)
    for p in ring:
        cells[p] = index
    return cells, h, w, palette, index, clipped


def needed_cells(cells, h, w, kind, pad):
    """Rows 1 and 2 so far as the sheet has to be read; then the needed cells."""
    row_1(h, w)
    refuse(2, len(cells) < h * w)
    if kind in (AUTO, TRIPLE) and pad and touches_edge(cells, h, w):
        return (h + 2) * (w + 2)
    return h * w


def row_6_outline(kind, darken):
    refuse(6, kind not in (NONE, AUTO, TRIPLE))
    refuse(6, kind == AUTO and outside(darken, 0.0, 1.0))


def store(lent, values):
    lent[:len(values)] = values


def outline_facts(h, w, palette, index, clipped):
    return [h, w, len(palette), 0 if index is None else index + 1, int(clipped)]


# ------------------------------------------------------------------------------ entries

@entry
def label_regions(cells, h, w, labels, work, facts):
    row_1(h, w)
    rows_2_3(h * w, [cells, labels], work, facts, 1)
    found = regions(cells, h, w)
    store(labels, labels_of(found, h * w))
    facts[0] = len(found)


@entry
def label4(mask, h, w, labels, work, facts):
    row_1(h, w)
    rows_2_3(h * w, [mask, labels], work, facts, 1)
    found = regions([int(b != 0) for b in mask], h, w, FOUR, lambda c: c != 0)
    store(labels, labels_of(found, h * w))
    facts[0] = len(found)


@entry
def binary_dilation8(mask, h, w, k, out, work):
    row_1(h, w)
    rows_2_3(h * w, [mask, out], work)
    refuse(6, k > 65535)
    by = k or max(h, w)
    set_cells = [divmod(p, w) for p in range(h * w) if mask[p] != 0]
    store(out, [int(any(abs(y - p // w) <= by and abs(x - p % w) <= by for y, x in set_cells))
                for p in range(h * w)])


@entry
def remove_orphans(cells, h, w, palette, k, limit, passes, delta, work, facts):
    row_1(h, w)
    rows_2_3(h * w, [cells], work, facts, 1)
    rows_4_5(palette, k)
    refuse(6, passes > 65535 or outside(delta, 0.0, 1024.0))
    row_7(cells[:h * w], k, limit)
    after, count = cleaned(cells[:h * w], h, w, colours_of(palette[:3 * k]), limit, passes, delta)
    store(cells, after)
    facts[0] = count


@entry
def fix_jaggies(cells, h, w, work):
    row_1(h, w)
    rows_2_3(h * w, [cells], work)
    store(cells, cornered(cells[:h * w], h, w))


@entry
def add_outline(cells, h, w, palette, k, kind, darken, r, g, b, pad, fixed, work, facts):
    needed = needed_cells(cells, h, w, kind, pad)
    rows_2_3(needed, [cells], work, facts, 5)
    rows_4_5(palette, k)
    row_6_outline(kind, darken)
    refuse(6, kind == NONE)
    after, h, w, entries, index, clipped = outlined(
        cells[:h * w], h, w, colours_of(palette[:3 * k]), kind, darken, [r, g, b], pad, fixed)
    store(cells, after)
    store(palette, sum(entries, []))
    store(facts, outline_facts(h, w, entries, index, clipped))


@entry
def apply_saturation(palette, k, beta):
    rows_4_5(palette, k)
    refuse(6, outside(beta, 0.0, 16.0))
    row_6_saturation(palette, k, beta)
    store(palette, sum([saturated_entry(c, beta) for c in colours_of(palette[:3 * k])], []))


@entry
def run(cells, h, w, palette, k, beta, orphans, limit, delta, jaggies, kind, darken, r, g, b,
        tileset, saturated, fixed, margin, work, facts):
    pad = not tileset and margin == 0
    needed = needed_cells(cells, h, w, kind, pad)
    rows_2_3(needed, [cells], work, facts, 7)
    rows_4_5(palette, k)
    refuse(6, outside(beta, 0.0, 16.0) or outside(delta, 0.0, 1024.0))
    row_6_outline(kind, darken)
    entries = colours_of(palette[:3 * k])
    if not fixed and not saturated:
        row_6_saturation(palette, k, beta)
        entries = [saturated_entry(c, beta) for c in entries]
    sheet, first, second, index, clipped = cells[:h * w], 0, 0, None, False
    if orphans:
        row_7(sheet, k, limit)
        sheet, first = cleaned(sheet, h, w, entries, limit, 5, delta)
    if jaggies:
        sheet = cornered(sheet, h, w)
    if kind != NONE:
        sheet, h, w, entries, index, clipped = outlined(
            sheet, h, w, entries, kind, darken, [r, g, b], pad, fixed)
        if orphans:
            sheet, second = cleaned(sheet, h, w, entries, limit, 1, delta)
    store(cells, sheet)
    store(palette, sum(entries, []))
    store(facts, outline_facts(h, w, entries, index, clipped) + [first, second])


@entry
def rgb8_to_lab(rgb, out):
    refuse(2, len(out) < len(rgb) // 3 * 3)
    refuse(4, len(rgb) % 3 != 0)
    store(out, sum([lab_of(c) for c in colours_of(rgb)], []))


@entry
def lab_to_rgb8(lab, out):
    refuse(2, len(out) < len(lab) // 3 * 3)
    refuse(4, len(lab) % 3 != 0)
    refuse(5, any(beyond(v) for v in lab))
    store(out, sum([rgb_of(c) for c in colours_of(lab)], []))


@entry
def delta_e(a, b, out):
    refuse(2, len(out) < len(a) // 3)
    refuse(4, len(a) % 3 != 0 or len(b) % 3 != 0 or len(a) != len(b))
    refuse(5, any(beyond(v) for v in a + b))
    store(out, [distance(p, q) for p, q in zip(colours_of(a), colours_of(b))])


@entry
def nearest_index(pixels, palette, out):
    refuse(2, len(out) < len(pixels) // 3)
    refuse(4, len(pixels) % 3 != 0 or len(palette) % 3 != 0 or len(palette) > 768)
    refuse(5, any(beyond(v) for v in pixels + palette))
    refuse(8, pixels and not palette)
    entries = colours_of(palette)
    store(out, [first_least([square(p, c) for c in entries]) for p in colours_of(pixels)])


@entry
def palette_distance_matrix(palette, out):
    n = len(palette) // 3
    refuse(2, len(out) < n * n)
    refuse(4, len(palette) % 3 != 0 or n > 256)
    refuse(5, any(beyond(v) for v in palette))
    entries = colours_of(palette)
    store(out, [distance(p, q) for p in entries for q in entries])


def hex_value(text):
    """Three bytes, or None: the rule for hex colours on bytes."""
    blank = b" \t\n\v\f\r"
    digits = b"0123456789abcdef"
    text = text.strip(blank).lstrip(b"#")
    if len(text) != 6 or any(c not in digits + b"ABCDEF" for c in text):
        return None
    values = [digits.index(c) for c in text.lower()]
    return [16 * values[i] + values[i + 1] for i in (0, 2, 4)]


@entry
def hex_to_rgb8(text, out):
    refuse(2, len(out) < 3)
    value = hex_value(bytes(text))
    refuse(9, value is None)
    store(out, value)
