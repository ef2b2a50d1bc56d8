"""The 256 decode values and 255 thresholds of the sRGB channels, from whole numbers alone.

Every entry is found by comparing integers: a fifth power of a candidate double, scaled, with a
twelfth power of the fraction. `python3 tables.py` prints the bits, decode values first.
"""

import struct
from fractions import Fraction


def bits(value):
    return struct.unpack("<Q", struct.pack("<d", value))[0]


def exact(mantissa, exponent):
    """mantissa * 2^exponent as a double; the caller has made sure that it is one."""
    value = float(Fraction(mantissa) * Fraction(2) ** exponent)
    assert Fraction(value) == Fraction(mantissa) * Fraction(2) ** exponent
    return value


def power_not_above(mantissa, exponent, n, p, q):
    """(mantissa * 2^exponent)^n <= p / q."""
    left, right = mantissa**n * q, p
    if exponent >= 0:
        left <<= n * exponent
    else:
        right <<= -n * exponent
    return left <= right


def floor_root(n, p, q):
    """The greatest (m, e), m of 53 bits, with (m * 2^e)^n <= p / q, for 2^-100 < p / q < 2^100."""
    e = -200
    while power_not_above(1 << 53, e, n, p, q):
        e += 1
    low, high = 1 << 52, 1 << 53
    assert power_not_above(low, e, n, p, q)
    while high - low > 1:
        middle = (low + high) // 2
        if power_not_above(middle, e, n, p, q):
            low = middle
        else:
            high = middle
    return low, e


def nearest_root(n, p, q):
    """The double nearest to (p / q)^(1 / n)."""
    m, e = floor_root(n, p, q)
    # The middle between m and its successor; it is never the exact root of an entry.
    return exact(m + 1, e) if power_not_above(2 * m + 1, e - 1, n, p, q) else exact(m, e)


def least_not_below_root(n, p, q):
    """The least double that is not below (p / q)^(1 / n)."""
    m, e = floor_root(n, p, q)
    reached = Fraction(m) * Fraction(2) ** e
    return exact(m, e) if reached**n == Fraction(p, q) else exact(m + 1, e)


def nearest_quotient(p, q):
    """The double nearest to p / q (Python divides whole numbers with one rounding)."""
    return p / q


def decode(k):
    if k <= 10:
        return nearest_quotient(k, 255) / 12.92
    return nearest_root(5, (40 * k + 561) ** 12, 10761**12)


def threshold(j):
    if j <= 10:
        return least_not_below_root(1, 10 * (2 * j - 1), 65892)
    return least_not_below_root(5, (40 * j + 541) ** 12, 10761**12)


def decode_table():
    return [decode(k) for k in range(256)]


def threshold_table():
    return [threshold(j) for j in range(1, 256)]


if __name__ == "__main__":
    for entry in decode_table() + threshold_table():
        print("%016x" % bits(entry))
