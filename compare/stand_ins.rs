//! What takes libm's place in the reference: the two channel tables, and the nearest cube root.
//! Written for the comparison; `reference.py` appends the tables.

/// The linear value of a channel's byte.
pub fn decode(byte: u8) -> f64 {
    f64::from_bits(DECODE[byte as usize])
}

/// The number of thresholds not above `linear`: 0 below zero and for NaN.
pub fn encode(linear: f64) -> u8 {
    THRESHOLDS.partition_point(|&t| f64::from_bits(t) <= linear) as u8
}

type Wide = [u64; 4];

fn times(a: Wide, b: u64) -> Wide {
    let mut out = [0; 4];
    let mut carry = 0u128;
    for (o, x) in out.iter_mut().zip(a) {
        let t = u128::from(x) * u128::from(b) + carry;
        *o = t as u64;
        carry = t >> 64;
    }
    assert_eq!(carry, 0);
    out
}

fn shifted(a: u64, by: u32) -> Wide {
    let mut out = [0; 4];
    let (place, bit) = ((by / 64) as usize, by % 64);
    let t = u128::from(a) << bit;
    out[place] = t as u64;
    if t >> 64 != 0 {
        out[place + 1] = (t >> 64) as u64;
    }
    out
}

fn not_above(a: Wide, b: Wide) -> bool {
    a.iter().rev().cmp(b.iter().rev()).is_le()
}

/// The mantissa (53 bits) and exponent of a positive normal double.
fn parts(x: f64) -> (u64, i32) {
    let bits = x.to_bits();
    let exponent = (bits >> 52) as i32;
    assert!(0 < exponent && exponent < 2047, "a positive normal double");
    (bits & ((1 << 52) - 1) | 1 << 52, exponent - 1075)
}

/// Whether the middle between `y` and the next double above it has a cube not above `t`.
fn middle_not_above(y: f64, t: f64) -> bool {
    let ((m, e), (mt, et)) = (parts(y), parts(t));
    let middle = 2 * m + 1;
    let cube = times(times([middle, 0, 0, 0], middle), middle);
    // cube * 2^(3 (e - 1)) against mt * 2^et.
    not_above(cube, shifted(mt, (et - 3 * (e - 1)) as u32))
}

/// The double nearest to the cube root of a positive normal double: any guess, corrected by whole
/// numbers. A middle is never an exact root, as its cube has more than 53 bits.
pub fn nearest_cbrt(t: f64) -> f64 {
    let mut y = t.cbrt();
    while middle_not_above(y, t) {
        y = f64::from_bits(y.to_bits() + 1);
    }
    while !middle_not_above(f64::from_bits(y.to_bits() - 1), t) {
        y = f64::from_bits(y.to_bits() - 1);
    }
    y
}

/// The cube, left to right.
pub fn cube(t: f64) -> f64 {
    t * t * t
}
