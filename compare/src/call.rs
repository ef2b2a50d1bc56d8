//! A call as data: an entry and its arguments in the order of the C interface. One call is made
//! twice, by the judge and by the port, and everything lent is compared except the work area.

use crate::judge::{self, Outline, Settings};
use crate::lend::{Lender, Side};
use crate::port::*;

#[derive(Clone, Copy, Debug, PartialEq, Eq)]
pub enum Entry {
    LabelRegions,
    Label4,
    BinaryDilation8,
    RemoveOrphans,
    FixJaggies,
    AddOutline,
    ApplySaturation,
    Run,
    Rgb8ToLab,
    LabToRgb8,
    DeltaE,
    NearestIndex,
    PaletteDistanceMatrix,
    HexToRgb8,
}

pub const ENTRIES: [(Entry, &str); 14] = [
    (Entry::LabelRegions, "label_regions"),
    (Entry::Label4, "label4"),
    (Entry::BinaryDilation8, "binary_dilation8"),
    (Entry::RemoveOrphans, "remove_orphans"),
    (Entry::FixJaggies, "fix_jaggies"),
    (Entry::AddOutline, "add_outline"),
    (Entry::ApplySaturation, "apply_saturation"),
    (Entry::Run, "run"),
    (Entry::Rgb8ToLab, "rgb8_to_lab"),
    (Entry::LabToRgb8, "lab_to_rgb8"),
    (Entry::DeltaE, "delta_e"),
    (Entry::NearestIndex, "nearest_index"),
    (Entry::PaletteDistanceMatrix, "palette_distance_matrix"),
    (Entry::HexToRgb8, "hex_to_rgb8"),
];

pub fn name(entry: Entry) -> &'static str {
    ENTRIES.iter().find(|e| e.0 == entry).unwrap().1
}

/// A number (a real one by its bits, a signed one as 32 bits) or a lent list.
#[derive(Clone, Debug)]
pub enum Arg {
    Num(u64),
    Bytes(Vec<u8>),
    Cells(Vec<i32>),
    Words(Vec<u32>),
    Reals(Vec<f64>),
    Work(Vec<u32>),
}

impl Arg {
    /// The list's elements as numbers, reals by their bits. A number and the work area have none.
    pub fn numbers(&self) -> Vec<u64> {
        match self {
            Arg::Num(_) | Arg::Work(_) => Vec::new(),
            Arg::Bytes(l) => l.iter().map(|&v| u64::from(v)).collect(),
            Arg::Cells(l) => l.iter().map(|&v| u64::from(v as u32)).collect(),
            Arg::Words(l) => l.iter().map(|&v| u64::from(v)).collect(),
            Arg::Reals(l) => l.iter().map(|v| v.to_bits()).collect(),
        }
    }
}

pub fn real(v: f64) -> Arg {
    Arg::Num(v.to_bits())
}

pub fn signed(v: i32) -> Arg {
    Arg::Num(u64::from(v as u32))
}

#[derive(Clone, Debug)]
pub struct Call {
    pub entry: Entry,
    pub args: Vec<Arg>,
}

fn f(bits: u64) -> f64 {
    f64::from_bits(bits)
}

impl Call {
    /// Makes the call by the judge.
    pub fn judged(&mut self) -> u32 {
        use Arg::{Bytes, Cells, Num, Reals, Words, Work};
        match (self.entry, self.args.as_mut_slice()) {
            (Entry::LabelRegions, [Cells(c), Num(h), Num(w), Words(l), Work(k), Words(facts)]) => {
                judge::label_regions(c, *h as usize, *w as usize, l, k, facts)
            }
            (Entry::Label4, [Bytes(m), Num(h), Num(w), Words(l), Work(k), Words(facts)]) => {
                judge::label4(m, *h as usize, *w as usize, l, k, facts)
            }
            (Entry::BinaryDilation8, [Bytes(m), Num(h), Num(w), Num(by), Bytes(o), Work(k)]) => {
                judge::binary_dilation8(m, *h as usize, *w as usize, *by as u32, o, k)
            }
            (
                Entry::RemoveOrphans,
                [Cells(c), Num(h), Num(w), Reals(p), Num(n), Num(region), Num(passes), Num(delta), Work(k), Words(facts)],
            ) => judge::remove_orphans(
                c,
                *h as usize,
                *w as usize,
                p,
                *n as usize,
                *region as i32,
                *passes as u32,
                f(*delta),
                k,
                facts,
            ),
            (Entry::FixJaggies, [Cells(c), Num(h), Num(w), Work(k)]) => {
                judge::fix_jaggies(c, *h as usize, *w as usize, k)
            }
            (
                Entry::AddOutline,
                [Cells(c), Num(h), Num(w), Reals(p), Num(n), Num(kind), Num(darken), Num(r), Num(g), Num(b), Num(pad), Num(fixed), Work(k), Words(facts)],
            ) => judge::add_outline(
                c,
                *h as usize,
                *w as usize,
                p,
                *n as usize,
                Outline { kind: *kind as u32, darken: f(*darken), rgb: [*r as u8, *g as u8, *b as u8] },
                *pad != 0,
                *fixed != 0,
                k,
                facts,
            ),
            (Entry::ApplySaturation, [Reals(p), Num(n), Num(beta)]) => {
                judge::apply_saturation(p, *n as usize, f(*beta))
            }
            (
                Entry::Run,
                [Cells(c), Num(h), Num(w), Reals(p), Num(n), Num(beta), Num(orphans), Num(region), Num(delta), Num(jaggies), Num(kind), Num(darken), Num(r), Num(g), Num(b), Num(tileset), Num(saturated), Num(fixed), Num(margin), Work(k), Words(facts)],
            ) => judge::run(
                c,
                *h as usize,
                *w as usize,
                p,
                *n as usize,
                &Settings {
                    beta: f(*beta),
                    remove_orphans: *orphans != 0,
                    orphan_min_region: *region as i32,
                    orphan_max_delta: f(*delta),
                    fix_jaggies: *jaggies != 0,
                    outline: Outline {
                        kind: *kind as u32,
                        darken: f(*darken),
                        rgb: [*r as u8, *g as u8, *b as u8],
                    },
                    tileset: *tileset != 0,
                    saturated: *saturated != 0,
                    fixed_palette: *fixed != 0,
                    outline_margin: *margin as i32,
                },
                k,
                facts,
            ),
            (Entry::Rgb8ToLab, [Bytes(a), Reals(o)]) => judge::rgb8_to_lab(a, o),
            (Entry::LabToRgb8, [Reals(a), Bytes(o)]) => judge::lab_to_rgb8(a, o),
            (Entry::DeltaE, [Reals(a), Reals(b), Reals(o)]) => judge::delta_e(a, b, o),
            (Entry::NearestIndex, [Reals(a), Reals(b), Cells(o)]) => judge::nearest_index(a, b, o),
            (Entry::PaletteDistanceMatrix, [Reals(a), Reals(o)]) => judge::palette_distance_matrix(a, o),
            (Entry::HexToRgb8, [Bytes(a), Bytes(o)]) => judge::hex_to_rgb8(a, o),
            (entry, _) => panic!("{}: other arguments than the interface has", name(entry)),
        }
    }

    /// Makes the call by the port, on lists that end (or begin) at a page that may not be touched.
    pub fn ported(&mut self, lender: &mut Lender, side: Side) -> u32 {
        let (l, n) = lender.lend(&self.args, side);
        // SAFETY: every pointer is that of a lent list of the length beside it.
        let answer = unsafe { call(self.entry, &l, &n) };
        lender.take_back(&mut self.args, &l);
        answer
    }
}

/// A lent list: its address and its length in elements.
pub type Lent = (*mut u8, usize);

/// The C call on lent lists `l` and numbers `n`, each in the interface's order.
pub unsafe fn call(entry: Entry, l: &[Lent], n: &[u64]) -> u32 {
    let u = |i: usize| n[i] as usize;
    let b = |i: usize| n[i] as u8;
    match entry {
        Entry::LabelRegions => silk_label_regions(
            l[0].0.cast(),
            l[0].1,
            u(0),
            u(1),
            l[1].0.cast(),
            l[1].1,
            l[2].0.cast(),
            l[2].1,
            l[3].0.cast(),
            l[3].1,
        ),
        Entry::Label4 => silk_label4(
            l[0].0,
            l[0].1,
            u(0),
            u(1),
            l[1].0.cast(),
            l[1].1,
            l[2].0.cast(),
            l[2].1,
            l[3].0.cast(),
            l[3].1,
        ),
        Entry::BinaryDilation8 => silk_binary_dilation8(
            l[0].0,
            l[0].1,
            u(0),
            u(1),
            n[2] as u32,
            l[1].0,
            l[1].1,
            l[2].0.cast(),
            l[2].1,
        ),
        Entry::RemoveOrphans => silk_remove_orphans(
            l[0].0.cast(),
            l[0].1,
            u(0),
            u(1),
            l[1].0.cast(),
            l[1].1,
            u(2),
            n[3] as i32,
            n[4] as u32,
            f(n[5]),
            l[2].0.cast(),
            l[2].1,
            l[3].0.cast(),
            l[3].1,
        ),
        Entry::FixJaggies => silk_fix_jaggies(l[0].0.cast(), l[0].1, u(0), u(1), l[1].0.cast(), l[1].1),
        Entry::AddOutline => silk_add_outline(
            l[0].0.cast(),
            l[0].1,
            u(0),
            u(1),
            l[1].0.cast(),
            l[1].1,
            u(2),
            n[3] as u32,
            f(n[4]),
            b(5),
            b(6),
            b(7),
            b(8),
            b(9),
            l[2].0.cast(),
            l[2].1,
            l[3].0.cast(),
            l[3].1,
        ),
        Entry::ApplySaturation => silk_apply_saturation(l[0].0.cast(), l[0].1, u(0), f(n[1])),
        Entry::Run => silk_run(
            l[0].0.cast(),
            l[0].1,
            u(0),
            u(1),
            l[1].0.cast(),
            l[1].1,
            u(2),
            f(n[3]),
            b(4),
            n[5] as i32,
            f(n[6]),
            b(7),
            n[8] as u32,
            f(n[9]),
            b(10),
            b(11),
            b(12),
            b(13),
            b(14),
            b(15),
            n[16] as i32,
            l[2].0.cast(),
            l[2].1,
            l[3].0.cast(),
            l[3].1,
        ),
        Entry::Rgb8ToLab => silk_rgb8_to_lab(l[0].0, l[0].1, l[1].0.cast(), l[1].1),
        Entry::LabToRgb8 => silk_lab_to_rgb8(l[0].0.cast(), l[0].1, l[1].0, l[1].1),
        Entry::DeltaE => silk_delta_e(l[0].0.cast(), l[0].1, l[1].0.cast(), l[1].1, l[2].0.cast(), l[2].1),
        Entry::NearestIndex => {
            silk_nearest_index(l[0].0.cast(), l[0].1, l[1].0.cast(), l[1].1, l[2].0.cast(), l[2].1)
        }
        Entry::PaletteDistanceMatrix => {
            silk_palette_distance_matrix(l[0].0.cast(), l[0].1, l[1].0.cast(), l[1].1)
        }
        Entry::HexToRgb8 => silk_hex_to_rgb8(l[0].0, l[0].1, l[1].0, l[1].1),
    }
}
