//! Calls to make: random ones around the limits, and damaged ones for every refusal.

use crate::call::{real, signed, Arg, Call, Entry};
use pixelforge::{color, postprocess};

/// A small random generator (splitmix64): the same seed gives the same calls.
pub struct Rng(pub u64);

impl Rng {
    pub fn next(&mut self) -> u64 {
        self.0 = self.0.wrapping_add(0x9e37_79b9_7f4a_7c15);
        let mut z = self.0;
        z = (z ^ (z >> 30)).wrapping_mul(0xbf58_476d_1ce4_e5b9);
        z = (z ^ (z >> 27)).wrapping_mul(0x94d0_49bb_1331_11eb);
        z ^ (z >> 31)
    }

    pub fn below(&mut self, n: usize) -> usize {
        (self.next() % n as u64) as usize
    }

    /// True once in n times.
    pub fn once_in(&mut self, n: usize) -> bool {
        self.below(n) == 0
    }

    pub fn pick<T: Copy>(&mut self, from: &[T]) -> T {
        from[self.below(from.len())]
    }

    pub fn unit(&mut self) -> f64 {
        (self.next() >> 11) as f64 / (1u64 << 53) as f64
    }

    pub fn between(&mut self, low: f64, high: f64) -> f64 {
        low + (high - low) * self.unit()
    }
}

/// What every element holds that a caller has not set: byte 5a throughout. As a cell it names no
/// entry, as a double it is out of range, so that reading it shows.
pub const SPARE_CELL: i32 = 0x5a5a_5a5a;
pub const SPARE_WORD: u32 = 0x5a5a_5a5a;
pub const SPARE_BYTE: u8 = 0x5a;
pub const SPARE_REAL: f64 = f64::from_bits(0x5a5a_5a5a_5a5a_5a5a);

const JUST_ABOVE_1024: f64 = f64::from_bits(0x4090_0000_0000_0001);
const JUST_BELOW_ZERO: f64 = f64::from_bits(0x8000_0000_0000_0001);
const JUST_ABOVE_ONE: f64 = f64::from_bits(0x3ff0_0000_0000_0001);
const JUST_ABOVE_16: f64 = f64::from_bits(0x4030_0000_0000_0001);

// ---------------------------------------------------------------------------------- sheets

fn specks(rng: &mut Rng, cells: &mut [i32], share: usize, k: usize) {
    for cell in cells {
        if rng.once_in(share) {
            *cell = rng.below(k + 1) as i32 - 1;
        }
    }
}

/// A line of index `a` with one staircase corner somewhere on the sheet, in one of four directions;
/// now and then it goes on for another step.
fn staircase(rng: &mut Rng, cells: &mut [i32], h: usize, w: usize, a: i32) {
    let (mut y, mut x) = (rng.below(h) as i32, rng.below(w) as i32);
    let (sy, sx) = (rng.pick(&[-1, 1]), rng.pick(&[-1, 1]));
    if h >= 4 && w >= 4 && !rng.once_in(6) {
        // the whole pattern on the sheet
        y = rng.below(h - 3) as i32 + if sy > 0 { 1 } else { 2 };
        x = rng.below(w - 3) as i32 + if sx > 0 { 1 } else { 2 };
    }
    let mut line = vec![(0, 0), (0, sx), (sy, 0), (-sy, 2 * sx), (2 * sy, -sx)];
    if rng.once_in(2) {
        line.extend([(-2 * sy, 3 * sx), (3 * sy, -2 * sx)]);
    }
    if rng.once_in(4) {
        line.remove(rng.below(5)); // a near corner
    }
    for (dy, dx) in line {
        let (v, u) = (y + dy, x + dx);
        if v >= 0 && u >= 0 && v < h as i32 && u < w as i32 {
            cells[v as usize * w + u as usize] = a;
        }
    }
}

/// A sheet of h x w cells over `k` indices, in one of several manners.
pub fn sheet(rng: &mut Rng, h: usize, w: usize, k: usize) -> Vec<i32> {
    let manner = rng.below(10);
    sheet_in(rng, h, w, k, manner)
}

const STAIRS: usize = 3;

fn sheet_in(rng: &mut Rng, h: usize, w: usize, k: usize, manner: usize) -> Vec<i32> {
    let n = h * w;
    let mut cells = vec![-1; n];
    if k == 0 || n == 0 {
        return cells;
    }
    match manner {
        0 => specks(rng, &mut cells, 1, k),
        1 | 7 => {
            cells.fill(rng.below(k) as i32);
            let share = rng.pick(&[2, 3, 4, 6]);
            specks(rng, &mut cells, share, k);
        }
        2 => {
            let (step, down) = (1 + rng.below(4), rng.once_in(2));
            let colours: Vec<i32> = (0..n).map(|_| rng.below(k) as i32).collect();
            for (p, cell) in cells.iter_mut().enumerate() {
                *cell = colours[if down { p / w } else { p % w } / step];
            }
            specks(rng, &mut cells, 5, k);
        }
        STAIRS | 6 => {
            cells.fill(rng.below(k) as i32);
            for _ in 0..rng.pick(&[1, 1, 1, 2]) {
                let a = rng.below(k) as i32;
                staircase(rng, &mut cells, h, w, a);
            }
            if rng.once_in(3) {
                specks(rng, &mut cells, 30, k);
            }
        }
        4 => {
            let (top, left) = (rng.below(h), rng.below(w));
            let (bottom, right) = (top + rng.below(h - top), left + rng.below(w - left));
            for y in top..=bottom {
                for x in left..=right {
                    cells[y * w + x] = rng.below(2).min(k - 1) as i32;
                }
            }
            specks(rng, &mut cells, 12, k);
        }
        8 | 9 if k >= 3 => {
            // lines of other indices beside a larger area: they go one after another
            let (cut, down, k) = (1 + rng.below(3), rng.once_in(2), k as i32);
            for (p, cell) in cells.iter_mut().enumerate() {
                let (along, across) = if down { (p / w, p % w) } else { (p % w, p / w) };
                let tile = if k >= 5 { 2 * (across as i32 % 2) } else { 0 };
                *cell = if along < cut { 0 } else { 1 + (along as i32 % 2 + tile) % (k - 1) };
            }
            if rng.once_in(3) {
                specks(rng, &mut cells, 10, k as usize);
            }
        }
        _ => {
            // two indices far more often than the others: large regions and single cells
            let (a, b) = (rng.below(k) as i32, rng.below(k) as i32);
            for cell in &mut cells {
                *cell = if rng.once_in(4) { b } else { a };
            }
            specks(rng, &mut cells, 8, k);
        }
    }
    if rng.once_in(3) {
        for cell in &mut cells {
            if *cell < 0 {
                *cell = rng.pick(&[-1, -2, -3, -1000, i32::MIN]);
            }
        }
    }
    cells
}

/// A side, mostly small.
pub fn side(rng: &mut Rng) -> usize {
    rng.pick(&[0, 1, 1, 2, 3, 3, 4, 4, 5, 5, 6, 7, 8, 9])
}

// ---------------------------------------------------------------------------------- colours

pub fn colour(rng: &mut Rng) -> [f64; 3] {
    match rng.below(8) {
        0 => [rng.below(7) as f64, rng.below(9) as f64, 0.0],
        1 => [rng.below(21) as f64, rng.below(21) as f64 - 10.0, rng.below(21) as f64 - 10.0],
        2 => {
            let special = [0.0, -0.0, 5e-324, -5e-324, 2.2e-308, 1e-160, 1024.0, -1024.0, 64.0, 100.0];
            [rng.pick(&special), rng.pick(&special), rng.pick(&special)]
        }
        3 | 4 => {
            let rgb = [rng.next() as u8, rng.next() as u8, rng.next() as u8];
            let lab = color::rgb8_to_lab(&rgb);
            [lab[0], lab[1], lab[2]]
        }
        5 => {
            // near black all is linear: halves lie on thresholds
            let rgb = [rng.below(24) as u8, rng.below(24) as u8, rng.below(24) as u8];
            let (lab, part) = (color::rgb8_to_lab(&rgb), rng.pick(&[1.0, 0.5]));
            [lab[0] * part, lab[1] * part, lab[2] * part]
        }
        _ => [rng.between(0.0, 100.0), rng.between(-60.0, 60.0), rng.between(-60.0, 60.0)],
    }
}

/// k colours that lie near one another, often equally far.
fn near_colours(rng: &mut Rng, k: usize) -> Vec<f64> {
    let reach = rng.pick(&[3, 7, 13]);
    (0..3 * k).map(|_| rng.below(reach) as f64).collect()
}

/// k colours; now and then entries that lie equally far from one another.
pub fn colours(rng: &mut Rng, k: usize) -> Vec<f64> {
    let mut list: Vec<f64> = (0..k).flat_map(|_| colour(rng)).collect();
    if k >= 3 && rng.once_in(4) {
        let tie = root_tie(rng);
        list[..9].copy_from_slice(&tie);
        if rng.once_in(2) {
            list.rotate_left(3);
        }
    }
    if k >= 2 && rng.once_in(6) {
        let (from, to) = (rng.below(k), rng.below(k));
        list.copy_within(3 * from..3 * from + 3, 3 * to);
    }
    list
}

/// A colour and two others whose squared distances from it differ in the last places and whose
/// distances are one double; the farther one by squares comes first.
pub fn root_tie(rng: &mut Rng) -> [f64; 9] {
    let base = colour(rng).map(|v| v.clamp(-100.0, 100.0));
    root_tie_at(rng, base)
}

fn root_tie_at(rng: &mut Rng, base: [f64; 3]) -> [f64; 9] {
    loop {
        let d = [rng.between(0.0, 20.0), rng.between(0.0, 20.0), rng.between(0.0, 20.0)];
        let p = [base[0] + d[0], base[1] + d[1], base[2] + d[2]];
        let q = [base[0] + d[1], base[1] + d[2], base[2] + d[0]];
        let square = |c: [f64; 3]| {
            let d: Vec<f64> = c.iter().zip(base).map(|(x, y)| y - x).collect();
            d[0] * d[0] + d[1] * d[1] + d[2] * d[2]
        };
        if square(p) > square(q) && square(p).sqrt() == square(q).sqrt() {
            let mut out = [0.0; 9];
            out[..3].copy_from_slice(&base);
            out[3..6].copy_from_slice(&p);
            out[6..].copy_from_slice(&q);
            return out;
        }
    }
}

/// The palette as it is lent: 768 doubles, the colours first.
pub fn lent_palette(colours: &[f64]) -> Vec<f64> {
    let mut list = colours.to_vec();
    list.resize(768, SPARE_REAL);
    list
}

fn count(rng: &mut Rng) -> usize {
    rng.pick(&[1, 2, 2, 3, 3, 3, 4, 5])
}

// ---------------------------------------------------------------------------------- calls

fn num(n: usize) -> Arg {
    Arg::Num(n as u64)
}

fn flag(rng: &mut Rng) -> Arg {
    Arg::Num(rng.next() & 1)
}

/// A length that is enough, and sometimes more.
fn slack(rng: &mut Rng, n: usize) -> usize {
    n + if rng.once_in(3) { 1 + rng.below(3) } else { 0 }
}

fn padded_len(h: usize, w: usize) -> usize {
    (h + 2) * (w + 2)
}

fn lent_cells(mut cells: Vec<i32>, len: usize) -> Arg {
    cells.resize(len, SPARE_CELL);
    Arg::Cells(cells)
}

fn words(len: usize) -> Arg {
    Arg::Words(vec![SPARE_WORD; len])
}

fn work(len: usize) -> Arg {
    Arg::Work(vec![SPARE_WORD; len])
}

fn reals(len: usize) -> Arg {
    Arg::Reals(vec![SPARE_REAL; len])
}

fn region_limit(rng: &mut Rng) -> i32 {
    rng.pick(&[i32::MIN, -1, 0, 1, 2, 2, 2, 2, 2, 3, 3, 3, 3, 4, 4, 5, 6, 9, 20, i32::MAX])
}

fn colour_limit(rng: &mut Rng) -> f64 {
    let some = rng.between(0.0, 60.0);
    rng.pick(&[0.0, -0.0, 5e-324, 5.0, 5.0, 10.0, 10.0, 25.0, 25.0, 25.0, 25.0, 60.0, 1024.0, some])
}

fn darkening(rng: &mut Rng) -> f64 {
    let some = rng.unit();
    rng.pick(&[0.0, -0.0, 0.25, 0.4, 0.5, 0.5, 0.75, 1.0, some])
}

fn factor(rng: &mut Rng) -> f64 {
    let some = rng.between(0.0, 2.0);
    rng.pick(&[0.0, -0.0, 0.5, 1.0, 1.0, 1.1, 1.3, 16.0, 5e-324, some])
}

fn mask(rng: &mut Rng, len: usize) -> Arg {
    let share = rng.pick(&[1, 2, 2, 3, 5, 12]);
    let set = |rng: &mut Rng| if rng.once_in(share) { rng.pick(&[1, 1, 2, 255]) } else { 0 };
    Arg::Bytes((0..len).map(|_| set(rng)).collect())
}

/// The limits of cleaning, and a sheet and palette on which it has something to do.
fn lively(rng: &mut Rng, h: usize, w: usize) -> (i32, f64, Vec<i32>, Vec<f64>) {
    let k = rng.pick(&[2, 3, 3, 4, 5]);
    let manner = rng.pick(&[1, 5, 7, 8, 8, 8]);
    let (limit, delta) = (rng.pick(&[2, 2, 3, 4, 5]), rng.pick(&[4.0, 8.0, 25.0, 25.0]));
    (limit, delta, sheet_in(rng, h, w, k, manner), near_colours(rng, k))
}

/// The cells and palette of a random call; cells beyond the palette only where `beyond`.
fn material(rng: &mut Rng, h: usize, w: usize, beyond: bool) -> (Vec<i32>, Vec<f64>) {
    let k = if rng.once_in(25) { 0 } else { count(rng) };
    let mut cells = sheet(rng, h, w, k);
    if beyond && rng.once_in(4) {
        for cell in &mut cells {
            if rng.once_in(6) {
                *cell = rng.pick(&[k as i32, 255, 256, i32::MAX]);
            }
        }
    }
    let palette = if rng.below(5) < 2 { colours(rng, k) } else { near_colours(rng, k) };
    (cells, palette)
}

fn outline_args(rng: &mut Rng, kinds: &[u64], palette: &[f64]) -> Vec<Arg> {
    let mut rgb = [rng.next() as u8, rng.next() as u8, rng.next() as u8];
    if rng.once_in(3) && !palette.is_empty() {
        let i = rng.below(palette.len() / 3);
        rgb.copy_from_slice(&color::lab_to_rgb8(&palette[3 * i..3 * i + 3]));
    }
    let kind = rng.pick(kinds);
    // what auto does not read may be anything
    let darken = if kind != 1 && rng.once_in(4) { 7.0 } else { darkening(rng) };
    let mut args = vec![Arg::Num(kind), real(darken)];
    args.extend(rgb.map(|v| Arg::Num(u64::from(v))));
    args
}

/// A random call of the entry on a sheet of h x w (where it takes one), mostly accepted.
pub fn random_sized(rng: &mut Rng, entry: Entry, h: usize, w: usize) -> Call {
    let n = h * w;
    let args = match entry {
        Entry::LabelRegions => {
            let k = count(rng);
            let cells = sheet(rng, h, w, k);
            vec![
                lent_cells(cells, slack(rng, n)),
                num(h),
                num(w),
                words(slack(rng, n)),
                work(slack(rng, 8 * n)),
                words(slack(rng, 1)),
            ]
        }
        Entry::Label4 => {
            let len = slack(rng, n);
            vec![
                mask(rng, len),
                num(h),
                num(w),
                words(slack(rng, n)),
                work(slack(rng, 8 * n)),
                words(slack(rng, 1)),
            ]
        }
        Entry::BinaryDilation8 => {
            let len = slack(rng, n);
            let k = rng.pick(&[0, 1, 1, 2, 3, 4, 7, 512, 65_535]);
            vec![
                mask(rng, len),
                num(h),
                num(w),
                Arg::Num(k),
                Arg::Bytes(vec![SPARE_BYTE; slack(rng, n)]),
                work(slack(rng, 8 * n)),
            ]
        }
        Entry::RemoveOrphans => {
            let (mut limit, mut delta) = (region_limit(rng), colour_limit(rng));
            let (mut cells, mut palette) = material(rng, h, w, limit <= 1);
            if rng.once_in(2) {
                (limit, delta, cells, palette) = lively(rng, h, w);
            }
            let passes = rng.pick(&[0, 1, 1, 2, 3, 5, 5, 5, 100, 65_535]);
            vec![
                lent_cells(cells, slack(rng, n)),
                num(h),
                num(w),
                Arg::Reals(lent_palette(&palette)),
                num(palette.len() / 3),
                signed(limit),
                Arg::Num(passes),
                real(delta),
                work(slack(rng, 8 * n)),
                words(slack(rng, 1)),
            ]
        }
        Entry::FixJaggies => {
            let k = 2 + rng.below(2);
            let other = rng.below(10);
            let manner = rng.pick(&[STAIRS, STAIRS, other]);
            let cells = sheet_in(rng, h, w, k, manner);
            vec![lent_cells(cells, slack(rng, n)), num(h), num(w), work(slack(rng, 8 * n))]
        }
        Entry::AddOutline if rng.once_in(12) => {
            // the nearest entry of a fixed palette: equal distances of unequal squares
            let rgb = [rng.next() as u8, rng.next() as u8, rng.next() as u8];
            let lab = color::rgb8_to_lab(&rgb);
            let tie = root_tie_at(rng, [lab[0], lab[1], lab[2]]);
            return outline_call(&sheet(rng, h, w, 2), h, w, &tie[3..], 2, 0.0, rgb, true, true);
        }
        Entry::AddOutline => {
            let (cells, palette) = material(rng, h, w, true);
            let needed = if rng.once_in(20) { n } else { padded_len(h, w) };
            let mut args = vec![
                lent_cells(cells, slack(rng, needed)),
                num(h),
                num(w),
                Arg::Reals(lent_palette(&palette)),
                num(palette.len() / 3),
            ];
            args.extend(outline_args(rng, &[1, 1, 2], &palette));
            args.extend([flag(rng), flag(rng), work(slack(rng, 8 * needed)), words(slack(rng, 5))]);
            args
        }
        Entry::ApplySaturation => {
            let k = if rng.once_in(20) { 0 } else { count(rng) };
            let palette = colours(rng, k);
            vec![Arg::Reals(lent_palette(&palette)), num(k), real(factor(rng))]
        }
        Entry::Run => {
            let (mut limit, mut delta) = (region_limit(rng), colour_limit(rng));
            let mut orphans = rng.below(4) != 0;
            let (mut cells, mut palette) = material(rng, h, w, limit <= 1 || !orphans);
            if rng.once_in(2) {
                orphans = true;
                (limit, delta, cells, palette) = lively(rng, h, w);
            }
            return random_run(rng, &Sheet { h, w, cells, palette, limit, delta }, orphans);
        }
        Entry::Rgb8ToLab => {
            let m = rng.below(4);
            let dark = rng.once_in(3);
            let byte = |rng: &mut Rng| if dark { rng.below(12) as u8 } else { rng.next() as u8 };
            let rgb: Vec<u8> = (0..3 * m).map(|_| byte(rng)).collect();
            vec![Arg::Bytes(rgb), reals(slack(rng, 3 * m))]
        }
        Entry::LabToRgb8 => {
            let m = rng.below(4);
            vec![Arg::Reals(colours(rng, m)), Arg::Bytes(vec![SPARE_BYTE; slack(rng, 3 * m)])]
        }
        Entry::DeltaE => {
            let m = rng.below(4);
            vec![Arg::Reals(colours(rng, m)), Arg::Reals(colours(rng, m)), reals(slack(rng, m))]
        }
        Entry::NearestIndex => {
            let (m, k) = (rng.below(3), 1 + rng.below(4));
            let mut palette = colours(rng, k);
            let mut pixels = colours(rng, m);
            if m > 0 && k > 1 && rng.once_in(3) {
                let tie = root_tie(rng);
                pixels[..3].copy_from_slice(&tie[..3]);
                palette[..6].copy_from_slice(&tie[3..]);
            }
            let out = lent_cells(Vec::new(), slack(rng, m));
            vec![Arg::Reals(pixels), Arg::Reals(palette), out]
        }
        Entry::PaletteDistanceMatrix => {
            let m = rng.below(5);
            vec![Arg::Reals(colours(rng, m)), reals(slack(rng, m * m))]
        }
        Entry::HexToRgb8 => {
            vec![Arg::Bytes(hex_text(rng)), Arg::Bytes(vec![SPARE_BYTE; slack(rng, 3)])]
        }
    };
    Call { entry, args }
}

/// A random call of `run` on a sheet.
pub fn random_run(rng: &mut Rng, sheet: &Sheet, orphans: bool) -> Call {
    let (h, w, palette) = (sheet.h, sheet.w, &sheet.palette);
    let needed = if rng.once_in(20) { h * w } else { padded_len(h, w) };
    let mut args = vec![
        lent_cells(sheet.cells.clone(), slack(rng, needed)),
        num(h),
        num(w),
        Arg::Reals(lent_palette(palette)),
        num(palette.len() / 3),
        real(factor(rng)),
        num(usize::from(orphans)),
        signed(sheet.limit),
        real(sheet.delta),
        flag(rng),
    ];
    args.extend(outline_args(rng, &[0, 1, 1, 2], palette));
    let margin = rng.pick(&[0, 0, 0, 1, -1, i32::MAX, i32::MIN]);
    let tileset = Arg::Num(u64::from(rng.once_in(4)));
    args.extend([
        tileset,
        flag(rng),
        flag(rng),
        signed(margin),
        work(slack(rng, 8 * needed)),
        words(slack(rng, 7)),
    ]);
    Call { entry: Entry::Run, args }
}

pub fn random(rng: &mut Rng, entry: Entry) -> Call {
    let (mut h, mut w) = (side(rng), side(rng));
    if matches!(entry, Entry::FixJaggies | Entry::Run | Entry::RemoveOrphans) && rng.once_in(2) {
        (h, w) = (4 + rng.below(4), 4 + rng.below(4)); // room for corners and regions
    }
    random_sized(rng, entry, h, w)
}

fn hex_text(rng: &mut Rng) -> Vec<u8> {
    let mut text = Vec::new();
    let blanks = [b' ', 9, 10, 11, 12, 13];
    for _ in 0..rng.pick(&[0, 0, 0, 1, 3]) {
        text.push(rng.pick(&blanks));
    }
    for _ in 0..rng.pick(&[0, 1, 1, 2]) {
        text.push(b'#');
    }
    for _ in 0..rng.pick(&[6, 6, 6, 6, 6, 6, 5, 7, 0]) {
        text.push(rng.pick(b"0123456789abcdefABCDEF"));
    }
    for _ in 0..rng.pick(&[0, 0, 0, 1, 3]) {
        text.push(rng.pick(&blanks));
    }
    if rng.once_in(3) && !text.is_empty() {
        let at = rng.below(text.len());
        text[at] = rng.pick(b"\x00\x08\x0e\x1c\x1f #/:@G`g~\x7f\x80\x85\xa0\xc2\xff");
    }
    text
}

// ---------------------------------------------------------------------------------- many passes

/// A sheet, its palette and the limits of its cleaning.
pub struct Sheet {
    pub h: usize,
    pub w: usize,
    pub cells: Vec<i32>,
    pub palette: Vec<f64>,
    pub limit: i32,
    pub delta: f64,
}

impl Sheet {
    pub fn cleaned_by(&self, passes: u64) -> Call {
        orphans_call(&self.cells, self.h, self.w, &self.palette, self.limit, passes, self.delta)
    }

    /// The number of passes that repaint, by the judge.
    pub fn passes(&self) -> u64 {
        let mut call = self.cleaned_by(65_535);
        assert_eq!(call.judged(), 0);
        call.args[call.args.len() - 1].numbers()[0]
    }
}

/// The neighbours of a cell.
fn around(p: usize, h: usize, w: usize) -> impl Iterator<Item = usize> {
    let (y, x) = (p / w, p % w);
    let (rows, columns) = (y.saturating_sub(1)..h.min(y + 2), x.saturating_sub(1)..w.min(x + 2));
    rows.flat_map(move |v| columns.clone().map(move |u| v * w + u)).filter(move |&q| q != p)
}

/// A way along every other row, to and fro: no cell has other neighbours on it than the one before
/// and the one after. On narrow sheets one column.
pub fn winding(h: usize, w: usize) -> Vec<usize> {
    if w < 4 {
        return (0..h).map(|y| y * w).collect();
    }
    let mut way = vec![0];
    for y in 0..h {
        let row = y * w + 1..y * w + w - 1;
        match y % 4 {
            0 => way.extend(row),
            1 => way.push(y * w + w - 1),
            2 => way.extend(row.rev()),
            _ => way.push(y * w),
        }
    }
    way
}

/// A way like that from any cell on, each step by chance, until none is left.
fn walk(rng: &mut Rng, h: usize, w: usize) -> Vec<usize> {
    let (mut last, mut way) = (rng.below(h * w), vec![]);
    loop {
        way.push(last);
        let free = |q: &usize| !way.contains(q) && around(*q, h, w).all(|r| r == last || !way.contains(&r));
        let next: Vec<usize> = around(last, h, w).filter(free).collect();
        if next.is_empty() {
            return way;
        }
        last = rng.pick(&next);
    }
}

/// Either of these, from any end, along rows or columns.
fn random_way(rng: &mut Rng, h: usize, w: usize) -> Vec<usize> {
    let mut way = match rng.below(5) {
        0 => winding(h, w),
        1 => winding(w, h).into_iter().map(|p| p % h * w + p / h).collect(),
        _ => {
            let (one, other) = (walk(rng, h, w), walk(rng, h, w));
            if one.len() < other.len() {
                other
            } else {
                one
            }
        }
    };
    if rng.once_in(2) {
        way.reverse();
    }
    if rng.once_in(2) {
        way.iter_mut().for_each(|p| *p = h * w - 1 - *p);
    }
    way
}

/// An index below k, neither beside the cell nor `not` if there is one.
fn unlike(rng: &mut Rng, sheet: &Sheet, p: usize, k: usize, not: i32) -> i32 {
    let beside: Vec<i32> = around(p, sheet.h, sheet.w).map(|q| sheet.cells[q]).collect();
    let free: Vec<i32> = (0..k as i32).filter(|c| *c != not && !beside.contains(c)).collect();
    if free.is_empty() {
        rng.below(k) as i32
    } else {
        rng.pick(&free)
    }
}

/// Single cells along a way that begins with a large region and now and then ends with one; some ways
/// have branches or a gap.
fn chain(rng: &mut Rng, h: usize, w: usize) -> Sheet {
    let k = 3 + rng.below(4);
    let way = random_way(rng, h, w);
    let large = 2 + rng.below((way.len() / 4).clamp(1, 11));
    let (palette, delta) = (near_colours(rng, k), rng.pick(&[12.0, 25.0, 25.0, 25.0]));
    let mut sheet = Sheet { h, w, cells: vec![-1; h * w], palette, limit: large as i32, delta };
    let seed = rng.below(k) as i32;
    let not = if rng.once_in(4) { -1 } else { seed };
    for (i, &p) in way.iter().enumerate() {
        sheet.cells[p] = if i < large { seed } else { unlike(rng, &sheet, p, k, not) };
    }
    if rng.once_in(4) {
        let other = rng.below(k) as i32;
        way.iter().rev().take(large).for_each(|&p| sheet.cells[p] = other);
    }
    for _ in 0..rng.pick(&[0, 0, 1, 3]) {
        branch(rng, &mut sheet, &way, k);
    }
    if rng.once_in(4) {
        sheet.cells[rng.pick(&way)] = -1;
    }
    sheet
}

/// Up to four more cells, from one of the way on, where the sheet is transparent.
fn branch(rng: &mut Rng, sheet: &mut Sheet, way: &[usize], k: usize) {
    let mut p = rng.pick(way);
    for _ in 0..1 + rng.below(4) {
        let next: Vec<usize> = around(p, sheet.h, sheet.w).filter(|&q| sheet.cells[q] < 0).collect();
        if next.is_empty() {
            return;
        }
        p = rng.pick(&next);
        sheet.cells[p] = unlike(rng, sheet, p, k, -1);
    }
}

/// Noise of which every region is small, and one or two that are just large enough.
fn seeded(rng: &mut Rng, h: usize, w: usize) -> Sheet {
    let (n, k) = (h * w, 3 + rng.below(7));
    let least = if k < 5 { 6 } else { 2 };
    let limit = least + rng.below(13 - least);
    // a distance of the palette is the colour limit: what lies so far or farther is frozen
    let mut palette = near_colours(rng, k);
    let distances = color::palette_distance_matrix(&palette);
    let far = rng.pick(&distances).max(rng.pick(&distances));
    let mut delta = rng.pick(&[far, far + 1.0, 25.0]);
    let mut seeds: Vec<(usize, usize)> = vec![(rng.below(n), rng.below(k)), (0, rng.below(k))];
    if rng.once_in(2) {
        // the first and the last colour of a line, from either end: one takes what the other froze
        palette = (0..k).flat_map(|i| [6.0 * i as f64, 0.0, 0.0]).collect();
        delta = 6.0 * k.div_ceil(2) as f64;
        seeds = vec![(0, 0), (n - 1, k - 1)];
    } else if rng.once_in(2) {
        seeds.remove(0);
    }
    let share = rng.pick(&[8, n, n]);
    let cell = |_| if rng.once_in(share) { -1 } else { rng.below(k) as i32 };
    let cells = (0..n).map(cell).collect();
    let mut sheet = Sheet { h, w, cells, palette, limit: limit as i32, delta };
    for _ in 0..20 {
        break_large(rng, &mut sheet, k);
    }
    for (p, index) in seeds {
        plant(rng, &mut sheet, p, limit, index as i32);
    }
    sheet
}

/// Other indices for some cells of the large regions.
fn break_large(rng: &mut Rng, sheet: &mut Sheet, k: usize) {
    let wide: Vec<i64> = sheet.cells.iter().map(|&c| i64::from(c)).collect();
    let (labels, n) = postprocess::label_regions(&wide, sheet.h, sheet.w);
    let mut sizes = vec![0; n + 1];
    labels.iter().for_each(|&l| sizes[l] += 1);
    for p in 0..labels.len() {
        if labels[p] > 0 && sizes[labels[p]] >= sheet.limit && rng.once_in(3) {
            sheet.cells[p] = unlike(rng, sheet, p, k, -1);
        }
    }
}

/// A region of `size` cells, one of them p.
fn plant(rng: &mut Rng, sheet: &mut Sheet, p: usize, size: usize, index: i32) {
    let mut seed = vec![p];
    while seed.len() < size.min(sheet.cells.len()) {
        let from = rng.pick(&seed);
        let next: Vec<usize> = around(from, sheet.h, sheet.w).filter(|q| !seed.contains(q)).collect();
        if !next.is_empty() {
            seed.push(rng.pick(&next));
        }
    }
    seed.iter().for_each(|&p| sheet.cells[p] = index);
}

/// A sheet whose cleaning takes many passes; every 20th is larger.
pub fn lasting(rng: &mut Rng, number: usize) -> Sheet {
    let (mut h, mut w) = match rng.below(4) {
        0 => (1, 8 + rng.below(41)),
        1 => (2 + rng.below(2), 8 + rng.below(33)),
        _ => (5 + rng.below(9), 5 + rng.below(9)),
    };
    if rng.once_in(2) {
        (h, w) = (w, h);
    }
    if number % 20 == 0 {
        (h, w) = (24, 24);
    }
    if rng.once_in(2) {
        chain(rng, h, w)
    } else {
        seeded(rng, h, w)
    }
}

// ---------------------------------------------------------------------------------- colour limits

/// A cell beside a large region; the colour limit is the distance of the two, or so many doubles away.
pub fn at_the_limit(rng: &mut Rng) -> Call {
    let scale = rng.pick(&[2048.0, 60.0, 60.0, 1.0, 1e-8, 1e-153, 1e-160, 1e-162]);
    let palette: Vec<f64> = (0..6).map(|_| scale * rng.between(-0.5, 0.5)).collect();
    let distance = color::palette_distance_matrix(&palette)[1].to_bits();
    let away = rng.pick(&[0, 0, 1, 1, 2, 1 << 26, (1 << 27) - 1, 1 << 27, 1 << 28, 1 << 51, 1 << 52]);
    let limit = if rng.once_in(2) { distance + away } else { distance.saturating_sub(away) };
    orphans_call(&[0, 0, 1], 1, 3, &palette, 2, 1, f64::from_bits(limit).min(1024.0))
}

// ---------------------------------------------------------------------------------- named calls

fn orphans_call(
    cells: &[i32],
    h: usize,
    w: usize,
    palette: &[f64],
    region: i32,
    passes: u64,
    delta: f64,
) -> Call {
    let n = h * w;
    let args = vec![
        lent_cells(cells.to_vec(), n),
        num(h),
        num(w),
        Arg::Reals(lent_palette(palette)),
        num(palette.len() / 3),
        signed(region),
        Arg::Num(passes),
        real(delta),
        work(8 * n),
        words(1),
    ];
    Call { entry: Entry::RemoveOrphans, args }
}

fn outline_call(
    cells: &[i32],
    h: usize,
    w: usize,
    palette: &[f64],
    kind: u64,
    darken: f64,
    rgb: [u8; 3],
    pad: bool,
    fixed: bool,
) -> Call {
    let n = padded_len(h, w);
    let mut args = vec![
        lent_cells(cells.to_vec(), n),
        num(h),
        num(w),
        Arg::Reals(lent_palette(palette)),
        num(palette.len() / 3),
        Arg::Num(kind),
        real(darken),
    ];
    args.extend(rgb.map(|v| Arg::Num(u64::from(v))));
    args.extend([num(usize::from(pad)), num(usize::from(fixed)), work(8 * n), words(5)]);
    Call { entry: Entry::AddOutline, args }
}

fn jaggies_call(cells: &[i32], h: usize, w: usize) -> Call {
    let args = vec![lent_cells(cells.to_vec(), h * w), num(h), num(w), work(8 * h * w)];
    Call { entry: Entry::FixJaggies, args }
}

/// All passes on, the outline auto by half.
fn run_call(cells: &[i32], h: usize, w: usize, palette: &[f64], tileset: bool) -> Call {
    let n = padded_len(h, w);
    let args = vec![
        lent_cells(cells.to_vec(), n),
        num(h),
        num(w),
        Arg::Reals(lent_palette(palette)),
        num(palette.len() / 3),
        real(1.0),
        num(1),
        signed(2),
        real(25.0),
        num(1),
        num(1),
        real(0.5),
        num(0),
        num(0),
        num(0),
        num(usize::from(tileset)),
        num(0),
        num(0),
        signed(0),
        work(8 * n),
        words(7),
    ];
    Call { entry: Entry::Run, args }
}

const Q: [f64; 9] = [0.0, 0.0, 0.0, 6.0, 8.0, 0.0, 3.0, 4.0, 0.0];
const Q7: [f64; 9] = [0.0, 0.0, 0.0, 6.0, 8.0, 0.0, 6.0, 4.0, 0.0];

/// M9's sheet.
const STAIRCASE: [i32; 16] = [0, 0, 0, 1, 0, 1, 1, 0, 0, 1, 0, 0, 1, 0, 0, 0];

/// M9 with a 2 beside its corner.
const DOTTED: [i32; 16] = [0, 0, 0, 1, 2, 1, 1, 0, 0, 1, 0, 0, 1, 0, 0, 0];

fn named_orphans() -> Vec<Call> {
    let centre = [0, 0, 0, 0, 2, 0, 0, 0, 0];
    let rng = &mut Rng(256);
    let full = colours(rng, 256);
    let far = [0.0, 0.0, 0.0, 55.0, 0.0, 0.0, 50.0, 0.0, 0.0, 54.0, 0.0, 0.0];
    let greys: Vec<f64> = [100.0, 0.0, 5.0, 3.0, 98.0, 99.0].iter().flat_map(|&l| [l, 0.0, 0.0]).collect();
    let mut sheet = vec![7; 16];
    sheet[5] = 255;
    sheet[10] = 128;
    vec![
        orphans_call(&centre, 3, 3, &Q, 2, 5, 25.0),
        orphans_call(&centre, 3, 3, &Q, 2, 5, 5.0),
        orphans_call(&[0, 0, 1, 2], 1, 4, &Q, 2, 1, 25.0),
        orphans_call(&[0, 0, 1, 2], 1, 4, &Q, 2, 2, 25.0),
        orphans_call(&centre, 3, 3, &Q, 1, 5, 25.0),
        orphans_call(&[0], 1, 1, &Q, 2, 5, 25.0),
        orphans_call(&[0, 0, 2, 1, 1], 1, 5, &Q, 2, 5, 25.0),
        orphans_call(&[0, 0, 2, 1, 1], 1, 5, &Q7, 2, 5, 25.0),
        orphans_call(&[], 0, 7, &Q, 2, 5, 25.0),
        orphans_call(&sheet, 4, 4, &full, 3, 5, 1024.0),
        // a neighbour of two cells of a region counts once: 1 wins
        orphans_call(&[2, 2, 1, 0, -1, 1, 0, 0, 1], 3, 3, &Q, 3, 5, 25.0),
        orphans_call(&[2, 2, 0, 1, 1, 0, 1, 1, 0], 3, 3, &Q, 3, 5, 25.0),
        // most votes before least distance
        orphans_call(&[0, 0, 0, 0, 2, 1, 0, 1, 1], 3, 3, &Q7, 2, 5, 25.0),
        // small regions do not vote: of two that touch, only the one beside a large region is repainted
        orphans_call(&[0, 0, 0, 2, 1, 1], 1, 6, &Q, 3, 1, 25.0),
        // frozen in the first pass, and not thawed when a nearer index comes beside it
        orphans_call(&[0, 0, 2, 3, 1, 1], 1, 6, &far, 2, 5, 25.0),
        orphans_call(&[5, 4, 0, 0, 1, 2, 3, 3], 1, 8, &greys, 2, 5, 25.0),
        // equal votes, equal distances of unequal squares: the lowest index
        orphans_call(&[1, 1, 0, 2, 2], 1, 5, &root_tie(rng), 2, 5, 1024.0),
        // indices are checked from region limit 2 on, and not at 1
        orphans_call(&[2], 1, 1, &Q[..6], 2, 5, 25.0),
        orphans_call(&[2], 1, 1, &Q[..6], 1, 5, 25.0),
    ]
}

fn named_jaggies() -> Vec<Call> {
    // two corners that touch: both are judged by the input
    let touching = [
        1, 1, 1, 0, 1, //
        1, 0, 0, 0, 1, //
        1, 0, 1, 1, 1, //
        0, 0, 1, 0, 1, //
        1, 1, 1, 1, 1,
    ];
    let turned: Vec<i32> = touching.iter().rev().copied().collect();
    // a cell that was replaced completes no other corner
    let completed = [
        0, 1, 0, 0, 0, //
        1, 1, 1, 1, 0, //
        1, 0, 0, 1, 0, //
        1, 0, 1, 0, 1, //
        0, 0, 0, 0, 0,
    ];
    vec![
        jaggies_call(&STAIRCASE, 4, 4),
        jaggies_call(&STAIRCASE[..12], 3, 4),
        jaggies_call(&touching, 5, 5),
        jaggies_call(&turned, 5, 5),
        jaggies_call(&completed, 5, 5),
        // a corner has one index in all six cells around it
        jaggies_call(&DOTTED, 4, 4),
    ]
}

fn named_outline() -> Vec<Call> {
    let full: Vec<f64> = (0..256)
        .flat_map(|i| [f64::from(i) / 4.0 + 30.0, f64::from(i % 16) - 8.0, f64::from(i / 16) - 8.0])
        .collect();
    let spot = [-1, -1, -1, -1, 3, -1, -1, -1, -1];
    // entry 1 has the lesser square, yet both are at distance 1 from black
    let alike = [1.0, f64::powi(2.0, -26), 0.0, 1.0, 0.0, 0.0];
    vec![
        outline_call(&[0], 1, 1, &Q, 1, 0.0, [0; 3], true, true),
        outline_call(&[0], 1, 1, &Q, 1, 0.0, [0; 3], false, true),
        outline_call(&[0, -1], 1, 2, &[], 2, 0.0, [1, 2, 3], false, false),
        outline_call(&spot, 3, 3, &full, 1, 0.5, [0; 3], true, false),
        outline_call(&spot, 3, 3, &full[3..], 1, 0.5, [0; 3], true, false),
        outline_call(&[0, -1], 1, 2, &alike, 1, 1.0, [0; 3], false, true),
    ]
}

fn named_run() -> Vec<Call> {
    // more single cells than the passes can take, no ring: five passes, then one
    let chain = [0, 0, 1, 2, 1, 2, 1, 2, 1, 2];
    let dark = color::rgb8_to_lab(&[0x01, 0x17, 0x14]);
    // no outline, the palette kept: the sheet is cleaned to M9, and then its corner goes
    let kept = [(OUTLINE, num(0)), (SATURATED, num(1)), (FIXED, num(1))];
    let mut calls = vec![
        run_call(&chain, 1, 10, &Q, true),
        run_call(&[0], 1, 1, &dark, false),
        changed(run_call(&DOTTED, 4, 4, &Q, false), kept),
    ];
    calls.extend(table().into_iter().map(|(call, _)| call));
    calls
}

// the places of some of the arguments of `run`
const CELLS: usize = 0;
const HEIGHT: usize = 1;
const COUNT: usize = 4;
const BETA: usize = 5;
const ORPHANS: usize = 6;
const OUTLINE: usize = 10;
const SATURATED: usize = 16;
const FIXED: usize = 17;
const WORK: usize = 19;

fn changed<const N: usize>(mut call: Call, changes: [(usize, Arg); N]) -> Call {
    for (place, arg) in changes {
        call.args[place] = arg;
    }
    call
}

/// The examples of the specification's table of refusals as it writes them, rows 1 to 8, each with its number. Rows 9 and 10 have theirs among the hex colours and the texts of `silk`.
pub fn table() -> Vec<(Call, u32)> {
    let one = || run_call(&[0], 1, 1, &Q, false);
    vec![
        (changed(one(), [(HEIGHT, num(513))]), 1),
        (changed(one(), [(CELLS, lent_cells(vec![0], 8))]), 2),
        (changed(one(), [(OUTLINE, num(0)), (WORK, work(7))]), 3),
        (changed(one(), [(COUNT, num(257))]), 4),
        (run_call(&[0], 1, 1, &[1025.0, 0.0, 0.0], false), 5),
        (changed(one(), [(BETA, real(17.0))]), 6),
        (run_call(&[2], 1, 1, &Q[..6], false), 7),
        (changed(run_call(&[0, -1], 1, 2, &[], false), [(ORPHANS, num(0))]), 8),
    ]
}

/// The specification's examples, full palettes, and the errors that this code invites.
pub fn named(entry: Entry) -> Vec<Call> {
    match entry {
        Entry::RemoveOrphans => named_orphans(),
        Entry::FixJaggies => named_jaggies(),
        Entry::AddOutline => named_outline(),
        Entry::Run => named_run(),
        Entry::LabToRgb8 => {
            // linear values that are thresholds
            let rgb = [0, 2, 3, 0, 3, 1, 0, 9, 2, 0, 9, 3, 0, 9, 6, 1, 0x17, 0x14];
            let lab: Vec<f64> = color::rgb8_to_lab(&rgb).iter().map(|v| v * 0.5).collect();
            let out = Arg::Bytes(vec![SPARE_BYTE; lab.len()]);
            vec![Call { entry, args: vec![Arg::Reals(lab), out] }]
        }
        Entry::ApplySaturation => {
            let full: Vec<f64> = (0..768).map(|i| f64::from(i % 129) - 64.0).collect();
            vec![Call { entry, args: vec![Arg::Reals(full), num(256), real(16.0)] }]
        }
        _ => Vec::new(),
    }
}

/// Outlines over palettes of 254 to 256 entries: appended, overwritten, found, nearest.
pub fn full_palettes(rng: &mut Rng, times: usize) -> Vec<Call> {
    let one = |_| {
        let k = rng.pick(&[254, 255, 256, 256, 256]);
        let palette = colours(rng, k);
        let (h, w) = (1 + rng.below(4), 1 + rng.below(4));
        let cells = sheet(rng, h, w, 256);
        let rgb = [rng.next() as u8, rng.next() as u8, rng.next() as u8];
        let (kind, darken) = (rng.pick(&[1, 2]), darkening(rng));
        let (pad, fixed) = (rng.once_in(2), rng.once_in(3));
        outline_call(&cells, h, w, &palette, kind, darken, rgb, pad, fixed)
    };
    (0..times).map(one).collect()
}

// ---------------------------------------------------------------------------------- damage

/// A change to a call that the row of this number refuses.
pub struct Damage {
    pub row: u32,
    apply: Box<dyn Fn(&mut Call)>,
}

impl Damage {
    pub fn apply(&self, call: &mut Call) {
        (self.apply)(call);
    }
}

/// A sound call that every damage of its entry can be done to.
pub fn sound(entry: Entry) -> Call {
    let palette = [0.0, 0.0, 0.0, 64.0, 6.0, -3.0];
    let cells = [0, 1, 1, -1, 0, 1];
    let set = Arg::Bytes(vec![1, 0, 3, 1, 0, 255]);
    let dims = [num(2), num(3)];
    let n = padded_len(2, 3);
    let sheet_args = |len: usize| {
        let mut args = vec![lent_cells(cells.to_vec(), len)];
        args.extend(dims.clone());
        args
    };
    let lent = [Arg::Reals(lent_palette(&palette)), num(2)];
    let line = [num(1), real(0.5), num(1), num(2), num(3)];
    let mut args = match entry {
        Entry::Label4 | Entry::BinaryDilation8 => vec![set, num(2), num(3)],
        Entry::AddOutline | Entry::Run => sheet_args(n),
        Entry::LabelRegions | Entry::RemoveOrphans | Entry::FixJaggies => sheet_args(6),
        _ => Vec::new(),
    };
    args.extend(match entry {
        Entry::LabelRegions | Entry::Label4 => vec![words(6), work(48), words(1)],
        Entry::BinaryDilation8 => vec![num(1), Arg::Bytes(vec![SPARE_BYTE; 6]), work(48)],
        Entry::RemoveOrphans => {
            let [p, k] = lent;
            vec![p, k, signed(2), num(5), real(25.0), work(48), words(1)]
        }
        Entry::FixJaggies => vec![work(48)],
        Entry::AddOutline => {
            let mut args = Vec::from(lent);
            args.extend(line);
            args.extend([num(1), num(0), work(8 * n), words(5)]);
            args
        }
        Entry::ApplySaturation => vec![Arg::Reals(lent_palette(&palette)), num(2), real(1.5)],
        Entry::Run => {
            let mut args = Vec::from(lent);
            args.extend([real(1.5), num(1), signed(2), real(25.0), num(1)]);
            args.extend(line);
            args.extend([num(0), num(0), num(0), signed(0), work(8 * n), words(7)]);
            args
        }
        Entry::Rgb8ToLab => vec![Arg::Bytes(vec![1, 2, 3, 4, 5, 6]), reals(6)],
        Entry::LabToRgb8 => vec![Arg::Reals(palette.to_vec()), Arg::Bytes(vec![SPARE_BYTE; 6])],
        Entry::DeltaE => vec![Arg::Reals(palette.to_vec()), Arg::Reals(vec![1.0; 6]), reals(2)],
        Entry::NearestIndex => {
            vec![Arg::Reals(vec![1.0; 6]), Arg::Reals(palette.to_vec()), lent_cells(Vec::new(), 2)]
        }
        Entry::PaletteDistanceMatrix => vec![Arg::Reals(palette.to_vec()), reals(4)],
        Entry::HexToRgb8 => vec![Arg::Bytes(b"#12aBcd".to_vec()), Arg::Bytes(vec![SPARE_BYTE; 3])],
    });
    Call { entry, args }
}

fn set(row: u32, at: usize, to: u64) -> Damage {
    Damage { row, apply: Box::new(move |call| call.args[at] = Arg::Num(to)) }
}

fn set_real(row: u32, at: usize, to: f64) -> Damage {
    set(row, at, to.to_bits())
}

fn shorten(row: u32, at: usize, to: usize) -> Damage {
    let apply = move |call: &mut Call| match &mut call.args[at] {
        Arg::Num(_) => unreachable!(),
        Arg::Bytes(l) => l.truncate(to),
        Arg::Cells(l) => l.truncate(to),
        Arg::Words(l) | Arg::Work(l) => l.truncate(to),
        Arg::Reals(l) => l.truncate(to),
    };
    Damage { row, apply: Box::new(apply) }
}

fn lengthen(row: u32, at: usize, to: usize) -> Damage {
    let apply = move |call: &mut Call| match &mut call.args[at] {
        Arg::Bytes(l) => l.resize(to, 0),
        Arg::Reals(l) => l.resize(to, 1.0),
        _ => unreachable!(),
    };
    Damage { row, apply: Box::new(apply) }
}

fn put_real(row: u32, at: usize, place: usize, to: f64) -> Damage {
    let apply = move |call: &mut Call| {
        if let Arg::Reals(l) = &mut call.args[at] {
            if let Some(v) = l.get_mut(place) {
                *v = to;
            }
        }
    };
    Damage { row, apply: Box::new(apply) }
}

fn put_cell(row: u32, place: usize, to: i32) -> Damage {
    let apply = move |call: &mut Call| {
        if let Arg::Cells(l) = &mut call.args[0] {
            if let Some(v) = l.get_mut(place) {
                *v = to;
            }
        }
    };
    Damage { row, apply: Box::new(apply) }
}

fn text(to: &'static [u8]) -> Damage {
    Damage { row: 9, apply: Box::new(move |call| call.args[0] = Arg::Bytes(to.to_vec())) }
}

fn both(a: Damage, b: Damage) -> Damage {
    let row = b.row;
    let apply = move |call: &mut Call| {
        a.apply(call);
        b.apply(call);
    };
    Damage { row, apply: Box::new(apply) }
}

fn wild_values(at: usize) -> Vec<Damage> {
    vec![
        put_real(5, at, 3, JUST_ABOVE_1024),
        put_real(5, at, 0, f64::NAN),
        put_real(5, at, 5, f64::NEG_INFINITY),
        put_real(5, at, 1, -1025.0),
    ]
}

fn palette_damages(at: usize) -> Vec<Damage> {
    let mut all = vec![
        set(4, at + 1, 257),
        shorten(4, at, 767),
        lengthen(4, at, 769),
        shorten(4, at, 0),
        set(4, at + 1, u64::MAX),
    ];
    all.extend(wild_values(at));
    all
}

/// All damages of an entry, rows rising; the first of each row serves in pairs.
pub fn damages(entry: Entry) -> Vec<Damage> {
    let n = padded_len(2, 3);
    let sides = || vec![set(1, 1, 513), set(1, 2, 513), set(1, 1, u64::MAX), set(1, 2, 1 << 32)];
    let range = |at: usize, above: f64| {
        vec![
            set_real(6, at, above),
            set_real(6, at, f64::NAN),
            set_real(6, at, JUST_BELOW_ZERO),
            set_real(6, at, f64::INFINITY),
        ]
    };
    let mut all = match entry {
        Entry::LabelRegions | Entry::Label4 => {
            let mut all = sides();
            all.extend([
                shorten(2, 0, 5),
                shorten(2, 3, 5),
                shorten(2, 5, 0),
                shorten(3, 4, 47),
                shorten(3, 4, 0),
            ]);
            all
        }
        Entry::BinaryDilation8 => {
            let mut all = sides();
            all.extend([shorten(2, 0, 5), shorten(2, 4, 5), shorten(3, 5, 47)]);
            all.extend([set(6, 3, 65_536), set(6, 3, u64::from(u32::MAX))]);
            all
        }
        Entry::RemoveOrphans => {
            let mut all = sides();
            all.extend([shorten(2, 0, 5), shorten(2, 9, 0), shorten(3, 8, 47)]);
            all.extend(palette_damages(3));
            all.extend(range(7, JUST_ABOVE_1024));
            all.extend([set(6, 6, 65_536), set(6, 6, u64::from(u32::MAX))]);
            all.extend([put_cell(7, 3, 2), put_cell(7, 0, i32::MAX), put_cell(7, 5, 256)]);
            all
        }
        Entry::FixJaggies => {
            let mut all = sides();
            all.extend([shorten(2, 0, 5), shorten(3, 3, 47)]);
            all
        }
        Entry::AddOutline => {
            let mut all = sides();
            all.extend([shorten(2, 0, n - 1), shorten(2, 0, 5), shorten(2, 0, 0), shorten(2, 13, 4)]);
            all.extend([shorten(3, 12, 8 * n - 1), shorten(3, 12, 47)]);
            all.extend(palette_damages(3));
            all.extend(range(6, JUST_ABOVE_ONE));
            all.extend([set(6, 5, 0)]);
            all.extend([set(8, 4, 0), both(set(0, 5, 2), both(set(0, 11, 1), set(8, 4, 0)))]);
            all
        }
        Entry::ApplySaturation => {
            let mut all = palette_damages(0);
            all.extend(range(2, JUST_ABOVE_16));
            all.push(both(set_real(0, 2, 16.0), put_real(6, 0, 4, f64::from_bits(0x4050_0000_0000_0001))));
            all.push(both(set_real(0, 2, 16.0), put_real(6, 0, 5, -65.0)));
            all
        }
        Entry::Run => {
            let mut all = sides();
            all.extend([shorten(2, 0, n - 1), shorten(2, 0, 5), shorten(2, 20, 6)]);
            all.extend([shorten(3, 19, 8 * n - 1), shorten(3, 19, 47)]);
            all.extend(palette_damages(3));
            all.extend(range(5, JUST_ABOVE_16));
            all.extend(range(8, JUST_ABOVE_1024));
            all.extend(range(11, JUST_ABOVE_ONE));
            all.push(both(set_real(0, 5, 16.0), put_real(6, 3, 4, f64::from_bits(0x4050_0000_0000_0001))));
            all.extend([put_cell(7, 3, 2), put_cell(7, 0, i32::MAX)]);
            all.push(both(set(0, 6, 0), set(8, 4, 0)));
            all.push(both(set(0, 6, 0), both(set(0, 10, 2), both(set(0, 17, 1), set(8, 4, 0)))));
            all
        }
        Entry::Rgb8ToLab => vec![shorten(2, 1, 5), lengthen(4, 0, 7), lengthen(4, 0, 8)],
        Entry::LabToRgb8 => {
            let mut all = vec![shorten(2, 1, 5), lengthen(4, 0, 7), lengthen(4, 0, 8)];
            all.extend(wild_values(0));
            all
        }
        Entry::DeltaE => {
            let mut all = vec![
                shorten(2, 2, 1),
                lengthen(4, 0, 7),
                lengthen(4, 1, 8),
                lengthen(4, 1, 9),
                shorten(4, 1, 3),
                shorten(4, 0, 3),
            ];
            all.extend(wild_values(0));
            all.extend(wild_values(1));
            all
        }
        Entry::NearestIndex => {
            let mut all = vec![
                shorten(2, 2, 1),
                lengthen(4, 0, 7),
                lengthen(4, 1, 8),
                lengthen(4, 1, 771),
                lengthen(4, 1, 770),
            ];
            all.extend(wild_values(0));
            all.extend(wild_values(1));
            all.push(shorten(8, 1, 0));
            all
        }
        Entry::PaletteDistanceMatrix => {
            let long = |len: usize| {
                let apply = move |call: &mut Call| {
                    if let [Arg::Reals(p), Arg::Reals(out)] = call.args.as_mut_slice() {
                        p.resize(len, 1.0);
                        out.resize((len / 3) * (len / 3), SPARE_REAL);
                    }
                };
                Damage { row: 4, apply: Box::new(apply) }
            };
            let mut all =
                vec![shorten(2, 1, 3), lengthen(4, 0, 7), lengthen(2, 0, 771), long(771), long(770)];
            all.extend(wild_values(0));
            all
        }
        Entry::HexToRgb8 => vec![
            shorten(2, 1, 2),
            text(b"# ff0000"),
            text(b""),
            text(b"#"),
            text(b"12345"),
            text(b"1234567"),
            text(b"12345g"),
            text(b"12345G"),
            text(b"12345/"),
            text(b"12345:"),
            text(b"12345@"),
            text(b"12345`"),
            text(b"\xc2\xa0ff0000"),
            text(b"ff0000\x00"),
            text(b"ff0000\x08"),
            text(b"ff0000\x0e"),
            text(b"\x1cff0000"),
            text(b"#ff0000#"),
            text(b"ff #0000"),
            text(b"   "),
            text(b"+12345"),
        ],
    };
    all.sort_by_key(|d| d.row);
    all
}

/// Every damage alone, with the row that has to refuse it.
pub fn singles(entry: Entry) -> Vec<(Call, u32)> {
    let one = |d: &Damage| {
        let mut call = sound(entry);
        d.apply(&mut call);
        (call, d.row)
    };
    damages(entry).iter().map(one).collect()
}

/// Pairs of damages of different rows; `few`: only the first damage of each row.
pub fn pairs(entry: Entry, few: bool) -> Vec<Call> {
    let all = damages(entry);
    let mut chosen: Vec<&Damage> = all.iter().collect();
    if few {
        chosen.dedup_by_key(|d| d.row);
    }
    let mut calls = Vec::new();
    for a in &chosen {
        for b in &chosen {
            if a.row < b.row {
                let mut call = sound(entry);
                a.apply(&mut call);
                b.apply(&mut call);
                calls.push(call);
            }
        }
    }
    calls
}
