//! Counts where the reference with the stand-ins and the unpatched crate (libm) differ.

use pixelforge::{color as patched, postprocess as post};
use pixelforge_libm::{color as libm, postprocess as post_libm};

struct Rng(u64);

impl Rng {
    fn next(&mut self) -> u64 {
        self.0 = self.0.wrapping_add(0x9e37_79b9_7f4a_7c15);
        let z = (self.0 ^ (self.0 >> 30)).wrapping_mul(0xbf58_476d_1ce4_e5b9);
        let z = (z ^ (z >> 27)).wrapping_mul(0x94d0_49bb_1331_11eb);
        z ^ (z >> 31)
    }

    fn below(&mut self, n: u64) -> u64 {
        self.next() % n
    }

    fn between(&mut self, low: f64, high: f64) -> f64 {
        low + (high - low) * ((self.next() >> 11) as f64 / (1u64 << 53) as f64)
    }
}

fn triple(code: u32) -> [u8; 3] {
    [(code >> 16) as u8, (code >> 8) as u8, code as u8]
}

/// Distance of two doubles in units of the last place.
fn places(a: f64, b: f64) -> u64 {
    let key = |v: f64| {
        let bits = v.to_bits() as i64;
        if bits < 0 {
            i64::MIN - bits
        } else {
            bits
        }
    };
    key(a).abs_diff(key(b))
}

/// All byte triples to LAB, and back from either LAB.
fn triples() {
    let (mut other_bits, mut other_l, mut largest, mut back) = (0u32, 0u32, 0.0f64, [0u32; 4]);
    let mut far = 0;
    for code in 0..1u32 << 24 {
        let rgb = triple(code);
        let (p, l) = (patched::rgb8_to_lab(&rgb), libm::rgb8_to_lab(&rgb));
        let same = p.iter().zip(&l).all(|(a, b)| a.to_bits() == b.to_bits());
        other_bits += u32::from(!same);
        other_l += u32::from(p[0].to_bits() != l[0].to_bits());
        for (a, b) in p.iter().zip(&l) {
            largest = largest.max((a - b).abs());
        }
        far = far.max(places(p[0], l[0]));
        back[0] += u32::from(patched::lab_to_rgb8(&p) != rgb);
        back[1] += u32::from(libm::lab_to_rgb8(&l) != rgb);
        back[2] += u32::from(patched::lab_to_rgb8(&l) != rgb);
        back[3] += u32::from(libm::lab_to_rgb8(&p) != rgb);
    }
    println!("rgb8_to_lab, all 16777216 triples: {other_bits} differ in some bit ({other_l} in L)");
    println!("  largest difference of a value {largest:e}; of L {far} units in the last place");
    println!("  round trips that do not return the triple: stand-ins {}, libm {}, stand-ins of libm's LAB {}, libm of the stand-ins' LAB {}", back[0], back[1], back[2], back[3]);
}

/// Random LAB values to bytes.
fn labs(name: &str, count: u32, mut make: impl FnMut(&mut Rng) -> [f64; 3]) {
    let rng = &mut Rng(7);
    let (mut differing, mut by_more, mut shown) = (0, 0, 0);
    for _ in 0..count {
        let lab = make(rng);
        let (p, l) = (patched::lab_to_rgb8(&lab), libm::lab_to_rgb8(&lab));
        if p != l {
            differing += 1;
            by_more += u32::from(p.iter().zip(&l).any(|(a, b)| a.abs_diff(*b) > 1));
            if shown < 2 {
                shown += 1;
                println!("  {lab:?}: stand-ins {p:?}, libm {l:?}");
            }
        }
    }
    println!("lab_to_rgb8, {name}: {differing} of {count} differ, {by_more} of them by more than 1");
}

/// A random sheet with its palette and settings, run by both.
fn runs(count: u32, dark: bool, own: bool) {
    let rng = &mut Rng(11);
    let (mut cells, mut palettes, mut bits, mut rgb, mut facts, mut shown) = (0, 0, 0, 0, 0, 0);
    for _ in 0..count {
        let (h, w, k) = (3 + rng.below(6) as usize, 3 + rng.below(6) as usize, 1 + rng.below(5));
        let sheet: Vec<i64> = (0..h * w).map(|_| rng.below(k + 1) as i64 - 1).collect();
        let top = if dark { 24 } else { 256 };
        let bytes: Vec<u8> = (0..3 * k).map(|_| rng.below(top) as u8).collect();
        let auto = rng.below(2) == 0;
        let line = format!("#{:02x}{:02x}{:02x}", rng.below(top), rng.below(top), rng.below(top));
        let beta = [1.0, 1.1, 1.3][rng.below(3) as usize];
        let darken = [0.0, 0.25, 0.4, 0.5, 0.75][rng.below(5) as usize];
        let region = 2 + rng.below(3) as i64;
        let fixed = rng.below(4) == 0;
        let outline = if auto { "auto".to_string() } else { line };
        macro_rules! made {
            ($color:ident, $post:ident) => {{
                let config = $post::PostConfig {
                    saturation_beta: beta,
                    remove_orphans: true,
                    orphan_min_region: region,
                    orphan_max_delta: 25.0,
                    fix_jaggies: true,
                    outline: outline.clone(),
                    outline_darken: darken,
                    tileset: false,
                };
                let palette = if own { $color::rgb8_to_lab(&bytes) } else { patched::rgb8_to_lab(&bytes) };
                $post::run(&sheet, h, w, &palette, &config, false, fixed, 0).unwrap()
            }};
        }
        let (p, l) = (made!(patched, post), made!(libm, post_libm));
        cells += u32::from(p.indices != l.indices);
        palettes += u32::from(p.palette_lab.len() != l.palette_lab.len());
        let same = p.palette_lab.iter().zip(&l.palette_lab).all(|(a, b)| a.to_bits() == b.to_bits());
        bits += u32::from(!same);
        rgb += u32::from(patched::lab_to_rgb8(&p.palette_lab) != libm::lab_to_rgb8(&l.palette_lab));
        facts += u32::from(
            (p.stats.outline_index, p.stats.outline_clipped)
                != (l.stats.outline_index, l.stats.outline_clipped),
        );
        if p.indices != l.indices && shown < 2 {
            shown += 1;
            println!("  palette {bytes:02x?}, outline {outline}, darken {darken}, beta {beta}, fixed {fixed}: index {:?} and {:?}", p.stats.outline_index, l.stats.outline_index);
        }
    }
    let kind = if dark { "dark palettes" } else { "any palettes" };
    let lab = if own { "each with its own LAB of the bytes" } else { "both with one LAB palette" };
    println!("run, {kind}, {count} calls, {lab}: cells differ in {cells}, number of colours in {palettes}, palette bits in {bits}, palette RGB8 in {rgb}, index or clipped in {facts}");
}

/// One dark entry, outlined by half its lightness.
fn halves() {
    let mut differing = Vec::new();
    for code in 0..24 * 24 * 24u32 {
        let bytes = [(code / 576) as u8, (code / 24 % 24) as u8, (code % 24) as u8];
        let p = patched::rgb8_to_lab(&bytes).iter().map(|v| v * 0.5).collect::<Vec<_>>();
        let l = libm::rgb8_to_lab(&bytes).iter().map(|v| v * 0.5).collect::<Vec<_>>();
        if patched::lab_to_rgb8(&p) != libm::lab_to_rgb8(&l) {
            differing.push((bytes, patched::lab_to_rgb8(&p), libm::lab_to_rgb8(&l)));
        }
    }
    println!(
        "auto, darken 0.5, entries with channels below 24: the line's RGB8 differs for {} of 13824",
        differing.len()
    );
    for d in differing.iter().take(3).chain(differing.iter().find(|d| d.0 == [0x01, 0x17, 0x14])) {
        println!("  entry {:02x?}: stand-ins {:02x?}, libm {:02x?}", d.0, d.1, d.2);
    }
}

fn main() {
    triples();
    labs("LAB of random bytes, each value times 0.5", 1_000_000, |rng| {
        let lab = patched::rgb8_to_lab(&triple(rng.next() as u32 & 0xff_ffff));
        [lab[0] * 0.5, lab[1] * 0.5, lab[2] * 0.5]
    });
    labs("L 0 to 100, a and b within 100", 1_000_000, |rng| {
        [rng.between(0.0, 100.0), rng.between(-100.0, 100.0), rng.between(-100.0, 100.0)]
    });
    labs("L 0 to 8, a and b within 8", 1_000_000, |rng| {
        [rng.between(0.0, 8.0), rng.between(-8.0, 8.0), rng.between(-8.0, 8.0)]
    });
    labs("all within 1024", 1_000_000, |rng| {
        [rng.between(-1024.0, 1024.0), rng.between(-1024.0, 1024.0), rng.between(-1024.0, 1024.0)]
    });
    labs("whole numbers, L 0 to 100, a and b within 60", 1_000_000, |rng| {
        [rng.below(101) as f64, rng.below(121) as f64 - 60.0, rng.below(121) as f64 - 60.0]
    });
    halves();
    for own in [true, false] {
        runs(200_000, false, own);
        runs(200_000, true, own);
    }
}
