//! Times of the port and of the Rust original, in one process, on the same sheets.

use crate::call::{self, name, real, signed, Arg, Call, Entry, Lent};
use crate::cases::{colours, lent_palette, winding, Rng};
use pixelforge::{color, mask, postprocess};
use std::cell::RefCell;
use std::hint::black_box;
use std::time::{Duration, Instant};

const SHEETS: [&str; 7] =
    ["silks", "noise", "noise of 256", "checkerboard", "single cells", "snake", "chain"];
const SIDES: [usize; 4] = [64, 128, 256, 512];
const ON_SHEETS: [Entry; 7] = [
    Entry::LabelRegions,
    Entry::Label4,
    Entry::BinaryDilation8,
    Entry::RemoveOrphans,
    Entry::FixJaggies,
    Entry::AddOutline,
    Entry::Run,
];
/// The side of the largest sheet: a round goes through as many sheets of a smaller side as have its cells.
const LARGEST: usize = 512;
/// How many short calls make a round.
const MANY: usize = 64;
/// A round that takes longer is not made again.
const LONG: Duration = Duration::from_secs(2);
const REGION: i32 = 3;
const DELTA: f64 = 25.0;
const PASSES: usize = 5;
const MOST_PASSES: usize = 65_535;

/// A figure in a tile of 16 x 16: cap, jacket with sleeves, specks.
fn silk_cell(rng: &mut Rng, y: usize, x: usize, tile: usize) -> i32 {
    let (v, u) = (y % 16, x % 16);
    let colour = (tile % 5) as i32;
    let figure = match v {
        2..=4 => (6..=9).contains(&u),
        5..=12 => (3..=12).contains(&u),
        _ => false,
    };
    match (figure, rng.below(24)) {
        (false, _) => -1,
        (true, 0) => rng.below(8) as i32,
        (true, _) if v < 5 => (colour + 1) % 8,
        (true, _) if u < 5 || u > 10 => (colour + 2) % 8,
        (true, _) => colour,
    }
}

/// A large region, then single cells along one way, of which every pass repaints the next.
fn chain(side: usize) -> Vec<i32> {
    let mut cells = vec![-1; side * side];
    for (i, p) in winding(side, side).into_iter().enumerate() {
        cells[p] = if i < REGION as usize { 0 } else { 1 + (i % 2) as i32 };
    }
    cells
}

/// The palette of a kind's sheets: eight colours, near enough to one another that most specks go, or
/// 256, of which more than a third of all pairs are too far apart.
fn palette(kind: &str) -> Vec<f64> {
    if kind != "noise of 256" {
        return (0..8).flat_map(|i| [20.0 + 5.0 * f64::from(i), f64::from(i * 3 % 8), 2.0]).collect();
    }
    let rng = &mut Rng(256);
    let colour = |_| [rng.between(20.0, 60.0), rng.between(-15.0, 15.0), rng.between(-15.0, 15.0)];
    (0..256).flat_map(colour).collect()
}

/// The sheet `number` of a kind: sheets with chance in them differ from one another.
fn sheet(kind: &str, side: usize, number: usize) -> Vec<i32> {
    if kind == "chain" {
        return chain(side);
    }
    let rng = &mut Rng((side + 1024 * number) as u64);
    let tiles = side / 16;
    let cell = |p: usize| {
        let (y, x) = (p / side, p % side);
        match kind {
            "silks" => silk_cell(rng, y, x, (y / 16) * tiles + x / 16),
            "noise" => rng.below(9) as i32 - 1,
            "noise of 256" => rng.below(256) as i32,
            "checkerboard" => ((y + x) % 2) as i32,
            "single cells" => ((y % 2) * 2 + x % 2) as i32,
            // rows joined at alternating ends
            _ => i32::from(y % 2 == 1 && x != if y % 4 == 1 { side - 1 } else { 0 }),
        }
    };
    (0..side * side).map(cell).collect()
}

/// The sheets of a round.
fn round(kind: &str, side: usize) -> Vec<Vec<i32>> {
    let count = (LARGEST / side) * (LARGEST / side);
    (0..count).map(|i| sheet(kind, side, i)).collect()
}

/// The least time of one round: `before` is not timed.
fn least(mut before: impl FnMut(), mut timed: impl FnMut()) -> Duration {
    let (start, mut best, mut rounds) = (Instant::now(), Duration::MAX, 0);
    while rounds == 0 || best < LONG && (rounds < 5 || start.elapsed() < Duration::from_millis(80)) {
        before();
        let one = Instant::now();
        timed();
        best = best.min(one.elapsed());
        rounds += 1;
    }
    best
}

/// A call's numbers and lent lists, and what the lists hold before the call.
struct Ready {
    entry: Entry,
    numbers: Vec<u64>,
    lent: Vec<Lent>,
    lists: Vec<Vec<u64>>, // storage aligned for every kind of element
    fresh: Vec<(usize, Vec<u8>)>,
}

impl Ready {
    /// The work area is `work`, which all calls of a round share; every other list is the call's own.
    fn new(call: &Call, work: &mut Vec<u64>) -> Ready {
        let mut ready =
            Ready { entry: call.entry, numbers: vec![], lent: vec![], lists: vec![], fresh: vec![] };
        for arg in &call.args {
            let (bytes, count): (Vec<u8>, usize) = match arg {
                Arg::Num(n) => {
                    ready.numbers.push(*n);
                    continue;
                }
                Arg::Work(l) => {
                    work.resize(work.len().max(l.len() / 2 + 1), 0);
                    ready.lent.push((work.as_mut_ptr().cast(), l.len()));
                    continue;
                }
                Arg::Bytes(l) => (l.clone(), l.len()),
                Arg::Cells(l) => (l.iter().flat_map(|v| v.to_ne_bytes()).collect(), l.len()),
                Arg::Words(l) => (l.iter().flat_map(|v| v.to_ne_bytes()).collect(), l.len()),
                Arg::Reals(l) => (l.iter().flat_map(|v| v.to_ne_bytes()).collect(), l.len()),
            };
            let mut storage = vec![0u64; bytes.len() / 8 + 1];
            ready.fresh.push((ready.lent.len(), bytes));
            ready.lent.push((storage.as_mut_ptr().cast(), count));
            ready.lists.push(storage);
        }
        ready
    }

    fn restore(&self) {
        for (i, bytes) in &self.fresh {
            // SAFETY: the storage of list i holds at least as many bytes.
            unsafe { std::ptr::copy_nonoverlapping(bytes.as_ptr(), self.lent[*i].0, bytes.len()) };
        }
    }

    fn make(&self) {
        // SAFETY: every pointer is that of a list of the length beside it.
        let answer = unsafe { call::call(self.entry, &self.lent, &self.numbers) };
        assert_eq!(answer, 0);
    }
}

/// The port's time for a round of calls, whose changed lists are put back before each round.
/// All calls of a round have work areas of one length.
fn port_time(calls: &[Call]) -> Duration {
    let mut work = Vec::new();
    let ready: Vec<Ready> = calls.iter().map(|c| Ready::new(c, &mut work)).collect();
    let time = least(|| ready.iter().for_each(Ready::restore), || ready.iter().for_each(Ready::make));
    black_box((&ready, &work));
    time
}

/// Whether a line is to be printed: its label, the entry and what it is timed on, has every word.
fn asked(words: &[&str], entry: Entry, what: &str) -> bool {
    let label = format!("{} {what}", name(entry));
    words.iter().all(|word| label.contains(word))
}

/// One line; a dash where the Rust is not timed.
fn show(entry: Entry, what: &str, count: usize, port: Duration, rust: Option<Duration>) {
    let each = |t: Duration| t.as_nanos() as f64 / count as f64;
    let (name, port) = (name(entry), each(port));
    match rust.map(each) {
        Some(rust) => println!("{name:24} {what:24} {port:9.2} {rust:9.2} {:6.2}", port / rust),
        None => println!("{name:24} {what:24} {port:9.2} {:>9} {:>6}", "-", "-"),
    }
}

fn num(n: usize) -> Arg {
    Arg::Num(n as u64)
}

/// The port's call of an entry on one sheet; only `remove_orphans` takes `passes`.
fn sheet_call(entry: Entry, cells: &[i32], side: usize, palette: &[f64], passes: usize) -> Call {
    let n = side * side;
    let needed = (side + 2) * (side + 2);
    let lent = |len: usize| {
        let mut cells = cells.to_vec();
        cells.resize(len, -1);
        Arg::Cells(cells)
    };
    let set = || Arg::Bytes(cells.iter().map(|&c| u8::from(c > 0)).collect());
    let words = |len: usize| Arg::Words(vec![0; len]);
    let work = |len: usize| Arg::Work(vec![0; 8 * len]);
    let colours = || vec![Arg::Reals(lent_palette(palette)), num(palette.len() / 3)];
    let dims = vec![num(side), num(side)];
    let line = vec![num(1), real(0.4), num(0), num(0), num(0)];
    let parts = match entry {
        Entry::LabelRegions => vec![vec![lent(n)], dims, vec![words(n), work(n), words(1)]],
        Entry::Label4 => vec![vec![set()], dims, vec![words(n), work(n), words(1)]],
        Entry::BinaryDilation8 => vec![vec![set()], dims, vec![num(3), Arg::Bytes(vec![0; n]), work(n)]],
        Entry::RemoveOrphans => {
            let limits = vec![signed(REGION), num(passes), real(DELTA), work(n), words(1)];
            vec![vec![lent(n)], dims, colours(), limits]
        }
        Entry::FixJaggies => vec![vec![lent(n)], dims, vec![work(n)]],
        Entry::AddOutline => {
            vec![vec![lent(needed)], dims, colours(), line, vec![num(1), num(0), work(needed), words(5)]]
        }
        _ => {
            let limits = vec![real(1.1), num(1), signed(REGION), real(DELTA), num(1)];
            let rest = vec![num(0), num(0), num(0), num(0), work(needed), words(7)];
            vec![vec![lent(needed)], dims, colours(), limits, line, rest]
        }
    };
    Call { entry, args: parts.concat() }
}

/// The Rust's call of an entry on one sheet.
fn rust_call(
    entry: Entry,
    wide: &[i64],
    set: &[bool],
    side: usize,
    palette: &[f64],
    passes: usize,
    config: &postprocess::PostConfig,
) {
    let region = i64::from(REGION);
    match entry {
        Entry::LabelRegions => {
            black_box(postprocess::label_regions(wide, side, side));
        }
        Entry::Label4 => {
            black_box(mask::label4(set, side, side));
        }
        Entry::BinaryDilation8 => {
            black_box(mask::binary_dilation8(set, side, side, 3));
        }
        Entry::RemoveOrphans => {
            black_box(postprocess::remove_orphans(wide, side, side, palette, region, passes, DELTA));
        }
        Entry::FixJaggies => {
            black_box(postprocess::fix_jaggies(wide, side, side));
        }
        Entry::AddOutline => {
            black_box(postprocess::add_outline(wide, side, side, palette, "auto", 0.4, true, false)).unwrap();
        }
        _ => {
            black_box(postprocess::run(wide, side, side, palette, config, false, false, 0)).unwrap();
        }
    }
}

/// The Rust's time for a round of calls, one for each sheet.
fn rust_time(entry: Entry, sheets: &[Vec<i32>], side: usize, palette: &[f64], passes: usize) -> Duration {
    let config = postprocess::PostConfig {
        saturation_beta: 1.1,
        remove_orphans: true,
        orphan_min_region: i64::from(REGION),
        orphan_max_delta: DELTA,
        fix_jaggies: true,
        outline: "auto".to_string(),
        outline_darken: 0.4,
        tileset: false,
    };
    let wide = |cells: &Vec<i32>| cells.iter().map(|&c| i64::from(c)).collect();
    let set = |cells: &Vec<i32>| cells.iter().map(|&c| c > 0).collect();
    let both: Vec<(Vec<i64>, Vec<bool>)> = sheets.iter().map(|c| (wide(c), set(c))).collect();
    least(
        || (),
        || {
            for (wide, set) in &both {
                rust_call(entry, wide, set, side, palette, passes, &config);
            }
        },
    )
}

fn colour_times(words: &[&str]) {
    let rng = &mut Rng(9);
    let n = 65_536;
    let rgb: Vec<u8> = (0..3 * n).map(|_| rng.next() as u8).collect();
    let lab = color::rgb8_to_lab(&rgb);
    let mut other = lab.clone();
    other.rotate_left(3);
    let palette = colours(rng, 256);
    let pixels = lab[..3 * 4096].to_vec();
    let time = |entry, args: Vec<Arg>, count: usize, what: &str, rust: &dyn Fn()| {
        if asked(words, entry, what) {
            show(entry, what, count, port_time(&[Call { entry, args }]), Some(least(|| (), rust)));
        }
    };
    let reals = |len: usize| Arg::Reals(vec![0.0; len]);
    time(Entry::Rgb8ToLab, vec![Arg::Bytes(rgb.clone()), reals(3 * n)], n, "65536 colours", &|| {
        black_box(color::rgb8_to_lab(&rgb));
    });
    time(
        Entry::LabToRgb8,
        vec![Arg::Reals(lab.clone()), Arg::Bytes(vec![0; 3 * n])],
        n,
        "65536 colours",
        &|| {
            black_box(color::lab_to_rgb8(&lab));
        },
    );
    time(
        Entry::DeltaE,
        vec![Arg::Reals(lab.clone()), Arg::Reals(other.clone()), reals(n)],
        n,
        "65536 pairs",
        &|| {
            black_box(color::delta_e(&lab, &other));
        },
    );
    time(
        Entry::NearestIndex,
        vec![Arg::Reals(pixels.clone()), Arg::Reals(palette.clone()), Arg::Cells(vec![0; 4096])],
        4096,
        "4096 pixels, 256",
        &|| {
            black_box(color::nearest_index(&pixels, &palette));
        },
    );
    time(
        Entry::PaletteDistanceMatrix,
        vec![Arg::Reals(palette.clone()), reals(65_536)],
        65_536,
        "256 colours",
        &|| {
            black_box(color::palette_distance_matrix(&palette));
        },
    );
    if asked(words, Entry::ApplySaturation, "256 colours") {
        saturation_times(&palette);
    }
    if asked(words, Entry::HexToRgb8, "one") {
        hex_times();
    }
}

/// `apply_saturation` on many palettes, since one takes little more than the clock does.
/// The palettes of either side are put back before each round.
fn saturation_times(palette: &[f64]) {
    let call = || Call {
        entry: Entry::ApplySaturation,
        args: vec![Arg::Reals(palette.to_vec()), num(256), real(0.9)],
    };
    let calls: Vec<Call> = (0..MANY).map(|_| call()).collect();
    let palettes = RefCell::new(vec![palette.to_vec(); MANY]);
    let rust = least(
        || palettes.borrow_mut().iter_mut().for_each(|p| p.copy_from_slice(palette)),
        || palettes.borrow_mut().iter_mut().for_each(|p| postprocess::apply_saturation(black_box(p), 0.9)),
    );
    show(Entry::ApplySaturation, "256 colours", 256 * MANY, port_time(&calls), Some(rust));
}

/// `hex_to_rgb8`, as often.
fn hex_times() {
    let text = "#12aBcd";
    let call = || Call {
        entry: Entry::HexToRgb8,
        args: vec![Arg::Bytes(text.as_bytes().to_vec()), Arg::Bytes(vec![0; 3])],
    };
    let calls: Vec<Call> = (0..MANY).map(|_| call()).collect();
    let rust = least(
        || (),
        || {
            for _ in 0..MANY {
                black_box(color::hex_to_rgb8(black_box(text))).unwrap();
            }
        },
    );
    show(Entry::HexToRgb8, "one", MANY, port_time(&calls), Some(rust));
}

/// Every entry on the sheets of one kind and side.
fn sheet_times(words: &[&str], kind: &str, side: usize) {
    let what = format!("{kind} {side}");
    let entries: Vec<Entry> = ON_SHEETS.into_iter().filter(|&e| asked(words, e, &what)).collect();
    if entries.is_empty() {
        return;
    }
    let (sheets, palette) = (round(kind, side), palette(kind));
    for entry in entries {
        let call = |c: &Vec<i32>| sheet_call(entry, c, side, &palette, PASSES);
        let calls: Vec<Call> = sheets.iter().map(call).collect();
        let rust = rust_time(entry, &sheets, side, &palette, PASSES);
        show(entry, &what, LARGEST * LARGEST, port_time(&calls), Some(rust));
    }
}

/// `remove_orphans` on the chain, cut off after so many passes; the Rust not after the most, since it
/// keeps the sheet after every pass (137 GB at 512).
fn chain_times(words: &[&str], side: usize) {
    let (entry, palette) = (Entry::RemoveOrphans, palette("chain"));
    for passes in [PASSES, 64, MOST_PASSES] {
        let what = format!("chain {side}, {passes} passes");
        if !asked(words, entry, &what) {
            continue;
        }
        let sheets = round("chain", side);
        let call = |c: &Vec<i32>| sheet_call(entry, c, side, &palette, passes);
        let calls: Vec<Call> = sheets.iter().map(call).collect();
        let rust = (passes < MOST_PASSES).then(|| rust_time(entry, &sheets, side, &palette, passes));
        show(entry, &what, LARGEST * LARGEST, port_time(&calls), rust);
    }
}

/// The lines whose labels have all of the words.
pub fn all(words: &[&str]) {
    println!("{:24} {:24} {:>9} {:>9} {:>6}", "ns a cell (or colour)", "", "port", "Rust", "ratio");
    colour_times(words);
    for side in SIDES {
        for kind in SHEETS {
            sheet_times(words, kind, side);
        }
    }
    for side in SIDES {
        chain_times(words, side);
    }
}
