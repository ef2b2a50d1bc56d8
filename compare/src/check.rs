//! Every comparison of the port with the judge.

use crate::call::{name, real, signed, Arg, Call, Entry, ENTRIES};
use crate::cases::{
    self, lent_palette, random, random_sized, Rng, Sheet, SPARE_BYTE, SPARE_CELL, SPARE_WORD,
};
use crate::lend::{Lender, Side};
use crate::vectors::line;
use std::sync::atomic::{AtomicUsize, Ordering};

extern "C" {
    fn signal(number: i32, handler: usize) -> usize;
    fn write(file: i32, from: *const u8, len: usize) -> isize;
    fn _exit(status: i32) -> !;
}

/// The entry at work, and the call's number, for the message after a trap.
static ENTRY: AtomicUsize = AtomicUsize::new(0);
static NUMBER: AtomicUsize = AtomicUsize::new(0);

extern "C" fn trapped(_: i32) {
    let (entry, number) = (ENTRY.load(Ordering::Relaxed), NUMBER.load(Ordering::Relaxed));
    let text = ["TRAP: outside a lent list, in ", ENTRIES[entry].1, ", call "];
    let digits: Vec<u8> = number.to_string().into_bytes();
    unsafe {
        for part in text {
            write(1, part.as_ptr(), part.len());
        }
        write(1, digits.as_ptr(), digits.len());
        write(1, b"\n".as_ptr(), 1);
        _exit(3)
    }
}

/// What was compared so far.
struct Tally {
    lender: Lender,
    rng: Rng,
    calls: usize,
    accepted: usize,
    changed: usize,
    refused: [usize; 10],
    differing: usize,
    all_calls: usize,
    all_differing: usize,
}

fn lists(call: &Call) -> Vec<Vec<u64>> {
    call.args.iter().map(Arg::numbers).collect()
}

impl Tally {
    fn new() -> Tally {
        // SAFETY: the handler only writes a message and ends the process.
        unsafe {
            signal(11, trapped as *const () as usize);
            signal(7, trapped as *const () as usize);
        }
        Tally {
            lender: Lender::new(),
            rng: Rng(5),
            calls: 0,
            accepted: 0,
            changed: 0,
            refused: [0; 10],
            differing: 0,
            all_calls: 0,
            all_differing: 0,
        }
    }

    /// Makes the call by judge and port, the latter with lists at either kind of edge.
    fn compare(&mut self, call: &Call) -> u32 {
        let mut judged = call.clone();
        let answer = judged.judged();
        let (before, wanted) = (lists(call), lists(&judged));
        assert!(answer == 0 || before == wanted, "the judge wrote on a refusal");
        ENTRY.store(call.entry as usize, Ordering::Relaxed);
        NUMBER.store(self.calls, Ordering::Relaxed);
        for side in [Side::After, Side::Before] {
            let mut ported = call.clone();
            self.dirty(&mut ported);
            let given = ported.ported(&mut self.lender, side);
            if given != answer || lists(&ported) != wanted {
                self.differing += 1;
                if self.differing <= 5 {
                    println!("DIFFERS {}: answer {given}, wanted {answer}", name(call.entry));
                    println!("  wanted {}", line(call).trim());
                    println!("  given {:x?}", lists(&ported));
                }
                break;
            }
        }
        self.calls += 1;
        if answer == 0 {
            self.accepted += 1;
            self.changed += usize::from(before[0] != wanted[0]);
        } else {
            self.refused[answer as usize] += 1;
        }
        answer
    }

    /// The work area may hold anything.
    fn dirty(&mut self, call: &mut Call) {
        for arg in &mut call.args {
            if let Arg::Work(l) = arg {
                let word = self.rng.next();
                for (i, v) in l.iter_mut().enumerate() {
                    *v = (word >> (i % 33)) as u32;
                }
            }
        }
    }

    fn report(&mut self, group: &str) {
        let refused: Vec<String> = (1..10)
            .filter(|&row| self.refused[row] > 0)
            .map(|row| format!("{row}: {}", self.refused[row]))
            .collect();
        println!(
            "{group}: {} calls, {} accepted ({} change their first list), refused by row {{{}}}, {} differ",
            self.calls,
            self.accepted,
            self.changed,
            refused.join(", "),
            self.differing
        );
        self.all_calls += self.calls;
        self.all_differing += self.differing;
        (self.calls, self.accepted, self.changed, self.differing) = (0, 0, 0, 0);
        self.refused = [0; 10];
    }
}

/// All sheets of n cells with the given cells, in order.
fn all_sheets(n: u32, values: &[i32]) -> impl Iterator<Item = Vec<i32>> + '_ {
    let base = values.len();
    (0..base.pow(n)).map(move |mut code| {
        (0..n)
            .map(|_| {
                let v = values[code % base];
                code /= base;
                v
            })
            .collect()
    })
}

fn num(n: usize) -> Arg {
    Arg::Num(n as u64)
}

fn words(n: usize) -> Arg {
    Arg::Words(vec![SPARE_WORD; n])
}

fn work(n: usize) -> Arg {
    Arg::Work(vec![SPARE_WORD; n])
}

fn lent(cells: &[i32], len: usize) -> Arg {
    let mut cells = cells.to_vec();
    cells.resize(len, SPARE_CELL);
    Arg::Cells(cells)
}

/// Every 3 x 3 sheet with cells -1, 0 and 1.
fn three_by_three(tally: &mut Tally) {
    let palette = [10.0, 0.0, 0.0, 30.0, 3.0, 4.0];
    let dark = Arg::Reals(lent_palette(&palette));
    for cells in all_sheets(9, &[-1, 0, 1]) {
        let args = vec![lent(&cells, 9), num(3), num(3), words(9), work(72), words(1)];
        tally.compare(&Call { entry: Entry::LabelRegions, args });
    }
    tally.report("label_regions, all 3 x 3");
    for (region, passes, delta) in [
        (2, 1, 25.0),
        (2, 5, 25.0),
        (3, 5, 25.0),
        (4, 1, 25.0),
        (4, 65_535, 25.0),
        (3, 5, 20.0),
        (10, 5, 1024.0),
        (1, 5, 25.0),
    ] {
        for cells in all_sheets(9, &[-1, 0, 1]) {
            let args = vec![
                lent(&cells, 9),
                num(3),
                num(3),
                dark.clone(),
                num(2),
                signed(region),
                num(passes),
                real(delta),
                work(72),
                words(1),
            ];
            tally.compare(&Call { entry: Entry::RemoveOrphans, args });
        }
    }
    tally.report("remove_orphans, all 3 x 3");
    for (kind, pad, fixed) in [(1, 0, 0), (1, 1, 0), (1, 1, 1), (2, 0, 1), (2, 1, 0)] {
        for cells in all_sheets(9, &[-1, 0, 1]) {
            let args = vec![
                lent(&cells, 25),
                num(3),
                num(3),
                dark.clone(),
                num(2),
                num(kind),
                real(0.4),
                num(90),
                num(20),
                num(30),
                num(pad),
                num(fixed),
                work(200),
                words(5),
            ];
            tally.compare(&Call { entry: Entry::AddOutline, args });
        }
    }
    tally.report("add_outline, all 3 x 3");
    for (region, kind, tileset, margin, fixed) in
        [(2, 1, 0, 0, 0), (3, 2, 0, 0, 0), (3, 1, 1, 0, 1), (2, 0, 0, 0, 0), (4, 1, 0, 1, 0)]
    {
        for cells in all_sheets(9, &[-1, 0, 1]) {
            let args = vec![
                lent(&cells, 25),
                num(3),
                num(3),
                dark.clone(),
                num(2),
                real(1.25),
                num(1),
                signed(region),
                real(25.0),
                num(1),
                num(kind),
                real(0.5),
                num(1),
                num(2),
                num(3),
                num(tileset),
                num(0),
                num(fixed),
                signed(margin),
                work(200),
                words(7),
            ];
            tally.compare(&Call { entry: Entry::Run, args });
        }
    }
    tally.report("run, all 3 x 3");
}

/// Every 4 x 4 mask, every 3 x 3 and 2 x 4 mask dilated, every 4 x 4 sheet of two indices.
fn small_grids(tally: &mut Tally) {
    for cells in all_sheets(16, &[0, 1]) {
        let mask: Vec<u8> = cells.iter().map(|&c| (c * 200) as u8).collect();
        let args = vec![Arg::Bytes(mask), num(4), num(4), words(16), work(128), words(1)];
        tally.compare(&Call { entry: Entry::Label4, args });
    }
    tally.report("label4, all 4 x 4");
    for (h, w) in [(3, 3), (2, 4), (4, 2), (1, 9), (9, 1), (0, 9), (9, 0)] {
        for k in [0, 1, 2, 3, 9, 65_535, 65_536] {
            for cells in all_sheets((h * w) as u32, &[0, 1]) {
                let mask = Arg::Bytes(cells.iter().map(|&c| c as u8).collect());
                let out = Arg::Bytes(vec![SPARE_BYTE; h * w + 1]);
                let args = vec![mask, num(h), num(w), num(k), out, work(8 * h * w)];
                tally.compare(&Call { entry: Entry::BinaryDilation8, args });
            }
        }
    }
    tally.report("binary_dilation8, all small masks");
    for cells in all_sheets(16, &[0, 1]) {
        let args = vec![lent(&cells, 16), num(4), num(4), work(128)];
        tally.compare(&Call { entry: Entry::FixJaggies, args });
    }
    tally.report("fix_jaggies, all 4 x 4 of two indices");
}

/// A staircase corner in its four directions, at every place of sheets up to 7 x 7, whole and with
/// any one cell changed.
fn corners(tally: &mut Tally) {
    for (h, w) in [(4, 4), (4, 5), (5, 4), (4, 6), (5, 5), (6, 6), (3, 7), (7, 3)] {
        for p in 0..h * w {
            let (y, x) = ((p / w) as i32, (p % w) as i32);
            for (sy, sx) in [(-1, -1), (-1, 1), (1, -1), (1, 1)] {
                let mut cells = vec![1; h * w];
                for (dy, dx) in [(0, 0), (0, sx), (sy, 0), (-sy, 2 * sx), (2 * sy, -sx)] {
                    let (v, u) = (y + dy, x + dx);
                    if v >= 0 && u >= 0 && (v as usize) < h && (u as usize) < w {
                        cells[v as usize * w + u as usize] = 0;
                    }
                }
                let mut try_one = |cells: &[i32]| {
                    let args = vec![lent(cells, h * w), num(h), num(w), work(8 * h * w)];
                    tally.compare(&Call { entry: Entry::FixJaggies, args });
                };
                try_one(&cells);
                for q in 0..h * w {
                    for other in [-1, -2, 0, 1, 2] {
                        let mut changed = cells.clone();
                        changed[q] = other;
                        try_one(&changed);
                    }
                }
            }
        }
    }
    tally.report("fix_jaggies, corners and near corners");
}

/// Random calls: small sheets, then larger ones and sides at the limit.
fn random_calls(tally: &mut Tally, count: usize) {
    for (entry, name) in ENTRIES {
        let rng = &mut Rng(1000 + entry as u64);
        for _ in 0..count {
            tally.compare(&random(rng, entry));
        }
        tally.report(&format!("{name}, random"));
    }
    for call in cases::full_palettes(&mut Rng(256), count / 10) {
        tally.compare(&call);
    }
    tally.report("add_outline, full palettes");
    for (entry, name) in &ENTRIES[..8] {
        let rng = &mut Rng(2000 + *entry as u64);
        for _ in 0..(count / 100).max(1) {
            let (h, w) = (10 + rng.below(31), 10 + rng.below(31));
            tally.compare(&random_sized(rng, *entry, h, w));
        }
        for (h, w) in [
            (512, 1),
            (1, 512),
            (512, 3),
            (2, 512),
            (513, 1),
            (1, 513),
            (0, 512),
            (512, 0),
            (513, 0),
            (0, 513),
            (511, 4),
            (100, 100),
            (512, 512),
        ] {
            tally.compare(&random_sized(rng, *entry, h, w));
        }
        tally.report(&format!("{name}, larger"));
    }
}

/// Sheets that take many passes: `remove_orphans` cut off after every number of passes, and `run`.
fn many_passes(tally: &mut Tally, count: usize) {
    let rng = &mut Rng(3000);
    let sheets: Vec<Sheet> = (0..(count / 20).max(10)).map(|i| cases::lasting(rng, i)).collect();
    for sheet in &sheets {
        for passes in 0..=(sheet.passes() + 2).min(40) {
            tally.compare(&sheet.cleaned_by(passes));
        }
        tally.compare(&sheet.cleaned_by(65_535));
    }
    tally.report("remove_orphans, many passes");
    for sheet in &sheets {
        tally.compare(&cases::random_run(rng, sheet, true));
    }
    tally.report("run, many passes");
}

/// Colour limits at and about the distance that decides.
fn colour_limits(tally: &mut Tally, count: usize) {
    let rng = &mut Rng(4000);
    for _ in 0..count {
        tally.compare(&cases::at_the_limit(rng));
    }
    tally.report("remove_orphans, colour limits");
}

/// Every damage alone, which has to be refused by its row, and all pairs of them.
fn damaged(tally: &mut Tally) {
    for (call, row) in cases::table() {
        assert_eq!(tally.compare(&call), row, "the table of refusals: {}", line(&call));
    }
    for (entry, name) in ENTRIES {
        assert_eq!(tally.compare(&cases::sound(entry)), 0, "{name}: the sound call");
        for (call, row) in cases::singles(entry) {
            let answer = tally.compare(&call);
            assert_eq!(answer, row, "{name}: {}", line(&call));
        }
        for call in cases::named(entry).iter().chain(&cases::pairs(entry, false)) {
            tally.compare(call);
        }
        tally.report(&format!("{name}, damaged and named"));
    }
}

/// Every byte triple to LAB and back; `step` 1 takes all 16,777,216.
fn triples(tally: &mut Tally, step: usize) {
    let mut rgb = Vec::new();
    for code in (0..1usize << 24).step_by(step) {
        rgb.extend([(code >> 16) as u8, (code >> 8) as u8, code as u8]);
        if rgb.len() == 3 * 4096 {
            let n = rgb.len();
            let lab = pixelforge::color::rgb8_to_lab(&rgb);
            let out = Arg::Reals(vec![0.0; n]);
            tally.compare(&Call { entry: Entry::Rgb8ToLab, args: vec![Arg::Bytes(rgb.clone()), out] });
            let out = Arg::Bytes(vec![0; n]);
            tally.compare(&Call { entry: Entry::LabToRgb8, args: vec![Arg::Reals(lab), out] });
            rgb.clear();
        }
    }
    tally.report(&format!("rgb8_to_lab and lab_to_rgb8, every {step}th triple, 4096 to a call"));
}

/// All groups; the number of differing calls.
pub fn all(count: usize) -> usize {
    let tally = &mut Tally::new();
    damaged(tally);
    random_calls(tally, count);
    many_passes(tally, count);
    colour_limits(tally, count);
    corners(tally);
    small_grids(tally);
    three_by_three(tally);
    triples(tally, 61);
    println!("{} calls, {} differ", tally.all_calls, tally.all_differing);
    tally.all_differing
}
