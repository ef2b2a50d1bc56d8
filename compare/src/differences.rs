//! Where the Rust original does something else than the specification: what it does, measured.

use crate::call::{Arg, Call, Entry};
use pixelforge::{color, postprocess};
use std::fmt::Debug;
use std::panic::{catch_unwind, UnwindSafe};

/// What the Rust does: a value, an error or a panic.
fn rust<T: Debug>(what: impl FnOnce() -> T + UnwindSafe) -> String {
    match catch_unwind(what) {
        Ok(value) => format!("{value:?}"),
        Err(_) => "panics".to_string(),
    }
}

fn show(input: &str, rust: String, specified: u32) {
    let answer = if specified == 0 { "takes it".to_string() } else { format!("refused {specified}") };
    println!("{input} | {rust} | {answer}");
}

fn judged(entry: Entry, args: Vec<Arg>) -> u32 {
    Call { entry, args }.judged()
}

fn outline(palette: &'static [f64], text: &'static str, fixed: bool) -> String {
    rust(move || {
        postprocess::add_outline(&[0, -1], 1, 2, palette, text, 0.0, false, fixed)
            .map(|p| (p.indices, p.palette_lab.len(), p.stats.outline_index))
    })
}

pub fn all() {
    std::panic::set_hook(Box::new(|_| ()));
    let reals = |n: usize| Arg::Reals(vec![1.0; n]);
    let bytes = |n: usize| Arg::Bytes(vec![1; n]);
    println!("input | the Rust | the specification");
    let nbsp = "\u{a0}ff0000";
    let args = vec![Arg::Bytes(nbsp.as_bytes().to_vec()), bytes(3)];
    show("hex_to_rgb8, C2 A0 then ff0000", rust(|| color::hex_to_rgb8(nbsp)), judged(Entry::HexToRgb8, args));
    let no = judged(Entry::Rgb8ToLab, vec![bytes(4), reals(6)]);
    show("rgb8_to_lab, 4 bytes", rust(|| color::rgb8_to_lab(&[1; 4])), no);
    let no = judged(Entry::LabToRgb8, vec![reals(4), bytes(6)]);
    show("lab_to_rgb8, 4 doubles", rust(|| color::lab_to_rgb8(&[1.0; 4])), no);
    let no = judged(Entry::LabToRgb8, vec![Arg::Reals(vec![f64::NAN; 3]), bytes(3)]);
    show("lab_to_rgb8, NaN", rust(|| color::lab_to_rgb8(&[f64::NAN; 3])), no);
    let no = judged(Entry::DeltaE, vec![reals(3), reals(6), reals(2)]);
    show("delta_e, 3 and 6 doubles", rust(|| color::delta_e(&[1.0; 3], &[1.0; 6])), no);
    let no = judged(Entry::NearestIndex, vec![reals(3), reals(0), Arg::Cells(vec![0])]);
    show("nearest_index, one pixel, no palette", rust(|| color::nearest_index(&[1.0; 3], &[])), no);
    let no = judged(Entry::NearestIndex, vec![reals(3), reals(771), Arg::Cells(vec![0])]);
    show("nearest_index, 257 colours", rust(|| color::nearest_index(&[1.0; 3], &[1.0; 771])), no);
    let no = judged(Entry::ApplySaturation, vec![reals(4), Arg::Num(1), Arg::Num(2.0f64.to_bits())]);
    let trailing = || {
        let mut list = [1.0; 4];
        postprocess::apply_saturation(&mut list, 2.0);
        list
    };
    show("apply_saturation, 4 doubles", rust(trailing), no);
    let no = judged(
        Entry::FixJaggies,
        vec![Arg::Cells(vec![0, 0, 7]), Arg::Num(1), Arg::Num(2), Arg::Work(vec![0; 16])],
    );
    show("fix_jaggies, 1 x 2 in a list of 3 cells", rust(|| postprocess::fix_jaggies(&[0, 0, 7], 1, 2)), no);
    let cell = || postprocess::remove_orphans(&[0, 2], 1, 2, &[0.0; 6], 2, 5, 25.0);
    show("remove_orphans, cell 2 of 2 colours", rust(cell), 7);
    show("add_outline, row 0,-1, no colours, auto", outline(&[], "auto", false), 8);
    show("add_outline, row 0,-1, no colours, #010203, fixed", outline(&[], "#010203", true), 8);
}
