//! What every call has to give: the refusals as the specification document lists them, and for an
//! accepted call the Rust reference. Each function has the arguments of its C function, lists as
//! slices, and returns 0 or the refusal's number.

use pixelforge::{color, mask, postprocess};

/// The first condition that holds, the numbers rising; 0 if none does.
fn first(rows: &[(u32, bool)]) -> u32 {
    assert!(rows.windows(2).all(|pair| pair[0].0 <= pair[1].0));
    rows.iter().find(|row| row.1).map_or(0, |row| row.0)
}

const SIDE: usize = 512;
const COLOURS: usize = 256;
const WORK: usize = 8;

fn too_large(h: usize, w: usize) -> bool {
    h > SIDE || w > SIDE
}

/// Row 5's condition on a list of values.
fn wild(values: &[f64]) -> bool {
    values.iter().any(|v| v.is_nan() || v.abs() > 1024.0)
}

fn outside(v: f64, low: f64, high: f64) -> bool {
    v.is_nan() || v < low || v > high
}

/// Row 4's condition on a palette.
fn no_palette(palette: &[f64], k: usize) -> bool {
    k > COLOURS || palette.len() != 3 * COLOURS
}

/// Row 5's condition on a palette that row 4 lets pass.
fn wild_palette(palette: &[f64], k: usize) -> bool {
    !no_palette(palette, k) && wild(&palette[..3 * k])
}

/// Row 6's condition on saturation, on a palette that rows 4 and 5 let pass.
fn oversaturated(palette: &[f64], k: usize, beta: f64) -> bool {
    !no_palette(palette, k)
        && palette[..3 * k]
            .chunks_exact(3)
            .any(|c| (c[1] * beta).abs() > 1024.0 || (c[2] * beta).abs() > 1024.0)
}

/// Row 7's condition.
fn names_no_entry(cells: &[i32], k: usize, min_region: i32) -> bool {
    min_region >= 2 && cells.iter().any(|&c| c >= 0 && c as usize >= k)
}

fn touches_edge(cells: &[i32], h: usize, w: usize) -> bool {
    let edge = |p: &usize| p / w == 0 || p / w == h - 1 || p % w == 0 || p % w == w - 1;
    (0..h * w).filter(edge).any(|p| cells[p] >= 0)
}

/// Whether the ring of the sheet, padded or not, has a cell.
fn has_ring(cells: &[i32], h: usize, w: usize, padded: bool) -> bool {
    if padded {
        return true; // beside an opaque cell on the edge stands a cell of the padding
    }
    let steps = |p: usize| {
        let (y, x) = (p / w, p % w);
        let up = (y > 0).then(|| p - w);
        let down = (y + 1 < h).then(|| p + w);
        let left = (x > 0).then(|| p - 1);
        let right = (x + 1 < w).then(|| p + 1);
        [up, down, left, right].into_iter().flatten()
    };
    (0..h * w).any(|p| cells[p] < 0 && steps(p).any(|q| cells[q] >= 0))
}

fn wide(cells: &[i32]) -> Vec<i64> {
    cells.iter().map(|&c| i64::from(c)).collect()
}

fn narrow(cells: &[i64]) -> Vec<i32> {
    cells.iter().map(|&c| i32::try_from(c).unwrap()).collect()
}

/// Rows 1 to 3 for an entry that needs h x w cells of each of the given lists.
fn grid_rows(h: usize, w: usize, grids: &[usize], work: usize, facts: bool) -> u32 {
    if too_large(h, w) {
        return 1;
    }
    let short = grids.iter().any(|&len| len < h * w) || !facts;
    first(&[(2, short), (3, work < WORK * h * w)])
}

pub fn label_regions(
    cells: &[i32],
    h: usize,
    w: usize,
    labels: &mut [u32],
    work: &[u32],
    facts: &mut [u32],
) -> u32 {
    let no = grid_rows(h, w, &[cells.len(), labels.len()], work.len(), !facts.is_empty());
    if no != 0 {
        return no;
    }
    let (found, n) = postprocess::label_regions(&wide(&cells[..h * w]), h, w);
    for (label, f) in labels.iter_mut().zip(found) {
        *label = f as u32;
    }
    facts[0] = n as u32;
    0
}

pub fn label4(set: &[u8], h: usize, w: usize, labels: &mut [u32], work: &[u32], facts: &mut [u32]) -> u32 {
    let no = grid_rows(h, w, &[set.len(), labels.len()], work.len(), !facts.is_empty());
    if no != 0 {
        return no;
    }
    let set: Vec<bool> = set[..h * w].iter().map(|&b| b != 0).collect();
    let (found, n) = mask::label4(&set, h, w);
    for (label, f) in labels.iter_mut().zip(found) {
        *label = f as u32;
    }
    facts[0] = n as u32;
    0
}

pub fn binary_dilation8(set: &[u8], h: usize, w: usize, k: u32, out: &mut [u8], work: &[u32]) -> u32 {
    let no = grid_rows(h, w, &[set.len(), out.len()], work.len(), true);
    let no = if no != 0 { no } else { first(&[(6, k > 65_535)]) };
    if no != 0 {
        return no;
    }
    let set: Vec<bool> = set[..h * w].iter().map(|&b| b != 0).collect();
    let grown = mask::binary_dilation8(&set, h, w, k as usize);
    for (o, g) in out.iter_mut().zip(grown) {
        *o = u8::from(g);
    }
    0
}

/// The reference's cleaning, and how many of its passes repaint: those after which the sheet is
/// another than with one pass fewer.
fn cleaned(
    cells: &[i64],
    h: usize,
    w: usize,
    palette: &[f64],
    min_region: i32,
    max_passes: u32,
    max_delta: f64,
) -> (Vec<i64>, u32) {
    let clean = |passes: u32| {
        let min_region = i64::from(min_region);
        postprocess::remove_orphans(cells, h, w, palette, min_region, passes as usize, max_delta)
    };
    let mut before = clean(0);
    assert_eq!(before, cells);
    for passes in 1..=max_passes {
        let after = clean(passes);
        if after == before {
            assert_eq!(after, clean(max_passes));
            return (after, passes - 1);
        }
        before = after;
    }
    (before, max_passes)
}

#[allow(clippy::too_many_arguments)]
pub fn remove_orphans(
    cells: &mut [i32],
    h: usize,
    w: usize,
    palette: &[f64],
    k: usize,
    orphan_min_region: i32,
    max_passes: u32,
    orphan_max_delta: f64,
    work: &[u32],
    facts: &mut [u32],
) -> u32 {
    let no = grid_rows(h, w, &[cells.len()], work.len(), !facts.is_empty());
    if no != 0 {
        return no;
    }
    let no = first(&[
        (4, no_palette(palette, k)),
        (5, wild_palette(palette, k)),
        (6, max_passes > 65_535 || outside(orphan_max_delta, 0.0, 1024.0)),
        (7, names_no_entry(&cells[..h * w], k, orphan_min_region)),
    ]);
    if no != 0 {
        return no;
    }
    let palette = &palette[..3 * k];
    let sheet = wide(&cells[..h * w]);
    let (out, passes) = cleaned(&sheet, h, w, palette, orphan_min_region, max_passes, orphan_max_delta);
    cells[..h * w].copy_from_slice(&narrow(&out));
    facts[0] = passes;
    0
}

pub fn fix_jaggies(cells: &mut [i32], h: usize, w: usize, work: &[u32]) -> u32 {
    let no = grid_rows(h, w, &[cells.len()], work.len(), true);
    if no != 0 {
        return no;
    }
    let out = postprocess::fix_jaggies(&wide(&cells[..h * w]), h, w);
    cells[..h * w].copy_from_slice(&narrow(&out));
    0
}

/// The outline as the C interface gives it.
#[derive(Clone, Copy)]
pub struct Outline {
    /// 0 none, 1 auto, 2 the triple
    pub kind: u32,
    pub darken: f64,
    pub rgb: [u8; 3],
}

impl Outline {
    fn asked(self) -> bool {
        self.kind == 1 || self.kind == 2
    }

    fn out_of_range(self) -> bool {
        self.kind > 2 || self.kind == 1 && outside(self.darken, 0.0, 1.0)
    }

    fn text(self) -> String {
        let [r, g, b] = self.rgb;
        match self.kind {
            0 => "none".to_string(),
            1 => "auto".to_string(),
            _ => format!("#{r:02x}{g:02x}{b:02x}"),
        }
    }
}

/// Rows 1 to 3 where an outline may pad, and the needed cells.
#[allow(clippy::too_many_arguments)]
fn outline_grid_rows(
    cells: &[i32],
    h: usize,
    w: usize,
    outline: Outline,
    allow_pad: bool,
    work: usize,
    facts: usize,
    facts_needed: usize,
) -> (u32, bool) {
    if too_large(h, w) {
        return (1, false);
    }
    if cells.len() < h * w {
        return (2, false);
    }
    let padded = outline.asked() && allow_pad && touches_edge(cells, h, w);
    let needed = if padded { (h + 2) * (w + 2) } else { h * w };
    let short = cells.len() < needed || facts < facts_needed;
    (first(&[(2, short), (3, work < WORK * needed)]), padded)
}

/// The result's cells and palette over the lent ones; its facts.
fn store(result: &postprocess::Processed, cells: &mut [i32], palette: &mut [f64]) -> [u32; 5] {
    cells[..result.indices.len()].copy_from_slice(&narrow(&result.indices));
    palette[..result.palette_lab.len()].copy_from_slice(&result.palette_lab);
    [
        result.height as u32,
        result.width as u32,
        (result.palette_lab.len() / 3) as u32,
        result.stats.outline_index.map_or(0, |i| i as u32 + 1),
        u32::from(result.stats.outline_clipped),
    ]
}

#[allow(clippy::too_many_arguments)]
pub fn add_outline(
    cells: &mut [i32],
    h: usize,
    w: usize,
    palette: &mut [f64],
    k: usize,
    outline: Outline,
    allow_pad: bool,
    fixed_palette: bool,
    work: &[u32],
    facts: &mut [u32],
) -> u32 {
    let (no, padded) = outline_grid_rows(cells, h, w, outline, allow_pad, work.len(), facts.len(), 5);
    if no != 0 {
        return no;
    }
    let no = first(&[
        (4, no_palette(palette, k)),
        (5, wild_palette(palette, k)),
        (6, outline.out_of_range() || outline.kind == 0),
        (8, k == 0 && (outline.kind == 1 || fixed_palette) && has_ring(cells, h, w, padded)),
    ]);
    if no != 0 {
        return no;
    }
    let result = postprocess::add_outline(
        &wide(&cells[..h * w]),
        h,
        w,
        &palette[..3 * k],
        &outline.text(),
        outline.darken,
        allow_pad,
        fixed_palette,
    )
    .expect("an accepted outline");
    facts[..5].copy_from_slice(&store(&result, cells, palette));
    0
}

pub fn apply_saturation(palette: &mut [f64], k: usize, beta: f64) -> u32 {
    let no = first(&[
        (4, no_palette(palette, k)),
        (5, wild_palette(palette, k)),
        (6, outside(beta, 0.0, 16.0) || oversaturated(palette, k, beta)),
    ]);
    if no == 0 {
        postprocess::apply_saturation(&mut palette[..3 * k], beta);
    }
    no
}

/// The settings of `run` as the C interface gives them.
#[derive(Clone, Copy)]
pub struct Settings {
    pub beta: f64,
    pub remove_orphans: bool,
    pub orphan_min_region: i32,
    pub orphan_max_delta: f64,
    pub fix_jaggies: bool,
    pub outline: Outline,
    pub tileset: bool,
    pub saturated: bool,
    pub fixed_palette: bool,
    pub outline_margin: i32,
}

impl Settings {
    fn saturates(&self) -> bool {
        !self.saturated && !self.fixed_palette
    }

    fn out_of_range(&self) -> bool {
        outside(self.beta, 0.0, 16.0)
            || outside(self.orphan_max_delta, 0.0, 1024.0)
            || self.outline.out_of_range()
    }

    fn config(&self) -> postprocess::PostConfig {
        postprocess::PostConfig {
            saturation_beta: self.beta,
            remove_orphans: self.remove_orphans,
            orphan_min_region: i64::from(self.orphan_min_region),
            orphan_max_delta: self.orphan_max_delta,
            fix_jaggies: self.fix_jaggies,
            outline: self.outline.text(),
            outline_darken: self.outline.darken,
            tileset: self.tileset,
        }
    }
}

/// The counts of repainting passes of both cleanings, worked out step by step; the steps together
/// have to give what the reference's `run` gives.
fn pass_counts(
    sheet: &[i64],
    h: usize,
    w: usize,
    palette: &[f64],
    s: &Settings,
    whole: &postprocess::Processed,
) -> [u32; 2] {
    let mut palette = palette.to_vec();
    if s.saturates() {
        postprocess::apply_saturation(&mut palette, s.beta);
    }
    let clean = |sheet: &[i64], h, w, palette: &[f64], passes| {
        cleaned(sheet, h, w, palette, s.orphan_min_region, passes, s.orphan_max_delta)
    };
    let (mut sheet, mut counts) = (sheet.to_vec(), [0, 0]);
    if s.remove_orphans {
        (sheet, counts[0]) = clean(&sheet, h, w, &palette, 5);
    }
    if s.fix_jaggies {
        sheet = postprocess::fix_jaggies(&sheet, h, w);
    }
    if s.outline.kind != 0 {
        let (text, darken) = (s.outline.text(), s.outline.darken);
        let pad = !s.tileset && s.outline_margin == 0;
        let lined = postprocess::add_outline(&sheet, h, w, &palette, &text, darken, pad, s.fixed_palette)
            .expect("an accepted outline");
        sheet = lined.indices;
        if s.remove_orphans {
            (sheet, counts[1]) = clean(&sheet, lined.height, lined.width, &lined.palette_lab, 1);
        }
    }
    assert_eq!(sheet, whole.indices);
    counts
}

#[allow(clippy::too_many_arguments)]
pub fn run(
    cells: &mut [i32],
    h: usize,
    w: usize,
    palette: &mut [f64],
    k: usize,
    settings: &Settings,
    work: &[u32],
    facts: &mut [u32],
) -> u32 {
    let s = settings;
    let allow_pad = !s.tileset && s.outline_margin == 0;
    let (no, padded) = outline_grid_rows(cells, h, w, s.outline, allow_pad, work.len(), facts.len(), 7);
    if no != 0 {
        return no;
    }
    let no = first(&[
        (4, no_palette(palette, k)),
        (5, wild_palette(palette, k)),
        (6, s.out_of_range() || s.saturates() && oversaturated(palette, k, s.beta)),
        (7, s.remove_orphans && names_no_entry(&cells[..h * w], k, s.orphan_min_region)),
        (
            8,
            s.outline.asked()
                && k == 0
                && (s.outline.kind == 1 || s.fixed_palette)
                && has_ring(cells, h, w, padded),
        ),
    ]);
    if no != 0 {
        return no;
    }
    let sheet = wide(&cells[..h * w]);
    let result = postprocess::run(
        &sheet,
        h,
        w,
        &palette[..3 * k],
        &s.config(),
        s.saturated,
        s.fixed_palette,
        i64::from(s.outline_margin),
    )
    .expect("an accepted run");
    let counts = pass_counts(&sheet, h, w, &palette[..3 * k], s, &result);
    facts[..5].copy_from_slice(&store(&result, cells, palette));
    facts[5..7].copy_from_slice(&counts);
    0
}

pub fn rgb8_to_lab(rgb: &[u8], out: &mut [f64]) -> u32 {
    let n = rgb.len() / 3;
    let no = first(&[(2, out.len() < 3 * n), (4, rgb.len() % 3 != 0)]);
    if no == 0 {
        out[..3 * n].copy_from_slice(&color::rgb8_to_lab(rgb));
    }
    no
}

pub fn lab_to_rgb8(lab: &[f64], out: &mut [u8]) -> u32 {
    let n = lab.len() / 3;
    let no = first(&[(2, out.len() < 3 * n), (4, lab.len() % 3 != 0), (5, wild(lab))]);
    if no == 0 {
        out[..3 * n].copy_from_slice(&color::lab_to_rgb8(lab));
    }
    no
}

pub fn delta_e(a: &[f64], b: &[f64], out: &mut [f64]) -> u32 {
    let n = a.len() / 3;
    let no = first(&[
        (2, out.len() < n),
        (4, a.len() % 3 != 0 || b.len() % 3 != 0 || a.len() != b.len()),
        (5, wild(a) || wild(b)),
    ]);
    if no == 0 {
        out[..n].copy_from_slice(&color::delta_e(a, b));
    }
    no
}

pub fn nearest_index(pixels: &[f64], palette: &[f64], out: &mut [i32]) -> u32 {
    let n = pixels.len() / 3;
    let ragged = pixels.len() % 3 != 0 || palette.len() % 3 != 0;
    let no = first(&[
        (2, out.len() < n),
        (4, ragged || palette.len() / 3 > COLOURS),
        (5, wild(pixels) || wild(palette)),
        (8, !pixels.is_empty() && palette.is_empty()),
    ]);
    if no == 0 {
        out[..n].copy_from_slice(&narrow(&color::nearest_index(pixels, palette)));
    }
    no
}

pub fn palette_distance_matrix(palette: &[f64], out: &mut [f64]) -> u32 {
    let n = palette.len() / 3;
    let no = first(&[(2, out.len() < n * n), (4, palette.len() % 3 != 0 || n > COLOURS), (5, wild(palette))]);
    if no == 0 {
        out[..n * n].copy_from_slice(&color::palette_distance_matrix(palette));
    }
    no
}

/// The specification's hex rule; where the Rust is to agree (all ASCII), it is asked too.
fn hex(text: &[u8]) -> Option<[u8; 3]> {
    let blank = |b: &u8| *b == 32 || (9..=13).contains(b);
    let mut t = text;
    while let Some((head, rest)) = t.split_first().filter(|s| blank(s.0)) {
        debug_assert!(blank(head));
        t = rest;
    }
    while let Some((last, rest)) = t.split_last().filter(|s| blank(s.0)) {
        debug_assert!(blank(last));
        t = rest;
    }
    while let [b'#', rest @ ..] = t {
        t = rest;
    }
    let digit = |b: u8| (b as char).to_digit(16).map(|d| d as u8);
    let digits: Option<Vec<u8>> = t.iter().map(|&b| digit(b)).collect();
    let found =
        digits.filter(|d| d.len() == 6).map(|d| [d[0] * 16 + d[1], d[2] * 16 + d[3], d[4] * 16 + d[5]]);
    if text.is_ascii() {
        assert_eq!(found, color::hex_to_rgb8(std::str::from_utf8(text).unwrap()).ok());
    }
    found
}

pub fn hex_to_rgb8(text: &[u8], out: &mut [u8]) -> u32 {
    let found = hex(text);
    let no = first(&[(2, out.len() < 3), (9, found.is_none())]);
    if no == 0 {
        out[..3].copy_from_slice(&found.unwrap());
    }
    no
}
