//! The port's C interface: 0 for an accepted call, or the refusal's number.

macro_rules! interface {
    ($($name:ident($($arg:ident: $type:ty),* $(,)?);)*) => {
        extern "C" {
            $(pub fn $name($($arg: $type),*) -> u32;)*
        }
    };
}

interface! {
    silk_label_regions(
        cells: *const i32, cells_len: usize, h: usize, w: usize,
        labels: *mut u32, labels_len: usize, work: *mut u32, work_len: usize,
        facts: *mut u32, facts_len: usize,
    );
    silk_label4(
        mask: *const u8, mask_len: usize, h: usize, w: usize,
        labels: *mut u32, labels_len: usize, work: *mut u32, work_len: usize,
        facts: *mut u32, facts_len: usize,
    );
    silk_binary_dilation8(
        mask: *const u8, mask_len: usize, h: usize, w: usize, k: u32,
        out: *mut u8, out_len: usize, work: *mut u32, work_len: usize,
    );
    silk_remove_orphans(
        cells: *mut i32, cells_len: usize, h: usize, w: usize,
        palette: *const f64, palette_len: usize, k: usize,
        orphan_min_region: i32, max_passes: u32, orphan_max_delta: f64,
        work: *mut u32, work_len: usize, facts: *mut u32, facts_len: usize,
    );
    silk_fix_jaggies(
        cells: *mut i32, cells_len: usize, h: usize, w: usize, work: *mut u32, work_len: usize,
    );
    silk_add_outline(
        cells: *mut i32, cells_len: usize, h: usize, w: usize,
        palette: *mut f64, palette_len: usize, k: usize,
        outline: u32, darken: f64, r: u8, g: u8, b: u8, allow_pad: u8, fixed_palette: u8,
        work: *mut u32, work_len: usize, facts: *mut u32, facts_len: usize,
    );
    silk_apply_saturation(palette: *mut f64, palette_len: usize, k: usize, beta: f64);
    silk_run(
        cells: *mut i32, cells_len: usize, h: usize, w: usize,
        palette: *mut f64, palette_len: usize, k: usize,
        beta: f64, remove_orphans: u8, orphan_min_region: i32, orphan_max_delta: f64,
        fix_jaggies: u8, outline: u32, darken: f64, r: u8, g: u8, b: u8,
        tileset: u8, saturated: u8, fixed_palette: u8, outline_margin: i32,
        work: *mut u32, work_len: usize, facts: *mut u32, facts_len: usize,
    );
    silk_rgb8_to_lab(rgb: *const u8, rgb_len: usize, out: *mut f64, out_len: usize);
    silk_lab_to_rgb8(lab: *const f64, lab_len: usize, out: *mut u8, out_len: usize);
    silk_delta_e(
        a: *const f64, a_len: usize, b: *const f64, b_len: usize, out: *mut f64, out_len: usize,
    );
    silk_nearest_index(
        pixels: *const f64, pixels_len: usize, palette: *const f64, palette_len: usize,
        out: *mut i32, out_len: usize,
    );
    silk_palette_distance_matrix(
        palette: *const f64, palette_len: usize, out: *mut f64, out_len: usize,
    );
    silk_hex_to_rgb8(text: *const u8, text_len: usize, out: *mut u8, out_len: usize);
}
