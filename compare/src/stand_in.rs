//! The port's C functions over the reference, so that the harness can be tried without the port.

use crate::judge::{self, Outline, Settings};
use std::slice::{from_raw_parts as read, from_raw_parts_mut as write};

macro_rules! stand_in {
    ($(fn $name:ident($($arg:ident: $type:ty),* $(,)?) $body:block)*) => {
        $(
            #[no_mangle]
            #[allow(clippy::too_many_arguments, clippy::missing_safety_doc)]
            pub unsafe extern "C" fn $name($($arg: $type),*) -> u32 $body
        )*
    };
}

stand_in! {
    fn silk_label_regions(
        c: *const i32, cn: usize, h: usize, w: usize, l: *mut u32, ln: usize, k: *mut u32, kn: usize,
        f: *mut u32, fn_: usize,
    ) {
        judge::label_regions(read(c, cn), h, w, write(l, ln), read(k, kn), write(f, fn_))
    }
    fn silk_label4(
        c: *const u8, cn: usize, h: usize, w: usize, l: *mut u32, ln: usize, k: *mut u32, kn: usize,
        f: *mut u32, fn_: usize,
    ) {
        judge::label4(read(c, cn), h, w, write(l, ln), read(k, kn), write(f, fn_))
    }
    fn silk_binary_dilation8(
        c: *const u8, cn: usize, h: usize, w: usize, by: u32, o: *mut u8, on: usize, k: *mut u32,
        kn: usize,
    ) {
        judge::binary_dilation8(read(c, cn), h, w, by, write(o, on), read(k, kn))
    }
    fn silk_remove_orphans(
        c: *mut i32, cn: usize, h: usize, w: usize, p: *const f64, pn: usize, count: usize,
        region: i32, passes: u32, delta: f64, k: *mut u32, kn: usize, f: *mut u32, fn_: usize,
    ) {
        judge::remove_orphans(
            write(c, cn), h, w, read(p, pn), count, region, passes, delta, read(k, kn), write(f, fn_),
        )
    }
    fn silk_fix_jaggies(c: *mut i32, cn: usize, h: usize, w: usize, k: *mut u32, kn: usize) {
        judge::fix_jaggies(write(c, cn), h, w, read(k, kn))
    }
    fn silk_add_outline(
        c: *mut i32, cn: usize, h: usize, w: usize, p: *mut f64, pn: usize, count: usize,
        kind: u32, darken: f64, r: u8, g: u8, b: u8, pad: u8, fixed: u8, k: *mut u32, kn: usize,
        f: *mut u32, fn_: usize,
    ) {
        let outline = Outline { kind, darken, rgb: [r, g, b] };
        judge::add_outline(
            write(c, cn), h, w, write(p, pn), count, outline, pad != 0, fixed != 0, read(k, kn),
            write(f, fn_),
        )
    }
    fn silk_apply_saturation(p: *mut f64, pn: usize, count: usize, beta: f64) {
        judge::apply_saturation(write(p, pn), count, beta)
    }
    fn silk_run(
        c: *mut i32, cn: usize, h: usize, w: usize, p: *mut f64, pn: usize, count: usize,
        beta: f64, orphans: u8, region: i32, delta: f64, jaggies: u8, kind: u32, darken: f64,
        r: u8, g: u8, b: u8, tileset: u8, saturated: u8, fixed: u8, margin: i32,
        k: *mut u32, kn: usize, f: *mut u32, fn_: usize,
    ) {
        let settings = Settings {
            beta,
            remove_orphans: orphans != 0,
            orphan_min_region: region,
            orphan_max_delta: delta,
            fix_jaggies: jaggies != 0,
            outline: Outline { kind, darken, rgb: [r, g, b] },
            tileset: tileset != 0,
            saturated: saturated != 0,
            fixed_palette: fixed != 0,
            outline_margin: margin,
        };
        judge::run(
            write(c, cn), h, w, write(p, pn), count, &settings, read(k, kn), write(f, fn_),
        )
    }
    fn silk_rgb8_to_lab(a: *const u8, an: usize, o: *mut f64, on: usize) {
        judge::rgb8_to_lab(read(a, an), write(o, on))
    }
    fn silk_lab_to_rgb8(a: *const f64, an: usize, o: *mut u8, on: usize) {
        judge::lab_to_rgb8(read(a, an), write(o, on))
    }
    fn silk_delta_e(a: *const f64, an: usize, b: *const f64, bn: usize, o: *mut f64, on: usize) {
        judge::delta_e(read(a, an), read(b, bn), write(o, on))
    }
    fn silk_nearest_index(
        a: *const f64, an: usize, b: *const f64, bn: usize, o: *mut i32, on: usize,
    ) {
        judge::nearest_index(read(a, an), read(b, bn), write(o, on))
    }
    fn silk_palette_distance_matrix(a: *const f64, an: usize, o: *mut f64, on: usize) {
        judge::palette_distance_matrix(read(a, an), write(o, on))
    }
    fn silk_hex_to_rgb8(a: *const u8, an: usize, o: *mut u8, on: usize) {
        judge::hex_to_rgb8(read(a, an), write(o, on))
    }
}
