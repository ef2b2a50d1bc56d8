//! Links the port's archive, target/staticlib/libsilk_c.a, unless the stand-in takes its place.

use std::{env, path::Path};

fn main() {
    println!("cargo:rerun-if-env-changed=SILK_ARCHIVE");
    if env::var_os("CARGO_FEATURE_STAND_IN").is_some() {
        return;
    }
    let default = Path::new(&env::var("CARGO_MANIFEST_DIR").unwrap()).join("../target/staticlib");
    let folder = env::var("SILK_ARCHIVE").unwrap_or(default.display().to_string());
    println!("cargo:rerun-if-changed={folder}/libsilk_c.a");
    println!("cargo:rustc-link-search=native={folder}");
    println!("cargo:rustc-link-lib=static=silk_c");
}
