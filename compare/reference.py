#!/usr/bin/env python3
"""Builds the reference crates from the Rust original: reference.py OUT SHARED [LIBM]

OUT/pixelforge: postprocess.rs, color.rs and the two functions of mask.rs from SHARED/docs/src, with
the stand-ins for libm put in by this script (decode table, thresholds, nearest cube root, t*t*t).
OUT/pixelforge_libm, only where LIBM (the folder of the libm crate) is given: the same parts with
libm's own functions, for the logged runs against the unpatched crate.
Each replacement must be found exactly as often as expected, or the script stops.
"""

import os
import re
import sys

HERE = os.path.dirname(os.path.abspath(__file__))
sys.path.insert(0, os.path.join(HERE, "../tools"))
import tables  # noqa: E402


def replaced(text, old, new, times=1):
    if text.count(old) != times:
        sys.exit(f"reference.py: found {text.count(old)} times, not {times}: {old!r}")
    return text.replace(old, new)


def function(text, head):
    """The function that begins with `head`, doc comment included, to its closing brace."""
    found = re.findall(r"(?:^///.*\n|^#\[.*\n)*^" + re.escape(head) + r"[\s\S]*?^}\n", text, re.M)
    if len(found) != 1:
        sys.exit(f"reference.py: found {len(found)} times: {head}")
    return found[0]


def colour(text):
    """color.rs without its float forms, its channels and roots by the stand-ins."""
    for head in ["pub fn rgb_to_lab(", "pub fn lab_to_rgb(", "fn srgb_to_linear(", "fn linear_to_srgb("]:
        text = replaced(text, function(text, head), "")
    text = replaced(text, "libm::cbrt(t)", "stand_ins::nearest_cbrt(t)")
    text = replaced(text, "libm::pow(t, 3.0)", "stand_ins::cube(t)")
    text = replaced(text, "fn rgb_to_lab_one(rgb: [f64; 3])", "fn rgb_to_lab_one(rgb: [u8; 3])")
    text = replaced(text, "fn lab_to_rgb_one(lab: [f64; 3]) -> [f64; 3]", "fn lab_to_rgb_one(lab: [f64; 3]) -> [u8; 3]")
    for i in range(3):
        text = replaced(text, f"srgb_to_linear(rgb[{i}])", f"stand_ins::decode(rgb[{i}])")
        text = replaced(text, f"linear_to_srgb(lin[{i}]).clamp(0.0, 1.0)", f"stand_ins::encode(lin[{i}])")
        text = replaced(text, f"f64::from(c[{i}]) / 255.0", f"c[{i}]")
    text = replaced(text, "out.extend(rgb.iter().map(|&v| unit_to_u8(v)))", "out.extend(rgb)")
    text = replaced(text, function(text, "pub fn unit_to_u8("), "")
    return replaced(text, "const XYZ_FROM_RGB", "use crate::stand_ins;\n\nconst XYZ_FROM_RGB")


def post(text):
    """postprocess.rs without its tie to the crate's configuration."""
    return replaced(text, function(text, "impl From<&crate::config::Config>"), "")


def mask(text):
    """The two functions of mask.rs."""
    return function(text, "pub fn label4(") + "\n" + function(text, "pub fn binary_dilation8(")


def stand_ins():
    with open(os.path.join(HERE, "stand_ins.rs"), encoding="ascii") as file:
        text = file.read()
    for name, table in [("DECODE", tables.decode_table()), ("THRESHOLDS", tables.threshold_table())]:
        rows = "".join("    0x%016x,\n" % tables.bits(v) for v in table)
        text += f"static {name}: [u64; {len(table)}] = [\n{rows}];\n"
    return text


def write(path, text):
    os.makedirs(os.path.dirname(path), exist_ok=True)
    with open(path, "w", encoding="utf-8") as file:
        file.write(text)


def crate(out, name, files, dependency=""):
    manifest = f'[package]\nname = "{name}"\nversion = "0.0.0"\nedition = "2021"\n\n[dependencies]\n{dependency}\n[workspace]\n'
    write(os.path.join(out, name, "Cargo.toml"), manifest)
    modules = "".join(f"pub mod {module};\n" for module in sorted(files))
    write(os.path.join(out, name, "src/lib.rs"), modules)
    for module, text in files.items():
        write(os.path.join(out, name, f"src/{module}.rs"), text)


def main(out, shared, libm=None):
    source = {}
    for name in ["postprocess", "color", "mask"]:
        with open(os.path.join(shared, "docs/src/crates/pixelforge/src", name + ".rs"), encoding="utf-8") as file:
            source[name] = file.read()
    parts = {"postprocess": post(source["postprocess"]), "mask": mask(source["mask"])}
    crate(out, "pixelforge", {**parts, "color": colour(source["color"]), "stand_ins": stand_ins()})
    if libm:
        dependency = f'libm = {{ path = "{os.path.abspath(libm)}" }}\n'
        crate(out, "pixelforge_libm", {**parts, "color": source["color"]}, dependency)


if __name__ == "__main__":
    if not 3 <= len(sys.argv) <= 4:
        sys.exit("usage: reference.py OUT SHARED [LIBM]")
    main(*sys.argv[1:])
