//! Finds the Rust original, and the static libraries of the port.

use std::env;
use std::fs;
use std::path::{Path, PathBuf};

/// The folder above base/src/obr.rs, unless FOLGUTAN_OBR names another; from the repository's root.
const USUAL: &str = "../shared/docs/src";

fn main() {
    let harness = PathBuf::from(env::var("CARGO_MANIFEST_DIR").expect("cargo sets it"));
    let root = harness.parent().expect("harness/ is below the root");
    original(root);
    if env::var_os("CARGO_FEATURE_PORT").is_some() {
        port(root);
    }
}

/// Lines of the original, each there once, and what the probed copy has before them. Without a
/// stand-in, `edges` and `bounds` of src/original/probe.rs hand back what they are handed.
const ADDED: &[(&str, &[&str])] = &[
    (
        "            let [r_1_, r_2_, c_1_, c_2_, r_p_1_, r_p_2_, c_p_1_, c_p_2_] = self.get_r12c12(&x_bw3);",
        &["crate::original::probe::narrowed();"],
    ),
    (
        "            if row <= 64 || column <= 64 {",
        &["crate::original::probe::picture(&x_bw3);"],
    ),
    (
        "        for c in (1..c_1 + 1).rev() {",
        &[
            "crate::original::probe::picture(&x_bw3);",
            "crate::original::probe::scanned([r_1, r_2, c_1, c_2]);",
            "let x_bw3 = crate::original::probe::edges(x_bw3);",
            "let [row, column] = crate::original::probe::sides([row, column]);",
            "let [mut r_1, mut r_2, mut c_1, mut c_2, r_p_1, r_p_2, c_p_1, c_p_2] = crate::original::probe::bounds([r_1, r_2, c_1, c_2, r_p_1, r_p_2, c_p_1, c_p_2]);",
        ],
    ),
    ("        let mut c_sum = vec![];", &["crate::original::probe::widened([r_1, r_2, c_1, c_2]);"]),
    (
        "        let (pixelc, c0, c) = self.get_line(c_sum);",
        &["crate::original::probe::scores(&c_sum, &r_sum);"],
    ),
    (
        "        let (pixelr, r0, r) = self.get_line(r_sum);",
        &["crate::original::probe::columns(pixelc);"],
    ),
    (
        "        let nn = ((lines[lineslen - 1] - lines[0] + 2) as f32 / (max_j as f32 / 4.0)) as usize;",
        &["crate::original::probe::votes(max_num as usize);"],
    ),
];

/// Lines of the original, each there once, and what the probed copy has for them: each narrowing has the
/// factor of the run (02, R-1), the outer `x_bw3` is mutable, and set where the inner one was (02, R-3), and
/// the middle loops of both score lists take one more turn (02, R-4).
const CHANGED: &[(&str, &str)] = &[
    ("            self.narrow(3);", "self.narrow(crate::original::probe::factor());"),
    (
        "        let x_bw3 = self.binarize_gradient(&x_bw2);",
        "        let mut x_bw3 = self.binarize_gradient(&x_bw2);",
    ),
    (
        "            let x_bw3 = self.binarize_gradient(&x_bw2);",
        "            x_bw3 = self.binarize_gradient(&x_bw2);",
    ),
    ("        for c in c_1..c_2 - 4 {", "        for c in c_1..c_2 - 3 {"),
    ("        for r in r_1..r_2 - 4 {", "        for r in r_1..r_2 - 3 {"),
];

/// A copy of the original in OUT_DIR with lines added that store locals, and some changed.
fn probed(file: &Path) -> PathBuf {
    let text = fs::read_to_string(file).expect("the Rust original can be read");
    for line in ADDED.iter().map(|add| add.0).chain(CHANGED.iter().map(|change| change.0)) {
        let found = text.lines().filter(|own| *own == line).count();
        assert_eq!(found, 1, "this line is in the Rust original once: {line}");
    }
    let mut out = String::new();
    for line in text.lines() {
        let added = ADDED.iter().find(|add| line == add.0);
        for extra in added.map_or(&[][..], |add| add.1) {
            out.push_str(extra);
            out.push('\n');
        }
        let other = CHANGED.iter().find(|change| line == change.0);
        out.push_str(other.map_or(line, |change| change.1));
        out.push('\n');
    }
    let copy = PathBuf::from(env::var("OUT_DIR").expect("cargo sets it")).join("obr_probed.rs");
    fs::write(&copy, out).expect("the probed copy can be written");
    copy
}

/// The lines of `get_line` that smooth begin with the first of these, each there once, and end before the second.
const SMOOTHING: [&str; 2] =
    ["        let mut xx = vec![0; lenx];\n", "        let mut lines = vec![];\n"];

/// A file in OUT_DIR with these lines as a function of their list.
fn smoothing(file: &Path) -> PathBuf {
    let text = fs::read_to_string(file).expect("the Rust original can be read");
    let [from, to] = SMOOTHING.map(|line| {
        assert_eq!(text.matches(line).count(), 1, "this line is in the Rust original once: {line}");
        text.find(line).expect("it is there")
    });
    let copy = PathBuf::from(env::var("OUT_DIR").expect("cargo sets it")).join("obr_smoothing.rs");
    let lines = &text[from..to];
    let whole = format!(
        "pub fn smooth(x: &[usize]) -> Vec<usize> {{\n        let lenx = x.len();\n{lines}        xx\n}}\n"
    );
    fs::write(&copy, whole).expect("the lines can be written");
    copy
}

/// Hands the file's path to src/original.rs, which includes it as it is, the path of the probed
/// copy to src/original/probed.rs, and that of the lines that smooth to src/original/smoothing.rs.
fn original(root: &Path) {
    println!("cargo:rerun-if-env-changed=FOLGUTAN_OBR");
    let folder = env::var_os("FOLGUTAN_OBR").map_or(PathBuf::from(USUAL), PathBuf::from);
    let file = root.join(folder).join("base/src/obr.rs");
    if !file.is_file() {
        panic!(
            "no Rust original at {}: set FOLGUTAN_OBR to the folder above base/src/obr.rs",
            file.display()
        );
    }
    println!("cargo:rerun-if-changed={}", file.display());
    println!("cargo:rustc-env=FOLGUTAN_OBR_FILE={}", file.display());
    println!("cargo:rustc-env=FOLGUTAN_OBR_PROBED={}", probed(&file).display());
    println!("cargo:rustc-env=FOLGUTAN_OBR_SMOOTHING={}", smoothing(&file).display());
}

fn port(root: &Path) {
    let folder = root.join("target/staticlib");
    println!("cargo:rustc-link-search=native={}", folder.display());
    for name in ["folgutan", "folgutan_inner"] {
        println!("cargo:rerun-if-changed={}", folder.join(format!("lib{name}.a")).display());
        println!("cargo:rustc-link-lib=static={name}");
    }
}
