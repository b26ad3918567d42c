//! Finds the original file of a package, verifies its SHA-256 and writes the
//! `mod` item that compiles it from its place. Nothing is copied.
//!
//! The folder of the originals is `BOOSTER_SRC`, by default
//! `../../shared/docs/src` as seen from the oracle folder.

use std::{env, fs, path::PathBuf};

#[path = "sha256.rs"]
mod sha256;

fn main() {
    let package = env::var("CARGO_PKG_NAME").unwrap();
    // Package, module, file. A driver has its crate root to itself and is
    // always called `original` here; booster's two files keep their names.
    let files: &[(&str, &str)] = match package.as_str() {
        "booster" => &[
            ("linear_transformation", "src/linear_transformation.rs"),
            ("rf_channel", "src/hardware/rf_channel.rs"),
        ],
        "ad5627" => &[("original", "ad5627/src/lib.rs")],
        "ads7924" => &[("original", "ads7924/src/lib.rs")],
        "dac7571" => &[("original", "dac7571/src/lib.rs")],
        "max6642-original" => &[("original", "max6642/src/lib.rs")],
        "mcp3221" => &[("original", "mcp3221/src/lib.rs")],
        other => panic!("no original is known for {other}"),
    };

    // This package lies two folders below the oracle folder.
    let here = PathBuf::from(env::var("CARGO_MANIFEST_DIR").unwrap());
    let oracle = here.parent().unwrap().parent().unwrap();
    let folder = match env::var_os("BOOSTER_SRC") {
        Some(folder) => PathBuf::from(folder),
        None => oracle.join("../../shared/docs/src"),
    };
    let folder = fs::canonicalize(&folder)
        .unwrap_or_else(|e| panic!("{}: {e}; set BOOSTER_SRC", folder.display()));

    let list = oracle.join("originals/SHA256SUMS");
    let sums = fs::read_to_string(&list).unwrap();
    let out = PathBuf::from(env::var("OUT_DIR").unwrap());
    let mut compiled = String::new();
    for (module, file) in files {
        let path = folder.join(file);
        let bytes = fs::read(&path).unwrap_or_else(|e| panic!("{}: {e}", path.display()));
        let sum = sha256::hex(&bytes);
        let wanted = sums
            .lines()
            .find_map(|l| l.strip_suffix(file))
            .map(str::trim);
        assert!(
            wanted == Some(sum.as_str()),
            "{file} is not the file the oracle was made for: sha256 {sum}, wanted {wanted:?}"
        );
        // The drivers deny warnings, and a `no_std` below a crate root is one.
        let item = format!("#[allow(unused_attributes)]\n#[path = {path:?}]\npub mod {module};\n");
        fs::write(out.join(format!("{module}.rs")), item).unwrap();
        compiled += &format!("    ({file:?}, {sum:?}, {}),\n", bytes.len());
        println!("cargo:rerun-if-changed={}", path.display());
    }
    fs::write(
        out.join("compiled.rs"),
        format!("/// What was compiled: file, SHA-256, bytes.\npub const COMPILED: &[(&str, &str, usize)] = &[\n{compiled}];\n"),
    )
    .unwrap();
    println!("cargo:rerun-if-changed={}", list.display());
    println!("cargo:rerun-if-env-changed=BOOSTER_SRC");
}
