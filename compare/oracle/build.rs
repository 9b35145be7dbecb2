//! Writes the `mod` lines that lead to the original's files: below `ISDB_SRC`, or below
//! `../shared/docs/src` beside the repository.

use std::path::PathBuf;
use std::{env, fs};

fn main() {
    println!("cargo::rerun-if-env-changed=ISDB_SRC");
    println!("cargo::rustc-check-cfg=cfg(isdb_fec_portable_simd)");
    let here = PathBuf::from(env::var("CARGO_MANIFEST_DIR").unwrap());
    let src = match env::var_os("ISDB_SRC") {
        Some(src) => PathBuf::from(src),
        None => here.join("../../../shared/docs/src"),
    };
    let src = src
        .canonicalize()
        .unwrap_or_else(|e| {
            panic!(
                "no source of the original at {}: {e}; set ISDB_SRC",
                src.display()
            )
        })
        .join("crates/isdb-fec/src");
    let mut lines = String::new();
    for (name, file) in [
        ("bch", "bch.rs"),
        ("simd", "simd.rs"),
        ("ldpc", "ldpc/mod.rs"),
    ] {
        let file = src.join(file);
        println!("cargo::rerun-if-changed={}", file.display());
        lines += &format!(
            "#[path = {:?}]\npub mod {name};\n",
            file.display().to_string()
        );
    }
    println!(
        "cargo::rerun-if-changed={}",
        src.join("ldpc/fixed.rs").display()
    );
    let out = PathBuf::from(env::var("OUT_DIR").unwrap()).join("original.rs");
    fs::write(out, lines).unwrap();
}
