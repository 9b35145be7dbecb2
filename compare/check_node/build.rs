//! Leads to the original's files, below `ISDB_SRC` or below `../shared/docs/src` beside the
//! repository, and to `libbench_lanes.a`. The original's iterations are private to `ldpc/fixed.rs`:
//! that file is read as it is, with one child module behind it (`src/inside.rs`).

use std::path::{Path, PathBuf};
use std::{env, fs};

fn read(file: &Path) -> String {
    println!("cargo::rerun-if-changed={}", file.display());
    fs::read_to_string(file).unwrap_or_else(|e| panic!("{}: {e}; set ISDB_SRC", file.display()))
}

fn main() {
    println!("cargo::rerun-if-env-changed=ISDB_SRC");
    println!("cargo::rustc-check-cfg=cfg(isdb_fec_portable_simd)");
    let here = PathBuf::from(env::var("CARGO_MANIFEST_DIR").unwrap());
    let src = match env::var_os("ISDB_SRC") {
        Some(src) => PathBuf::from(src),
        None => here.join("../../../shared/docs/src"),
    }
    .join("crates/isdb-fec/src");
    let out = PathBuf::from(env::var("OUT_DIR").unwrap());
    fs::create_dir_all(out.join("ldpc")).unwrap();
    for file in ["simd.rs", "ldpc/mod.rs", "ldpc/fixed.rs"] {
        let mut text = read(&src.join(file));
        if file == "ldpc/fixed.rs" {
            text += &format!(
                "\npub mod inside {{\n{}\n}}\n",
                read(&here.join("src/inside.rs"))
            );
        }
        fs::write(out.join(file), text).unwrap();
    }
    let mut lines = String::new();
    for (name, file) in [("simd", "simd.rs"), ("ldpc", "ldpc/mod.rs")] {
        let file = out.join(file).display().to_string();
        lines += &format!("#[path = {file:?}]\npub mod {name};\n");
    }
    fs::write(out.join("original.rs"), lines).unwrap();

    let lib = here.join("../../target/staticlib");
    println!(
        "cargo::rerun-if-changed={}",
        lib.join("libbench_lanes.a").display()
    );
    println!("cargo::rustc-link-search=native={}", lib.display());
    println!("cargo::rustc-link-lib=static=bench_lanes");
}
