//! Links the archive: the one that `RAXDOV_LIB` names, the file or its folder, or `crates/raxdov/out/libraxdov.a` of the repository.

use std::env;
use std::path::PathBuf;

fn main() {
    println!("cargo::rerun-if-env-changed=RAXDOV_LIB");
    let here = PathBuf::from(env::var("CARGO_MANIFEST_DIR").unwrap());
    let file = match env::var_os("RAXDOV_LIB") {
        Some(file) => PathBuf::from(file),
        None => here.join("../../crates/raxdov/out/libraxdov.a"),
    };
    let file = if file.is_dir() {
        file.join("libraxdov.a")
    } else {
        file
    };
    let Ok(file) = file.canonicalize() else {
        panic!(
            "no archive at {}: run `rt lib` in crates/raxdov, or set RAXDOV_LIB to a libraxdov.a",
            file.display()
        );
    };
    println!("cargo::rerun-if-changed={}", file.display());
    println!(
        "cargo::rustc-link-search=native={}",
        file.parent().unwrap().display()
    );
    println!("cargo::rustc-link-lib=static=raxdov");
}
