//! Finds libraxdov.a: in RAXDOV_LIB, the archive or its folder, or in ../../crates/raxdov/out.

use std::path::PathBuf;
use std::{env, process};

fn main() {
    println!("cargo::rerun-if-env-changed=RAXDOV_LIB");
    let set = env::var_os("RAXDOV_LIB").map(PathBuf::from);
    let here = PathBuf::from(env::var_os("CARGO_MANIFEST_DIR").expect("cargo names the folder"));
    let at = match &set {
        Some(path) => path.clone(),
        None => here.join("../../crates/raxdov/out"),
    };
    let file = if at.is_dir() {
        at.join("libraxdov.a")
    } else {
        at
    };
    println!("cargo::rerun-if-changed={}", file.display());
    let target = |name| env::var(name).unwrap_or_default();
    if (
        target("CARGO_CFG_TARGET_ARCH"),
        target("CARGO_CFG_TARGET_OS"),
    ) != ("x86_64".into(), "linux".into())
    {
        refuse("libraxdov.a links into x86-64 Linux programs only".into());
    }
    if !file.is_file() {
        let how = if set.is_some() {
            "RAXDOV_LIB is to be libraxdov.a or its folder"
        } else {
            "RAXDOV_LIB is not set"
        };
        refuse(format!(
            "no archive at {} ({how}): run `rt lib` in crates/raxdov of Raxdov's repository, which writes \
             crates/raxdov/out/libraxdov.a, or set RAXDOV_LIB to where it is",
            file.display()
        ));
    }
    if file.file_name().is_none_or(|name| name != "libraxdov.a") {
        refuse(format!("{} is not named libraxdov.a", file.display()));
    }
    let file = file.canonicalize().expect("the archive is there");
    let folder = file.parent().expect("a file has a folder");
    println!("cargo::rustc-link-search=native={}", folder.display());
    println!("cargo::rustc-link-lib=static=raxdov");
}

/// Cargo stops at the error and prints it alone.
fn refuse(why: String) -> ! {
    println!("cargo::error={why}");
    process::exit(0)
}
