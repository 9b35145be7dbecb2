//! The compiler that builds this, for the line that says where figures come from; and the archive that `RAXDOV_BEFORE` names, if it does, with its
//! functions renamed `before_raxdov_..`, so that `bench beside` and `bench bch` can time it and the present one in one process.

use std::env;
use std::path::PathBuf;
use std::process::Command;

fn main() {
    let rustc = env::var("RUSTC").unwrap();
    let said = Command::new(rustc).arg("--version").output().unwrap();
    println!(
        "cargo::rustc-env=COMPILER={}",
        String::from_utf8_lossy(&said.stdout).trim()
    );
    println!("cargo::rerun-if-changed=build.rs");
    println!("cargo::rustc-check-cfg=cfg(before)");
    println!("cargo::rerun-if-env-changed=RAXDOV_BEFORE");
    let Some(file) = env::var_os("RAXDOV_BEFORE") else {
        return;
    };
    let to = PathBuf::from(env::var("OUT_DIR").unwrap());
    let mut objcopy = Command::new("objcopy");
    for name in [
        "run",
        "record_words",
        "tally_words",
        "bch_parity",
        "bch_encode",
        "bch_decode",
    ] {
        objcopy.arg(format!("--redefine-sym=raxdov_{name}=before_raxdov_{name}"));
        objcopy.arg(format!("--keep-global-symbol=before_raxdov_{name}"));
    }
    let done = objcopy
        .arg(&file)
        .arg(to.join("libbefore.a"))
        .status()
        .unwrap();
    assert!(done.success(), "objcopy of RAXDOV_BEFORE failed");
    println!("cargo::rerun-if-changed={}", file.to_string_lossy());
    println!("cargo::rustc-link-search=native={}", to.display());
    println!("cargo::rustc-link-lib=static=before");
    println!("cargo::rustc-cfg=before");
}
