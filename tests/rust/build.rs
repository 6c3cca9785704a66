//! Looks for the static library and says by flags which of its calls are there, so that all builds without it too.

use std::path::PathBuf;
use std::process::Command;

/// The calls of the library, without their prefix.
const CALLS: [&str; 17] = [
    "validate",
    "validate_with",
    "varuint",
    "is_text",
    "are_equal",
    "float32_holds",
    "widen",
    "check",
    "top",
    "step",
    "view",
    "lookup",
    "double",
    "signed",
    "unsigned",
    "ticks",
    "write",
];

fn main() {
    for call in CALLS {
        println!("cargo:rustc-check-cfg=cfg(has_{call})");
    }
    println!("cargo:rerun-if-changed=build.rs");
    let folder = PathBuf::from(env!("CARGO_MANIFEST_DIR")).join("../../target/native");
    let archive = folder.join("libcabi.a");
    println!("cargo:rerun-if-changed={}", archive.display());
    if !archive.exists() {
        return;
    }
    let listing = Command::new("nm").arg("--defined-only").arg("--extern-only").arg(&archive).output();
    let listing = listing.expect("nm has to be installed to see which calls the library has");
    let symbols = String::from_utf8_lossy(&listing.stdout).into_owned();
    let mut found = false;
    for call in CALLS {
        let symbol = format!("ajuqvane_{call}");
        if symbols.lines().any(|line| line.split_whitespace().last() == Some(symbol.as_str())) {
            println!("cargo:rustc-cfg=has_{call}");
            found = true;
        }
    }
    if found {
        println!("cargo:rustc-link-search=native={}", folder.display());
        println!("cargo:rustc-link-lib=static=cabi");
    }
}
