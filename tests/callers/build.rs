//! Links the programs with the static library, which TCO_ARCHIVE may name; with
//! the feature `before`, the benchmark with the two that are compared there.

use std::env;
use std::path::{Path, PathBuf};

fn main() {
    println!("cargo:rerun-if-env-changed=TCO_ARCHIVE");
    let top = PathBuf::from(env!("CARGO_MANIFEST_DIR")).join("../..");
    let archive = match env::var_os("TCO_ARCHIVE") {
        Some(named) => PathBuf::from(named),
        None => top.join("crates/tco/out/libtco.a"),
    };
    for program in ["rust-caller", "bench-code", "bench-link", "bench-print", "bench-status"] {
        link(program, &archive);
    }
    if env::var_os("CARGO_FEATURE_BEFORE").is_none() {
        link("bench-calls", &archive);
    } else {
        link("bench-calls", &top.join("target/callers/libproved.a"));
        link("bench-calls", &top.join("target/callers/libbefore.a"));
    }
}

fn link(program: &str, archive: &Path) {
    println!("cargo:rerun-if-changed={}", archive.display());
    println!("cargo:rustc-link-arg-bin={program}={}", archive.display());
}
