//! Finds the static libraries of the proved handler and of messages and has them linked.

use std::env;
use std::path::{Path, PathBuf};

/// Names the folder that holds the archives, where it is not ../target/staticlib.
const FOLDER: &str = "BLOCK_HANDLER_LIB";

fn main() {
    println!("cargo::rerun-if-env-changed={FOLDER}");
    let here = PathBuf::from(env::var_os("CARGO_MANIFEST_DIR").expect("cargo sets CARGO_MANIFEST_DIR"));
    let folder = env::var_os(FOLDER).map_or_else(|| here.join("../target/staticlib"), PathBuf::from);
    println!("cargo::rustc-link-search=native={}", folder.display());
    for name in ["handler_c", "message_c"] {
        link(name, &folder.join(format!("lib{name}.a")));
    }
}

fn link(name: &str, archive: &Path) {
    println!("cargo::rerun-if-changed={}", archive.display());
    if archive.is_file() {
        println!("cargo::rustc-link-lib=static={name}");
    } else {
        println!("cargo::error=no archive at {}", archive.display());
        println!("cargo::error=build it with `tests/archive {name}`, or name the folder that has it in {FOLDER}");
    }
}
