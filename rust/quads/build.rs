//! Links target/staticlib/libquads.a of the project's root, or the one in the folder that QUADS_LIBRARY names.
use std::path::PathBuf;
use std::{env, process};

fn main() {
    let here = PathBuf::from(env::var_os("CARGO_MANIFEST_DIR").unwrap_or_default());
    let folder = env::var_os("QUADS_LIBRARY").map_or_else(|| here.join("../../target/staticlib"), PathBuf::from);
    let archive = folder.join("libquads.a");
    println!("cargo::rerun-if-env-changed=QUADS_LIBRARY");
    if !archive.is_file() {
        println!("cargo::error=no {}: run `tools/build` at the project's root, which makes it", archive.display());
        process::exit(1);
    }
    println!("cargo::rerun-if-changed={}", archive.display());
    println!("cargo::rustc-env=QUADS_ARCHIVE={}", archive.display());
    println!("cargo::rustc-link-search=native={}", folder.display());
    println!("cargo::rustc-link-lib=static=quads");
}
