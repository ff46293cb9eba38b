//! Links target/staticlib/libexport_leaves.a of the project's root.
use std::path::PathBuf;
use std::{env, process};

fn main() {
    let here = PathBuf::from(env::var_os("CARGO_MANIFEST_DIR").unwrap_or_default());
    let folder = here.join("../../target/staticlib");
    let archive = folder.join("libexport_leaves.a");
    if !archive.is_file() {
        println!("cargo::error=no {}: run `tools/staticlib export_leaves` at the project's root first", archive.display());
        process::exit(1);
    }
    println!("cargo::rerun-if-changed={}", archive.display());
    println!("cargo::rustc-link-search=native={}", folder.display());
    println!("cargo::rustc-link-lib=static=export_leaves");
}
