//! Writes OUT_DIR/original.rs: quads.rs and error.rs by path, unchanged, and the few items of lib.rs and implicit.rs
//! that quads.rs uses, cut out of the source text.
use std::path::{Path, PathBuf};
use std::{env, fs, process};

/// The folder that holds crates/meshers-core/src, where QUADS_SOURCE names no other.
const DEFAULT_SOURCE: &str = "../shared/docs/src";

/// What stands before each part of the original: it is taken as it is.
const AS_IT_IS: &str = "#[allow(missing_docs, clippy::all, reason = \"the original is taken as it is\")]\n";

/// Ends the build with a message that says what is missing.
fn stop(message: &str) -> ! {
    println!("cargo::error={message}");
    process::exit(1);
}

/// A variable that cargo sets for every build script.
fn variable(name: &str) -> PathBuf {
    match env::var_os(name) {
        Some(value) => PathBuf::from(value),
        None => stop(&format!("{name} is not set: build with cargo")),
    }
}

/// The folder of quads.rs, from QUADS_SOURCE or the default, seen from the root of the project.
fn source_folder() -> PathBuf {
    let root = variable("CARGO_MANIFEST_DIR").join("../..");
    let base = env::var_os("QUADS_SOURCE").unwrap_or_else(|| DEFAULT_SOURCE.into());
    let folder = root.join(base).join("crates/meshers-core/src");
    match folder.canonicalize() {
        Ok(found) if found.join("quads.rs").is_file() => found,
        _ => stop(&format!(
            "no quads.rs in {}: set QUADS_SOURCE to the folder that holds crates/meshers-core/src",
            folder.display()
        )),
    }
}

/// The text of a source file.
fn text_of(file: &Path) -> String {
    match fs::read_to_string(file) {
        Ok(text) => text,
        Err(error) => stop(&format!("{}: {error}", file.display())),
    }
}

/// The item of `text` whose first line starts with `start`, up to a line `}` or a line of the margin that ends in `;`.
fn item(text: &str, start: &str) -> String {
    let mut out = String::new();
    for line in text.lines().skip_while(|line| !line.starts_with(start)) {
        out.push_str(line);
        out.push('\n');
        if line == "}" || (line.ends_with(';') && !line.starts_with(' ')) {
            return out;
        }
    }
    stop(&format!("the source has no item that starts with {start:?}"))
}

fn main() {
    let folder = source_folder();
    let file = |name: &str| folder.join(name);
    let lib = text_of(&file("lib.rs"));
    let implicit = text_of(&file("implicit.rs"));
    let mut out = String::new();
    for start in ["pub type Point", "pub fn sub(", "pub fn dot(", "pub fn cross(", "pub fn norm("] {
        out.push_str(AS_IT_IS);
        out.push_str(&item(&lib, start));
    }
    out.push_str(&format!("{AS_IT_IS}#[path = {:?}]\nmod error;\n", file("error.rs")));
    out.push_str(&format!("{AS_IT_IS}#[path = {:?}]\npub mod quads;\n", file("quads.rs")));
    out.push_str(&format!(
        "/// The trait that a field implements.\n{AS_IT_IS}pub mod implicit {{\nuse crate::Point;\n"
    ));
    out.push_str(&item(&implicit, "pub trait ScalarField"));
    out.push_str("}\n");
    let original = variable("OUT_DIR").join("original.rs");
    if let Err(error) = fs::write(&original, out) {
        stop(&format!("{}: {error}", original.display()));
    }
    println!("cargo::rustc-env=QUADS_FILE={}", file("quads.rs").display());
    println!("cargo::rerun-if-env-changed=QUADS_SOURCE");
    for name in ["lib.rs", "implicit.rs", "error.rs", "quads.rs"] {
        println!("cargo::rerun-if-changed={}", file(name).display());
    }
}
