//! The C header: it declares what the library exports and what the Rust crate calls, its numbers and sizes are those of
//! the crate, and small C programs run with it.
use quads::sizes::{draw_work, job_bytes, sheet_work};
use quads::{Counts, LIMIT, PAGE, Refusal};
use std::collections::BTreeMap;
use std::path::{Path, PathBuf};
use std::process::Command;

/// A file of the project.
fn file(name: &str) -> PathBuf {
    Path::new(env!("CARGO_MANIFEST_DIR")).join("../..").join(name)
}

/// The exports that a file declares, each with its parameters: a declaration starts with these words, and `read`
/// turns a parameter into Rust's.
fn declared(name: &str, start: &str, read: fn(&str) -> String) -> BTreeMap<String, Vec<String>> {
    let text = std::fs::read_to_string(file(name)).unwrap();
    let declaration = |part: &str| {
        let (name, rest) = part.split_once('(').unwrap();
        let parameters = rest.split_once(')').unwrap().0.split(',').map(str::trim);
        let texts: Vec<String> = parameters.filter(|text| !text.is_empty()).map(read).collect();
        (name.to_string(), texts.join(", ").split(", ").map(String::from).collect())
    };
    text.split(start).skip(1).map(declaration).collect()
}

/// A parameter of C in Rust.
fn from_c(text: &str) -> String {
    let (kind, name) = text.rsplit_once([' ', '*']).unwrap();
    let kind = match kind.trim_start_matches("const ").trim_end() {
        "double" => "f64",
        "uint64_t" => "u64",
        "uint32_t" => "u32",
        "uint8_t" => "u8",
        "size_t" => "usize",
        other => panic!("{other} in {text}"),
    };
    match (text.contains('*'), text.starts_with("const ")) {
        (true, true) => format!("{name}: *const {kind}"),
        (true, false) => format!("{name}: *mut {kind}"),
        (false, _) => format!("{name}: {kind}"),
    }
}

/// A parameter of the library's source in Rust: a slice passes as its pointer and its length. Floats that the library
/// takes as their bits, to save and to open a job, are floats here.
fn from_rattle(text: &str) -> String {
    let (name, kind) = text.split_once(": ").unwrap();
    let element = |kind: &str| match (name, kind.trim_end_matches(']')) {
        ("header" | "points" | "new_points", "u64") => "f64".to_string(),
        (_, kind) => kind.to_string(),
    };
    match (kind.strip_prefix("&["), kind.strip_prefix("&mut [")) {
        (Some(kind), _) => format!("{name}: *const {}, {name}_len: usize", element(kind)),
        (_, Some(kind)) => format!("{name}: *mut {}, {name}_len: usize", element(kind)),
        _ => text.to_string(),
    }
}

#[test]
fn header_library_and_crate_declare_the_same() {
    let header = declared("include/quads.h", "uint32_t quads_", from_c);
    assert_eq!(header.len(), 13);
    assert_eq!(header, declared("rust/quads/src/ffi.rs", "fn quads_", str::to_string));
    assert_eq!(header, declared("crates/quads_c/src/lib.rt", "extern \"C\" fn quads_", from_rattle));
}

/// Runs a program to its end: what it wrote, if it went well.
fn run(command: &mut Command) -> String {
    let output = command.output().unwrap_or_else(|error| panic!("{command:?}: {error}"));
    assert!(output.status.success(), "{command:?}: {}", String::from_utf8_lossy(&output.stderr));
    String::from_utf8(output.stdout).unwrap()
}

/// Compiles a C program of the tests.
fn compiled(name: &str) -> PathBuf {
    let program = Path::new(env!("CARGO_TARGET_TMPDIR")).join(name);
    let mut compiler = Command::new("cc");
    compiler.args(["-std=c99", "-Wall", "-Wextra", "-Wpedantic", "-Werror", "-O2", "-I"]).arg(file("include"));
    compiler.arg(file(&format!("rust/quads/tests/{name}.c"))).arg(env!("QUADS_ARCHIVE")).arg("-o").arg(&program);
    run(&mut compiler);
    program
}

#[test]
fn the_header_has_the_numbers_of_the_refusals() {
    let text = std::fs::read_to_string(file("include/quads.h")).unwrap();
    let entries = text.lines().filter_map(|line| line.trim_start().strip_prefix("QUADS_")?.split_once(" = "));
    let number = |rest: &str| rest.split([',', ' ']).next().and_then(|word| word.parse().ok()).unwrap();
    let header: Vec<(String, u32)> = entries.map(|(name, rest)| (name.to_lowercase(), number(rest))).collect();
    let refusals = Refusal::all().map(|refusal| (refusal.word().to_string(), refusal.number()));
    let crates: Vec<(String, u32)> = [("accepted".to_string(), 0)].into_iter().chain(refusals).collect();
    assert_eq!(header, crates);
}

#[test]
fn the_header_has_the_sizes_of_the_crate() {
    let program = compiled("sizes");
    let counts = |points, quads, labels| Counts { points, quads, labels };
    let sheets = [counts(0, 0, 0), counts(1, 0, 2), counts(0, 1, 0), counts(8, 6, 5), counts(LIMIT, LIMIT, LIMIT)];
    for (sheet, cells) in sheets.into_iter().zip([4, 5, 6, 17, 128]) {
        let words = [sheet.points, sheet.quads, sheet.labels, cells].map(|n| n.to_string());
        let (lent, drawing, job) = (sheet_work(sheet), draw_work(cells), job_bytes(sheet));
        let sizes = [lent.wholes, lent.floats, drawing.wholes, drawing.floats, job, LIMIT, PAGE];
        let printed = run(Command::new(&program).args(&words));
        assert_eq!(printed.trim_end(), sizes.map(|n| n.to_string()).join(" "), "{sheet:?}, {cells} cells");
    }
}

#[test]
fn a_c_program_swaps_at_a_point_of_all_quads() {
    let printed = run(&mut Command::new(compiled("crowded")));
    assert_eq!(
        printed,
        "1048576 quads, 1048575 at the point 2\n\
         regularize 0: 1 swaps, 1048576 at the point 2, 0 bytes left in the work\n"
    );
}

#[test]
fn a_c_program_refines_measures_and_saves() {
    let program = compiled("cube");
    assert_eq!(
        run(&mut Command::new(&program)),
        "refine 0: 26 points, 24 quads, last label 7\n\
         quality 0: 6 quads, 0 bad links, tight 1, valid 1, least shape 1\n\
         quality 1: 0 quads, 0 bad links, tight 0, valid 0, least shape 0\n\
         quality 0: 4 quads, 1 bad links, tight 0, valid 0, least shape -1\n\
         corners 0: 3 per point, remainder 0\n\
         corners 0: 3 per point, remainder 18\n\
         corners 1: 0 per point, remainder 0\n\
         page 0:\n\
         quads                                  6\n\
         irregular                              8\n\
         boundary                               0\n\
         nonmanifold                            0\n\
         orientation                            0\n\
         links                                  0\n\
         duplicates                             0\n\
         invalid                                0\n\
         page 1:\n\
         above minus infinity: corners 0: 3 per point, subdivide 1: 0 points\n\
         save 13: 0 bytes, 0 points, 0 quads, 0 labels\n\
         save 13: 0 bytes, 0 points, 0 quads, 0 labels\n\
         save 0: 386 bytes, 8 points, 6 quads, 6 labels\n\
         open 0: 8 points, 6 quads, 6 labels, the same bytes\n\
         open 13: 0 points, 0 quads, 0 labels, other bytes\n\
         open 14: 0 points, 0 quads, 0 labels, other bytes\n\
         sum 0: written 1, 8\n\
         sum 13: written 7, 7\n\
         sum 14: written 0, 0\n\
         sum 0: written 1, 9\n\
         open 17: 0 points, 0 quads, 0 labels, other bytes\n\
         sum 0: written 0, 0\n\
         open 0: 8 points, 6 quads, 6 labels, the same bytes\n"
    );
}
