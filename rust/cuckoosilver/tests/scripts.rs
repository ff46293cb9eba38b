//! The scripts that build the tool, by running copies of them over a small tree with stand-ins for `rt` and `cargo`.
mod common;
use common::Run;
use std::fs;
use std::os::unix::fs::{PermissionsExt, symlink};
use std::path::{Path, PathBuf};
use std::process::Command;

/// The programs of a Linux system that the scripts use.
const USUAL: [&str; 13] =
    ["awk", "bash", "cat", "cp", "dirname", "find", "mkdir", "rm", "sha256sum", "sort", "tail", "tee", "xargs"];

/// A list of crates: `library_c` needs three others and a library of the kit, and not the last.
const CRATES: &str =
    "# words\none:\ntwo: one\n\n# faces\nlibrary: two one csv\nlibrary_c staticlib: library\nother: library\n";

/// An `rt` that proves: one crate is unchanged.
const PROVES: &str = "case $1 in
lib)
    for crate in two library library_c; do
        echo \"rt: chose --jobs 2 for $crate\"
        echo \"fn $crate::add: proved\"
        echo 'logic=proved functions=1 sum=1'
    done
    mkdir -p out
    echo archive >out/lib${PWD##*/}.a ;;
esac
";

/// An `rt` that refuses a crate.
const REFUSES: &str = "echo 'rt: chose --jobs 2 for two'
echo 'fn two::add: not proved'
echo 'rt: the library two did not build, so nothing above it was checked'
exit 1
";

/// A program that does nothing.
const NOTHING: &str = "exit 0\n";

/// A small tree in a folder of its own.
struct Tree(PathBuf);

impl Drop for Tree {
    fn drop(&mut self) {
        let _ = fs::remove_dir_all(&self.0);
    }
}

/// Writes a program of a few lines.
fn write_program(path: &Path, lines: &str) {
    fs::write(path, format!("#!/bin/sh\n{lines}")).unwrap();
    fs::set_permissions(path, fs::Permissions::from_mode(0o755)).unwrap();
}

/// Where a program of the system stands.
fn found(name: &str) -> PathBuf {
    let path = std::env::var_os("PATH").unwrap();
    let mut places = std::env::split_paths(&path).map(|folder| folder.join(name));
    places.find(|place| place.is_file()).unwrap_or_else(|| panic!("no {name} on the path"))
}

/// A tree with the scripts and the list of crates, outside the repository, where a second list would be refused. Its
/// folder bin has the usual programs and those named here.
fn tree(name: &str, programs: &[(&str, &str)]) -> Tree {
    let root = std::env::temp_dir().join(format!("scripts-{}-{name}", std::process::id()));
    let _ = fs::remove_dir_all(&root);
    for part in ["tools", "crates/library_c", "rust", "bin"] {
        fs::create_dir_all(root.join(part)).unwrap();
    }
    fs::write(root.join("crates.txt"), CRATES).unwrap();
    let tools = Path::new(env!("CARGO_MANIFEST_DIR")).join("../../tools");
    for script in ["build", "needs", "progress", "run", "staticlib"] {
        fs::copy(tools.join(script), root.join("tools").join(script)).unwrap();
    }
    for program in USUAL {
        symlink(found(program), root.join("bin").join(program)).unwrap();
    }
    for (program, lines) in programs {
        write_program(&root.join("bin").join(program), lines);
    }
    Tree(root)
}

/// Runs a script of a tree, with the tree's folder bin as the whole path.
fn script(Tree(root): &Tree, text: &str) -> Run {
    let mut words = text.split_whitespace();
    let mut program = Command::new(root.join(words.next().unwrap()));
    let output = program.args(words).env("PATH", root.join("bin")).output().unwrap();
    let text = |bytes: Vec<u8>| String::from_utf8(bytes).unwrap();
    Run { code: output.status.code(), out: text(output.stdout), log: text(output.stderr) }
}

#[test]
fn a_library_is_proved_with_a_line_a_crate() {
    let root = tree("proved", &[("rt", PROVES)]);
    let run = script(&root, "tools/staticlib library");
    assert_eq!((run.code, run.out.as_str()), (Some(0), ""), "{}", run.log);
    assert_eq!(
        run.log.lines().map(|line| line.split(" (").next().unwrap()).collect::<Vec<_>>(),
        [
            "proving the library library, then compiling it; the first time takes minutes",
            "library_c: 2 of 4 crates proved, two",
            "library_c: 3 of 4 crates proved, library",
            "library_c: 4 of 4 crates proved, library_c",
        ]
    );
    assert_eq!(fs::read_to_string(root.0.join("target/staticlib/liblibrary.a")).unwrap(), "archive\n");
}

#[test]
fn a_library_that_is_made_is_left_as_it_is() {
    let root = tree("made", &[("rt", PROVES)]);
    assert_eq!(script(&root, "tools/staticlib library").code, Some(0));
    fs::remove_file(root.0.join("bin/rt")).unwrap();
    let run = script(&root, "tools/staticlib library");
    assert_eq!((run.code, run.out.as_str(), run.log.as_str()), (Some(0), "", ""));
    fs::write(root.0.join("crates/library_c/more"), "more").unwrap();
    assert_eq!(script(&root, "tools/staticlib library").code, Some(1));
}

#[test]
fn a_crate_that_is_not_proved_ends_the_script() {
    let root = tree("refused", &[("rt", REFUSES)]);
    let run = script(&root, "tools/staticlib library");
    assert_eq!(run.code, Some(1));
    assert!(run.out.ends_with("nothing above it was checked\n"), "{}", run.out);
    assert!(run.log.ends_with("the library library is not made; all that rt said is in target/staticlib.log\n"));
    assert!(!root.0.join("target/staticlib/library.begun").exists());
}

#[test]
fn a_missing_rt_is_told_before_anything_starts() {
    let root = tree("no-rt", &[("cargo", NOTHING), ("cc", NOTHING)]);
    for text in ["tools/run", "tools/build", "tools/staticlib quads"] {
        let run = script(&root, text);
        assert_eq!((run.code, run.out.as_str()), (Some(1), ""), "{text}");
        assert_eq!(run.log, "rt is not on the path: unpack the Rattle kit and add its folder bin to PATH\n", "{text}");
    }
    assert!(!root.0.join("target").exists());
}

#[test]
fn a_missing_cargo_and_cc_are_told_before_anything_is_proved() {
    let root = tree("no-cargo", &[("rt", PROVES)]);
    for text in ["tools/run", "tools/build"] {
        let run = script(&root, text);
        assert_eq!((run.code, run.out.as_str()), (Some(1), ""), "{text}");
        let lines: Vec<&str> = run.log.lines().collect();
        assert_eq!(lines.len(), 2, "{text}: {}", run.log);
        assert!(lines[0].starts_with("cargo is not on the path: install Rust 1.95.0 "), "{text}");
        assert!(lines[1].starts_with("cc is not on the path: install a C compiler "), "{text}");
    }
    assert!(!root.0.join("target").exists());
}
