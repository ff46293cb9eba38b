//! Standard input and output as sheets, and inputs without an end, by running the program.
mod common;
use common::{Run, SHELL, does, folder, piped, run, run_in, script};
use std::fs;
use std::io::Write;
use std::process::Child;
use std::time::{Duration, Instant};

#[test]
fn sheets_go_through_pipes() {
    let here = folder("pipes");
    does(&here, &format!("{SHELL} draw 8 write a.ply refine write b.ply"));
    let steps = format!("\"$tool\" --quiet {SHELL} draw 8 write - | \"$tool\" --quiet read - refine write - >c.ply");
    let run = script(&here, &steps);
    assert_eq!((run.code, run.log.as_str()), (Some(0), ""));
    assert!(fs::read(here.join("b.ply")).unwrap() == fs::read(here.join("c.ply")).unwrap());
    let read = script(&here, "\"$tool\" --quiet read - display <a.ply");
    assert_eq!(read.out, "quads            264\nbad points         0\n");
    assert!(!here.join("-").exists());
}

#[test]
fn reports_do_not_mix_with_a_sheet() {
    let here = folder("mix");
    let run = run_in(&here, &format!("--quiet {SHELL} --ascii draw 8 display write - write a.ply page"));
    assert_eq!(run.code, Some(0), "{}", run.log);
    assert!(run.out.as_bytes() == fs::read(here.join("a.ply")).unwrap());
    let page = does(&here, "read a.ply page");
    assert_eq!(run.log, format!("quads            264\nbad points         0\n{page}"));
}

#[test]
fn standard_input_and_output_hold_one_sheet_each() {
    for (wrong, told) in [
        ("read - read - display", "read - and read - do not go together; standard input holds one file"),
        ("open - read - display", "open - and read - do not go together; standard input holds one file"),
        ("draw 8 write - write -", "write - and write - do not go together; standard output takes one sheet"),
        ("draw 8 save - write -", "save - and write - do not go together; standard output takes one sheet"),
    ] {
        let run = run(&format!("{SHELL} {wrong}"));
        assert_eq!((run.code, run.out.as_str()), (Some(2), ""), "{wrong}");
        assert!(run.log.contains(told), "{}", run.log);
    }
}

#[test]
fn a_log_that_nobody_reads_changes_nothing() {
    let here = folder("log");
    does(&here, &format!("{SHELL} draw 8 write a.ply"));
    let sheet = fs::read(here.join("a.ply")).unwrap();
    for (steps, code) in [("read - display", 0), ("read - write no/such/folder.ply", 1)] {
        let mut child = piped(&here, steps);
        drop(child.stderr.take());
        child.stdin.take().unwrap().write_all(&sheet).unwrap();
        assert_eq!(child.wait().unwrap().code(), Some(code), "{steps}");
    }
}

/// Whether a program ends soon, by itself.
fn ends_soon(child: &mut Child) -> bool {
    let started = Instant::now();
    while started.elapsed() < Duration::from_secs(60) {
        if child.try_wait().unwrap().is_some() {
            return true;
        }
        std::thread::sleep(Duration::from_millis(10));
    }
    child.kill().unwrap();
    false
}

#[test]
fn what_comes_behind_the_sheet_is_not_waited_for() {
    let here = folder("idle");
    does(&here, &format!("{SHELL} draw 8 write a.ply --ascii write b.ply"));
    for file in ["a.ply", "b.ply"] {
        let mut child = piped(&here, "--quiet read - display");
        let mut input = child.stdin.take().unwrap();
        input.write_all(&fs::read(here.join(file)).unwrap()).unwrap();
        assert!(ends_soon(&mut child), "{file}");
        drop(input);
        assert_eq!(Run::from(child.wait_with_output().unwrap()).out, "quads            264\nbad points         0\n");
    }
}

#[test]
fn a_sheet_that_is_too_large_is_told_by_its_header() {
    let here = folder("large");
    let mut child = piped(&here, "--quiet read - display");
    let mut input = child.stdin.take().unwrap();
    input.write_all(b"ply\nformat ascii 1.0\nelement vertex 1048577\nproperty float x\nend_header\n0\n").unwrap();
    assert!(ends_soon(&mut child));
    drop(input);
    let run = Run::from(child.wait_with_output().unwrap());
    assert_eq!(run.code, Some(1));
    assert_eq!(run.log, "cuckoosilver: standard input: it has 1048577 points; a sheet has at most 1048576\n");
}

#[test]
fn an_input_without_an_end_is_told() {
    let here = folder("without_end");
    let told = |input: &str| script(&here, &format!("{input} | \"$tool\" --quiet read - display")).log;
    assert!(run("read /dev/zero display").log.contains("/dev/zero: it is no PLY file"));
    assert_eq!(
        told("{ echo ply; yes comment; } 2>/dev/null"),
        "cuckoosilver: standard input: the header does not end\n"
    );
    let head = "ply\\nformat ascii 1.0\\nelement vertex 9\\nproperty float x\\nproperty list int int y\\nend_header\\n";
    assert_eq!(
        told(&format!("{{ printf '{head}1 '; yes 1 | tr -d '\\n'; }} 2>/dev/null")),
        "cuckoosilver: standard input: vertex 0: a word of more than 1024 bytes is not a number\n"
    );
}
