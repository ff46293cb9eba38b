//! Sheets that are not valid: the step `check`, and warnings; by running the program.
mod common;
use common::{SHELL, does, folder, names, run, run_in};
use std::fs;

/// A band whose sheet is closed, but in which smoothing collapses quads.
const SPOILED: &str = "--quadric 1.155 .977 1.043 0 0 0 0 0 0 0 --box -1 -1 -1 1 1 .246 --levels .26 .67";

/// Two pillows, each two quads back to back, that share their first point.
const PINCHED: &str = "ply\nformat ascii 1.0\nelement vertex 7\nproperty float x\nproperty float y\nproperty float z\n\
    element face 4\nproperty list uchar int vertex_indices\nproperty uchar label\nend_header\n\
    .6 0 0 .7 0 0 .7 .1 0 .6 .1 0 .5 0 0 .5 -.1 0 .6 -.1 0\n\
    4 0 1 2 3 6 4 3 2 1 0 6 4 0 4 5 6 6 4 6 5 4 0 6\n";

/// The warnings of a log.
fn warnings(log: &str) -> Vec<&str> {
    log.lines().filter(|line| line.starts_with("warning: ")).collect()
}

#[test]
fn a_step_that_spoils_the_sheet_is_told() {
    let run = run(&format!("{SPOILED} draw 24 subdivide display regularize"));
    assert_eq!(run.code, Some(0), "{}", run.log);
    assert!(run.out.ends_with("bad points         0\n"));
    assert_eq!(warnings(&run.log), ["warning: after subdivide the sheet has 13 invalid quads"]);
}

#[test]
fn a_sheet_that_is_read_is_measured_if_its_band_is_known() {
    let here = folder("measured");
    does(&here, &format!("{SPOILED} draw 24 subdivide write a.ply"));
    let warning = ["warning: after read a.ply the sheet has 13 invalid quads"];
    assert_eq!(warnings(&run_in(&here, "read a.ply write b.ply picture b.png").log), warning);
    let bytes = fs::read(here.join("a.ply")).unwrap();
    let mark = bytes.windows(12).position(|bytes| bytes == b"cuckoosilver").unwrap();
    fs::write(here.join("a.ply"), [&bytes[..mark], b"a", &bytes[mark..]].concat()).unwrap();
    assert_eq!(run_in(&here, "read a.ply").code, Some(0));
    assert_eq!(warnings(&run_in(&here, "read a.ply").log), [""; 0]);
}

#[test]
fn a_sound_sheet_and_a_quiet_run_have_no_warning() {
    assert_eq!(warnings(&run(&format!("{SHELL} draw 16 coarsen 4 regularize 8 rows refine")).log), [""; 0]);
    assert_eq!(run(&format!("--quiet {SPOILED} draw 24 subdivide")).log, "");
}

#[test]
fn a_valid_sheet_passes_the_check() {
    let run = run(&format!("{SHELL} draw 8 check display"));
    assert_eq!((run.code, run.out.as_str()), (Some(0), "quads            264\nbad points         0\n"));
    assert!(run.log.lines().nth(1).unwrap().starts_with("check: valid, "));
    assert_eq!(common::run(&format!("--quiet {SHELL} draw 8 check")).log, "");
}

#[test]
fn the_check_stops_at_a_sheet_that_is_not_valid() {
    let here = folder("check");
    let run = run_in(&here, &format!("--quiet {SPOILED} draw 24 check subdivide check write a.ply"));
    assert_eq!((run.code, run.out.as_str()), (Some(1), ""));
    assert_eq!(run.log, "cuckoosilver: the sheet is not valid: 13 invalid quads\n");
    assert_eq!(names(&here), [""; 0]);
}

#[test]
fn the_check_tells_each_count_that_is_not_0() {
    let here = folder("counts");
    let quad = "ply\nformat ascii 1.0\nelement vertex 4\nproperty float x\nproperty float y\nproperty float z\n\
         element face 2\nproperty list uchar int vertex_indices\nproperty uchar label\nend_header\n\
         .6 0 0 .7 0 0 .7 .1 0 .6 .1 0 4 0 1 2 3 0 4 1 2 3 0 0\n";
    fs::write(here.join("a.ply"), quad).unwrap();
    let run = run_in(&here, &format!("--quiet {SHELL} read a.ply check"));
    assert_eq!(run.code, Some(1));
    assert_eq!(
        run.log,
        "cuckoosilver: the sheet is not valid: 4 orientation errors, 1 duplicate quad, 2 invalid quads\n"
    );
    let page = does(&here, &format!("--quiet {SHELL} read a.ply page"));
    let counts: Vec<&str> = page.lines().map(|line| line[24..].trim()).collect();
    assert_eq!(counts[2..], ["0", "0", "4", "0", "1", "2"]);
    let unknown = run_in(&here, "read a.ply check");
    assert_eq!(unknown.code, Some(2));
    assert!(unknown.log.contains("the band is not whole"));
}

#[test]
fn parts_that_meet_at_one_point_are_not_tight() {
    let here = folder("pinched");
    fs::write(here.join("a.ply"), PINCHED).unwrap();
    let shows = |steps: &str| does(&here, &format!("--quiet {SHELL} read a.ply {steps}"));
    assert_eq!(shows("display"), "quads              4\nbad points         1\n");
    let record = shows("quality");
    let value = |name: &str| record.lines().find(|line| line.starts_with(name)).map(|line| line[24..].trim());
    assert_eq!(["boundary", "nonmanifold", "orientation", "links"].map(value), ["0", "0", "0", "1"].map(Some));
    assert_eq!(["tight", "valid"].map(value), ["no", "no"].map(Some));
    let check = run_in(&here, &format!("--quiet {SHELL} read a.ply check"));
    assert_eq!(check.code, Some(1));
    assert!(check.log.starts_with("cuckoosilver: the sheet is not valid: 1 bad point, 2 duplicate quads, "));
}
