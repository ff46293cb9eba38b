//! Sheets whose lower level is minus infinity: they are read, opened, measured and saved, and every step that changes a
//! sheet by its band refuses them, but for `coarsen 0`, which changes nothing; by running the program.
mod common;
use common::{CUBE, UNIT_BOX, does, folder, names, prints, run_in};
use quads::Job;
use std::fs;
use std::path::PathBuf;

/// The unit cube as its own box, above minus infinity, as options.
const BOTTOMLESS: &str = "--plane 0 0 1 0 --box 0 0 0 1 1 1 --levels -inf 2";

/// The steps that want two finite levels.
const REFUSED: [&str; 8] =
    ["draw 4", "subdivide", "rows", "regularize", "regularize 0", "improve 1", "improve 0", "coarsen 2"];

/// The steps that measure or show the sheet, refine it, or leave it as it is.
const TAKEN: &str = "display page quality corners check coarsen 0 refine page corners picture a.svg";

/// A folder of this name with the unit cube as PLY and as job files: as it is, and above minus infinity.
fn with_cube(name: &str) -> PathBuf {
    let here = folder(name);
    fs::write(here.join("cube.ply"), CUBE).unwrap();
    does(&here, &format!("--quiet {BOTTOMLESS} read cube.ply write old.ply save old.job"));
    does(&here, &format!("--quiet {UNIT_BOX} read cube.ply write new.ply save new.job"));
    here
}

#[test]
fn it_is_read_opened_and_measured_as_one_above_a_finite_level() {
    let here = with_cube("bottomless_measured");
    let shown = does(&here, &format!("--quiet read new.ply {TAKEN}"));
    assert!(shown.lines().count() > 30, "{shown}");
    assert_eq!(does(&here, &format!("--quiet read old.ply {TAKEN}")), shown);
    assert_eq!(does(&here, &format!("--quiet --plane 0 0 1 0 open old.job {TAKEN}")), shown);
    assert_eq!(does(&here, &format!("--quiet {BOTTOMLESS} read cube.ply {TAKEN}")), shown);
}

#[test]
fn it_is_saved_and_written_again_and_its_sum_is_read() {
    let here = with_cube("bottomless_saved");
    let bytes = |file: &str| fs::read(here.join(file)).unwrap();
    assert_eq!(Job::open(&bytes("old.job")).unwrap().lower.to_bits(), f64::NEG_INFINITY.to_bits());
    does(&here, "open old.job save a.job read old.ply save b.job write b.ply");
    assert!(bytes("a.job") == bytes("old.job") && bytes("b.job") == bytes("old.job"));
    assert!(bytes("b.ply") == bytes("old.ply"));
    assert_eq!(does(&here, "sum old.job"), does(&here, "sum new.job"));
    assert!(String::from_utf8_lossy(&bytes("old.ply")).contains(" --levels -inf 2.0\n"));
}

#[test]
fn what_makes_or_alters_a_sheet_is_refused_and_names_the_level() {
    let here = with_cube("bottomless_refused");
    let (before, page) = (names(&here), does(&here, "--quiet read new.ply page"));
    let advice = "what to do: give finite levels, the lower below the upper\n";
    for sheet in ["read old.ply", "--plane 0 0 1 0 open old.job"] {
        for step in REFUSED {
            let run = run_in(&here, &format!("--quiet {sheet} page {step} write a.ply"));
            assert_eq!((run.code, &run.out), (Some(1), &page), "{sheet} {step}: {}", run.log);
            assert!(run.log.starts_with(&format!("cuckoosilver: {step} is refused: 1 box: ")), "{}", run.log);
            assert!(run.log.ends_with(&format!(": the lower level is -inf\n{advice}")), "{}", run.log);
        }
    }
    assert_eq!(names(&here), before);
}

#[test]
fn finite_levels_in_place_of_those_of_the_file_let_all_steps_go_on() {
    let here = with_cube("bottomless_and_options");
    for step in &REFUSED[1..] {
        does(&here, &format!("--quiet read old.ply --levels -1 2 {step} save a.job"));
        does(&here, &format!("--quiet {UNIT_BOX} open old.job {step} save b.job"));
        assert!(fs::read(here.join("a.job")).unwrap() == fs::read(here.join("b.job")).unwrap());
    }
}

#[test]
fn a_sheet_that_is_opened_is_measured_for_warnings() {
    let here = folder("bottomless_warned");
    let field = "--quadric 1.155 .977 1.043 0 0 0 0 0 0 0";
    does(&here, &format!("{field} --box -1 -1 -1 1 1 .246 --levels .26 .67 draw 24 subdivide save a.job"));
    does(&here, "--levels -inf .67 open a.job save b.job");
    let run = run_in(&here, &format!("{field} open b.job"));
    assert!(run.log.contains("warning: after open b.job the sheet has 13 invalid quads\n"), "{}", run.log);
}

#[test]
fn another_level_that_is_not_finite_is_refused_where_a_sheet_is_measured_too() {
    let here = with_cube("bottomless_others");
    for (levels, told) in [
        ("nan 2", "the lower level is NaN"),
        ("inf 2", "the lower level is inf"),
        ("-inf inf", "the upper level is inf"),
        ("-inf nan", "the upper level is NaN"),
        ("-inf -inf", "the upper level is -inf"),
    ] {
        for step in ["display", "page", "quality", "corners", "check"] {
            let run = run_in(&here, &format!("--quiet {UNIT_BOX} --levels {levels} read cube.ply {step}"));
            assert_eq!((run.code, run.out.as_str()), (Some(1), ""), "{levels} {step}: {}", run.log);
            assert!(run.log.contains(&format!("{step} is refused: 1 box: ")), "{}", run.log);
            assert!(run.log.contains(&format!(": {told}\n")), "{}", run.log);
        }
    }
}

#[test]
fn help_tells_which_steps_take_it() {
    let help = prints("--help");
    let levels = help.split("\n  --levels LOWER UPPER ").nth(1).and_then(|rest| rest.split("\n  --").next()).unwrap();
    let words: Vec<&str> = levels.split_whitespace().collect();
    assert!(words.join(" ").ends_with("(display, page, quality, corners, check) LOWER may be -inf"), "{levels}");
    assert!(!help.contains("bottomless"));
}
