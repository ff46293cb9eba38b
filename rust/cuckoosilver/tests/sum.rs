//! The step `sum`, by running the program.
mod common;
use common::{CUBE, SHELL, UNIT_BOX, does, folder, names, prints, run_in, script};
use std::fs;
use std::path::{Path, PathBuf};

/// The line of a sum.
fn line(sum: impl std::fmt::Display) -> String {
    format!("squared sum             {sum:>16}\n")
}

/// A folder of this name that holds the unit cube as a PLY file, as a job file, and as one of before the sum.
fn with_cube(name: &str) -> PathBuf {
    let (here, tests) = (folder(name), Path::new(env!("CARGO_MANIFEST_DIR")).join("../quads/tests"));
    fs::write(here.join("cube.ply"), CUBE).unwrap();
    fs::copy(tests.join("cube-sum.job"), here.join("cube.job")).unwrap();
    fs::copy(tests.join("cube.job"), here.join("old.job")).unwrap();
    here
}

#[test]
fn it_is_one_line_and_needs_no_sheet() {
    let here = with_cube("sum_alone");
    let run = run_in(&here, "sum cube.job");
    assert_eq!((run.code, run.out.as_str(), run.log.as_str()), (Some(0), line(8).as_str(), ""));
    assert_eq!((line(8).len(), line("none").len()), (41, 41));
    assert_eq!(does(&here, "sum old.job"), line("none"));
    assert_eq!(
        does(&here, "--quiet sum cube.job --levels 1 2 sum old.job sum cube.job"),
        line(8) + &line("none") + &line(8)
    );
    assert_eq!(names(&here), ["cube.job", "cube.ply", "old.job"]);
}

#[test]
fn it_brings_no_sheet() {
    let here = with_cube("sum_no_sheet");
    for wrong in ["sum cube.job page", "sum cube.job save a.job", "page sum cube.job", "--quiet"] {
        let run = run_in(&here, &format!("{UNIT_BOX} {wrong}"));
        assert_eq!((run.code, run.out.as_str()), (Some(2), ""), "{wrong}");
        let told = "cuckoosilver: there is no sheet: begin with draw CELLS, read FILE or open FILE\n";
        assert!(run.log.starts_with(told), "{wrong}: {}", run.log);
    }
}

#[test]
fn the_sheet_and_its_band_stay_as_they_are() {
    let here = with_cube("sum_beside_a_sheet");
    does(&here, &format!("{SHELL} draw 8 save shell.job"));
    let page = does(&here, &format!("{UNIT_BOX} read cube.ply page"));
    let shown = does(&here, "--plane 0 0 1 0 sum shell.job open cube.job sum shell.job page sum cube.job");
    let of_shell = does(&here, "sum shell.job");
    assert_eq!(shown, [of_shell.as_str(), &of_shell, &page, &line(8)].concat());
    does(&here, "open cube.job sum shell.job save a.job");
    assert!(fs::read(here.join("a.job")).unwrap() == fs::read(here.join("cube.job")).unwrap());
}

/// The number at the end of a line.
fn last_number(line: &str) -> u64 {
    line.split_whitespace().next_back().unwrap().parse().unwrap()
}

#[test]
fn each_swap_lowers_it_by_two_or_more() {
    let here = folder("sum_of_swaps");
    let run = run_in(&here, &format!("{SHELL} draw 10 save a.job sum a.job regularize 10 save b.job sum b.job"));
    let sums: Vec<u64> = run.out.lines().map(last_number).collect();
    let told = run.log.lines().find_map(|line| line.strip_prefix("regularize 10: ")).unwrap();
    let swaps: u64 = told.split(' ').next().unwrap().parse().unwrap();
    assert!(swaps > 0 && sums.len() == 2 && sums[1] + 2 * swaps <= sums[0], "{sums:?}, {swaps} swaps");
}

#[test]
fn it_goes_to_standard_error_where_the_output_is_a_sheet() {
    let here = with_cube("sum_mix");
    let run = run_in(&here, "--quiet --ascii open cube.job sum cube.job write - write a.ply");
    assert_eq!((run.code, run.log), (Some(0), line(8)));
    assert!(run.out.as_bytes() == fs::read(here.join("a.ply")).unwrap());
}

#[test]
fn it_reads_standard_input() {
    let here = with_cube("sum_of_standard_input");
    let run = script(&here, "\"$tool\" --quiet open old.job save - | \"$tool\" sum -");
    assert_eq!((run.code, run.out, run.log.as_str()), (Some(0), line(8), ""));
    for wrong in ["sum - sum -", "sum - open -"] {
        let run = run_in(&here, wrong);
        assert_eq!((run.code, run.out.as_str()), (Some(2), ""));
        assert!(run.log.contains(" do not go together; standard input holds one file"), "{}", run.log);
    }
}

#[test]
fn the_sums_before_a_problem_are_printed() {
    let here = with_cube("sum_and_a_problem");
    fs::write(here.join("cut.job"), &fs::read(here.join("cube.job")).unwrap()[..385]).unwrap();
    let run = run_in(&here, "sum cube.job sum cut.job sum old.job");
    assert_eq!((run.code, run.out), (Some(1), line(8)));
    assert!(run.log.starts_with("cuckoosilver: sum cut.job is refused: 14 trailer: "), "{}", run.log);
}

#[test]
fn help_tells_it() {
    let help = prints("--help");
    assert!(help.contains("\n  sum FILE.job            one line: ") && help.contains("\n  17 sum\n"));
    assert_eq!(run_in(Path::new("."), "smu a.job").code, Some(2));
}
