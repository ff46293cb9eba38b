//! The step `corners`, by running the program.
mod common;
use common::{CUBE, SHELL, UNIT_BOX, does, folder, prints, run_in};
use std::fs;
use std::path::PathBuf;

/// A folder of this name that holds the unit cube.
fn with_cube(name: &str) -> PathBuf {
    let here = folder(name);
    fs::write(here.join("cube.ply"), CUBE).unwrap();
    here
}

/// What the step prints of a quotient and a remainder.
fn lines(quotient: usize, remainder: usize) -> String {
    format!("corners per point       {quotient:>16}\nremainder               {remainder:>16}\n")
}

#[test]
fn the_cube_and_the_refined_cube_have_four_lines() {
    let here = with_cube("corners_of_the_cube");
    assert_eq!(
        does(&here, &format!("{UNIT_BOX} read cube.ply corners refine corners")),
        "corners per point                      3\n\
         remainder                              0\n\
         corners per point                      3\n\
         remainder                             18\n"
    );
}

#[test]
fn a_drawn_sheet_has_them_exactly() {
    let out = prints(&format!("{SHELL} draw 8 corners draw 16 corners"));
    let (points, quads) = ([268, 1054], [264, 1050]);
    let exact = [0, 1].map(|i| lines(4 * quads[i] / points[i], 4 * quads[i] % points[i]));
    assert_eq!(out, exact.concat());
    assert!(out.lines().all(|line| line.len() == 40));
}

#[test]
fn a_refusal_has_its_number() {
    let here = with_cube("corners_refused");
    let told = |steps: &str, code: i32, words: &str| {
        let run = run_in(&here, steps);
        assert_eq!((run.code, run.out.as_str()), (Some(code), ""), "{steps}: {}", run.log);
        assert!(run.log.contains(words), "{steps}: {}", run.log);
    };
    told(&format!("{UNIT_BOX} --levels 2 1 read cube.ply corners"), 1, "corners is refused: 1 box: ");
    fs::write(here.join("far.ply"), CUBE.replace("4 4 5 7 6", "4 4 5 7 8")).unwrap();
    let far = ": corner 3 of quad 5 is point 8, and there are 8 points\n";
    told(&format!("{UNIT_BOX} read far.ply corners"), 1, "corners is refused: 6 corner: ");
    told(&format!("{UNIT_BOX} read far.ply corners"), 1, far);
    told("read cube.ply corners", 2, "the band is not whole");
}

#[test]
fn a_field_without_a_direction_is_answered() {
    let here = with_cube("corners_flat");
    fs::write(here.join("level.ply"), CUBE.replace("153 153 153", "86 180 233")).unwrap();
    let flat = "--quiet --plane 0 0 0 0 --box 0 0 0 1 1 1 --levels -1 2 read level.ply";
    let measured = run_in(&here, &format!("{flat} quality"));
    assert_eq!(measured.code, Some(1));
    assert!(measured.log.starts_with("cuckoosilver: quality is refused: 11 normal: "), "{}", measured.log);
    assert_eq!(does(&here, &format!("{flat} corners")), lines(3, 0));
}

#[test]
fn they_do_not_mix_with_a_sheet() {
    let here = with_cube("corners_mix");
    let run = run_in(&here, &format!("--quiet {UNIT_BOX} --ascii read cube.ply corners write - write a.ply"));
    assert_eq!((run.code, run.log), (Some(0), lines(3, 0)));
    assert!(run.out.as_bytes() == fs::read(here.join("a.ply")).unwrap());
}

#[test]
fn help_tells_the_step() {
    let help = prints("--help");
    let shows = help.split("\nsteps that show the sheet\n").nth(1).and_then(|rest| rest.split("\noptions\n").next());
    assert!(shows.unwrap().contains("\n  corners                 two lines: the corners per point, "));
}
