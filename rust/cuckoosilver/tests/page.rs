//! The steps `page` and `quality`, which print the library's page, by running the program.
mod common;
use common::{CUBE, SHELL, UNIT_BOX, does, folder, prints, run_in};
use std::fs;
use std::path::PathBuf;

/// A folder of this name that holds the unit cube.
fn with_cube(name: &str) -> PathBuf {
    let here = folder(name);
    fs::write(here.join("cube.ply"), CUBE).unwrap();
    here
}

/// The page of the cube.
const PAGE: &str = "quads                                  6\n\
                    irregular                              8\n\
                    boundary                               0\n\
                    nonmanifold                            0\n\
                    orientation                            0\n\
                    links                                  0\n\
                    duplicates                             0\n\
                    invalid                                0\n";

/// What stands behind it in the record of the cube.
const MEASURES: &str = "minimum shape                   1.000000\n\
                        shape and size, 5%              1.000000\n\
                        shape and size, mean            1.000000\n\
                        minimum Jacobian                1.000000\n\
                        tight                                yes\n\
                        valid                                yes\n";

#[test]
fn the_cube_has_its_page_and_its_record_begins_with_it() {
    let here = with_cube("page_of_the_cube");
    assert_eq!(does(&here, &format!("{UNIT_BOX} read cube.ply page")), PAGE);
    assert_eq!(does(&here, &format!("{UNIT_BOX} read cube.ply quality")), [PAGE, MEASURES].concat());
}

#[test]
fn the_record_of_a_drawn_sheet_begins_with_its_page() {
    let record = prints(&format!("{SHELL} draw 16 quality"));
    assert_eq!((record.len(), &record[..328]), (14 * 41, prints(&format!("{SHELL} draw 16 page")).as_str()));
}

#[test]
fn a_refusal_prints_no_page() {
    let here = with_cube("page_refused");
    fs::write(here.join("far.ply"), CUBE.replace("4 4 5 7 6", "4 4 5 7 8")).unwrap();
    fs::write(here.join("level.ply"), CUBE.replace("153 153 153", "86 180 233")).unwrap();
    let told = |steps: &str, code: i32, words: &str| {
        for step in ["page", "quality"] {
            let run = run_in(&here, &format!("--quiet {steps} {step}"));
            assert_eq!((run.code, run.out.as_str()), (Some(code), ""), "{steps} {step}: {}", run.log);
            assert!(run.log.contains(&words.replace("STEP", step)), "{steps} {step}: {}", run.log);
        }
    };
    told(&format!("{UNIT_BOX} --levels 2 1 read cube.ply"), 1, "cuckoosilver: STEP is refused: 1 box: ");
    told(&format!("{UNIT_BOX} read far.ply"), 1, "cuckoosilver: STEP is refused: 6 corner: ");
    told(&format!("{UNIT_BOX} --plane 0 0 0 0 read level.ply"), 1, "cuckoosilver: STEP is refused: 11 normal: ");
    told("read cube.ply", 2, "the band is not whole");
}

#[test]
fn it_does_not_mix_with_a_sheet() {
    let here = with_cube("page_mix");
    let run = run_in(&here, &format!("--quiet {UNIT_BOX} --ascii read cube.ply page write - write a.ply quality"));
    assert_eq!((run.code, run.log), (Some(0), [PAGE, PAGE, MEASURES].concat()));
    assert!(run.out.as_bytes() == fs::read(here.join("a.ply")).unwrap());
}
