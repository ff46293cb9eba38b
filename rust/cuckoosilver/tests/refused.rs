//! Refusals, wrong files and wrong command lines, by running the program.
mod common;
use common::{SHELL, folder, names, run, run_in};
use std::fs;

/// Whether a run ends with this code and tells these things on standard error, and prints nothing.
fn ends(text: &str, code: i32, told: &[&str]) {
    let run = run(text);
    assert_eq!((run.code, run.out.as_str()), (Some(code), ""), "{text}: {}", run.log);
    for word in told {
        assert!(run.log.contains(word), "{text}: {}", run.log);
    }
}

#[test]
fn a_refusal_names_the_step_the_number_the_word_and_what_to_do() {
    let told = ["cuckoosilver: draw 3 is refused: 3 cells: ", "what to do: draw with 4 to 128 cells"];
    ends(&format!("{SHELL} draw 3"), 1, &told);
    ends(&format!("{SHELL} draw 129"), 1, &["3 cells"]);
    ends(&format!("{SHELL} --levels 1 0 draw 8"), 1, &["1 box", ": the lower level 1.0 is not below 0.0\n"]);
    let told = [
        "draw 8 is refused: 1 box: the levels are not finite or not in order, the box ",
        ": the lower level is -inf\n",
        "what to do: give finite levels, the lower below the upper\n",
    ];
    ends(&format!("{SHELL} --levels -inf 0.5 draw 8"), 1, &told);
    ends(&format!("{SHELL} --levels -inf 0.5 draw 3"), 1, &["draw 3 is refused: 1 box: ", told[1], told[2]]);
    let told = ["4 samples", ": at place (0, 0, 0), the point (", ", the field is -inf\n", "use smaller numbers"];
    ends(&format!("{SHELL} --plane 1e308 1e308 1e308 0 --box -9 -9 -9 9 9 9 draw 8"), 1, &told);
    let told = ["4 samples", ": the field's number d is NaN\n", "what to do: give finite numbers for the field"];
    ends(&format!("{SHELL} --plane 0 0 1 nan draw 8"), 1, &told);
    let told = ["5 bare", ", nowhere between the levels 8.0 and 9.0\n", "give levels that the field takes in the box"];
    ends(&format!("{SHELL} --levels 8 9 draw 8"), 1, &told);
    let told = ["7 clash", ") lies on both levels (labels 0 and 1)\n", "draw with more cells"];
    ends(&format!("{SHELL} --levels 0.6 0.64 --box -1 -1 -1 1 1 0.1 draw 4"), 1, &told);
}

#[test]
fn a_result_above_the_limit_is_refused() {
    ends(&format!("{SHELL} draw 64 refine refine refine"), 1, &["refine is refused: 13 short", "fewer cells"]);
}

#[test]
fn the_steps_before_a_refusal_are_done() {
    let run = run(&format!("{SHELL} draw 8 display draw 3"));
    assert_eq!((run.code, run.out.as_str()), (Some(1), "quads            264\nbad points         0\n"));
}

#[test]
fn a_wrong_command_line_is_told_before_anything_is_done() {
    for wrong in ["paint", "refine", "draw", "draw eight", "--ball 0 0 0", "example a b", "--size 5 draw 8"] {
        ends(wrong, 2, &["`cuckoosilver --help`"]);
    }
    ends(&format!("{SHELL} draw 8 display paint"), 2, &["paint is no step and no option"]);
    ends("draw 8", 2, &["the band is not whole: give --plane, --ball or --quadric, and --box, and --levels"]);
    let large = "99999999999999999999";
    ends(&format!("draw {large}"), 2, &[format!("draw needs CELLS; {large} is too large").as_str()]);
    let told = format!("coarsen needs PASSES; {large} is too large");
    ends(&format!("{SHELL} draw 8 coarsen {large}"), 2, &[told.as_str()]);
    ends("--ball 0 0 0 0 --box 0 0 0 1 1 1 draw 8", 2, &["give --levels"]);
}

#[test]
fn a_word_that_is_near_a_known_one_is_told() {
    ends("darw 8", 2, &["darw is no step and no option; did you mean draw?"]);
    ends(&format!("{SHELL} draw 8 coarse 4"), 2, &["did you mean coarsen?"]);
    ends("--level 0 1 draw 8", 2, &["did you mean --levels?"]);
    assert!(!run("paint").log.contains("did you mean"));
}

#[test]
fn a_view_without_a_direction_is_told() {
    for wrong in ["nan 0 1", "0 0 0", "inf 0 0", "1 -inf 1", "1e300 0 0", "0 1e-200 0"] {
        ends(&format!("{SHELL} --view {wrong} draw 8"), 2, &["--view needs 3 finite numbers"]);
    }
}

#[test]
fn a_label_is_from_0_to_7() {
    for wrong in ["8", "-1", "red", "256"] {
        ends(&format!("--label {wrong} read a.ply"), 2, &["--label needs a label, from 0 to 7"]);
    }
}

#[test]
fn a_format_that_is_not_written_is_told() {
    let here = folder("formats");
    for file in ["a.obj", "a.stl", "a", "--quiet", "display"] {
        let run = run_in(&here, &format!("{SHELL} draw 8 write {file}"));
        assert_eq!(run.code, Some(2), "{file}");
        assert!(run.log.contains(&format!("write needs FILE.ply or -, not {file}")), "{}", run.log);
    }
    assert_eq!(run_in(&here, "read --quiet").code, Some(2));
    assert_eq!(names(&here), [""; 0]);
}

#[test]
fn a_file_that_is_not_there_is_told() {
    ends("read nowhere.ply display", 1, &["nowhere.ply: "]);
    ends(&format!("{SHELL} draw 8 write no/such/folder/a.ply"), 1, &["no/such/folder/a.ply: "]);
}

/// A PLY file of one quad, with changes.
fn file(changes: &[(&str, &str)]) -> String {
    let mut text = String::from(
        "ply\nformat ascii 1.0\nelement vertex 4\nproperty float x\nproperty float y\nproperty float z\n\
         element face 1\nproperty list uchar int vertex_indices\nproperty uchar label\nend_header\n\
         0 0 0\n1 0 0\n1 1 0\n0 1 0\n4 0 1 2 3 0\n",
    );
    for (old, new) in changes {
        assert!(text.contains(old), "{old}");
        text = text.replace(old, new);
    }
    text
}

/// Whether reading a file ends with this code and tells this.
fn reads(name: &str, text: &str, steps: &str, code: i32, told: &str) {
    let here = folder(name);
    fs::write(here.join("a.ply"), text).unwrap();
    let run = run_in(&here, &format!("{SHELL} read a.ply {steps}"));
    assert_eq!(run.code, Some(code), "{told}: {}", run.log);
    assert!(run.log.contains(told), "{told}: {}", run.log);
}

#[test]
fn a_wrong_file_is_told() {
    reads("plain", &file(&[]), "", 0, "4 points, 1 quads");
    reads("other", "solid a\n", "", 1, "a.ply: it is no PLY file");
    reads("short", &file(&[("4 0 1 2 3 0\n", "4 0 1")]), "", 1, "a.ply: face 0: the file ends too early");
    reads("triangle", &file(&[("4 0 1 2 3 0", "3 0 1 2 0")]), "", 1, "face 0: it has 3 corners");
    reads("negative", &file(&[("4 0 1 2 3 0", "4 0 1 2 -3 0")]), "", 1, "a corner is -3");
    let large = file(&[("4 0 1 2 3 0", "4 0 1 2 5000000000 0")]);
    reads("large", &large, "", 1, "a corner is 5000000000, which is no whole number from 0 to 4294967295");
    reads("word", &file(&[("1 1 0", "1 one 0")]), "", 1, "vertex 2: one is not a number");
    reads(
        "plainest",
        &file(&[("property uchar label\n", "")]),
        "",
        1,
        "face 0: it has neither a label nor a colour; give",
    );
    reads("middle", &file(&[("ascii", "binary_middle_endian")]), "", 1, "binary_middle_endian is no format");
    reads("endless", &file(&[("end_header\n", "")]), "", 1, "the header");
    reads(
        "many",
        &file(&[("face 1", "face 99999999999")]),
        "",
        1,
        "it has 99999999999 quads; a sheet has at most 1048576",
    );
    reads("polygon", &file(&[("4 0 1 2 3 0", "6 0 1 2 3 0 1 0")]), "", 1, "face 0: it has more than 4 corners");
    reads("flat", &file(&[("property float z\n", "")]), "", 1, "vertex 0: it has no z");
    reads("void", &file(&[("element face", "element nothing 99999999999999\nelement face")]), "", 0, "1 quads");
}

#[test]
fn a_wrong_sheet_is_refused_by_the_library() {
    reads("open", &file(&[]), "subdivide", 1, "subdivide is refused: 8 edge");
    reads("border", &file(&[]), "rows", 1, ": the edge from point 0 to point 1 has 1 quad\n");
    reads("corner", &file(&[("4 0 1 2 3 0", "4 0 1 2 4 0")]), "quality", 1, "quality is refused: 6 corner");
    let far = file(&[("4 0 1 2 3 0", "4 0 1 2 4 0")]);
    reads("far", &far, "page", 1, ": corner 3 of quad 0 is point 4, and there are 4 points\n");
    reads("unused", &file(&[("4 0 1 2 3 0", "4 0 1 2 3 9")]), "page", 1, "page is refused: 6 corner");
    reads("nan", &file(&[("1 1 0", "1 nan 0")]), "rows", 1, "rows is refused: 5 bare");
    reads("place", &file(&[("1 1 0", "1 nan 0")]), "rows", 1, ": point 2 is (1.0, NaN, 0.0)\n");
}

#[test]
fn a_wrong_sheet_can_be_drawn_and_written() {
    let broken = file(&[("4 0 1 2 3 0", "4 0 1 2 4000000000 200"), ("1 1 0", "1 nan 0")]);
    reads("broken", &broken, "picture a.png picture a.svg write b.ply read b.ply", 0, "read b.ply: 4 points, 1 quads");
}
