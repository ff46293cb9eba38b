//! The steps `save` and `open`, by running the program.
mod common;
use common::{CUBE, Run, SHELL, UNIT_BOX, does, folder, names, run, run_in, script};
use quads::{Job, Sheet};
use std::fs;
use std::path::{Path, PathBuf};
use std::process::Command;

/// The box and the levels of the unit cube, as options.
const BOX: &str = "--box 0 0 0 1 1 1 --levels -1 2";

/// A job file of the tests of the crate quads.
fn fixture(name: &str) -> Vec<u8> {
    fs::read(Path::new(env!("CARGO_MANIFEST_DIR")).join("../quads/tests").join(name)).unwrap()
}

/// The cube's job file, as it was first saved with the sum.
fn cube_file() -> Vec<u8> {
    fixture("cube-sum.job")
}

/// The cube's job file, as it was saved before the sum was in it.
fn old_cube_file() -> Vec<u8> {
    fixture("cube.job")
}

/// A folder of this name that holds the unit cube as a PLY file and as a job file.
fn with_cube(name: &str) -> PathBuf {
    let here = folder(name);
    fs::write(here.join("cube.ply"), CUBE).unwrap();
    fs::write(here.join("cube.job"), cube_file()).unwrap();
    here
}

/// A job that no operation would take: NaNs of any bits, corners out of range, labels above 7 and more than quads.
fn hostile() -> Job {
    let nan = |bits: u64| f64::from_bits(0x7ff0_0000_0000_0000 | bits);
    let sheet = Sheet {
        points: vec![[nan(1), nan(0x8_0000_0000_0002), -0.0], [f64::INFINITY, -nan(3), 1e-310]],
        quads: vec![[0, 1, u32::MAX, 2]],
        labels: vec![255, 8, 0],
    };
    Job { low: [nan(7), 0.0, 1.0], high: [-1.0, -0.0, f64::NEG_INFINITY], lower: nan(9), upper: -5.0, sheet }
}

#[test]
fn what_is_saved_is_opened_and_saved_again_byte_for_byte() {
    let here = folder("saved");
    let record = does(&here, &format!("{SHELL} draw 8 coarsen 2 regularize 2 subdivide save a.job quality"));
    assert_eq!(does(&here, "--ball 0 0 0 0 open a.job quality save b.job"), record);
    assert_eq!(does(&here, "open b.job save c.job"), "");
    let bytes = |file: &str| fs::read(here.join(file)).unwrap();
    assert!(bytes("a.job") == bytes("b.job") && bytes("a.job") == bytes("c.job"));
    assert_eq!(names(&here), ["a.job", "b.job", "c.job"]);
}

#[test]
fn the_cube_is_saved_as_it_was_first() {
    let here = with_cube("saved_cube");
    let run = run_in(&here, &format!("{BOX} read cube.ply save a.job open a.job save b.job"));
    let lines: Vec<&str> = run.log.lines().collect();
    assert_eq!((run.code, run.out.as_str(), lines.len()), (Some(0), "", 4), "{}", run.log);
    assert!(lines[1].starts_with("save a.job: 386 bytes, "), "{}", run.log);
    assert!(lines[2].starts_with("open a.job: 8 points, 6 quads, 0."), "{}", run.log);
    for file in ["a.job", "b.job"] {
        assert!(fs::read(here.join(file)).unwrap() == cube_file());
    }
}

#[test]
fn a_file_of_before_the_sum_opens_and_is_saved_with_it() {
    let here = with_cube("old_cube");
    fs::write(here.join("old.job"), old_cube_file()).unwrap();
    assert_eq!(does(&here, "--plane 0 0 1 0 open old.job page"), does(&here, "--plane 0 0 1 0 open cube.job page"));
    does(&here, "open old.job save a.job");
    assert!(fs::read(here.join("a.job")).unwrap() == cube_file());
    assert!(fs::read(here.join("old.job")).unwrap() == old_cube_file());
}

#[test]
fn any_bits_and_any_labels_come_back() {
    let here = folder("hostile_job");
    let file = hostile().save().unwrap();
    fs::write(here.join("a.job"), &file).unwrap();
    let run = run_in(&here, "open a.job save b.job");
    assert_eq!(run.code, Some(0), "{}", run.log);
    assert!(run.log.starts_with("open a.job: 2 points, 1 quads, 3 labels, "), "{}", run.log);
    assert!(fs::read(here.join("b.job")).unwrap() == file);
    fs::write(here.join("nothing.job"), Job::default().save().unwrap()).unwrap();
    does(&here, "open nothing.job save c.job");
    assert_eq!(fs::read(here.join("c.job")).unwrap().len(), 92);
}

#[test]
fn a_sheet_with_other_than_one_label_a_quad_is_neither_written_nor_drawn() {
    let here = folder("labels_of_a_job");
    fs::write(here.join("a.job"), hostile().save().unwrap()).unwrap();
    let what = "it takes one label a quad; the sheet has 1 quads and 3 labels\n";
    for (step, name) in [("write a.ply", "a.ply"), ("write -", "standard output"), ("picture a.svg", "a.svg")] {
        let run = run_in(&here, &format!("--quiet open a.job {step}"));
        assert_eq!((run.code, run.out.as_str()), (Some(1), ""));
        assert_eq!(run.log, format!("cuckoosilver: {name}: {what}"));
    }
    assert_eq!(names(&here), ["a.job"]);
}

#[test]
fn the_box_and_the_levels_come_with_the_job_and_the_field_does_not() {
    let here = with_cube("parts_of_a_job");
    let page = does(&here, &format!("{UNIT_BOX} read cube.ply page"));
    assert_eq!(does(&here, "--plane 0 0 1 0 open cube.job page"), page);
    let run = run_in(&here, "open cube.job page");
    assert_eq!(run.code, Some(2));
    assert!(run.log.contains("the band is not whole: give --plane, --ball or --quadric\n"), "{}", run.log);
    does(&here, &format!("{UNIT_BOX} read cube.ply write a.ply"));
    assert_eq!(does(&here, "read a.ply page"), page);
    assert_eq!(run_in(&here, "read a.ply open cube.job page").code, Some(2));
}

#[test]
fn options_go_before_what_the_job_says() {
    let here = with_cube("options_and_a_job");
    let run = run_in(&here, "--levels 3 4 open cube.job save a.job --box 0 0 0 2 2 2 open cube.job save b.job");
    assert_eq!(run.code, Some(0), "{}", run.log);
    assert!(run.log.contains("open cube.job: --levels in place of the file's, 8 points, 6 quads, "), "{}", run.log);
    assert!(run.log.contains("open cube.job: --box and --levels in place of the file's, "), "{}", run.log);
    let opened = |file: &str| Job::open(&fs::read(here.join(file)).unwrap()).unwrap();
    let cube = opened("cube.job");
    assert_eq!(opened("a.job"), Job { lower: 3.0, upper: 4.0, ..cube.clone() });
    assert_eq!(opened("b.job"), Job { lower: 3.0, upper: 4.0, high: [2.0; 3], ..cube });
    assert!(!run_in(&here, &format!("{BOX} open cube.job")).log.contains("in place of"));
}

#[test]
fn the_parts_of_the_last_file_hold() {
    let here = with_cube("parts_of_the_last");
    does(&here, &format!("{SHELL} draw 8 write a.ply save a.job"));
    let bytes = |file: &str| fs::read(here.join(file)).unwrap();
    does(&here, "open a.job open cube.job save b.job open a.job save c.job read a.ply open cube.job save d.job");
    assert!(bytes("b.job") == cube_file() && bytes("c.job") == bytes("a.job") && bytes("d.job") == cube_file());
    does(&here, "open cube.job read a.ply save e.job");
    assert!(bytes("e.job") == bytes("a.job"));
    assert_eq!(does(&here, "open cube.job read a.ply quality"), does(&here, "read a.ply quality"));
}

#[test]
fn a_job_needs_a_box_and_levels_but_no_field() {
    let here = with_cube("needs_of_a_job");
    let told = |steps: &str, options: &str| {
        let run = run_in(&here, &format!("--quiet {steps} save a.job"));
        assert_eq!((run.code, run.out.as_str()), (Some(2), ""), "{steps}");
        let told = format!("cuckoosilver: a job file has a box and two levels: give {options}\n");
        assert!(run.log.starts_with(&told), "{steps}: {}", run.log);
    };
    told("read cube.ply", "--box, and --levels");
    told("--plane 0 0 1 0 --levels 0 1 read cube.ply", "--box");
    told("--box 0 0 0 1 1 1 read cube.ply", "--levels");
    assert_eq!(names(&here), ["cube.job", "cube.ply"]);
    does(&here, &format!("{BOX} read cube.ply save a.job"));
}

#[test]
fn jobs_go_through_pipes() {
    let here = with_cube("pipes_of_jobs");
    let steps = format!("\"$tool\" --quiet {BOX} read cube.ply save - | \"$tool\" --quiet open - save - >a.job");
    let run = script(&here, &steps);
    assert_eq!((run.code, run.log.as_str()), (Some(0), ""));
    assert!(fs::read(here.join("a.job")).unwrap() == cube_file());
    let mixed = run_in(&here, &format!("--quiet --ascii {UNIT_BOX} read cube.ply display write -"));
    let run = run_in(&here, "--quiet --ascii --plane 0 0 1 0 open cube.job display write -");
    assert_eq!(
        (run.code, run.out, run.log.as_str()),
        (Some(0), mixed.out, "quads              6\nbad points         0\n")
    );
    assert!(!here.join("-").exists());
}

/// Asserts that opening a file of these bytes, and reading its sum, is refused with 14, and tells the cause and what to
/// do.
fn assert_told(here: &Path, bytes: &[u8], cause: &str, advice: &str) {
    fs::write(here.join("a.job"), bytes).unwrap();
    for (step, behind) in [("open a.job", "save b.job"), ("sum a.job", "")] {
        let Run { code, out, log } = run_in(here, &format!("--quiet {step} {behind}"));
        assert_eq!((code, out.as_str()), (Some(1), ""));
        let reason = "14 trailer: the file is too short for a job file, or its trailer does not fit it";
        let advice = format!("what to do: {advice}");
        assert_eq!(log, format!("cuckoosilver: {step} is refused: {reason}: {cause}\n{advice}\n"));
    }
    assert!(!here.join("b.job").exists());
}

#[test]
fn a_file_that_is_no_job_file_is_told() {
    let (here, file) = (folder("no_job"), cube_file());
    let told = |bytes: &[u8], cause: &str| {
        assert_told(&here, bytes, cause, "give a job file as it was saved, whole and unaltered");
    };
    told(b"", "the file has 0 bytes, and a job file has 84 or more");
    told(&file[386 - 90..], "the file has 90 bytes, and a job file whose trailer has 28 bytes has 92 or more");
    told(&file[..386 - 24], "its last number, the length of the trailer, is 64 and neither 28 nor 20");
    told(CUBE.as_bytes(), "its last number, the length of the trailer, is 168637984 and neither 28 nor 20");
    let longer = |file: &[u8]| [&file[..64], &[0; 8], &file[64..]].concat();
    let told_start = |file: &[u8], length: usize| {
        let last = format!("the last {length} bytes start at byte 366");
        told(&longer(file), &format!("its trailer is said to start at byte 358, and {last}"));
    };
    told_start(&file, 28);
    told_start(&old_cube_file(), 20);
    let advice = "take away the bytes behind the trailer";
    for (file, end) in [(file, 386), (old_cube_file(), 378)] {
        let cause = format!("a job file ends at byte {end}, and 1 byte is behind it");
        assert_told(&here, &[&file[..], b"\n"].concat(), &cause, advice);
    }
}

#[test]
fn a_file_with_another_sum_is_told_with_both() {
    let (here, mut file) = (folder("wrong_sum"), cube_file());
    file[374..382].copy_from_slice(&4_294_967_296_u64.to_le_bytes());
    fs::write(here.join("a.job"), &file).unwrap();
    let run = run_in(&here, "--quiet open a.job save b.job");
    assert_eq!((run.code, run.out.as_str()), (Some(1), ""));
    let reason = "17 sum: the squared sum in the trailer of the job file is not that of its sheet";
    let cause = "its trailer says the sum 4294967296, and the sum of its sheet is 8";
    let advice = "what to do: give the job file as it was saved: its quads or its trailer were altered since";
    assert_eq!(run.log, format!("cuckoosilver: open a.job is refused: {reason}: {cause}\n{advice}\n"));
    assert_eq!(names(&here), ["a.job"]);
    assert_eq!(does(&here, "sum a.job"), "squared sum                   4294967296\n");
}

#[test]
fn a_sheet_in_a_file_above_the_limit_is_told() {
    let here = folder("large_job");
    let labels = 1_048_577_u32;
    for end in [&[20][..], &[0, 0, 28]] {
        let trailer = [&[64, 64, 64, 64 + labels], end].concat();
        let trailer: Vec<u8> = trailer.into_iter().flat_map(u32::to_le_bytes).collect();
        fs::write(here.join("a.job"), [vec![0; 64 + labels as usize], trailer].concat()).unwrap();
        let run = run_in(&here, "--quiet open a.job");
        assert_eq!(run.code, Some(1));
        let told = "open a.job is refused: 12 large: the sheet has more than 1,048,576 points, quads or labels: \
                    it has 0 points, 0 quads and 1048577 labels\n";
        assert!(run.log.contains(told), "{}", run.log);
    }
}

#[test]
fn a_file_without_an_end_is_told() {
    let told = "it has more than 42991708 bytes, the most of a job file\n";
    for step in ["open", "sum"] {
        let run = run(&format!("--quiet {step} /dev/zero"));
        assert_eq!((run.code, run.log), (Some(1), format!("cuckoosilver: /dev/zero: {told}")));
    }
    let run = script(&folder("endless_job"), "cat /dev/zero 2>/dev/null | \"$tool\" --quiet open -");
    assert_eq!((run.code, run.log), (Some(1), format!("cuckoosilver: standard input: {told}")));
}

#[test]
fn files_of_the_other_format_are_told() {
    let here = with_cube("formats_of_jobs");
    let told = |steps: &str, what: &str| {
        let run = run_in(&here, &format!("{UNIT_BOX} {steps}"));
        assert_eq!((run.code, run.out.as_str()), (Some(2), ""), "{steps}");
        assert!(run.log.starts_with(&format!("cuckoosilver: {what}")), "{steps}: {}", run.log);
    };
    told(
        "open cube.ply",
        "open needs FILE.job or -, not cube.ply; PLY files are read by `read` and written by `write`\n",
    );
    told(
        "read cube.job",
        "read needs FILE.ply or -, not cube.job; job files are opened by `open` and saved by `save`\n",
    );
    told(
        "open cube.job save a.ply",
        "save needs FILE.job or -, not a.ply; PLY files are read by `read` and written by `write`\n",
    );
    told("open cube.job save a", "save needs FILE.job or -, not a; ");
    told(
        "open cube.job write a.job",
        "write needs FILE.ply or -, not a.job; job files are opened by `open` and saved by `save`\n",
    );
    told(
        "sum cube.ply",
        "sum needs FILE.job or -, not cube.ply; PLY files are read by `read` and written by `write`\n",
    );
    told("open --quiet", "open needs FILE.job or -, not --quiet\n");
    told("sum", "sum needs FILE.job or -\n");
    told("save a.job", "there is no sheet: begin with draw CELLS, read FILE or open FILE\n");
    for step in ["open", "sum"] {
        let run = run_in(&here, &format!("{step} nowhere.job"));
        assert_eq!((run.code, run.out.as_str()), (Some(1), ""));
        assert!(run.log.contains("cuckoosilver: nowhere.job: No such file"), "{}", run.log);
    }
    assert_eq!(names(&here), ["cube.job", "cube.ply"]);
}

/// What the second reader, a script, prints of a file in a folder; none where there is no Python.
fn second_reader(here: &Path, words: &[&str]) -> Option<Run> {
    let reader = Path::new(env!("CARGO_MANIFEST_DIR")).join("../../tools/read-job");
    let output = Command::new("python3").arg(reader).args(words).current_dir(here).output();
    output.map(Run::from).inspect_err(|error| println!("not tested: python3: {error}")).ok()
}

#[test]
fn a_second_reader_finds_the_same_numbers() {
    let here = folder("second_reader");
    does(&here, &format!("{SHELL} draw 8 coarsen 2 save a.job"));
    let Some(run) = second_reader(&here, &["a.job", "--all"]) else { return };
    assert_eq!((run.code, run.log.as_str()), (Some(0), ""));
    let job = Job::open(&fs::read(here.join("a.job")).unwrap()).unwrap();
    let lines: Vec<Vec<&str>> = run.out.lines().map(|line| line.split_whitespace().collect()).collect();
    let of =
        |name: &str| lines.iter().filter(|line| line[0] == name).map(|line| line[1..].to_vec()).collect::<Vec<_>>();
    let floats = |words: &[&str]| words.iter().map(|word| word.parse().unwrap()).collect::<Vec<f64>>();
    assert_eq!(floats(&of("low")[0]), job.low);
    assert_eq!(floats(&of("high")[0]), job.high);
    assert_eq!(floats(&of("levels")[0]), [job.lower, job.upper]);
    let points: Vec<Vec<f64>> = of("point").iter().map(|words| floats(&words[1..])).collect();
    assert_eq!(points, job.sheet.points);
    let wholes = |words: &[&str]| words.iter().map(|word| word.parse().unwrap()).collect::<Vec<u32>>();
    assert_eq!(of("quad").iter().map(|words| wholes(&words[1..])).collect::<Vec<_>>(), job.sheet.quads);
    assert_eq!(of("label").iter().flat_map(|words| wholes(&words[1..])).collect::<Vec<_>>(), wide(&job.sheet.labels));
    let counts = [of("points"), of("quads"), of("labels")].map(|lines| lines[0][0].parse::<usize>().unwrap());
    assert_eq!(counts, [job.sheet.points.len(), job.sheet.quads.len(), job.sheet.labels.len()]);
    assert_eq!(of("sum")[0][0].parse(), Ok(Job::sum(&fs::read(here.join("a.job")).unwrap()).unwrap().unwrap()));
}

/// Labels as wider numbers.
fn wide(labels: &[u8]) -> Vec<u32> {
    labels.iter().map(|&label| label.into()).collect()
}

#[test]
fn a_second_reader_shows_the_cube() {
    let here = with_cube("second_reader_shows");
    fs::write(here.join("old.job"), old_cube_file()).unwrap();
    for (name, sum) in [("cube.job", "8"), ("old.job", "none")] {
        let Some(run) = second_reader(&here, &[name]) else { return };
        let counts = format!("points 8\nquads 6\nlabels 6\nsum {sum}\n");
        let parts = "point 0 0.0 0.0 0.0\npoint 7 1.0 1.0 1.0\nquad 0 0 4 6 2\nquad 5 4 5 7 6\nlabel 0 2\nlabel 5 7\n";
        assert_eq!(run.out, format!("low 0.0 0.0 0.0\nhigh 1.0 1.0 1.0\nlevels -1.0 2.0\n{counts}{parts}"));
    }
    fs::write(here.join("hostile.job"), hostile().save().unwrap()).unwrap();
    let run = second_reader(&here, &["hostile.job"]).unwrap();
    let nans =
        "point 0 nan(0x7ff0000000000001) nan(0x7ff8000000000002) -0.0\npoint 1 inf nan(0xfff0000000000003) 1e-310\n";
    assert!(run.code == Some(0) && run.out.contains(nans), "{}", run.out);
    assert!(run.out.contains("points 2\nquads 1\nlabels 3\nsum 18\n"), "{}", run.out);
}

#[test]
fn a_second_reader_refuses_what_is_no_job_file() {
    let (here, file) = (folder("second_reader_refuses"), cube_file());
    let files = [
        ("cut.job", file[..385].to_vec(), "the length of the trailer is "),
        ("short.job", file[..83].to_vec(), "it has 83 bytes, and a job file has 84 or more"),
        ("end.job", file[386 - 91..].to_vec(), "it has 91 bytes, and a job file with a trailer of 28 has 92 or more"),
        ("behind.job", [&file[..], &[0]].concat(), "the length of the trailer is "),
        (
            "sum.job",
            [&file[..374], &[9], &file[375..]].concat(),
            "its trailer says the sum 9, and the sum of its sheet",
        ),
    ];
    for (name, bytes, _) in &files {
        fs::write(here.join(name), bytes).unwrap();
    }
    let told = files.iter().map(|(name, _, told)| (*name, format!("{name}: {told}")));
    for (name, told) in told.chain([("nowhere.job", "nowhere.job: No such file".into())]) {
        let Some(run) = second_reader(&here, &[name]) else { return };
        assert_eq!((run.code, run.out.as_str(), run.log.lines().count()), (Some(1), "", 1), "{name}: {}", run.log);
        assert!(run.log.contains(&told), "{name}: {}", run.log);
    }
}
