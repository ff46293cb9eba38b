//! The steps, by running the program.
mod common;
use common::{SHELL, folder, names, prints, run, run_in};
use std::path::Path;

#[test]
fn the_page_has_eight_lines_of_41_bytes() {
    let page = prints(&format!("{SHELL} draw 16 page"));
    assert_eq!(page.len(), 328);
    assert!(page.lines().all(|line| line.len() == 40));
    assert_eq!(
        page,
        "quads                               1050\n\
         irregular                            544\n\
         boundary                               0\n\
         nonmanifold                            0\n\
         orientation                            0\n\
         links                                  0\n\
         duplicates                             0\n\
         invalid                                0\n"
    );
}

#[test]
fn the_display_has_two_lines() {
    assert_eq!(prints(&format!("{SHELL} draw 16 display")), "quads           1050\nbad points         0\n");
}

#[test]
fn the_record_tells_the_measures_too() {
    let record = prints(&format!("{SHELL} draw 16 quality"));
    assert_eq!(record.lines().count(), 14);
    assert!(record.contains("\ntight                                yes\nvalid                                yes\n"));
}

#[test]
fn steps_are_done_in_the_order_given() {
    let quads = |steps: &str| prints(&format!("{SHELL} draw 8 {steps} display")).lines().next().map(String::from);
    assert_eq!(quads(""), Some("quads            264".into()));
    assert_eq!(quads("refine"), Some("quads           1056".into()));
    assert_eq!(quads("subdivide refine"), Some("quads           4224".into()));
    assert_ne!(quads("refine coarsen 4"), quads("coarsen 4 refine"));
}

#[test]
fn progress_goes_to_standard_error() {
    let run = run(&format!("{SHELL} draw 8 regularize 2 refine"));
    let lines: Vec<&str> = run.log.lines().collect();
    assert_eq!((run.code, run.out.as_str(), lines.len()), (Some(0), "", 3));
    assert!(lines[0].starts_with("draw 8: 268 points, 264 quads, "));
    assert!(lines[1].starts_with("regularize 2: ") && lines[1].contains(" swaps, 268 points, 264 quads, "));
    assert!(lines[2].starts_with("refine: 1060 points, 1056 quads, "));
}

#[test]
fn quiet_is_quiet() {
    assert_eq!(run(&format!("--quiet {SHELL} draw 8 coarsen display")).log, "");
}

#[test]
fn an_option_holds_for_the_steps_after_it() {
    let lines = prints(&format!("{SHELL} draw 16 display --levels 0.3 0.9 draw 16 display"));
    let quads: Vec<&str> = lines.lines().step_by(2).collect();
    assert_eq!(quads.len(), 2);
    assert_ne!(quads[0], quads[1]);
}

#[test]
fn a_slab_gets_rows_on_each_of_its_six_faces() {
    let band = "--plane 0 0 1 0 --box 0 0 0 4 4 4 --levels 1 2";
    let quads = |steps: &str| prints(&format!("{band} draw 8 {steps} display"))[12..20].trim().parse::<usize>();
    assert!(quads("rows").unwrap() > quads("").unwrap());
}

#[test]
fn the_example_runs_from_drawing_to_display() {
    let here = folder("nothing");
    let run = run_in(&here, "");
    assert_eq!(run.code, Some(0), "{}", run.log);
    assert!(run.out.starts_with("cuckoosilver --ball 0 0 0 0 "));
    assert!(
        run.out.contains("\nvalid                                yes\nquads           2400\nbad points         0\n")
    );
    assert_eq!(names(&here), [""; 0], "files are left where none were asked for");
}

#[test]
fn the_example_leaves_its_files_in_a_folder() {
    let here = folder("example");
    let run = run_in(&here, "example there/core");
    assert_eq!(run.code, Some(0), "{}", run.log);
    assert!(run.out.ends_with("core.ply, core.job, core.svg and core.png are in there/core\n"));
    assert_eq!(names(&here.join("there/core")), ["core.job", "core.ply", "core.png", "core.svg"]);
    let quality = |step: &str| prints(&format!("--ball 0 0 0 0 {step} quality"));
    let file = |name: &str| here.join("there/core").join(name).display().to_string();
    assert_eq!(quality(&format!("open {}", file("core.job"))), quality(&format!("read {}", file("core.ply"))));
    let picture = |file: &Path| std::fs::read_to_string(file).unwrap();
    let shown = Path::new(env!("CARGO_MANIFEST_DIR")).join("../../docs/core.svg");
    assert!(picture(&here.join("there/core/core.svg")) == picture(&shown), "docs/core.svg is not the example's");
}

#[test]
fn help_is_no_folder_of_the_example() {
    let here = folder("help");
    for words in ["example --help", "example -h"] {
        assert_eq!(run_in(&here, words).out, prints("--help"));
    }
    assert_eq!(run_in(&here, "example --quiet").code, Some(2));
    assert_eq!(names(&here), [""; 0]);
}

#[test]
fn help_tells_all_refusals() {
    let help = prints("--help");
    let words: Vec<&str> = help.split("has a number and a word:").nth(1).unwrap().split_whitespace().collect();
    let returned = quads::Refusal::all().filter(|refusal| *refusal != quads::Refusal::Bottomless);
    let refusals: Vec<String> =
        returned.flat_map(|refusal| [refusal.number().to_string(), refusal.word().to_string()]).collect();
    assert_eq!(words, refusals);
}

#[test]
fn help_fits_a_terminal() {
    let help = prints("--help");
    assert!(help.lines().all(|line| line.len() <= 80));
    assert!(prints("--version").starts_with("cuckoosilver "));
}

#[test]
fn help_tells_what_the_numbers_of_a_ball_are() {
    let help = prints("--help");
    assert!(help.contains("the sphere of radius sqrt(L + r)"));
    let shell = "--ball 0 0 0 0.19 --box -1 -1 -1 1 1 1 --levels 0.06 0.45";
    assert_eq!(prints(&format!("{shell} draw 16 page")), prints(&format!("{SHELL} draw 16 page")));
}
