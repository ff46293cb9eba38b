//! Files are written whole or not at all, by running the program.
mod common;
use common::{Run, SHELL, does, folder, names, run_in, script};
use std::fs;
use std::os::unix::fs::{FileTypeExt, PermissionsExt, symlink};
use std::path::Path;

/// Runs steps where no file may be longer than 40 blocks of 512 bytes.
fn limited(here: &Path, steps: &str) -> Run {
    script(here, &format!("trap '' XFSZ; ulimit -f 40; exec \"$tool\" {steps}"))
}

#[test]
fn a_write_that_fails_leaves_the_file_as_it_was() {
    let here = folder("fails");
    does(&here, &format!("{SHELL} draw 8 write core.ply save core.job --size 16 picture core.png picture core.svg"));
    let files = names(&here);
    let bytes = |file: &str| fs::read(here.join(file)).unwrap();
    let steps = [("write", "core.ply"), ("save", "core.job"), ("picture", "core.png"), ("picture", "core.svg")];
    for (step, file) in steps {
        let before = bytes(file);
        let run = limited(&here, &format!("read core.ply subdivide {step} {file}"));
        assert_eq!((run.code, run.out.as_str()), (Some(1), ""), "{}", run.log);
        assert!(run.log.contains(&format!("cuckoosilver: {file}: ")), "{}", run.log);
        assert!(bytes(file) == before, "{file}");
        assert_eq!(names(&here), files);
    }
}

#[test]
fn a_new_file_that_cannot_be_written_is_not_there() {
    let here = folder("stray");
    for step in ["write core.ply", "save core.job"] {
        let run = limited(&here, &format!("{SHELL} draw 16 {step}"));
        assert_eq!(run.code, Some(1), "{}", run.log);
        assert_eq!(names(&here), [""; 0]);
    }
}

#[test]
fn a_file_that_is_replaced_keeps_its_permissions() {
    let here = folder("permissions");
    let mode = |file: &str| fs::metadata(here.join(file)).unwrap().permissions().mode() & 0o777;
    does(&here, &format!("{SHELL} draw 8 write a.ply"));
    fs::write(here.join("plain"), "").unwrap();
    assert_eq!(mode("a.ply"), mode("plain"));
    fs::set_permissions(here.join("a.ply"), fs::Permissions::from_mode(0o604)).unwrap();
    does(&here, "read a.ply refine write a.ply");
    assert_eq!(mode("a.ply"), 0o604);
}

#[test]
fn a_link_stays_and_its_file_is_replaced() {
    let here = folder("links");
    fs::create_dir(here.join("there")).unwrap();
    symlink("there/a.ply", here.join("link.ply")).unwrap();
    symlink("link.ply", here.join("second.ply")).unwrap();
    for (cells, quads) in [(8, "264"), (16, "1050")] {
        does(&here, &format!("{SHELL} draw {cells} write second.ply"));
        assert!(does(&here, "read there/a.ply display").contains(quads));
    }
    assert!(here.join("link.ply").is_symlink() && here.join("second.ply").is_symlink());
    assert_eq!(names(&here), ["link.ply", "second.ply", "there"]);
    assert_eq!(names(&here.join("there")), ["a.ply"]);
}

#[test]
fn a_link_to_a_file_is_as_safe_as_the_file() {
    let here = folder("safe");
    does(&here, &format!("{SHELL} draw 8 write a.ply"));
    symlink("a.ply", here.join("link.ply")).unwrap();
    let before = fs::read(here.join("a.ply")).unwrap();
    let run = limited(&here, "read link.ply subdivide write link.ply");
    assert_eq!(run.code, Some(1), "{}", run.log);
    assert!(fs::read(here.join("a.ply")).unwrap() == before);
    assert_eq!(names(&here), ["a.ply", "link.ply"]);
}

#[test]
fn links_in_a_ring_and_folders_are_told() {
    let here = folder("ring");
    symlink("a.ply", here.join("b.ply")).unwrap();
    symlink("b.ply", here.join("a.ply")).unwrap();
    fs::create_dir(here.join("folder.ply")).unwrap();
    for file in ["a.ply", "folder.ply"] {
        let run = run_in(&here, &format!("{SHELL} draw 8 write {file}"));
        assert_eq!(run.code, Some(1), "{}", run.log);
        assert!(run.log.contains(&format!("cuckoosilver: {file}: ")), "{}", run.log);
    }
    assert_eq!(names(&here), ["a.ply", "b.ply", "folder.ply"]);
}

#[test]
fn a_device_is_written_straight() {
    let here = folder("device");
    symlink("/dev/full", here.join("full.ply")).unwrap();
    symlink("/dev/null", here.join("null.ply")).unwrap();
    let run = run_in(&here, &format!("{SHELL} draw 8 write full.ply"));
    assert_eq!(run.code, Some(1));
    assert!(run.log.contains("cuckoosilver: full.ply: No space left"), "{}", run.log);
    does(&here, &format!("{SHELL} draw 8 write null.ply write /dev/null"));
    assert!(fs::metadata("/dev/null").unwrap().file_type().is_char_device());
    assert!(fs::metadata("/dev/full").unwrap().file_type().is_char_device());
    assert_eq!(names(&here), ["full.ply", "null.ply"]);
}

#[test]
fn a_pipe_is_written_straight() {
    let here = folder("pipe");
    let steps = format!("--quiet {SHELL} draw 8 write");
    let run = script(
        &here,
        &format!("mkfifo a.ply && {{ \"$tool\" {steps} a.ply & }} && timeout 60 cat a.ply >b.ply && wait"),
    );
    assert_eq!((run.code, run.log.as_str()), (Some(0), ""));
    does(&here, &format!("{steps} c.ply"));
    assert!(fs::read(here.join("b.ply")).unwrap() == fs::read(here.join("c.ply")).unwrap());
    assert!(fs::metadata(here.join("a.ply")).unwrap().file_type().is_fifo());
    assert_eq!(names(&here), ["a.ply", "b.ply", "c.ply"]);
}

#[test]
fn standard_output_by_its_path_is_written_straight() {
    let here = folder("stdout");
    let steps = format!("--quiet {SHELL} draw 8 write");
    let run =
        script(&here, &format!("\"$tool\" {steps} /dev/stdout >a.ply && \"$tool\" {steps} /dev/fd/1 | cat >b.ply"));
    assert_eq!((run.code, run.log.as_str()), (Some(0), ""));
    does(&here, &format!("{steps} c.ply"));
    let bytes = |file: &str| fs::read(here.join(file)).unwrap();
    assert!(bytes("a.ply") == bytes("c.ply") && bytes("b.ply") == bytes("c.ply"));
    assert_eq!(names(&here), ["a.ply", "b.ply", "c.ply"]);
}
