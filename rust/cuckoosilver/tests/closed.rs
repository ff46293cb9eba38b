//! Standard output that nobody reads. One test in a program of its own: a process that another test has just begun
//! could hold the pipe open for a moment.
mod common;
use common::{Run, SHELL, does, folder, piped};
use std::fs;
use std::io::Write;

#[test]
fn a_closed_pipe_ends_it_quietly() {
    let here = folder("closed");
    does(&here, &format!("{SHELL} draw 8 write a.ply"));
    let sheet = fs::read(here.join("a.ply")).unwrap();
    for steps in ["--quiet read - display", "--quiet read - write -", "--quiet read - save -"] {
        let mut child = piped(&here, steps);
        drop(child.stdout.take());
        child.stdin.take().unwrap().write_all(&sheet).unwrap();
        let run = Run::from(child.wait_with_output().unwrap());
        assert_eq!((run.code, run.log.as_str()), (Some(141), ""), "{steps}");
    }
}
