//! Runs the program.
#![allow(dead_code, reason = "no test uses all of them")]
use std::path::{Path, PathBuf};
use std::process::{Child, Command, Output, Stdio};

/// What a run of the program left.
pub struct Run {
    pub code: Option<i32>,
    pub out: String,
    pub log: String,
}

impl From<Output> for Run {
    fn from(output: Output) -> Run {
        let text = |bytes: Vec<u8>| String::from_utf8(bytes).unwrap();
        Run { code: output.status.code(), out: text(output.stdout), log: text(output.stderr) }
    }
}

/// The program in a folder, with the words of a text.
pub fn program(folder: &Path, text: &str) -> Command {
    let mut program = Command::new(env!("CARGO_BIN_EXE_cuckoosilver"));
    program.current_dir(folder).args(text.split_whitespace());
    program
}

/// Runs the program in a folder, with the words of a text.
pub fn run_in(folder: &Path, text: &str) -> Run {
    program(folder, text).output().unwrap().into()
}

/// Runs the program with the words of a text.
pub fn run(text: &str) -> Run {
    run_in(Path::new("."), text)
}

/// Runs a script in a folder, in which $tool is the program.
pub fn script(folder: &Path, text: &str) -> Run {
    let mut shell = Command::new("sh");
    shell.current_dir(folder).env("tool", env!("CARGO_BIN_EXE_cuckoosilver")).args(["-c", text]);
    shell.output().unwrap().into()
}

/// What a run prints that must go well.
pub fn prints(text: &str) -> String {
    does(Path::new("."), text)
}

/// What a run in a folder prints that must go well.
pub fn does(folder: &Path, text: &str) -> String {
    let run = run_in(folder, text);
    assert_eq!(run.code, Some(0), "{text}: {}", run.log);
    run.out
}

/// An empty folder of this name.
pub fn folder(name: &str) -> PathBuf {
    let folder = Path::new(env!("CARGO_TARGET_TMPDIR")).join("cuckoosilver").join(name);
    let _ = std::fs::remove_dir_all(&folder);
    std::fs::create_dir_all(&folder).unwrap();
    folder
}

/// The names of all that is in a folder, in order.
pub fn names(folder: &Path) -> Vec<String> {
    let files = folder.read_dir().unwrap().map(|file| file.unwrap().file_name().into_string().unwrap());
    let mut names: Vec<String> = files.collect();
    names.sort();
    names
}

/// A shell, as options.
pub const SHELL: &str = "--ball 0 0 0 0 --box -1 -1 -1 1 1 1 --levels 0.25 0.64";

/// The unit cube as its own box, as options.
pub const UNIT_BOX: &str = "--plane 0 0 1 0 --box 0 0 0 1 1 1 --levels -1 2";

/// The unit cube with other names, an element that is not known, and colours in place of labels.
pub const CUBE: &str = "ply\r
format ascii 1.0\r
comment made by hand\r
obj_info nothing\r
element material 1\r
property list uchar float numbers\r
element vertex 8\r
property float32 x\r
property float32 y\r
property float32 z\r
property uint8 extra\r
element face 6\r
property uchar red\r
property uchar green\r
property uchar blue\r
property list uint8 int32 vertex_index\r
end_header\r
2 0.5 0.5\r
0 0 0 9 1 0 0 9 0 1 0 9 1 1 0 9 0 0 1 9 1 0 1 9 0 1 1 9 1 1 1 9\r
0 158 115 4 0 4 6 2\r
240 228 66 4 1 3 7 5\r
0 114 178 4 0 1 5 4\r
213 94 0 4 2 6 7 3\r
204 121 167 4 0 2 3 1\r
153 153 153 4 4 5 7 6\r
";

/// The program with its three streams as pipes.
pub fn piped(here: &Path, steps: &str) -> Child {
    let streams = (Stdio::piped(), Stdio::piped(), Stdio::piped());
    program(here, steps).stdin(streams.0).stdout(streams.1).stderr(streams.2).spawn().unwrap()
}
