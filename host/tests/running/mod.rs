//! The command-line tool run in a folder of a test's own.
#![allow(dead_code)]

use crate::folder::Folder;
use std::fs;
use std::process::Command;

pub const TOOL: &str = env!("CARGO_BIN_EXE_sporeferry");

/// A folder with these files.
pub fn folder_with(name: &str, files: &[(&str, &[u8])]) -> Folder {
    let folder = Folder::new(name);
    for (name, bytes) in files {
        fs::write(folder.0.join(name), bytes).unwrap();
    }
    folder
}

/// Runs a command in a folder: status, standard output, standard error.
pub fn run_command(folder: &Folder, command: &mut Command) -> (i32, String, String) {
    let done = command.current_dir(&folder.0).output().unwrap();
    let text = |bytes: Vec<u8>| String::from_utf8(bytes).unwrap();
    (done.status.code().unwrap_or(-1), text(done.stdout), text(done.stderr))
}

/// Runs the tool in a folder with these words. Lines that only tell of a long stage are left out of its standard error: on a slow machine
/// every stage is long.
pub fn run(folder: &Folder, words: &str) -> (i32, String, String) {
    let (code, out, error) = run_command(folder, Command::new(TOOL).args(words.split_whitespace()));
    let error = error.split_inclusive('\n').filter(|line| !line.ends_with(" ...\n")).collect();
    (code, out, error)
}

/// The tool does what it is asked, without complaint; what it prints.
pub fn does(folder: &Folder, words: &str) -> String {
    let (code, out, error) = run(folder, words);
    assert_eq!((code, error.as_str()), (0, ""), "{words}");
    out
}

/// The tool fails with one sentence that holds this, and leaves the folder as it was.
pub fn fails(folder: &Folder, words: &str, status: i32, holds: &str) {
    let before = folder.names();
    let (code, out, error) = run(folder, words);
    assert_eq!((code, out.as_str()), (status, ""), "{words}: {error}");
    assert!(error.contains(holds), "{words}: {error}");
    assert!(error.starts_with("sporeferry: ") && error.lines().count() == 1, "{error}");
    assert_eq!(folder.names(), before);
}

/// What is told under a name in the lines of a summary.
pub fn told<'a>(out: &'a str, name: &str) -> &'a str {
    let line = out.lines().find(|line| line.split_whitespace().next() == Some(name));
    line.unwrap_or_else(|| panic!("{name} is not in\n{out}")).split_once(' ').unwrap().1.trim()
}
