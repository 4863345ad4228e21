//! The script `sporeferry`: it answers at once what needs no building, and a build that is broken off leaves nothing.

mod folder;
mod running;

use folder::Folder;
use running::{run_command, TOOL};
use std::fs::{self, Permissions};
use std::os::unix::fs::{symlink, PermissionsExt};
use std::os::unix::process::CommandExt;
use std::path::{Path, PathBuf};
use std::process::Command;
use std::time::Duration;

/// A copy of the repository with nothing built, with these words in place of `rt`.
fn unbuilt(name: &str, rt: &str) -> Folder {
    let folder = Folder::new(name);
    let root = PathBuf::from(env!("CARGO_MANIFEST_DIR")).join("..");
    for inner in ["host/help", "host/src", "crates/sporeferry_c", "tools", "bin", "tmp"] {
        fs::create_dir_all(folder.0.join(inner)).unwrap();
    }
    for file in ["sporeferry", "tools/archive", "crates.txt", "host/Cargo.toml", "host/build.rs"] {
        fs::copy(root.join(file), folder.0.join(file)).unwrap();
    }
    for text in fs::read_dir(root.join("host/help")).unwrap() {
        let text = text.unwrap();
        fs::copy(text.path(), folder.0.join("host/help").join(text.file_name())).unwrap();
    }
    program(&folder.0.join("bin/rt"), rt);
    program(&folder.0.join("bin/cargo"), "exit 3");
    folder
}

fn program(path: &Path, words: &str) {
    fs::write(path, format!("#!/bin/sh\n{words}\n")).unwrap();
    fs::set_permissions(path, Permissions::from_mode(0o755)).unwrap();
}

fn script(folder: &Folder, name: &str) -> Command {
    let mut command = Command::new(folder.0.join(name));
    let path = format!("{}:/usr/bin:/bin", folder.0.join("bin").display());
    command.env("PATH", path).env("TMPDIR", folder.0.join("tmp"));
    command
}

#[test]
fn help_and_version_need_no_building_and_are_the_tools_own() {
    let folder = unbuilt("unbuilt", "exit 3");
    symlink(folder.0.join("sporeferry"), folder.0.join("bin/linked")).unwrap();
    for words in [
        &["--help"][..],
        &["-h"],
        &["help"],
        &["--version"],
        &["help", "cover"],
        &["cover", "x.stl", "--help"],
        &["info", "-h"],
        &["help", "help"],
    ] {
        let own = run_command(&folder, Command::new(TOOL).args(words));
        for name in ["sporeferry", "bin/linked"] {
            assert_eq!(run_command(&folder, script(&folder, name).args(words)), own, "{words:?}");
        }
    }
}

#[test]
fn a_build_tells_how_far_it_is_and_what_comes_after_the_last_proof() {
    let folder = unbuilt(
        "build",
        "echo crate lists: modules; echo logic=proved functions=3; echo noise
         echo crate plan: modules; echo logic=proved functions=4; echo rt: ok, 2
         mkdir -p out; touch out/libsporeferry_c.a",
    );
    let (code, _, error) = run_command(&folder, script(&folder, "sporeferry").arg("info"));
    assert_eq!(code, 3, "{error}");
    assert!(error.contains("sporeferry: 1 of ") && error.contains(": lists proved\n"), "{error}");
    assert!(error.contains("sporeferry: 2 of ") && !error.contains("3 of "), "{error}");
    let after = "all is proved; compiling and linking the library\nsporeferry: building the tool\n";
    assert!(error.ends_with(after), "{error}");
    assert_eq!(fs::read_dir(folder.0.join("tmp")).unwrap().count(), 0);
}

#[test]
fn a_build_that_fails_shows_what_was_said() {
    let folder = unbuilt("failed", "echo the reason; exit 1");
    let (code, _, error) = run_command(&folder, script(&folder, "sporeferry").arg("info"));
    assert_eq!(code, 1);
    assert!(error.contains("the reason") && !error.contains("all is proved"), "{error}");
    assert_eq!(fs::read_dir(folder.0.join("tmp")).unwrap().count(), 0);
}

#[test]
fn a_build_that_is_broken_off_leaves_nothing() {
    let folder = unbuilt("broken", "touch \"$TMPDIR/../began\"; exec sleep 60");
    for signal in ["INT", "TERM"] {
        let mut build = script(&folder, "sporeferry").process_group(0).spawn().unwrap();
        while !folder.0.join("began").exists() {
            std::thread::sleep(Duration::from_millis(10));
        }
        let group = format!("-{}", build.id());
        let sent = Command::new("/bin/kill").args(["-s", signal, "--", &group]).status().unwrap();
        assert!(sent.success() && !build.wait().unwrap().success());
        assert_eq!(fs::read_dir(folder.0.join("tmp")).unwrap().count(), 0);
        fs::remove_file(folder.0.join("began")).unwrap();
    }
}
