//! Finds the proved archive, links it and tells the tests where it is. `SPOREFERRY_LIB` names another
//! `libsporeferry.a` than the repository's own.

use std::env;
use std::path::{Path, PathBuf};

fn main() {
    println!("cargo:rerun-if-env-changed=SPOREFERRY_LIB");
    let archive = archive();
    println!("cargo:rerun-if-changed={}", archive.display());
    let (true, Some(folder)) = (archive.is_file(), archive.parent()) else {
        eprintln!(
            "{} is missing. Build it in the repository's root with `tools/archive`, \
             or name another in SPOREFERRY_LIB.",
            archive.display()
        );
        std::process::exit(1);
    };
    println!("cargo:rustc-link-search=native={}", folder.display());
    println!("cargo:rustc-link-lib=static=sporeferry");
    println!("cargo:rustc-env=SPOREFERRY_ARCHIVE={}", archive.display());
}

fn archive() -> PathBuf {
    let own = || {
        let here = env::var_os("CARGO_MANIFEST_DIR").unwrap_or_default();
        Path::new(&here).join("../target/staticlib/libsporeferry.a")
    };
    env::var_os("SPOREFERRY_LIB").map_or_else(own, PathBuf::from)
}
