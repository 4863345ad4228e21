//! `sample`: writes fixed samples of the Rust's answers, which programs go through with no Rust at
//! hand: calls for crates/replay, cells with their verdicts for crates/verdicts, octrees with
//! questions for crates/lookup_run. A program's stdin is what is asked, its stdout what it must print.

mod choose;
mod lookups;
mod record;
mod tape;
mod verdicts;

use std::path::Path;
use std::process::ExitCode;

const SEED: u64 = 2026;

fn put(program: &Path, stdin: &[u8], stdout: &str) -> std::io::Result<()> {
    std::fs::write(program.join("stdin"), stdin)?;
    std::fs::write(program.join("stdout"), stdout)?;
    println!("{stdout}{} bytes", stdin.len());
    Ok(())
}

fn write(crates: &Path) -> std::io::Result<()> {
    let tape = choose::all(SEED);
    put(&crates.join("replay"), &tape.bytes(), &tape.text())?;
    let (words, verdicts) = verdicts::all(SEED);
    let bytes: Vec<u8> = words.into_iter().flat_map(u32::to_le_bytes).collect();
    put(&crates.join("verdicts"), &bytes, &verdicts)?;
    let lookups = lookups::all(SEED);
    put(&crates.join("lookup_run"), &lookups.bytes(), &lookups.text())
}

fn main() -> ExitCode {
    let Some(directory) = std::env::args().nth(1) else {
        eprintln!("usage: sample CRATES");
        return ExitCode::from(2);
    };
    match write(Path::new(&directory)) {
        Ok(()) => ExitCode::SUCCESS,
        Err(error) => {
            eprintln!("{directory}: {error}");
            ExitCode::FAILURE
        }
    }
}
