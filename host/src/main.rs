//! The command-line tool. It reads parts and mesh files, and says in one sentence why it cannot.

#![forbid(unsafe_code)]

mod arguments;
mod commands;
mod evidence;
mod help;
mod inspect;
mod numbers;
mod report;
mod source;

use arguments::{Asked, Command};
use report::Told;
use sporeferry::{progress, signals};
use std::io::{self, Write};
use std::process::ExitCode;

fn main() -> ExitCode {
    signals::heed();
    let Asked { command, quiet } = match arguments::parse(std::env::args_os().skip(1)) {
        Ok(asked) => asked,
        Err(sentence) => return fail(2, &format!("{sentence} (sporeferry --help tells how)")),
    };
    if quiet {
        progress::be_silent();
    }
    let told = match command {
        Command::Say(text) => Ok(Told { text, ..Told::default() }),
        Command::Cover(order) => commands::cover(&order),
        Command::Coverage(order) => commands::coverage(&order),
        Command::Advise(order) => commands::advise(&order),
        Command::Info(order) => inspect::info(&order),
        Command::ToVtk(files) => commands::to_vtk(&files),
        Command::ToMesh(files) => commands::to_mesh(&files),
    };
    match told {
        Ok(told) => tell(&told, quiet),
        Err(sentence) => fail(1, &sentence),
    }
}

/// Says what came of a command that was done.
fn tell(told: &Told, quiet: bool) -> ExitCode {
    for warning in &told.warnings {
        let _ = writeln!(io::stderr(), "sporeferry: warning: {warning}");
    }
    let text = if quiet { "" } else { &told.text };
    match (print(text), &told.failure, &told.written) {
        (Ok(()), None, _) => ExitCode::SUCCESS,
        (_, Some(sentence), _) => fail(1, sentence),
        (Err(error), _, None) => fail(1, &format!("standard output: {error}")),
        (Err(error), _, Some(file)) => {
            let file = file.display();
            fail(
                1,
                &format!(
                    "{file} is written, but standard output did not take the summary: {error}"
                ),
            )
        }
    }
}

fn print(text: &str) -> io::Result<()> {
    let mut out = io::stdout();
    out.write_all(text.as_bytes()).and_then(|()| out.flush())
}

fn fail(status: u8, sentence: &str) -> ExitCode {
    let _ = writeln!(io::stderr(), "sporeferry: {sentence}");
    ExitCode::from(status)
}
