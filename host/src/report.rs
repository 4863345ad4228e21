//! What a command tells: lines of a name and what is to be said of it.

use crate::numbers::grouped;
use sporeferry::json::Json;
use std::fmt::Display;
use std::path::{Path, PathBuf};

/// What came of a command.
#[derive(Default)]
pub struct Told {
    /// For standard output.
    pub text: String,
    /// What is not as it should be, though the command was done.
    pub warnings: Vec<String>,
    /// The file that was written.
    pub written: Option<PathBuf>,
    /// Why it counts as not done, though there is something to tell.
    pub failure: Option<String>,
}

#[derive(Default)]
pub struct Report(String);

impl Report {
    pub fn line(&mut self, name: &str, value: impl Display) {
        self.0 += &format!("{name:<8} {value}\n");
    }

    pub fn file(&mut self, path: &Path, bytes: &[u8]) {
        self.line("file", format!("{}, {} bytes", path.display(), grouped(bytes.len())));
    }

    /// The lines, or the same as JSON.
    pub fn or_json(self, json: bool, facts: &Json) -> String {
        if json {
            format!("{facts}\n")
        } else {
            self.0
        }
    }

    pub fn text(self) -> String {
        self.0
    }
}

/// Puts the file's name before what is wrong with it.
pub fn about<E: Display>(path: &Path) -> impl Fn(E) -> String + '_ {
    move |error| format!("{}: {error}", path.display())
}
