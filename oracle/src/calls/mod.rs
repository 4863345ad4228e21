//! One call of a step, put to the library and to what is expected of it.

mod coverage;
mod files;
mod meshes;
mod octrees;

pub use coverage::{CoverageCall, MarksCall};
pub use files::{Format, ReadCall, WriteCall};
pub use meshes::{ComponentsCall, Input, Joined, KeepCall, OnePieceCall, RepresentativesCall};
pub use octrees::{GridCall, PlanCall, RefineCall};

use crate::library::{Added, Answer, Planned};
use crate::report::Report;
use std::fmt::Debug;

/// What a call answers by value.
pub trait Outcome: PartialEq + Debug {
    fn number(&self) -> u32;
}

impl Outcome for Answer {
    fn number(&self) -> u32 {
        self.number
    }
}

impl Outcome for Added {
    fn number(&self) -> u32 {
        self.number
    }
}

impl Outcome for Planned {
    fn number(&self) -> u32 {
        self.number
    }
}

/// A call with all that it lends, inputs too.
pub trait Call: Clone {
    type Outcome: Outcome;

    /// The step's name in reports and in `--steps`.
    fn step(&self) -> &'static str;

    /// Calls the C function.
    fn library(&mut self) -> Self::Outcome;

    /// Does what the C function must do.
    fn expected(&mut self) -> Self::Outcome;

    /// The first lent table that differs, guards included, in words.
    fn table_difference(&self, other: &Self) -> Option<String>;

    /// The inputs in words, short enough to read.
    fn told(&self) -> String;
}

/// Puts a call to both sides and counts it.
pub fn compare<C: Call>(call: &C, report: &mut Report) -> C::Outcome {
    let (mut got, mut wanted) = (call.clone(), call.clone());
    let (answer, expected) = (got.library(), wanted.expected());
    let difference = if answer != expected {
        Some(format!("answered {answer:?}, expected {expected:?}"))
    } else {
        got.table_difference(&wanted)
    };
    let told = difference.map(|difference| format!("{difference}; {}", call.told()));
    report.count(call.step(), expected.number(), told);
    expected
}

/// A table in words: whole if short, else its length and its beginning.
pub fn shown<T: Debug>(name: &str, table: &[T]) -> String {
    const MOST: usize = 64;
    if table.len() <= MOST {
        format!("{name} {table:?}")
    } else {
        format!("{name} of {} from {:?}", table.len(), &table[..MOST])
    }
}

/// The first of some tables that differs: `[("name", a.difference(b)), ..]`.
fn first_difference<const N: usize>(tables: [(&str, Option<String>); N]) -> Option<String> {
    tables
        .into_iter()
        .find_map(|(name, difference)| Some(format!("{name}: {}", difference?)))
}
