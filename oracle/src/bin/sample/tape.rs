//! The tape of calls, words of 32 bits, and the lines that its replay must print.

use crate::record::{packed, Record, Tables, Values};
use oracle::calls::Outcome;
use std::collections::BTreeMap;

/// The steps in the order of their numbers on the tape.
const STEPS: [&str; 15] = [
    "plan",
    "refine",
    "grid",
    "representatives",
    "keep_cover",
    "keep_crust",
    "components",
    "one_piece",
    "write_mesh",
    "read_mesh",
    "write_vtk",
    "read_vtk",
    "marks",
    "add_coverage",
    "face_components",
];
/// The most entries of a table that the program has room for.
const MOST_ENTRIES: usize = 16_384;
/// The bytes of tape that the program has room for.
const MOST_BYTES: usize = 262_144;

/// Calls that a program tells of in one line.
#[derive(Default)]
pub struct Section {
    pub calls: u32,
    words: Vec<u32>,
}

impl Section {
    /// A call: the digest of what it must answer, the step's number, its numbers and inputs.
    pub fn push(&mut self, digest: u32, step: usize, tables: &Tables) {
        self.calls += 1;
        self.words.extend([digest, step as u32]);
        self.words.extend(tables.plan);
        let lengths = tables.lengths();
        self.words.extend(lengths.iter().map(|len| *len as u32));
        self.words.extend(tables.contents());
    }
}

/// The sections of a tape, each under its name, as the programs read them.
pub fn bytes<'a>(sections: impl ExactSizeIterator<Item = (String, &'a Section)>) -> Vec<u8> {
    let mut words = vec![sections.len() as u32];
    for (name, section) in sections {
        words.extend([section.calls, name.len() as u32]);
        words.extend(packed(name.as_bytes()));
        words.extend(&section.words);
    }
    let bytes: Vec<u8> = words.into_iter().flat_map(u32::to_le_bytes).collect();
    assert!(bytes.len() <= MOST_BYTES, "a tape of {}", bytes.len());
    bytes
}

/// The calls of every step: sections by its number on the tape and by the number answered.
#[derive(Default)]
pub struct Tape {
    sections: BTreeMap<(usize, u32), Section>,
}

/// A digest of what a call answered and left, as the program takes it: a polynomial modulo a prime.
pub fn digest(values: &[u64]) -> u32 {
    const MODULUS: u64 = 4_294_967_291;
    const FACTOR: u64 = 2_654_435_761;
    let mixed = |digest: u64, value: &u64| (digest * FACTOR + value % MODULUS) % MODULUS;
    values.iter().fold(0, mixed) as u32
}

fn name((step, number): &(usize, u32)) -> String {
    format!("{} {number}", STEPS[*step])
}

impl Tape {
    /// Takes a call in, if the program has room for it and there are fewer than `most` of its step
    /// with the same number; twice as many where the step answers.
    pub fn offer<R: Record>(&mut self, call: &R, most: u32) {
        let mut call = call.clone();
        call.refill();
        let lengths = call.tables().lengths();
        if lengths.iter().any(|len| *len > MOST_ENTRIES) {
            return;
        }
        let outcome = call.expected();
        let step = STEPS.iter().position(|step| *step == call.step());
        let step = step.expect("a step with a number");
        let section = self.sections.entry((step, outcome.number())).or_default();
        let most = match outcome.number() {
            0 => most.saturating_mul(2),
            _ => most,
        };
        if section.calls < most {
            let tables = call.tables();
            let digest = digest(&[outcome.values(), tables.results()].concat());
            section.push(digest, step, &tables);
        }
    }

    pub fn bytes(&self) -> Vec<u8> {
        bytes(self.sections.iter().map(|(key, s)| (name(key), s)))
    }

    /// What the program prints where every call gives what the Rust gave.
    pub fn text(&self) -> String {
        let line = |name: &str, calls: u32| format!("{name}: {calls} calls, 0 differences\n");
        let sections = self.sections.iter();
        let lines: String = sections.map(|(key, s)| line(&name(key), s.calls)).collect();
        let calls = self.sections.values().map(|section| section.calls).sum();
        lines + &line("all", calls)
    }
}
