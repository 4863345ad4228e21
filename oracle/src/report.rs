//! Counts of cases, refusals met and differences, step by step.

use std::collections::BTreeMap;
use std::fmt;

/// How many differences of a step are told in words.
const TOLD: usize = 5;

#[derive(Default)]
struct Tally {
    cases: u64,
    differences: u64,
    numbers: BTreeMap<u32, u64>,
    told: Vec<String>,
}

#[derive(Default)]
pub struct Report {
    steps: BTreeMap<&'static str, Tally>,
}

impl Report {
    /// One case: the number answered, and what differed, if anything.
    pub fn count(&mut self, step: &'static str, number: u32, difference: Option<String>) {
        let tally = self.steps.entry(step).or_default();
        tally.cases += 1;
        *tally.numbers.entry(number).or_default() += 1;
        if let Some(told) = difference {
            tally.differences += 1;
            if tally.told.len() < TOLD {
                tally.told.push(told);
            }
        }
    }

    pub fn differences(&self) -> u64 {
        self.steps.values().map(|tally| tally.differences).sum()
    }

    pub fn cases(&self, step: &str) -> u64 {
        self.steps.get(step).map_or(0, |tally| tally.cases)
    }

    /// The numbers that a step answered, ascending.
    pub fn numbers(&self, step: &str) -> Vec<u32> {
        let tally = self.steps.get(step);
        tally.map_or(Vec::new(), |tally| tally.numbers.keys().copied().collect())
    }
}

impl fmt::Display for Report {
    fn fmt(&self, f: &mut fmt::Formatter) -> fmt::Result {
        for (step, tally) in &self.steps {
            write!(
                f,
                "{step:<16} {:>9} cases, {} differences; ",
                tally.cases, tally.differences
            )?;
            for (number, times) in &tally.numbers {
                match number {
                    0 => write!(f, " answered {times}")?,
                    _ => write!(f, "  {number}: {times}")?,
                }
            }
            writeln!(f)?;
            for told in &tally.told {
                writeln!(f, "  difference: {told}")?;
            }
        }
        let cases: u64 = self.steps.values().map(|tally| tally.cases).sum();
        writeln!(f, "{cases} cases, {} differences", self.differences())
    }
}
