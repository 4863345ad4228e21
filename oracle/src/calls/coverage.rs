//! Calls of marks and of coverage.

use super::{first_difference, shown, Call, Input};
use crate::expected::coverage::add_coverage;
use crate::expected::keep::marks;
use crate::lent::{Lent, Table};
use crate::library::{sf_add_coverage, sf_marks, Added, Answer, Totals};

#[derive(Clone)]
pub struct MarksCall {
    pub c: f32,
    pub input: Input,
    pub crossing: Lent<u8>,
    pub probe: Lent<u8>,
    pub marks: Lent<u8>,
    pub work: Lent<u32>,
}

impl Call for MarksCall {
    type Outcome = Answer;

    fn step(&self) -> &'static str {
        "marks"
    }

    fn library(&mut self) -> Answer {
        unsafe {
            sf_marks(
                self.c,
                self.input.points.start().cast(),
                self.input.points.len(),
                self.input.cells.start(),
                self.input.cells.len(),
                self.crossing.start(),
                self.crossing.len(),
                self.probe.start(),
                self.probe.len(),
                self.marks.start_mut(),
                self.marks.len(),
                self.work.start_mut(),
                self.work.len(),
            )
        }
    }

    fn expected(&mut self) -> Answer {
        marks(
            self.c,
            self.input.mesh(),
            self.crossing.all(),
            self.probe.all(),
            self.marks.all_mut(),
            self.work.all_mut(),
        )
    }

    fn table_difference(&self, other: &Self) -> Option<String> {
        first_difference([
            ("input", self.input.difference(&other.input)),
            ("crossing", self.crossing.difference(&other.crossing)),
            ("probe", self.probe.difference(&other.probe)),
            ("marks", self.marks.difference(&other.marks)),
            ("work", self.work.difference(&other.work)),
        ])
    }

    fn told(&self) -> String {
        format!(
            "c {:08x}, {}, {}, {}; marks, work of {}, {}",
            self.c.to_bits(),
            self.input.told(),
            shown("crossing", self.crossing.all()),
            shown("probe", self.probe.all()),
            self.marks.len(),
            self.work.len()
        )
    }
}

#[derive(Clone)]
pub struct CoverageCall {
    pub totals: Totals,
    pub triples: Lent<u32>,
    pub cells: Lent<u32>,
    pub marks: Lent<u8>,
}

impl Call for CoverageCall {
    type Outcome = Added;

    fn step(&self) -> &'static str {
        "add_coverage"
    }

    fn library(&mut self) -> Added {
        unsafe {
            sf_add_coverage(
                self.totals,
                self.triples.start(),
                self.triples.len(),
                self.cells.start(),
                self.cells.len(),
                self.marks.start(),
                self.marks.len(),
            )
        }
    }

    fn expected(&mut self) -> Added {
        let (triples, cells, marks) = (self.triples.all(), self.cells.all(), self.marks.all());
        add_coverage(self.totals, triples, cells, marks)
    }

    fn table_difference(&self, other: &Self) -> Option<String> {
        first_difference([
            ("triples", self.triples.difference(&other.triples)),
            ("cells", self.cells.difference(&other.cells)),
            ("marks", self.marks.difference(&other.marks)),
        ])
    }

    fn told(&self) -> String {
        format!(
            "{:?}, {}, {}, {}",
            self.totals,
            shown("triples", self.triples.all()),
            shown("cells", self.cells.all()),
            shown("marks", self.marks.all())
        )
    }
}
