//! Calls of plan, refine and grid.

use super::{first_difference, shown, Call};
use crate::expected;
use crate::expected::grid::Grid;
use crate::expected::plan::Refused;
use crate::lent::{Lent, Table};
use crate::library::{sf_grid, sf_plan, sf_refine, Answer, Bounds, Planned};
use std::rc::Rc;

fn told_plan(bounds: &Bounds, c: f32, levels: u32) -> String {
    let hex = |x: &f32| format!("{:08x}", x.to_bits());
    let corners: Vec<String> = bounds.min.iter().chain(&bounds.max).map(hex).collect();
    format!(
        "box {} ({:?} to {:?}), c {} ({c:e}), L {levels}",
        corners.join(" "),
        bounds.min,
        bounds.max,
        hex(&c)
    )
}

#[derive(Clone)]
pub struct PlanCall {
    pub bounds: Bounds,
    pub c: f32,
    pub levels: u32,
}

impl Call for PlanCall {
    type Outcome = Planned;

    fn step(&self) -> &'static str {
        "plan"
    }

    fn library(&mut self) -> Planned {
        unsafe { sf_plan(self.bounds, self.c, self.levels) }
    }

    fn expected(&mut self) -> Planned {
        expected::plan::planned(&self.bounds, self.c, self.levels)
    }

    fn table_difference(&self, _: &Self) -> Option<String> {
        None
    }

    fn told(&self) -> String {
        told_plan(&self.bounds, self.c, self.levels)
    }
}

#[derive(Clone)]
pub struct RefineCall {
    pub plan: PlanCall,
    pub crossing: Lent<u8>,
    pub split: Lent<u8>,
}

impl Call for RefineCall {
    type Outcome = Answer;

    fn step(&self) -> &'static str {
        "refine"
    }

    fn library(&mut self) -> Answer {
        unsafe {
            sf_refine(
                self.plan.bounds,
                self.plan.c,
                self.plan.levels,
                self.crossing.start(),
                self.crossing.len(),
                self.split.start_mut(),
                self.split.len(),
            )
        }
    }

    fn expected(&mut self) -> Answer {
        expected::refine::refine(
            &self.plan.bounds,
            self.plan.c,
            self.plan.levels,
            self.crossing.all(),
            self.split.all_mut(),
        )
    }

    fn table_difference(&self, other: &Self) -> Option<String> {
        first_difference([
            ("crossing", self.crossing.difference(&other.crossing)),
            ("split", self.split.difference(&other.split)),
        ])
    }

    fn told(&self) -> String {
        let ones = ones(self.crossing.all());
        format!(
            "{}, crossing of {} with ones {}, split of {}",
            self.plan.told(),
            self.crossing.len(),
            shown("at", &ones),
            self.split.len()
        )
    }
}

/// Where a table is not zero.
fn ones(table: &[u8]) -> Vec<usize> {
    (0..table.len()).filter(|at| table[*at] != 0).collect()
}

#[derive(Clone)]
pub struct GridCall {
    pub plan: PlanCall,
    pub split: Lent<u8>,
    /// What is expected, found once for all calls that differ in their room only.
    pub found: Rc<Result<Grid, Refused>>,
    pub cells: Lent<u32>,
    pub triples: Lent<u32>,
    pub points: Lent<u32>,
    pub work: Lent<u64>,
}

impl Call for GridCall {
    type Outcome = Answer;

    fn step(&self) -> &'static str {
        "grid"
    }

    fn library(&mut self) -> Answer {
        unsafe {
            sf_grid(
                self.plan.bounds,
                self.plan.c,
                self.plan.levels,
                self.split.start(),
                self.split.len(),
                self.cells.start_mut(),
                self.cells.len(),
                self.triples.start_mut(),
                self.triples.len(),
                self.points.start_mut().cast(),
                self.points.len(),
                self.work.start_mut(),
                self.work.len(),
            )
        }
    }

    fn expected(&mut self) -> Answer {
        expected::grid::grid(
            &self.found,
            self.cells.all_mut(),
            self.triples.all_mut(),
            self.points.all_mut(),
            self.work.all_mut(),
        )
    }

    fn table_difference(&self, other: &Self) -> Option<String> {
        first_difference([
            ("split", self.split.difference(&other.split)),
            ("cells", self.cells.difference(&other.cells)),
            ("triples", self.triples.difference(&other.triples)),
            ("points", self.points.difference(&other.points)),
            ("work", self.work.difference(&other.work)),
        ])
    }

    fn told(&self) -> String {
        format!(
            "{}, split of {} with ones {}; cells, triples, points, work of {}, {}, {}, {}",
            self.plan.told(),
            self.split.len(),
            shown("at", &ones(self.split.all())),
            self.cells.len(),
            self.triples.len(),
            self.points.len(),
            self.work.len()
        )
    }
}
