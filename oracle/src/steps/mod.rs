//! The inputs of the comparison, step by step.

pub mod boxes;
pub mod coverage;
mod crossings;
pub mod damage;
pub mod faces;
pub mod files;
pub mod grid;
mod huge;
pub mod keep;
pub mod meshes;
mod plan;
pub mod refine;
pub mod rooms;
pub mod vtk_headers;
pub mod worked;

pub use crossings::{crossing, shell};

use crate::random::Random;
use crate::report::Report;

/// How many inputs each step is given.
#[derive(Copy, Clone)]
pub struct Sizes {
    pub plans: usize,
    pub octrees: usize,
    pub grids: usize,
    pub meshes: usize,
    pub files: usize,
    /// Also the inputs that take seconds or gigabytes: full lattices, tables at their bounds.
    pub largest: bool,
}

impl Sizes {
    /// Under a minute.
    pub const SHORT: Sizes = Sizes {
        plans: 100_000,
        octrees: 150,
        grids: 120,
        meshes: 4_000,
        files: 400,
        largest: false,
    };

    /// Some ten minutes.
    pub const LONG: Sizes = Sizes {
        plans: 2_000_000,
        octrees: 3_000,
        grids: 2_000,
        meshes: 40_000,
        files: 4_000,
        largest: true,
    };

    pub fn scaled(self, by: f64) -> Self {
        let times = |count: usize| (count as f64 * by).ceil() as usize;
        Self {
            plans: times(self.plans),
            octrees: times(self.octrees),
            grids: times(self.grids),
            meshes: times(self.meshes),
            files: times(self.files),
            largest: self.largest,
        }
    }
}

type Run = fn(&mut Random, &Sizes, &mut Report);

/// Each step's name and its runner.
const STEPS: [(&str, Run); 14] = [
    ("plan", plan::run),
    ("refine", refine::run),
    ("grid", grid::run),
    ("representatives", keep::run_representatives),
    ("keep_cover", keep::run_cover),
    ("keep_crust", keep::run_crust),
    ("marks", keep::run_marks),
    ("add_coverage", coverage::run),
    ("components", keep::run_components),
    ("face_components", faces::run_face_components),
    ("one_piece", faces::run_one_piece),
    ("mesh_file", files::run_mesh),
    ("vtk", files::run_vtk),
    ("huge", huge::run),
];

/// The names that `--steps` takes.
pub fn names() -> Vec<&'static str> {
    STEPS.map(|(name, _)| name).to_vec()
}

/// Runs the steps chosen, each from the seed alone, so that one step can be run again.
pub fn run(chosen: &[&str], seed: u64, sizes: &Sizes) -> Report {
    let mut report = Report::default();
    for (name, run) in STEPS {
        if chosen.contains(&name) {
            run(&mut Random::new(seed), sizes, &mut report);
        }
    }
    report
}
