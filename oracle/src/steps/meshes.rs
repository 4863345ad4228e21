//! Meshes: random cells over random points, and real grids with a part of their cells crossing.

use super::{boxes, crossings};
use crate::expected::grid::Grid;
use crate::expected::mesh::Mesh;
use crate::expected::refine::split_table;
use crate::random::{nudged, Random};
use lifted::transformation::volume_mesh::isosurface_stuffing::doors::orient_tet;

/// A mesh in flat tables, with a cell size that fits it.
#[derive(Clone)]
pub struct Sample {
    pub points: Vec<u32>,
    pub cells: Vec<u32>,
    pub c: f32,
}

impl Sample {
    pub fn mesh(&self) -> Mesh<'_> {
        Mesh::new(&self.points, &self.cells)
    }
}

/// A coordinate by the style of its mesh.
fn coordinate(random: &mut Random, style: usize) -> u32 {
    match style {
        0 => (random.between(-2, 2) as f32).to_bits(),
        1 => random.special().to_bits(),
        2 => random.bits(),
        3 => random.sized(-6.0, 1.0).to_bits(),
        4 if random.once_in(6) => random.special().to_bits(),
        _ => ((2.0 * random.unit() - 1.0) as f32).to_bits(),
    }
}

fn points(random: &mut Random, count: usize) -> Vec<u32> {
    let style = random.below(7);
    (0..3 * count).map(|_| coordinate(random, style)).collect()
}

/// Vertices from all points, or from a window of few, so that groups stay apart.
fn cells(random: &mut Random, count: usize, points: usize) -> Vec<u32> {
    if points == 0 {
        return Vec::new();
    }
    let window = match random.below(3) {
        0 => points,
        _ => points.min(4 + random.below(8)),
    };
    let mut cells = Vec::new();
    for _ in 0..count {
        let start = random.below(points - window + 1);
        cells.extend((0..4).map(|_| (start + random.below(window)) as u32));
    }
    cells
}

fn scattered(random: &mut Random) -> Sample {
    let most = random.pick(&[4, 8, 30, 200]);
    let point_count = random.below(most + 1);
    let cell_count = random.below(most / 2 + 2);
    let points = points(random, point_count);
    let cells = cells(random, cell_count, point_count);
    Sample {
        points,
        cells,
        c: random.sized(-4.0, 2.0),
    }
}

/// A real grid: a small lattice, or an octree of one or two levels.
fn grid(random: &mut Random) -> Sample {
    let levels = random.below(3) as u32;
    let (plan, found) = boxes::small(random, levels);
    let crossing = crossings::crossing(random, &found.layout);
    let split = split_table(&plan.bounds, plan.c, levels, &crossing);
    let grid = Grid::lifted(&plan.bounds, plan.c, levels, &split);
    Sample {
        points: grid.points,
        cells: grid.cells,
        c: plan.c,
    }
}

/// The cell size whose least volume is about that of one of the cells.
fn on_the_edge(random: &mut Random, sample: &Sample) -> f32 {
    let mesh = sample.mesh();
    if mesh.cell_count() == 0 {
        return sample.c;
    }
    let (points, cell) = (
        mesh.vectors(),
        mesh.quads()[random.below(mesh.cell_count())],
    );
    let kept_at = |least: f32| orient_tet(&points, cell, least).is_some();
    let (mut kept, mut dropped) = (0u32, f32::INFINITY.to_bits());
    if !kept_at(0.0) || kept_at(f32::INFINITY) {
        return sample.c;
    }
    while dropped - kept > 1 {
        let middle = kept + (dropped - kept) / 2;
        match kept_at(f32::from_bits(middle)) {
            true => kept = middle,
            false => dropped = middle,
        }
    }
    match f64::from(f32::from_bits(kept)) {
        0.0 => sample.c,
        volume => nudged((volume * 1.0e6).cbrt() as f32, random.between(-1, 1)),
    }
}

fn cell_size(random: &mut Random, sample: &Sample) -> f32 {
    match random.below(12) {
        0..=3 => on_the_edge(random, sample),
        4 => random.pick(&[8.881_784e-16, 7.0e12, 9.0e12, 1.0e19, 0.01]),
        5 => f32::from_bits(random.bits() & 0x7fff_ffff),
        _ => sample.c,
    }
}

/// Any mesh whose cells name points that are there, large grids seldom.
pub fn any(random: &mut Random) -> Sample {
    let mut sample = match random.below(40) {
        0 => grid(random),
        _ => scattered(random),
    };
    sample.c = cell_size(random, &sample);
    sample
}

/// Crossing or probe answers for the cells of a mesh.
pub fn answers(random: &mut Random, cells: usize) -> Vec<u8> {
    match random.below(5) {
        0 => vec![0; cells],
        1 => vec![1; cells],
        2 => {
            let (from, len) = (random.below(cells + 1), 1 + random.below(9));
            (0..cells)
                .map(|at| (at >= from && at % len != 0).into())
                .collect()
        }
        _ => {
            let n = random.pick(&[2, 3, 20]);
            (0..cells).map(|_| random.once_in(n).into()).collect()
        }
    }
}
