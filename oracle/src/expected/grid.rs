//! Grid: the lifted `background_grid` and `uniform_grid`.

use super::graded::graded;
use super::plan::{aabb, octree, plan, Refused};
use crate::library::{Answer, Bounds};
use lifted::transformation::volume_mesh::isosurface_stuffing::doors::{domain, uniform_grid};

/// A grid as it is answered (rule 5.3), in flat tables.
pub struct Grid {
    pub cells: Vec<u32>,
    pub triples: Vec<u32>,
    pub points: Vec<u32>,
}

impl Grid {
    pub fn cell_count(&self) -> usize {
        self.cells.len() / 4
    }

    pub fn vertex_count(&self) -> usize {
        self.triples.len() / 3
    }

    /// The lifted Rust's grid of a split table that passes refusals 1 to 7.
    pub fn lifted(bounds: &Bounds, c: f32, levels: u32, split: &[u8]) -> Self {
        let grid = match levels {
            0 => uniform_grid(domain(aabb(bounds), c), c),
            _ => octree(bounds, c, levels)
                .subdivided_by(split)
                .background_grid(),
        };
        Self {
            cells: grid.cells.as_flattened().to_vec(),
            triples: grid.coords.iter().flatten().map(|x| *x as u32).collect(),
            points: grid.points.iter().flat_map(|p| p.bits()).collect(),
        }
    }
}

/// The grid, or a refusal from 1 to 7: what does not depend on the room lent.
pub fn found(bounds: &Bounds, c: f32, levels: u32, split: &[u8]) -> Result<Grid, Refused> {
    let layout = plan(bounds, c, levels)?.layout;
    if split.len() != layout.len() {
        return Err(5.into());
    }
    if split.iter().any(|byte| *byte > 1) {
        return Err(6.into());
    }
    if !graded(&layout, split) {
        return Err(7.into());
    }
    Ok(Grid::lifted(bounds, c, levels, split))
}

/// The step, once the grid is found.
pub fn grid(
    found: &Result<Grid, Refused>,
    cells: &mut [u32],
    triples: &mut [u32],
    points: &mut [u32],
    work: &mut [u64],
) -> Answer {
    let grid = match found {
        Ok(grid) => grid,
        Err(refused) => return refused.answer(),
    };
    let (cell_count, vertex_count) = (grid.cell_count(), grid.vertex_count());
    if cells.len() / 4 < cell_count || work.len() < 4 * cell_count {
        return Answer::short(cell_count, 0);
    }
    work[..4 * cell_count].fill(0);
    if triples.len() / 3 < vertex_count || points.len() / 3 < vertex_count {
        return Answer::short(cell_count, vertex_count);
    }
    cells[..grid.cells.len()].copy_from_slice(&grid.cells);
    triples[..grid.triples.len()].copy_from_slice(&grid.triples);
    points[..grid.points.len()].copy_from_slice(&grid.points);
    Answer::of(cell_count, vertex_count, 0)
}
