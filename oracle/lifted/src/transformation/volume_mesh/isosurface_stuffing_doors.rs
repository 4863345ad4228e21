//! Ways in for the comparison: what `isosurface_stuffing.rs` keeps private.

use super::*;

/// `Lattice::covering`, as far as the plan has it (rule 2.3): origin, unit, dimensions.
pub fn lattice_over(aabb: Aabb, cell_size: Real) -> (Vector, Real, [i32; 3]) {
    let lattice = Lattice::covering(aabb, cell_size);
    (lattice.origin, lattice.half_cell, lattice.dims)
}

pub fn domain(aabb: Aabb, cell_size: Real) -> Aabb {
    super::domain(aabb, cell_size)
}

pub fn uniform_grid(aabb: Aabb, cell_size: Real) -> BackgroundGrid {
    super::uniform_grid(aabb, cell_size)
}

pub fn flood_fill_inside(
    oracle: &MeshOracle,
    points: &[Vector],
    grid_cells: &[[u32; 4]],
    crossing: &[bool],
) -> Vec<bool> {
    super::flood_fill_inside(oracle, points, grid_cells, crossing)
}

pub fn volume_of(pts: &[Vector], tet: [u32; 4]) -> Real {
    super::volume_of(pts, tet)
}

pub fn orient_tet(pts: &[Vector], tet: [u32; 4], min_volume: Real) -> Option<[u32; 4]> {
    super::orient_tet(pts, tet, min_volume)
}

/// `cover_grid` with the least volume that the published `tetrahedralize` hands it.
pub fn cover_grid(
    grid: BackgroundGrid,
    oracle: &MeshOracle,
    params: &VolumeMeshParameters,
) -> Option<VolumeMesh> {
    let cell_size = params.cell_size;
    super::cover_grid(
        grid,
        oracle,
        params,
        cell_size * cell_size * cell_size * 1.0e-6,
    )
}
