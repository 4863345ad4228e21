//! Representatives and keeping: the lifted `flood_fill_inside`, `cover_grid` and `compact`.

use super::mesh::{above_one, computed, Mesh};
use super::plan::parameters;
use crate::library::Answer;
use lifted::lent::MeshOracle;
use lifted::math::Vector;
use lifted::transformation::volume_mesh::isosurface_stuffing::doors::{
    cover_grid, flood_fill_inside, orient_tet,
};
use lifted::transformation::volume_mesh::isosurface_stuffing::BackgroundGrid;
use lifted::transformation::volume_mesh::{MeshEnclosure, VolumeMeshParameters};

/// Which cells lie inside, and which were probed, each with its centroid, ascending by number.
fn flooded(mesh: Mesh, crossing: &[u8], probe: &[u8]) -> (Vec<bool>, Vec<(u32, Vector)>) {
    let oracle = MeshOracle::of_cells(crossing, probe);
    let crossed: Vec<bool> = crossing.iter().map(|byte| *byte == 1).collect();
    let inside = flood_fill_inside(&oracle, &mesh.vectors(), &mesh.quads(), &crossed);
    let mut asked = oracle.asked.into_inner();
    asked.sort_by_key(|(cell, _)| *cell);
    (inside, asked)
}

/// The representative list, as the lifted Rust asks its probes.
pub fn representatives_of(mesh: Mesh, crossing: &[u8]) -> Vec<(u32, Vector)> {
    flooded(mesh, crossing, &[]).1
}

/// The step `representatives`.
pub fn representatives(
    mesh: Mesh,
    crossing: &[u8],
    numbers: &mut [u32],
    centroids: &mut [u32],
    work: &mut [u32],
) -> Answer {
    let need = mesh.cell_count() + mesh.point_count();
    if mesh.too_large() {
        return Answer::refused(4);
    }
    if mesh.ragged() || crossing.len() != mesh.cell_count() || work.len() < need {
        return Answer::refused(5);
    }
    if above_one(crossing) {
        return Answer::refused(6);
    }
    if mesh.names_missing() {
        return Answer::refused(8);
    }
    let list = representatives_of(mesh, crossing);
    work[..need].fill(0);
    if numbers.len() < list.len() || centroids.len() / 3 < list.len() {
        return Answer::short(list.len(), 0);
    }
    for (at, (cell, centroid)) in list.iter().enumerate() {
        numbers[at] = *cell;
        let bits = [centroid.x, centroid.y, centroid.z].map(computed);
        centroids[3 * at..3 * at + 3].copy_from_slice(&bits);
    }
    Answer::of(list.len(), 0, 0)
}

/// What keeping answers.
pub struct Kept {
    pub points: Vec<u32>,
    pub cells: Vec<u32>,
    pub dropped: usize,
}

/// The lifted Rust's mesh, `None` where nothing is kept. A `probe` of `None` is Crust. The dropped
/// are the marked cells that the Rust leaves out.
pub fn kept(c: f32, mesh: Mesh, crossing: &[u8], probe: Option<&[u8]>) -> Option<Kept> {
    let (enclosure, answers) = match probe {
        Some(probe) => (MeshEnclosure::Cover, probe),
        None => (MeshEnclosure::Crust, &[][..]),
    };
    let grid = BackgroundGrid {
        points: mesh.vectors(),
        cells: mesh.quads(),
        coords: Vec::new(),
    };
    let parameters = VolumeMeshParameters {
        enclosure,
        ..parameters(c, 0)
    };
    let found = cover_grid(grid, &MeshOracle::of_cells(crossing, answers), &parameters)?;
    Some(Kept {
        points: found.vertices.iter().flat_map(|p| p.bits()).collect(),
        dropped: marked(mesh, crossing, probe) - found.cells.len(),
        cells: found.cells.into_flattened(),
    })
}

/// How many cells are crossing or, in Cover, inside.
fn marked(mesh: Mesh, crossing: &[u8], probe: Option<&[u8]>) -> usize {
    let crossed = crossing.iter().filter(|byte| **byte == 1).count();
    let inside = probe.map_or(0, |probe| {
        let (inside, _) = flooded(mesh, crossing, probe);
        inside.iter().filter(|is_inside| **is_inside).count()
    });
    crossed + inside
}

/// The steps `keep_cover` (with a probe table) and `keep_crust` (without).
pub fn keep(
    c: f32,
    mesh: Mesh,
    crossing: &[u8],
    probe: Option<&[u8]>,
    kept_points: &mut [u32],
    kept_cells: &mut [u32],
    work: &mut [u32],
) -> Answer {
    let need = mesh.cell_count() + 2 * mesh.point_count();
    if !(c > 0.0 && c.is_finite()) {
        return Answer::refused(1);
    }
    if mesh.too_large() {
        return Answer::refused(4);
    }
    let one_each = |answers: &[u8]| answers.len() == mesh.cell_count();
    if mesh.ragged() || !one_each(crossing) || !probe.is_none_or(one_each) || work.len() < need {
        return Answer::refused(5);
    }
    if above_one(crossing) || probe.is_some_and(above_one) {
        return Answer::refused(6);
    }
    if mesh.names_missing() {
        return Answer::refused(8);
    }
    work[..need].fill(0);
    match kept(c, mesh, crossing, probe) {
        Some(kept) => stored(&kept, kept_points, kept_cells),
        None => Answer::refused(10),
    }
}

fn stored(kept: &Kept, points: &mut [u32], cells: &mut [u32]) -> Answer {
    let (point_count, cell_count) = (kept.points.len() / 3, kept.cells.len() / 4);
    if points.len() / 3 < point_count || cells.len() / 4 < cell_count {
        return Answer::short(point_count, cell_count);
    }
    points[..kept.points.len()].copy_from_slice(&kept.points);
    cells[..kept.cells.len()].copy_from_slice(&kept.cells);
    Answer::of(point_count, cell_count, kept.dropped)
}

/// The step `marks`: which cells the Rust marks, and which of them it leaves out.
pub fn marks(
    c: f32,
    mesh: Mesh,
    crossing: &[u8],
    probe: &[u8],
    marks: &mut [u8],
    work: &mut [u32],
) -> Answer {
    let (cells, need) = (mesh.cell_count(), mesh.cell_count() + mesh.point_count());
    if !(c > 0.0 && c.is_finite()) {
        return Answer::refused(1);
    }
    if mesh.too_large() {
        return Answer::refused(4);
    }
    if mesh.ragged() || crossing.len() != cells || probe.len() != cells || work.len() < need {
        return Answer::refused(5);
    }
    if above_one(crossing) || above_one(probe) {
        return Answer::refused(6);
    }
    if mesh.names_missing() {
        return Answer::refused(8);
    }
    work[..need].fill(0);
    if marks.len() < cells {
        return Answer::short(cells, 0);
    }
    let (inside, _) = flooded(mesh, crossing, probe);
    let (points, least) = (mesh.vectors(), c * c * c * 1.0e-6);
    for (at, cell) in mesh.quads().into_iter().enumerate() {
        let is_marked = crossing[at] == 1 || inside[at];
        marks[at] = match orient_tet(&points, cell, least) {
            _ if !is_marked => 0,
            Some(_) => 1,
            None => 2,
        };
    }
    let count = |kind: u8| marks[..cells].iter().filter(|mark| **mark == kind).count();
    Answer::of(count(1), count(2), 0)
}
