//! Component numbers: the lifted `connected_components`.

use super::mesh::Mesh;
use crate::library::Answer;
use lifted::transformation::volume_mesh::VolumeMesh;

/// The lifted Rust's component numbers of a mesh whose cells name points that are there.
pub fn numbers_of(mesh: Mesh) -> Vec<u32> {
    let mesh = VolumeMesh {
        vertices: mesh.vectors(),
        cells: mesh.quads(),
    };
    mesh.connected_components()
}

/// How many numbers there are.
pub fn count_of(numbers: &[u32]) -> usize {
    numbers.iter().max().map_or(0, |last| *last as usize + 1)
}

/// The number of the first refusal among 4, 5 and 8, with 2·points of work.
pub fn refusal(mesh: Mesh, work: &[u32]) -> Option<u32> {
    if mesh.too_large() {
        Some(4)
    } else if mesh.ragged() || work.len() < 2 * mesh.point_count() {
        Some(5)
    } else if mesh.names_missing() {
        Some(8)
    } else {
        None
    }
}

/// The step `components`.
pub fn components(mesh: Mesh, numbers: &mut [u32], work: &mut [u32]) -> Answer {
    if let Some(number) = refusal(mesh, work) {
        return Answer::refused(number);
    }
    if numbers.len() < mesh.cell_count() {
        return Answer::short(mesh.cell_count(), 0);
    }
    let found = numbers_of(mesh);
    numbers[..found.len()].copy_from_slice(&found);
    work[..2 * mesh.point_count()].fill(0);
    Answer::of(count_of(&found), 0, 0)
}
