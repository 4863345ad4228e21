//! The mesh file: a plain model of section 9 of docs/RULES.md, since the Rust has none.

use super::components::{numbers_of, refusal};
use super::mesh::Mesh;
use crate::library::Answer;

/// The file of a mesh whose cells name points that are there: three sections, each after its count.
pub fn encode(mesh: Mesh) -> Vec<u8> {
    let numbers = numbers_of(mesh);
    let sections = [
        (mesh.point_count(), mesh.points),
        (mesh.cell_count(), mesh.cells),
        (mesh.cell_count(), &numbers),
    ];
    let mut bytes = Vec::new();
    for (count, values) in sections {
        bytes.extend((count as u32).to_le_bytes());
        bytes.extend(values.iter().flat_map(|value| value.to_le_bytes()));
    }
    bytes
}

/// The step `write_mesh`.
pub fn write_mesh(mesh: Mesh, file: &mut [u8], work: &mut [u32]) -> Answer {
    written(mesh, file, work, encode)
}

/// A writer by its layout.
pub fn written(
    mesh: Mesh,
    file: &mut [u8],
    work: &mut [u32],
    encode: fn(Mesh) -> Vec<u8>,
) -> Answer {
    if let Some(number) = refusal(mesh, work) {
        return Answer::refused(number);
    }
    let bytes = encode(mesh);
    if file.len() < bytes.len() {
        return Answer::short(bytes.len(), 0);
    }
    file[..bytes.len()].copy_from_slice(&bytes);
    work[..2 * mesh.point_count()].fill(0);
    Answer::of(bytes.len(), 0, 0)
}

/// The three sections as they stand in a file, still to be judged.
pub struct Sections<'a> {
    pub points: &'a [u8],
    pub cells: &'a [u8],
    pub numbers: &'a [u8],
}

/// Takes a count and its section off the front.
fn section<'a>(file: &mut &'a [u8], entry: usize) -> Option<&'a [u8]> {
    let (count, rest) = file.split_first_chunk::<4>()?;
    let len = u32::from_le_bytes(*count) as usize * entry;
    let (section, rest) = rest.split_at_checked(len)?;
    *file = rest;
    Some(section)
}

/// Refusals 11 and 12.
fn sections(mut file: &[u8]) -> Result<Sections<'_>, u32> {
    let found = Sections {
        points: section(&mut file, 12).ok_or(11u32)?,
        cells: section(&mut file, 16).ok_or(11u32)?,
        numbers: section(&mut file, 4).ok_or(11u32)?,
    };
    if file.is_empty() {
        Ok(found)
    } else {
        Err(12)
    }
}

fn values(section: &[u8]) -> Vec<u32> {
    let (words, _) = section.as_chunks::<4>();
    words.iter().map(|word| u32::from_le_bytes(*word)).collect()
}

/// The step `read_mesh`.
pub fn read_mesh(file: &[u8], points: &mut [u32], cells: &mut [u32], work: &mut [u32]) -> Answer {
    match sections(file) {
        Err(number) => Answer::refused(number),
        Ok(sections) => {
            let (p, n) = (sections.points.len() / 12, sections.cells.len() / 16);
            if p > super::mesh::MOST || n > super::mesh::MOST {
                return Answer::refused(4);
            }
            let (found_points, found_cells) = (values(sections.points), values(sections.cells));
            let mesh = Mesh::new(&found_points, &found_cells);
            taken(mesh, &values(sections.numbers), points, cells, work)
        }
    }
}

/// What every reader does with a mesh that is not too large: refusals 8, 9, 13, or the answer.
pub fn taken(
    mesh: Mesh,
    numbers: &[u32],
    points: &mut [u32],
    cells: &mut [u32],
    work: &mut [u32],
) -> Answer {
    let (p, n) = (mesh.point_count(), mesh.cell_count());
    if mesh.names_missing() {
        return Answer::refused(8);
    }
    if points.len() / 3 < p || cells.len() / 4 < n || work.len() < 2 * p {
        return Answer::short(p, n);
    }
    work[..2 * p].fill(0);
    if numbers != numbers_of(mesh) {
        return Answer::refused(13);
    }
    points[..3 * p].copy_from_slice(mesh.points);
    cells[..4 * n].copy_from_slice(mesh.cells);
    Answer::of(p, n, 0)
}
