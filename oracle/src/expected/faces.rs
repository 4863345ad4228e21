//! The numbering by faces and one piece: a plain model, since the Rust has neither.

use super::components::count_of;
use super::mesh::Mesh;
use crate::library::Answer;
use std::collections::HashMap;
use std::hash::{BuildHasherDefault, Hasher};

/// A quick hash of a few numbers, as compilers use it.
#[derive(Default)]
struct Quick(u64);

impl Hasher for Quick {
    fn finish(&self) -> u64 {
        self.0 ^ self.0 >> 32
    }

    fn write(&mut self, bytes: &[u8]) {
        bytes.iter().for_each(|byte| self.write_u32((*byte).into()));
    }

    fn write_u32(&mut self, number: u32) {
        const FACTOR: u64 = 0x517c_c1b7_2722_0a95;
        self.0 = (self.0.rotate_left(5) ^ u64::from(number)).wrapping_mul(FACTOR);
    }

    fn write_usize(&mut self, _: usize) {}
}

/// Parents of cells, each at most its cell.
struct Joined(Vec<u32>);

impl Joined {
    fn apart(cells: usize) -> Self {
        Self((0..cells as u32).collect())
    }

    fn root(&mut self, mut cell: u32) -> u32 {
        while self.0[cell as usize] != cell {
            let up = self.0[self.0[cell as usize] as usize];
            self.0[cell as usize] = up;
            cell = up;
        }
        cell
    }

    fn join(&mut self, a: u32, b: u32) {
        let (a, b) = (self.root(a), self.root(b));
        self.0[a.max(b) as usize] = a.min(b);
    }

    /// The numbers of the cells by first appearance: a group's root is its first cell.
    fn numbers(mut self) -> Vec<u32> {
        let cells = self.0.len();
        let (mut numbers, mut count) = (vec![0; cells], 0);
        for cell in 0..cells {
            let root = self.root(cell as u32) as usize;
            if root == cell {
                numbers[cell] = count;
                count += 1;
            } else {
                numbers[cell] = numbers[root];
            }
        }
        numbers
    }
}

/// The numbers, each two cells looked at.
pub fn pairwise(cells: &[[u32; 4]]) -> Vec<u32> {
    let mut joined = Joined::apart(cells.len());
    for (b, other) in cells.iter().enumerate() {
        for (a, cell) in cells[..b].iter().enumerate() {
            if cell.iter().filter(|point| other.contains(point)).count() >= 3 {
                joined.join(a as u32, b as u32);
            }
        }
    }
    joined.numbers()
}

/// The same through a map from each face to a cell that has it.
pub fn mapped(cells: &[[u32; 4]]) -> Vec<u32> {
    let mut joined = Joined::apart(cells.len());
    let hasher = BuildHasherDefault::<Quick>::default();
    let mut seen = HashMap::with_capacity_and_hasher(2 * cells.len() + 1, hasher);
    for (at, cell) in cells.iter().enumerate() {
        let mut sorted = *cell;
        sorted.sort_unstable();
        let [a, b, c, d] = sorted;
        for face in [[a, b, c], [a, b, d], [a, c, d], [b, c, d]] {
            let first = *seen.entry(face).or_insert(at as u32);
            if first != at as u32 {
                joined.join(first, at as u32);
            }
        }
    }
    joined.numbers()
}

/// Up to so many cells each two are looked at.
const MOST_PAIRS: usize = 300;

/// The numbers of cells that name four points each.
pub fn numbers_of(mesh: Mesh) -> Vec<u32> {
    match mesh.quads() {
        cells if cells.len() <= MOST_PAIRS => pairwise(&cells),
        cells => mapped(&cells),
    }
}

/// Refusal 17.
fn names_twice(cell: &[u32; 4]) -> bool {
    (1..4).any(|b| cell[..b].contains(&cell[b]))
}

/// The number of the first refusal among 4, 5, 8 and 17, with 16·cells of work.
fn refusal(mesh: Mesh, work: &[u32]) -> Option<u32> {
    if mesh.too_large() {
        Some(4)
    } else if mesh.ragged() || work.len() < 16 * mesh.cell_count() {
        Some(5)
    } else if mesh.names_missing() {
        Some(8)
    } else if mesh.quads().iter().any(names_twice) {
        Some(17)
    } else {
        None
    }
}

/// The step `face_components`.
pub fn face_components(mesh: Mesh, numbers: &mut [u32], work: &mut [u32]) -> Answer {
    if let Some(number) = refusal(mesh, work) {
        return Answer::refused(number);
    }
    if numbers.len() < mesh.cell_count() {
        return Answer::short(mesh.cell_count(), 0);
    }
    let found = numbers_of(mesh);
    numbers[..found.len()].copy_from_slice(&found);
    work[..16 * mesh.cell_count()].fill(0);
    Answer::of(count_of(&found), 0, 0)
}

/// The step `one_piece`.
pub fn one_piece(mesh: Mesh, work: &mut [u32]) -> Answer {
    if let Some(number) = refusal(mesh, work) {
        return Answer::refused(number);
    }
    work[..16 * mesh.cell_count()].fill(0);
    let one = count_of(&numbers_of(mesh)) == 1;
    Answer::of(usize::from(one), 0, 0)
}
