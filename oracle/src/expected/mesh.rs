//! What the steps on meshes have in common: refusals 4, 5 and 8, and the way to the lifted types.

use lifted::math::Vector;

/// The most points and the most cells.
pub const MOST: usize = 536_870_912;

/// Bit patterns of floats in flat tables, as a step is handed them.
#[derive(Copy, Clone)]
pub struct Mesh<'a> {
    pub points: &'a [u32],
    pub cells: &'a [u32],
}

impl<'a> Mesh<'a> {
    pub fn new(points: &'a [u32], cells: &'a [u32]) -> Self {
        Self { points, cells }
    }

    pub fn point_count(&self) -> usize {
        self.points.len() / 3
    }

    pub fn cell_count(&self) -> usize {
        self.cells.len() / 4
    }

    /// Refusal 4, tables counted in whole entries.
    pub fn too_large(&self) -> bool {
        self.point_count() > MOST || self.cell_count() > MOST
    }

    /// Refusal 5 of these two tables.
    pub fn ragged(&self) -> bool {
        !self.points.len().is_multiple_of(3) || !self.cells.len().is_multiple_of(4)
    }

    /// Refusal 8.
    pub fn names_missing(&self) -> bool {
        self.cells.iter().any(|v| *v as usize >= self.point_count())
    }

    pub fn vectors(&self) -> Vec<Vector> {
        let (points, _) = self.points.as_chunks::<3>();
        points.iter().map(|p| Vector::from_bits(*p)).collect()
    }

    pub fn quads(&self) -> Vec<[u32; 4]> {
        self.cells.as_chunks::<4>().0.to_vec()
    }
}

/// Refusal 6 of a table of answers.
pub fn above_one(answers: &[u8]) -> bool {
    answers.iter().any(|byte| *byte > 1)
}

/// The bits of a computed float: any NaN leaves as 7FC00000.
pub fn computed(x: f32) -> u32 {
    if x.is_nan() {
        0x7fc0_0000
    } else {
        x.to_bits()
    }
}
