//! The corners of a surface, numbered: those with the same coordinates are one.

use crate::stl::Facet;
use std::collections::HashMap;
use std::hash::{BuildHasherDefault, Hasher};

pub struct Corners {
    /// The corners of each triangle.
    pub of: Vec<[u32; 3]>,
    /// Where each corner stands.
    pub points: Vec<[f32; 3]>,
}

impl Corners {
    pub fn new(facets: &[Facet]) -> Self {
        let mut numbers: HashMap<(u64, u32), u32, BuildHasherDefault<Mixing>> = HashMap::default();
        let mut points = Vec::new();
        let mut number = |corner: [f32; 3]| {
            *numbers.entry(place(corner)).or_insert_with(|| {
                points.push(corner);
                points.len() as u32 - 1
            })
        };
        let of = facets.iter().map(|facet| facet.map(&mut number)).collect();
        Corners { of, points }
    }
}

/// A point's coordinates as bits, with one zero.
fn place(point: [f32; 3]) -> (u64, u32) {
    let [x, y, z] = point.map(|x| (x + 0.0).to_bits());
    (u64::from(x) << 32 | u64::from(y), z)
}

/// A quick hash of a few numbers. Parts are no attackers: the standard one takes four times as long.
#[derive(Default)]
pub struct Mixing(u64);

impl Hasher for Mixing {
    fn write(&mut self, bytes: &[u8]) {
        bytes.iter().for_each(|byte| self.write_u64(u64::from(*byte)));
    }

    fn write_u32(&mut self, number: u32) {
        self.write_u64(u64::from(number));
    }

    fn write_u64(&mut self, number: u64) {
        self.0 = (self.0.rotate_left(26) ^ number).wrapping_mul(0x9E37_79B9_7F4A_7C15);
    }

    fn finish(&self) -> u64 {
        self.0 ^ self.0 >> 32
    }
}

#[cfg(test)]
mod tests {
    use super::*;

    #[test]
    fn equal_coordinates_are_one_corner_and_so_are_both_zeros() {
        let corners = Corners::new(&[
            [[0.0; 3], [1.0, 0.0, 0.0], [0.0, 1.0, 0.0]],
            [[0.0, -0.0, 0.0], [0.0, 1.0, 0.0], [0.0, 0.0, 1.0]],
        ]);
        assert_eq!(corners.of, [[0, 1, 2], [0, 2, 3]]);
        assert_eq!(corners.points.len(), 4);
    }
}
