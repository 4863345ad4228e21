//! For tests: random numbers, the same in every run, and small solids.

use crate::stl::Facet;
use crate::surface::Surface;
use crate::vector::{cross, dot, length, sub, Point, Triangle};
use std::f64::consts::PI;

/// A tetrahedron with its right angles at a place, turned outwards.
pub fn tetrahedron(at: Point, size: f32) -> Vec<Facet> {
    let corners = [[0.0; 3], [1.0, 0.0, 0.0], [0.0, 1.0, 0.0], [0.0, 0.0, 1.0]];
    let placed = |n: usize| std::array::from_fn(|axis| at[axis] as f32 + size * corners[n][axis]);
    [[0, 2, 1], [0, 1, 3], [0, 3, 2], [1, 2, 3]].map(|face: [usize; 3]| face.map(placed)).to_vec()
}

/// The surface turned inside out.
pub fn turned(facets: &[Facet]) -> Vec<Facet> {
    facets.iter().map(|[a, b, c]| [*a, *c, *b]).collect()
}

/// The winding number by its definition: the solid angles of all triangles, over a whole turn.
pub fn solid_angles(surface: &Surface, point: Point) -> f64 {
    let all = 0..surface.facets().len();
    all.map(|n| solid_angle(&surface.triangle(n), point)).sum::<f64>() / (4.0 * PI)
}

/// The solid angle of a triangle seen from a point, with its sign (Van Oosterom and Strackee).
fn solid_angle(triangle: &Triangle, from: Point) -> f64 {
    let [a, b, c] = triangle.map(|corner| sub(corner, from));
    let (la, lb, lc) = (length(a), length(b), length(c));
    let cosines = la * lb * lc + dot(a, b) * lc + dot(b, c) * la + dot(c, a) * lb;
    2.0 * dot(a, cross(b, c)).atan2(cosines)
}

pub struct Random(u64);

impl Random {
    pub fn new(seed: u64) -> Self {
        Random(seed.wrapping_mul(0x9E37_79B9_7F4A_7C15) | 1)
    }

    /// A number from `low` to `high`.
    pub fn between(&mut self, low: f64, high: f64) -> f64 {
        self.0 ^= self.0 << 13;
        self.0 ^= self.0 >> 7;
        self.0 ^= self.0 << 17;
        low + (high - low) * (self.0 >> 11) as f64 / (1u64 << 53) as f64
    }

    pub fn point(&mut self, low: f64, high: f64) -> Point {
        std::array::from_fn(|_| self.between(low, high))
    }

    /// Two weights of a point in a triangle.
    pub fn barycentric(&mut self) -> (f64, f64) {
        let (u, v) = (self.between(0.0, 1.0), self.between(0.0, 1.0));
        if u + v <= 1.0 {
            (u, v)
        } else {
            (1.0 - u, 1.0 - v)
        }
    }
}
