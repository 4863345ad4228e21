// From parry2d 0.31.1, src/bounding_volume/aabb.rs and bounding_volume.rs, Apache-2.0 (see
// LICENSE-APACHE): `Aabb` and `loosened`, the rest left out.

//! Axis Aligned Bounding Box.

use crate::math::{Real, Vector};

/// The one function of the published trait that the lifted code calls.
pub trait BoundingVolume {
    fn loosened(&self, amount: Real) -> Self;
}

#[derive(Debug, Copy, Clone)]
pub struct Aabb {
    pub mins: Vector,
    pub maxs: Vector,
}

impl Aabb {
    pub fn new(mins: Vector, maxs: Vector) -> Aabb {
        Aabb { mins, maxs }
    }
}

impl BoundingVolume for Aabb {
    #[inline]
    fn loosened(&self, amount: Real) -> Aabb {
        assert!(amount >= 0.0, "The loosening margin must be non-negative.");
        Aabb {
            mins: self.mins + Vector::splat(-amount),
            maxs: self.maxs + Vector::splat(amount),
        }
    }
}
