//! Stands in for glam: a vector of three f32 with the scalar semantics of glam's `Vec3`, each
//! operation rounded once, in glam's order, nothing fused.

use std::iter::Sum;
use std::ops::{Add, Div, Index, Mul, Sub};

/// The scalar of the lifted code.
pub type Real = f32;

/// The dimension of the space.
pub const DIM: usize = 3;

/// glam's `Vec3`, as far as the lifted code uses it.
#[derive(Copy, Clone, Debug, Default)]
pub struct Vector {
    pub x: Real,
    pub y: Real,
    pub z: Real,
}

impl Vector {
    pub const fn new(x: Real, y: Real, z: Real) -> Self {
        Self { x, y, z }
    }

    pub const fn splat(v: Real) -> Self {
        Self::new(v, v, v)
    }

    pub fn dot(self, rhs: Self) -> Real {
        (self.x * rhs.x) + (self.y * rhs.y) + (self.z * rhs.z)
    }

    pub fn cross(self, rhs: Self) -> Self {
        Self {
            x: self.y * rhs.z - rhs.y * self.z,
            y: self.z * rhs.x - rhs.z * self.x,
            z: self.x * rhs.y - rhs.x * self.y,
        }
    }

    /// The bit patterns of the three coordinates.
    pub fn bits(self) -> [u32; 3] {
        [self.x.to_bits(), self.y.to_bits(), self.z.to_bits()]
    }

    /// The vector of three bit patterns.
    pub fn from_bits(bits: [u32; 3]) -> Self {
        let [x, y, z] = bits.map(f32::from_bits);
        Self { x, y, z }
    }
}

impl Add for Vector {
    type Output = Self;
    fn add(self, rhs: Self) -> Self {
        Self::new(self.x + rhs.x, self.y + rhs.y, self.z + rhs.z)
    }
}

impl Sub for Vector {
    type Output = Self;
    fn sub(self, rhs: Self) -> Self {
        Self::new(self.x - rhs.x, self.y - rhs.y, self.z - rhs.z)
    }
}

impl Mul<Real> for Vector {
    type Output = Self;
    fn mul(self, rhs: Real) -> Self {
        Self::new(self.x * rhs, self.y * rhs, self.z * rhs)
    }
}

impl Div<Real> for Vector {
    type Output = Self;
    fn div(self, rhs: Real) -> Self {
        Self::new(self.x / rhs, self.y / rhs, self.z / rhs)
    }
}

impl Sum for Vector {
    /// From zero, in order.
    fn sum<I: Iterator<Item = Self>>(iter: I) -> Self {
        iter.fold(Self::splat(0.0), Self::add)
    }
}

impl Index<usize> for Vector {
    type Output = Real;
    fn index(&self, k: usize) -> &Real {
        match k {
            0 => &self.x,
            1 => &self.y,
            2 => &self.z,
            _ => panic!("index out of bounds"),
        }
    }
}
