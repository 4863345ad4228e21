//! The C boundary, as include/sporeferry.h declares it.

#[path = "../../host/src/boundary.rs"]
mod boundary;

pub use boundary::*;

/// `sf_bounds`.
#[repr(C)]
#[derive(Copy, Clone, Debug)]
pub struct Bounds {
    pub min: [f32; 3],
    pub max: [f32; 3],
}

/// `sf_planned`.
#[repr(C)]
#[derive(Copy, Clone, Debug, Default)]
pub struct Planned {
    pub number: u32,
    pub value: u32,
    pub origin: [f32; 3],
    pub half: f32,
    pub dims: [u32; 3],
    pub octants: u32,
}

/// `sf_answer`.
#[repr(C)]
#[derive(Copy, Clone, Debug, Default, PartialEq, Eq)]
pub struct Answer {
    pub number: u32,
    pub first: u64,
    pub second: u64,
    pub third: u64,
}

/// `sf_totals`.
#[repr(C)]
#[derive(Copy, Clone, Debug, Default, PartialEq, Eq)]
pub struct Totals {
    pub cells: u64,
    pub kept: u64,
    pub dropped: u64,
    pub sixfold_kept: u64,
    pub sixfold_all: u64,
}

/// `sf_covered`.
#[repr(C)]
#[derive(Copy, Clone, Debug, Default, PartialEq, Eq)]
pub struct Added {
    pub number: u32,
    pub totals: Totals,
}

impl PartialEq for Planned {
    /// Bit for bit: −0 is not 0.
    fn eq(&self, other: &Self) -> bool {
        let bits = |p: &Self| (p.origin.map(f32::to_bits), p.half.to_bits());
        (self.number, self.value, self.dims, self.octants)
            == (other.number, other.value, other.dims, other.octants)
            && bits(self) == bits(other)
    }
}

impl Answer {
    /// An answer with its values.
    pub fn of(first: usize, second: usize, third: usize) -> Self {
        Self {
            number: 0,
            first: first as u64,
            second: second as u64,
            third: third as u64,
        }
    }

    /// A refusal that carries its number only.
    pub fn refused(number: u32) -> Self {
        Self {
            number,
            ..Self::default()
        }
    }

    /// A 9 with the counts needed.
    pub fn short(first: usize, second: usize) -> Self {
        Self {
            number: 9,
            ..Self::of(first, second, 0)
        }
    }
}
