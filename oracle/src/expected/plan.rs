//! Plan: the operations of rules 2.2 to 2.8 in their order, tied to the heads of the lifted functions.

use crate::library::{Answer, Bounds, Planned};
use lifted::bounding_volume::Aabb;
use lifted::lent::Layout;
use lifted::math::Vector;
use lifted::transformation::volume_mesh::cover_octree::doors::{octree_over, Tree};
use lifted::transformation::volume_mesh::isosurface_stuffing::doors::{domain, lattice_over};
use lifted::transformation::volume_mesh::VolumeMeshParameters;

pub const MOST_LEVELS: u32 = 5;
pub const MOST_OCTREE_DIM: f32 = 64.0;
pub const MOST_LATTICE_DIM: f32 = 128.0;
pub const MOST_OCTANTS: usize = 1_048_576;

#[derive(Copy, Clone, Debug)]
pub struct Plan {
    pub origin: [f32; 3],
    pub half: f32,
    pub layout: Layout,
}

/// What a 4 names where only the octants are too many: rule R2.1.
pub const OCTANTS: u32 = 3;

/// Why there is no plan: the number, and for a 4 what it names, the first axis at fault or [`OCTANTS`].
#[derive(Copy, Clone, Debug, PartialEq, Eq)]
pub struct Refused {
    pub number: u32,
    pub names: u32,
}

impl Refused {
    fn too_large(names: u32) -> Self {
        Self { number: 4, names }
    }

    /// As refine and grid hand it up.
    pub fn answer(self) -> Answer {
        Answer {
            first: self.names.into(),
            ..Answer::refused(self.number)
        }
    }
}

/// A refusal that names nothing.
impl From<u32> for Refused {
    fn from(number: u32) -> Self {
        Self { number, names: 0 }
    }
}

/// One axis of a plan: its origin and its dimension; `None` for refusal 4.
fn axis(min: f32, max: f32, c: f32, levels: u32, half: f32) -> Option<(f32, i32)> {
    let (low, high) = (min + (-c), max + c);
    let lattice = levels == 0;
    let margin = if lattice { c } else { c * 2.0 };
    let origin = low - margin;
    let extent = (high - low) + margin * 2.0;
    if ![low, high, origin, extent].iter().all(|x| x.is_finite()) {
        return None;
    }
    let (unit, least, most) = match lattice {
        true => (half, 2.0, MOST_LATTICE_DIM),
        false => (c, 1.0, MOST_OCTREE_DIM),
    };
    let dim = (extent / unit).ceil().max(least);
    let far = if lattice {
        dim
    } else {
        dim * (2 << levels) as f32
    };
    (dim <= most && (origin + far * half).is_finite()).then_some((origin, dim as i32))
}

pub fn unit(c: f32, levels: u32) -> f32 {
    match levels {
        0 => c * 0.5,
        _ => (c / (1 << levels) as f32) * 0.5,
    }
}

/// The plan, or why there is none.
pub fn plan(bounds: &Bounds, c: f32, levels: u32) -> Result<Plan, Refused> {
    if !(c > 0.0 && c.is_finite()) {
        return Err(1.into());
    }
    let finite = bounds.min.iter().chain(&bounds.max).all(|x| x.is_finite());
    if !finite || (0..3).any(|k| bounds.min[k] > bounds.max[k]) {
        return Err(2.into());
    }
    if levels > MOST_LEVELS {
        return Err(3.into());
    }
    let half = unit(c, levels);
    let mut plan = Plan {
        origin: [0.0; 3],
        half,
        layout: Layout {
            levels,
            dims: [0; 3],
        },
    };
    for k in 0..3 {
        let found = axis(bounds.min[k], bounds.max[k], c, levels, half);
        (plan.origin[k], plan.layout.dims[k]) = found.ok_or(Refused::too_large(k as u32))?;
    }
    if plan.layout.len() > MOST_OCTANTS {
        return Err(Refused::too_large(OCTANTS));
    }
    same_as_lifted(&plan, bounds, c);
    Ok(plan)
}

/// The model and the lifted Rust must agree on every plan that is accepted.
fn same_as_lifted(plan: &Plan, bounds: &Bounds, c: f32) {
    let levels = plan.layout.levels;
    let (origin, half, dims) = if levels == 0 {
        lattice_over(domain(aabb(bounds), c), c)
    } else {
        let tree = octree(bounds, c, levels);
        (tree.origin(), tree.half(), tree.layout().dims)
    };
    let bits = plan.origin.map(f32::to_bits);
    let same =
        (bits, plan.half.to_bits(), plan.layout.dims) == (origin.bits(), half.to_bits(), dims);
    assert!(
        same,
        "the model of the plan parts from the lifted Rust: {bounds:?}, {c}, {levels}"
    );
}

pub fn aabb(bounds: &Bounds) -> Aabb {
    let vector = |v: [f32; 3]| Vector::new(v[0], v[1], v[2]);
    Aabb::new(vector(bounds.min), vector(bounds.max))
}

pub fn parameters(c: f32, levels: u32) -> VolumeMeshParameters {
    VolumeMeshParameters {
        cover_subdivisions: levels,
        ..VolumeMeshParameters::new(c)
    }
}

/// The lifted octree of a plan, nothing subdivided.
pub fn octree(bounds: &Bounds, c: f32, levels: u32) -> Tree {
    octree_over(domain(aabb(bounds), c), &parameters(c, levels))
}

/// The step.
pub fn planned(bounds: &Bounds, c: f32, levels: u32) -> Planned {
    match plan(bounds, c, levels) {
        Err(refused) => Planned {
            number: refused.number,
            value: refused.names,
            ..Planned::default()
        },
        Ok(plan) => Planned {
            number: 0,
            value: 0,
            origin: plan.origin,
            half: plan.half,
            dims: plan.layout.dims.map(|d| d as u32),
            octants: plan.layout.len() as u32,
        },
    }
}
