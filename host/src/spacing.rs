//! Whether a grid's vertices stand apart as they should: far from the origin 32-bit floats are sparse.

use crate::plan::Plan;
use crate::refusal::AXES;
use std::fmt;

/// The least and the greatest step from a vertex to the next along an axis, over all axes. They are the unit, but for
/// what rounding adds and takes.
#[derive(Clone, Copy, Debug, PartialEq)]
pub struct Steps {
    pub least: f32,
    pub greatest: f32,
}

/// A grid with steps shorter than half a unit: its cells would be flat or gone.
#[derive(Clone, Copy, Debug, PartialEq)]
pub struct TooFar {
    pub unit: f32,
    /// The axis, the coordinate there and how far apart 32-bit floats are near it.
    pub axis: usize,
    pub at: f32,
    pub apart: f32,
}

impl fmt::Display for TooFar {
    fn fmt(&self, f: &mut fmt::Formatter<'_>) -> fmt::Result {
        let TooFar { unit, axis, at, apart } = self;
        let name = AXES[*axis];
        write!(
            f,
            "the part stands too far from the origin for this grid: near {name} = {at} 32-bit floats are {apart} apart, \
             and the grid's unit is {unit}; move the part nearer (--move-to-origin does), or take a larger cell \
             (--allow-dropped goes on, without the cells that are flat)"
        )
    }
}

impl Steps {
    pub fn of(plan: &Plan) -> Self {
        let mut steps = Steps { least: plan.half(), greatest: plan.half() };
        for (axis, far) in plan.far().into_iter().enumerate() {
            let place = |v: u32| plan.point([v; 3])[axis];
            for v in 0..far {
                let step = place(v + 1) - place(v);
                steps.least = steps.least.min(step);
                steps.greatest = steps.greatest.max(step);
            }
        }
        steps
    }

    /// An error if they are too short. It names the coordinate of the domain that is farthest from 0.
    pub fn check(&self, plan: &Plan) -> Result<(), TooFar> {
        if self.least >= 0.5 * plan.half() {
            return Ok(());
        }
        let ends = [plan.origin(), plan.point(plan.far())];
        let places = (0..3).flat_map(|axis| ends.map(|end| (axis, end[axis])));
        let farthest = places.max_by(|(_, one), (_, other)| one.abs().total_cmp(&other.abs()));
        let (axis, at) = farthest.unwrap_or_default();
        Err(TooFar { unit: plan.half(), axis, at, apart: at.abs() - at.abs().next_down() })
    }
}

#[cfg(test)]
mod tests {
    use super::*;
    use crate::plan::Bounds;

    fn at(place: f32) -> Result<Steps, TooFar> {
        let bounds = Bounds { min: [0.0, place, 0.0], max: [20.0, place + 20.0, 20.0] };
        let plan = Plan::new(bounds, 2.0, 2).unwrap();
        let steps = Steps::of(&plan);
        steps.check(&plan).map(|()| steps)
    }

    #[test]
    fn steps_are_the_unit_until_floats_are_sparse() {
        assert_eq!(at(0.0), Ok(Steps { least: 0.25, greatest: 0.25 }));
        assert_eq!(at(1e6), Ok(Steps { least: 0.25, greatest: 0.25 }));
        let far = at(-1e7).unwrap_err();
        assert_eq!((far.unit, far.axis, far.apart), (0.25, 1, 1.0));
        assert!(far.to_string().contains("near y = -1000000"), "{far}");
    }
}
