//! Boxes, cell sizes and levels: ordinary ones, those at the limits, and those of odd floats.

use crate::calls::PlanCall;
use crate::expected::plan::{plan, Plan, OCTANTS};
use crate::library::Bounds;
use crate::random::{nudged, Random};

fn call(min: [f32; 3], max: [f32; 3], c: f32, levels: u32) -> PlanCall {
    PlanCall {
        bounds: Bounds { min, max },
        c,
        levels,
    }
}

/// A box from its low corner and its sides.
fn sided(low: [f32; 3], sides: [f32; 3], c: f32, levels: u32) -> PlanCall {
    call(low, std::array::from_fn(|k| low[k] + sides[k]), c, levels)
}

fn levels(random: &mut Random) -> u32 {
    match random.below(40) {
        0 => 7,
        1 => u32::MAX,
        2..=4 => 6,
        _ => random.below(6) as u32,
    }
}

fn ordinary(random: &mut Random) -> PlanCall {
    let c = random.sized(-3.0, 3.0);
    let reach = random.pick(&[0.0, 10.0, 1000.0, 1.0e7]);
    let low = [(); 3].map(|_| (c as f64 * reach * (2.0 * random.unit() - 1.0)) as f32);
    let most = random.pick(&[0.0, 1.0, 20.0, 70.0]);
    let sides = [(); 3].map(|_| (c as f64 * most * random.unit()) as f32);
    let levels = levels(random);
    sided(low, sides, c, levels)
}

/// The side that gives `dim` where nothing is rounded.
fn side(dim: i64, c: f32, levels: u32) -> f32 {
    match levels {
        0 => (dim - 8) as f32 * (c * 0.5),
        _ => (dim - 6) as f32 * c,
    }
}

/// One axis within a last place or two of the dimension bound.
fn at_dimension_bound(random: &mut Random) -> PlanCall {
    let levels = random.below(3) as u32;
    let dims: [i64; 3] = if levels == 0 {
        [127, 128, 129]
    } else {
        [63, 64, 65]
    };
    let c = match random.below(2) {
        0 => random.pick(&[0.25, 1.0, 3.0, 1024.0, 1.0e-30, 1.0e30]),
        _ => random.sized(-3.0, 3.0),
    };
    let mut sides = [0.0; 3];
    sides[random.below(3)] = nudged(side(random.pick(&dims), c, levels), random.between(-3, 3));
    let low = match random.below(3) {
        0 => [(); 3].map(|_| random.sized(-2.0, 2.0) * c),
        _ => [0.0; 3],
    };
    sided(low, sides, c, levels)
}

/// Dimensions whose octants are about as many as the bound allows.
fn at_octant_bound(random: &mut Random) -> PlanCall {
    let levels = random.between(2, 5) as u32;
    let roots = 1_048_576.0 / ((8f64.powi(levels as i32) - 1.0) / 7.0);
    let x = random.between(6, 16.min((roots / 36.0) as i64).max(6));
    let y = random.between(6, 64.min((roots / (6 * x) as f64) as i64).max(6));
    let z = (roots / (x * y) as f64) as i64 + random.between(-1, 1);
    let c = random.pick(&[0.5, 1.0, 4.0]);
    let sides = [x, y, z].map(|dim| side(dim.max(6), c, levels));
    sided([0.0; 3], sides, c, levels)
}

/// An ordinary call with some floats replaced.
fn with_specials(random: &mut Random) -> PlanCall {
    let mut odd = ordinary(random);
    for _ in 0..1 + random.below(3) {
        let value = random.special();
        match random.below(7) {
            0 => odd.c = value,
            at => odd.bounds.min[(at - 1) / 2] = value,
        }
        if random.once_in(2) {
            odd.bounds.max[random.below(3)] = random.special();
        }
    }
    odd
}

fn any_bits(random: &mut Random) -> PlanCall {
    let mut float = || f32::from_bits(random.bits());
    let (min, max, c) = (
        [(); 3].map(|_| float()),
        [(); 3].map(|_| float()),
        float().abs(),
    );
    let levels = levels(random);
    call(min, max, c, levels)
}

/// Near the greatest float, where a bound, the extent or the far corner alone overflows.
fn near_greatest(random: &mut Random) -> PlanCall {
    let c = match random.below(3) {
        0 => random.pick(&[1.0e36, 5.6e37, 2.0e31, f32::MAX / 4.0, f32::MAX / 8.0]),
        _ => f32::from_bits(0x7400_0000 + random.bits() % 0x0b80_0000),
    };
    let mut float = || f32::MAX * (1.0 - c / f32::MAX * random.between(0, 8) as f32);
    let top = [(); 3].map(|_| float());
    let sign = if random.once_in(2) { 1.0 } else { -1.0 };
    let at = top.map(|x| x * sign);
    let levels = random.below(6) as u32;
    match random.below(3) {
        0 => call(at, at, c, levels),
        1 => sided([0.0; 3], top.map(|x| x * 0.02), c, levels),
        _ => {
            let mut one = [0.0; 3];
            one[random.below(3)] = nudged(sign * f32::MAX, -random.between(0, 4));
            call(one, one, c, levels)
        }
    }
}

/// Boxes so far off that points coincide, and cells so small that they are subnormal.
fn coinciding(random: &mut Random) -> PlanCall {
    let levels = random.below(6) as u32;
    if random.once_in(2) {
        let c = random.pick(&[0.5, 1.0, 2.0, 3.0]);
        let low = [(); 3].map(|_| 1.0e8 * (1.0 + random.below(3) as f32));
        return sided(low, [0.0; 3], c, levels);
    }
    let c = f32::from_bits(1 + random.bits() % 64);
    let low = [(); 3].map(|_| f32::from_bits(random.bits() % 128));
    let sides = [(); 3].map(|_| f32::from_bits(random.bits() % 256));
    sided(low, sides, c, levels)
}

/// A side along which a plan does not fit: a little or far too long, or one whose extent or bounds run past the floats.
fn at_fault(random: &mut Random, c: f32, levels: u32) -> [f32; 2] {
    let most = if levels == 0 { 128 } else { 64 };
    let by = random.pick(&[2, 3, 9, 1000, 1_000_000]);
    match random.below(4) {
        0 | 1 => [0.0, side(most + by, c, levels).min(f32::MAX)],
        2 => [-0.75 * f32::MAX, 0.75 * f32::MAX],
        _ if c >= 1.0e36 => [random.pick(&[-f32::MAX, f32::MAX]); 2],
        _ => [-f32::MAX, -f32::MAX + f32::MAX / 4.0],
    }
}

/// A plan that is refused with 4, by the axes chosen here or by the octants alone, and what it must name.
pub fn too_large(random: &mut Random) -> (PlanCall, u32) {
    let faults: [bool; 3] = std::array::from_fn(|_| random.once_in(2));
    let first = faults.iter().position(|fault| *fault);
    let levels = match first {
        Some(_) => random.below(6) as u32,
        None => random.between(2, 5) as u32,
    };
    let c = random.pick(&[0.25, 1.0, 3.0, 1.0e-30, 1.0e30, 1.0e36]);
    // dimensions of this and more have too many octants
    let least = [6, 6, 50, 26, 14, 8][levels as usize];
    let mut ends = [[0.0; 2]; 3];
    for (axis, fault) in faults.into_iter().enumerate() {
        ends[axis] = match (fault, first) {
            (true, _) => at_fault(random, c, levels),
            (false, Some(_)) => [0.0, c * random.below(30) as f32],
            (false, None) => [0.0, side(random.between(least, 63), c, levels)],
        };
    }
    let call = call(
        ends.map(|[low, _]| low),
        ends.map(|[_, high]| high),
        c,
        levels,
    );
    (call, first.map_or(OCTANTS, |axis| axis as u32))
}

/// Any call of plan.
pub fn any(random: &mut Random) -> PlanCall {
    match random.below(10) {
        0..=2 => ordinary(random),
        3 => at_dimension_bound(random),
        4 => at_octant_bound(random),
        5 | 6 => with_specials(random),
        7 => any_bits(random),
        8 => near_greatest(random),
        _ => coinciding(random),
    }
}

/// An accepted call of the levels given, with few roots, and its plan.
pub fn small(random: &mut Random, levels: u32) -> (PlanCall, Plan) {
    let most = if levels == 0 { 8.0 } else { 3.0 };
    loop {
        let mut small = match random.below(8) {
            0 => coinciding(random),
            1 => near_greatest(random),
            _ => {
                let c = random.sized(-2.0, 2.0);
                let low = [(); 3].map(|_| c * random.between(-9, 9) as f32);
                let sides = [(); 3].map(|_| (c as f64 * most * random.unit()) as f32);
                sided(low, sides, c, levels)
            }
        };
        small.levels = levels;
        if let Ok(plan) = plan(&small.bounds, small.c, levels) {
            let roots: i32 = plan.layout.dims.iter().product();
            if roots <= if levels == 0 { 20 * 20 * 20 } else { 9 * 9 * 9 } {
                return (small, plan);
            }
        }
    }
}

/// Levels of an octree, deep ones seldom: the lifted `balance` takes its time.
pub fn octree_levels(random: &mut Random) -> u32 {
    random.pick(&[1, 1, 1, 1, 1, 1, 2, 2, 2, 2, 2, 2, 3, 3, 3, 3, 3, 4, 4, 5])
}

/// A call that one of 1 to 4 refuses.
pub fn refused(random: &mut Random) -> PlanCall {
    loop {
        let call = any(random);
        if plan(&call.bounds, call.c, call.levels).is_err() {
            return call;
        }
    }
}
