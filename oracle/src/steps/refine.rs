//! Refine: random plans and crossing answers, wrong lengths, bytes above 1.

use super::rooms::{lengths, resized};
use super::{boxes, crossings, Sizes};
use crate::calls::{compare, PlanCall, RefineCall};
use crate::lent::Lent;
use crate::library::Bounds;
use crate::random::Random;
use crate::report::Report;

pub fn call(random: &mut Random, plan: &PlanCall, crossing: &[u8], split_len: usize) -> RefineCall {
    RefineCall {
        plan: plan.clone(),
        crossing: Lent::new(crossing),
        split: Lent::new(&random.dirt_bytes(split_len)),
    }
}

/// A call with the lengths of its tables or an answer perhaps wrong.
pub fn perhaps_wrong(random: &mut Random, plan: &PlanCall, crossing: &[u8]) -> RefineCall {
    let octants = crossing.len();
    let [given, room] = lengths(random, [octants, octants]);
    let mut wrong = resized(crossing, given, 0);
    if given > 0 && random.once_in(3) {
        wrong[random.below(given)] = random.pick(&[2, 3, 128, 255]);
    }
    call(random, plan, &wrong, room)
}

/// One answered call, then calls with the same answers and something wrong.
fn with_faults(random: &mut Random, plan: &PlanCall, crossing: &[u8], report: &mut Report) {
    let octants = crossing.len();
    let room = octants + random.below(3);
    compare(&call(random, plan, crossing, room), report);
    if octants > 0 {
        compare(&call(random, plan, crossing, octants - 1), report);
    }
    for _ in 0..3 {
        let wrong = perhaps_wrong(random, plan, crossing);
        if wrong.crossing.all() != crossing || wrong.split.len() < octants {
            compare(&wrong, report);
        }
    }
}

/// A plan that is refused, whatever the tables.
pub fn refused(random: &mut Random) -> RefineCall {
    let plan = boxes::refused(random);
    let (given, room) = (random.below(9), random.below(9));
    let crossing = random.dirt_bytes(given);
    call(random, &plan, &crossing, room)
}

/// A box that is too large, whatever the tables.
pub fn too_large(random: &mut Random) -> RefineCall {
    let (plan, _) = boxes::too_large(random);
    let (given, room) = (random.below(9), random.below(9));
    let crossing = random.dirt_bytes(given);
    call(random, &plan, &crossing, room)
}

/// 64 roots along an axis, and the most octants a box can have.
fn at_bounds(random: &mut Random, sizes: &Sizes, report: &mut Report) {
    let bounds = |x: f32| Bounds {
        min: [0.0; 3],
        max: [x, 0.0, 0.0],
    };
    let mut plans = vec![(bounds(58.0), 1), (bounds(57.0), 2)];
    if sizes.largest {
        plans.push((bounds(0.0), 5));
        plans.push((
            Bounds {
                min: [0.0; 3],
                max: [58.0; 3],
            },
            1,
        ));
    }
    for (bounds, levels) in plans {
        let plan = PlanCall {
            bounds,
            c: 1.0,
            levels,
        };
        let layout = crate::expected::plan::plan(&bounds, 1.0, levels)
            .unwrap()
            .layout;
        let crossing = crossings::shell(&layout, layout.dims.map(|d| f64::from(d) / 2.0), 1.4);
        with_faults(random, &plan, &crossing, report);
    }
}

pub fn run(random: &mut Random, sizes: &Sizes, report: &mut Report) {
    at_bounds(random, sizes, report);
    for _ in 0..sizes.octrees {
        let levels = boxes::octree_levels(random);
        let (plan, found) = boxes::small(random, levels);
        let crossing = crossings::crossing(random, &found.layout);
        with_faults(random, &plan, &crossing, report);

        let (lattice, _) = boxes::small(random, 0);
        with_faults(random, &lattice, &[], report);
        compare(&refused(random), report);
        compare(&too_large(random), report);
    }
}
