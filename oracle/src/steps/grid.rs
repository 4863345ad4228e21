//! Grid: graded and ungraded split tables, lattices, wrong lengths, short room.

use super::rooms::{lengths, resized};
use super::{boxes, crossings, worked, Sizes};
use crate::calls::{compare, GridCall, PlanCall};
use crate::expected::grid::{found, Grid};
use crate::expected::plan::Refused;
use crate::expected::refine::split_table;
use crate::lent::Lent;
use crate::library::Bounds;
use crate::random::Random;
use crate::report::Report;
use lifted::lent::Layout;
use std::rc::Rc;

/// A grid with what is expected of it.
pub struct Asked {
    plan: PlanCall,
    split: Vec<u8>,
    found: Rc<Result<Grid, Refused>>,
}

impl Asked {
    pub fn new(plan: &PlanCall, split: Vec<u8>) -> Self {
        let found = found(&plan.bounds, plan.c, plan.levels, &split);
        Self {
            plan: plan.clone(),
            found: Rc::new(found),
            split,
        }
    }

    /// Lengths of cells, triples, points, work.
    pub fn needs(&self) -> [usize; 4] {
        match &*self.found {
            Ok(grid) => [
                grid.cells.len(),
                grid.triples.len(),
                grid.points.len(),
                4 * grid.cell_count(),
            ],
            Err(_) => [40, 30, 30, 40],
        }
    }

    pub fn call(&self, random: &mut Random, room: [usize; 4]) -> GridCall {
        GridCall {
            plan: self.plan.clone(),
            split: Lent::new(&self.split),
            found: self.found.clone(),
            cells: Lent::new(&random.dirt(room[0])),
            triples: Lent::new(&random.dirt(room[1])),
            points: Lent::new(&random.dirt(room[2])),
            work: Lent::new(&random.dirt_words(room[3])),
        }
    }

    /// With exactly the room needed, and with each table short by one.
    fn each_short(&self, random: &mut Random, report: &mut Report) {
        let needs = self.needs();
        compare(&self.call(random, needs), report);
        for at in 0..4 {
            let mut room = needs;
            room[at] -= 1;
            compare(&self.call(random, room), report);
        }
    }

    fn with_rooms(&self, random: &mut Random, times: usize, report: &mut Report) {
        for _ in 0..times {
            let room = lengths(random, self.needs());
            compare(&self.call(random, room), report);
        }
    }
}

/// Makes a leaf of an octant whose children are leaves: the table stays an octree, and what touches
/// the new leaf, perhaps by a corner alone, may now be too fine.
fn cleared(random: &mut Random, layout: &Layout, mut split: Vec<u8>) -> Vec<u8> {
    let is_split = |level: u32, c: [i32; 3]| level > 0 && split[layout.place(level, c)] == 1;
    let over_leaves = |(level, c): (u32, [i32; 3])| {
        let child = |n: i32| std::array::from_fn(|k| 2 * c[k] + (n >> k & 1));
        is_split(level, c) && !(0..8).any(|n| is_split(level - 1, child(n)))
    };
    let places: Vec<usize> = (layout.octants().enumerate())
        .filter(|(_, (level, c))| *level > 1 && over_leaves((*level, *c)))
        .map(|(place, _)| place)
        .collect();
    if !places.is_empty() {
        split[random.pick(&places)] = 0;
    }
    split
}

/// A graded table, sometimes with a byte turned or of a wrong kind, or a table of the wrong length.
pub fn table(random: &mut Random, plan: &PlanCall, layout: &Layout, crossing: &[u8]) -> Vec<u8> {
    let mut split = split_table(&plan.bounds, plan.c, plan.levels, crossing);
    match random.below(14) {
        0 => {
            let len = lengths(random, [split.len()])[0];
            resized(&split, len, 0)
        }
        1 => {
            let at = random.below(split.len());
            split[at] = random.pick(&[2, 255]);
            split
        }
        2 | 3 => {
            let at = random.below(split.len());
            split[at] ^= 1;
            split
        }
        4 => crossing.to_vec(),
        5..=7 => cleared(random, layout, split),
        _ => split,
    }
}

fn octree(random: &mut Random, report: &mut Report) {
    let levels = boxes::octree_levels(random);
    let (plan, found) = boxes::small(random, levels);
    let layout = found.layout;
    let crossing = crossings::crossing(random, &layout);
    let asked = Asked::new(&plan, table(random, &plan, &layout, &crossing));
    if levels <= 2 && random.once_in(3) {
        asked.each_short(random, report);
    }
    asked.with_rooms(random, 2, report);
}

fn lattice(random: &mut Random, report: &mut Report) {
    let (plan, _) = boxes::small(random, 0);
    let split = match random.below(8) {
        0 => vec![random.pick(&[0, 1, 2])],
        _ => Vec::new(),
    };
    let asked = Asked::new(&plan, split);
    if random.once_in(4) {
        asked.each_short(random, report);
    }
    asked.with_rooms(random, 2, report);
}

/// A plan that is refused, and one that is too large, whatever the tables.
fn refused(random: &mut Random, report: &mut Report) {
    let (too_large, _) = boxes::too_large(random);
    for plan in [boxes::refused(random), too_large] {
        let len = random.below(9);
        let split = random.dirt_bytes(len);
        Asked::new(&plan, split).with_rooms(random, 1, report);
    }
}

fn cuboid(sides: [f32; 3], levels: u32) -> PlanCall {
    PlanCall {
        bounds: Bounds {
            min: [0.0; 3],
            max: sides,
        },
        c: 1.0,
        levels,
    }
}

/// The longest axes, and in the long run the largest grids.
fn at_bounds(random: &mut Random, sizes: &Sizes, report: &mut Report) {
    for axis in 0..3 {
        for side in [59.5, 60.0, 60.5] {
            let mut sides = [0.0; 3];
            sides[axis] = side;
            Asked::new(&cuboid(sides, 0), Vec::new()).each_short(random, report);
        }
        for side in [57.0, 58.0, 58.5] {
            let mut sides = [0.0; 3];
            sides[axis] = side;
            let plan = cuboid(sides, 1);
            let octants = (6.0 + side.ceil()) as usize * 36;
            Asked::new(&plan, vec![0; octants]).with_rooms(random, 1, report);
        }
    }
    if sizes.largest {
        Asked::new(&cuboid([60.0; 3], 0), Vec::new()).each_short(random, report);
        Asked::new(&cuboid([58.0; 3], 1), vec![0; 64 * 64 * 64]).each_short(random, report);
        let plan = cuboid([0.0; 3], 5);
        let layout = crate::expected::plan::plan(&plan.bounds, 1.0, 5)
            .unwrap()
            .layout;
        let crossing = crossings::shell(&layout, [3.0; 3], 1.4);
        let split = split_table(&plan.bounds, 1.0, 5, &crossing);
        Asked::new(&plan, split).each_short(random, report);
    }
}

/// The worked refinement of nine octants, whole, and with each of the nine cleared in turn: seven
/// touch the finest leaves, one of them by a corner alone.
fn one_missing(random: &mut Random, report: &mut Report) {
    let (plan, crossing) = worked::nine_octants();
    let split = split_table(&plan.bounds, plan.c, plan.levels, &crossing);
    Asked::new(&plan, split.clone()).each_short(random, report);
    for at in (0..split.len()).filter(|at| split[*at] == 1) {
        let mut missing = split.clone();
        missing[at] = 0;
        Asked::new(&plan, missing).with_rooms(random, 1, report);
    }
}

pub fn run(random: &mut Random, sizes: &Sizes, report: &mut Report) {
    at_bounds(random, sizes, report);
    one_missing(random, report);
    for _ in 0..sizes.grids {
        octree(random, report);
        lattice(random, report);
        refused(random, report);
    }
}
