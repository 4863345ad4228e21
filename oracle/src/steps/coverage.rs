//! Coverage: random and hostile tables, grids of the library itself at every number of levels, and what is
//! refused.

use super::grid::Asked;
use super::keep::set;
use super::rooms::{lengths, resized};
use super::{boxes, crossings, Sizes};
use crate::calls::{compare, Call, CoverageCall};
use crate::expected::refine::split_table;
use crate::lent::Lent;
use crate::library::{Added, Totals};
use crate::random::Random;
use crate::report::Report;

/// A total: none, some, or just below 64 bits.
fn total(random: &mut Random) -> u64 {
    match random.below(6) {
        0 => u64::MAX,
        1 => u64::MAX - random.below(100) as u64,
        2 => random.next(),
        3 => random.below(1_000_000) as u64,
        _ => 0,
    }
}

fn totals(random: &mut Random) -> Totals {
    let hostile = random.once_in(3);
    let mut one = || if hostile { total(random) } else { 0 };
    Totals {
        cells: one(),
        kept: one(),
        dropped: one(),
        sixfold_kept: one(),
        sixfold_all: one(),
    }
}

/// Coordinates by the style of a table: small, so that points are doubled and cells flat; at the bound; any.
fn coordinate(random: &mut Random, style: usize) -> u32 {
    match style {
        0 => random.below(3) as u32,
        1 => random.pick(&[0, 4_096]),
        2 => random.pick(&[0, 1, 4_095, 4_096]),
        _ => random.below(4_097) as u32,
    }
}

/// Cells over random vertices, perhaps spoilt, in tables of perhaps another length.
pub fn any(random: &mut Random) -> CoverageCall {
    let most = random.pick(&[4, 8, 30, 200]);
    let (vertices, style) = (1 + random.below(most), random.below(5));
    let mut triples: Vec<u32> = (0..3 * vertices)
        .map(|_| coordinate(random, style))
        .collect();
    let count = random.below(most);
    let mut cells: Vec<u32> = (0..4 * count)
        .map(|_| random.below(vertices) as u32)
        .collect();
    let mut marks: Vec<u8> = (0..count).map(|_| random.below(3) as u8).collect();
    if random.once_in(12) {
        set(random, &mut triples, &[4_097, 8_192, u32::MAX]);
    }
    if random.once_in(12) {
        set(random, &mut marks, &[3, 255]);
    }
    if random.once_in(12) {
        set(random, &mut cells, &[vertices as u32, u32::MAX]);
    }
    let room = lengths(random, [triples.len(), cells.len(), marks.len()]);
    CoverageCall {
        totals: totals(random),
        triples: Lent::new(&resized(&triples, room[0], 0)),
        cells: Lent::new(&resized(&cells, room[1], 0)),
        marks: Lent::new(&resized(&marks, room[2], 0)),
    }
}

/// The library's own grid of a random box, with random marks, and what its six-fold volumes add up to.
fn own_grid(random: &mut Random, levels: u32) -> (CoverageCall, u64) {
    let (plan, found) = boxes::small(random, levels);
    let crossing = crossings::crossing(random, &found.layout);
    let split = split_table(&plan.bounds, plan.c, levels, &crossing);
    let asked = Asked::new(&plan, split);
    let mut call = asked.call(random, asked.needs());
    let answer = call.library();
    let (cells, vertices) = (answer.first as usize, answer.second as usize);
    let sides = found.layout.dims.map(|dim| (dim as u64) << (levels + 1));
    let wanted = match levels {
        0 => 4 * answer.first,
        _ => 6 * sides.iter().product::<u64>(),
    };
    let marks: Vec<u8> = (0..cells).map(|_| random.below(3) as u8).collect();
    let triples = &call.triples.all()[..3 * vertices];
    let named = &call.cells.all()[..4 * cells];
    let call = CoverageCall {
        totals: Totals::default(),
        triples: Lent::new(triples),
        cells: Lent::new(named),
        marks: Lent::new(&marks),
    };
    (call, wanted)
}

pub fn run(random: &mut Random, sizes: &Sizes, report: &mut Report) {
    for _ in 0..10 * sizes.meshes {
        compare(&any(random), report);
    }
    for round in 0..sizes.grids {
        let levels = match round {
            0..=5 => round as u32,
            _ => random.below(4) as u32,
        };
        let (call, wanted) = own_grid(random, levels);
        let Added { number, totals } = compare(&call, report);
        assert_eq!((number, totals.sixfold_all), (0, wanted), "{}", call.told());
    }
}
