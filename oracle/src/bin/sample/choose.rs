//! Which calls are taken: the worked ones, then random ones until each number that a step answers
//! stands there a few times.

use crate::record::Record;
use crate::tape::Tape;
use lifted::lent::Layout;
use oracle::calls::{Format, PlanCall};
use oracle::expected::plan::OCTANTS;
use oracle::expected::refine::split_table;
use oracle::random::Random;
use oracle::steps::{
    boxes, coverage, crossing, damage, faces, files, grid, keep, meshes, refine, rooms,
    vtk_headers, worked,
};

/// How many random calls of a step are looked at.
const LOOKED_AT: usize = 3_000;
/// How many are taken of each number.
const TAKEN: u32 = 3;
/// A call on a mesh or a file is taken if its inputs take so many words: some, but not many.
const WORDS: std::ops::Range<usize> = 20..110;
/// Random octrees have fewer octants than this.
const MOST_OCTANTS: usize = 1_000;

fn offered<R: Record>(
    tape: &mut Tape,
    random: &mut Random,
    mut call: impl FnMut(&mut Random) -> R,
) {
    for _ in 0..LOOKED_AT {
        let call = call(random);
        if WORDS.contains(&call.tables().contents().len()) {
            tape.offer(&call, TAKEN);
        }
    }
}

fn plans(tape: &mut Tape, random: &mut Random) {
    for (call, _) in worked::plans() {
        tape.offer::<PlanCall>(&call, u32::MAX);
    }
    for _ in 0..100 {
        tape.offer(&boxes::any(random), u32::MAX);
    }
}

/// The worked refinement; octrees of one and two levels, lattices, and plans that are refused.
fn refinements(tape: &mut Tape, random: &mut Random) {
    let (plan, crossed) = worked::nine_octants();
    let nine = refine::call(random, &plan, &crossed, crossed.len());
    tape.offer(&nine, TAKEN);
    for round in 0..120 {
        let (plan, found) = boxes::small(random, round % 3);
        let crossing = crossing(random, &found.layout);
        if crossing.len() < MOST_OCTANTS {
            tape.offer(&refine::perhaps_wrong(random, &plan, &crossing), TAKEN);
        }
        tape.offer(&refine::refused(random), TAKEN);
    }
}

/// The worked grids: two lattices, an octree that nothing crosses, the octree of nine octants, whole
/// and with the one cleared that touches the finest leaves by a corner alone.
fn worked_grids(tape: &mut Tape, random: &mut Random) {
    let mut asked: Vec<grid::Asked> = (worked::plans().into_iter().take(3))
        .map(|(call, _)| {
            let octants = if call.levels == 0 { 0 } else { 216 };
            grid::Asked::new(&call, vec![0; octants])
        })
        .collect();
    let (plan, crossing) = worked::nine_octants();
    let split = split_table(&plan.bounds, plan.c, plan.levels, &crossing);
    let corner = Layout {
        levels: 2,
        dims: [6; 3],
    }
    .place(2, [1, 1, 1]);
    let mut cleared = split.clone();
    cleared[corner] = 0;
    asked.push(grid::Asked::new(&plan, split));
    asked.push(grid::Asked::new(&plan, cleared));
    for asked in asked {
        tape.offer(&asked.call(random, asked.needs()), TAKEN);
    }
}

/// Boxes that are too large: each axis and the octants named by plan, refine and grid.
fn too_large(tape: &mut Tape, random: &mut Random) {
    for wanted in 0..=OCTANTS {
        for _ in 0..TAKEN {
            let (plan, _) = std::iter::repeat_with(|| boxes::too_large(random))
                .find(|(_, names)| *names == wanted)
                .expect("every one of them comes up");
            tape.offer::<PlanCall>(&plan, u32::MAX);
            tape.offer(&refine::call(random, &plan, &[], 0), u32::MAX);
            let asked = grid::Asked::new(&plan, Vec::new());
            tape.offer(&asked.call(random, [0; 4]), u32::MAX);
        }
    }
}

/// Small grids, whole and with something wrong.
fn grids(tape: &mut Tape, random: &mut Random) {
    for round in 0..120 {
        let (plan, found) = boxes::small(random, round % 3);
        let crossing = crossing(random, &found.layout);
        let split = match round % 3 {
            0 => vec![0; random.below(40) / 38],
            _ => grid::table(random, &plan, &found.layout, &crossing),
        };
        if split.len() < MOST_OCTANTS {
            let asked = grid::Asked::new(&plan, split);
            let room = rooms::lengths(random, asked.needs());
            tape.offer(&asked.call(random, room), TAKEN);
        }
        let refused = grid::Asked::new(&boxes::refused(random), Vec::new());
        tape.offer(&refused.call(random, refused.needs()), TAKEN);
    }
}

/// Whole and damaged files, with rooms of every kind.
fn readings(tape: &mut Tape, random: &mut Random, format: Format) {
    offered(tape, random, |random| {
        let sample = meshes::any(random);
        let reading = files::Reading::of(format, &sample);
        let whole = format.encode(sample.mesh());
        let file = match random.below(5) {
            0 => damage::trailed(random, &whole),
            1 => damage::mixed(random, &whole),
            2 if !sample.cells.is_empty() => files::naming_missing(random, format, &sample, &whole),
            3 if !sample.cells.is_empty() => files::misnumbered(format, &whole),
            _ => whole,
        };
        let room = rooms::lengths(random, reading.needs);
        reading.call(random, &file, room)
    });
}

/// VTK files of one cell with headers in other words, or a cell of another kind.
fn headings(tape: &mut Tape, random: &mut Random) {
    let (format, needs) = (Format::Vtk, [12, 4, 8]);
    for file in vtk_headers::files() {
        let call = files::Reading { format, needs }.call(random, &file, needs);
        tape.offer(&call, 2 * TAKEN);
    }
}

fn writings(tape: &mut Tape, random: &mut Random, format: Format) {
    offered(tape, random, |random| {
        let sample = meshes::any(random);
        files::write(random, format, &sample)
    });
}

pub fn all(seed: u64) -> Tape {
    let mut tape = Tape::default();
    let random = &mut Random::new(seed);
    plans(&mut tape, random);
    refinements(&mut tape, random);
    worked_grids(&mut tape, random);
    grids(&mut tape, random);
    offered(&mut tape, random, keep::representatives);
    offered(&mut tape, random, |random| keep::keep(random, true));
    offered(&mut tape, random, |random| keep::keep(random, false));
    offered(&mut tape, random, keep::components);
    offered(&mut tape, random, faces::face_components);
    offered(&mut tape, random, faces::one_piece);
    for format in [Format::Mesh, Format::Vtk] {
        writings(&mut tape, random, format);
        readings(&mut tape, random, format);
    }
    headings(&mut tape, random);
    too_large(&mut tape, random);
    offered(&mut tape, random, keep::marks);
    offered(&mut tape, random, coverage::any);
    tape
}
