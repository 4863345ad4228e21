//! The numbering by faces and one piece: soups of cells that share faces, any meshes, stars; then everything that is refused.

use super::meshes::{any, Sample};
use super::rooms::{lengths, resized};
use super::Sizes;
use crate::calls::{compare, ComponentsCall, Input, Joined, OnePieceCall};
use crate::lent::Lent;
use crate::random::Random;
use crate::report::Report;

/// Cells that mostly take over a face of a cell before them, so that faces are those of one, two, three and more cells; some are the same
/// as a cell before them, its points in another order.
fn soup(random: &mut Random) -> Vec<[u32; 4]> {
    let count = random.pick(&[0, 1, 2, 5, 20, 60]);
    let points = random.pick(&[5, 9, 40, 400, 5_000]);
    let mut cells: Vec<[u32; 4]> = Vec::new();
    for _ in 0..count {
        let mut cell = fresh(random, points);
        if !cells.is_empty() && !random.once_in(4) {
            let before = cells[random.below(cells.len())];
            let shared = random.pick(&[1, 2, 3, 3, 3, 4]);
            let start = random.below(4);
            (0..shared).for_each(|k| cell[k] = before[(start + k) % 4]);
        }
        for k in 1..4 {
            while cell[..k].contains(&cell[k]) {
                cell[k] = (cell[k] + 1) % points;
            }
        }
        cell.swap(random.below(4), random.below(4));
        cells.push(cell);
    }
    cells
}

fn fresh(random: &mut Random, points: u32) -> [u32; 4] {
    [(); 4].map(|()| random.below(points as usize) as u32)
}

/// A soup over its points and some that no cell names, perhaps with a cell that names one point twice.
fn souped(random: &mut Random) -> Sample {
    let mut cells = soup(random);
    let used = cells.as_flattened().iter().max().map_or(0, |last| *last as usize + 1);
    if !cells.is_empty() && random.once_in(12) {
        let at = random.below(cells.len());
        cells[at][random.below(3)] = cells[at][3];
    }
    let points = used + random.pick(&[0, 0, 1, 1_000]);
    Sample { points: vec![0; 3 * points], cells: cells.concat(), c: 1.0 }
}

/// A mesh with perhaps a point named that is not there.
fn asked(random: &mut Random) -> Sample {
    let mut sample = match random.below(4) {
        0 => any(random),
        _ => souped(random),
    };
    if random.once_in(12) && !sample.cells.is_empty() {
        let at = random.below(sample.cells.len());
        sample.cells[at] = (sample.points.len() / 3) as u32;
    }
    sample
}

fn input(sample: &Sample, points: usize, cells: usize) -> Input {
    Input::new(&resized(&sample.points, points, 0), &resized(&sample.cells, cells, 0))
}

pub fn face_components(random: &mut Random) -> ComponentsCall {
    let sample = asked(random);
    let (points, cells) = (sample.points.len(), sample.cells.len());
    let room = lengths(random, [points, cells, cells / 4, 16 * (cells / 4)]);
    ComponentsCall {
        joined: Joined::ByFaces,
        input: input(&sample, room[0], room[1]),
        numbers: Lent::new(&random.dirt(room[2])),
        work: Lent::new(&random.dirt(room[3])),
    }
}

pub fn one_piece(random: &mut Random) -> OnePieceCall {
    let sample = asked(random);
    let (points, cells) = (sample.points.len(), sample.cells.len());
    let room = lengths(random, [points, cells, 16 * (cells / 4)]);
    OnePieceCall {
        input: input(&sample, room[0], room[1]),
        work: Lent::new(&random.dirt(room[2])),
    }
}

/// So many cells that all have one point, or one edge, and share faces in pairs: hostile to tables by point.
pub fn star(cells: usize, edge: bool) -> Vec<[u32; 4]> {
    let cells = cells as u32;
    match edge {
        true => (0..cells).map(|n| [n + 2, 0, n + 3, 1]).collect(),
        false => (0..cells).map(|n| [n + 1, n / 2 + cells + 9, 0, n + 2]).collect(),
    }
}

fn starred(cells: Vec<[u32; 4]>) -> ComponentsCall {
    let points = cells.as_flattened().iter().max().map_or(0, |last| *last as usize + 1);
    ComponentsCall {
        joined: Joined::ByFaces,
        input: Input::new(&vec![0; 3 * points], cells.as_flattened()),
        numbers: Lent::new(&vec![7; cells.len()]),
        work: Lent::new(&vec![7; 16 * cells.len()]),
    }
}

pub fn run_face_components(random: &mut Random, sizes: &Sizes, report: &mut Report) {
    for _ in 0..sizes.meshes {
        compare(&face_components(random), report);
    }
    let most = if sizes.largest { 1_000_000 } else { 10_000 };
    for edge in [false, true] {
        compare(&starred(star(most, edge)), report);
    }
}

pub fn run_one_piece(random: &mut Random, sizes: &Sizes, report: &mut Report) {
    for _ in 0..sizes.meshes {
        compare(&one_piece(random), report);
    }
}
