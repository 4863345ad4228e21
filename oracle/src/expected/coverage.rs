//! Coverage: a plain model of rules R3.1 to R3.4 in 128 bits. The Rust has none.

use super::mesh::Mesh;
use crate::library::{Added, Totals};

/// The greatest coordinate.
const FARTHEST: u32 = 4096;

/// Six times the volume of a cell, whatever the sign of its determinant.
pub fn sixfold(triples: &[u32], cell: [u32; 4]) -> u128 {
    let at = |vertex: u32, axis: usize| i128::from(triples[3 * vertex as usize + axis]);
    let edge = |to: usize| -> [i128; 3] {
        std::array::from_fn(|axis| at(cell[to], axis) - at(cell[0], axis))
    };
    let [u, v, w] = [edge(1), edge(2), edge(3)];
    let minor = |a: usize, b: usize| u[a] * v[b] - v[a] * u[b];
    (minor(1, 2) * w[0] + minor(2, 0) * w[1] + minor(0, 1) * w[2]).unsigned_abs()
}

/// What a grid adds: cells, kept, dropped, six-fold volume kept and of all.
fn gained(triples: &[u32], cells: &[[u32; 4]], marks: &[u8]) -> [u128; 5] {
    let count = |kind: u8| marks.iter().filter(|mark| **mark == kind).count() as u128;
    let six = |cell: &[u32; 4]| sixfold(triples, *cell);
    let kept = cells.iter().zip(marks).filter(|(_, mark)| **mark == 1);
    [
        cells.len() as u128,
        count(1),
        count(2),
        kept.map(|(cell, _)| six(cell)).sum(),
        cells.iter().map(six).sum(),
    ]
}

/// The totals with the gain, if each of them fits 64 bits.
fn grown(totals: Totals, gained: [u128; 5]) -> Option<Totals> {
    let old = [
        totals.cells,
        totals.kept,
        totals.dropped,
        totals.sixfold_kept,
        totals.sixfold_all,
    ];
    let mut new = [0; 5];
    for (to, (old, gain)) in new.iter_mut().zip(old.into_iter().zip(gained)) {
        *to = u64::try_from(u128::from(old) + gain).ok()?;
    }
    let [cells, kept, dropped, sixfold_kept, sixfold_all] = new;
    Some(Totals {
        cells,
        kept,
        dropped,
        sixfold_kept,
        sixfold_all,
    })
}

/// The step `add_coverage`.
pub fn add_coverage(totals: Totals, triples: &[u32], cells: &[u32], marks: &[u8]) -> Added {
    let mesh = Mesh::new(triples, cells);
    let refused = |number: u32| Added { number, totals };
    if mesh.too_large() {
        return refused(4);
    }
    if mesh.ragged() || marks.len() != mesh.cell_count() {
        return refused(5);
    }
    if marks.iter().any(|mark| *mark > 2) {
        return refused(6);
    }
    if mesh.names_missing() {
        return refused(8);
    }
    if triples.iter().any(|x| *x > FARTHEST) {
        return refused(16);
    }
    let grown = grown(totals, gained(triples, &mesh.quads(), marks));
    grown.map_or(refused(16), |totals| Added { number: 0, totals })
}
