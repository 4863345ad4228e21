//! The lifted Rust and the model on the worked numbers of docs/RULES.md, section 13.

use oracle::expected::components::numbers_of;
use oracle::expected::coverage::add_coverage;
use oracle::expected::grid::{found, Grid};
use oracle::expected::keep::{kept, representatives_of};
use oracle::expected::mesh::Mesh;
use oracle::expected::plan::plan;
use oracle::expected::refine::split_table;
use oracle::library::{Bounds, Totals};
use oracle::steps::worked;

fn cube(from: f32, to: f32) -> Bounds {
    Bounds {
        min: [from; 3],
        max: [to; 3],
    }
}

fn bits(points: &[[f32; 3]]) -> Vec<u32> {
    points.iter().flatten().map(|x| x.to_bits()).collect()
}

const UNIT: [[f32; 3]; 4] = [[0.0; 3], [1.0, 0.0, 0.0], [0.0, 1.0, 0.0], [0.0, 0.0, 1.0]];

#[test]
fn plans() {
    for (call, wanted) in worked::plans() {
        let got = plan(&call.bounds, call.c, call.levels)
            .map(|plan| (plan.layout.dims, plan.layout.len()));
        assert_eq!(
            got, wanted,
            "{:?}, {}, {}",
            call.bounds, call.c, call.levels
        );
    }
    let of_zero = plan(&cube(0.0, 0.0), 1.0, 0).unwrap();
    assert_eq!((of_zero.origin, of_zero.half), ([-2.0; 3], 0.5));
    let of_one = plan(&cube(0.0, 0.0), 1.0, 1).unwrap();
    assert_eq!((of_one.origin, of_one.half), ([-3.0; 3], 0.25));
}

fn sizes(grid: &Grid) -> (usize, usize) {
    (grid.vertex_count(), grid.cell_count())
}

#[test]
fn lattices() {
    let grid = found(&cube(0.0, 0.0), 1.0, 0, &[]).unwrap();
    assert_eq!(sizes(&grid), (189, 576));
    assert_eq!(grid.cells[..4], [125, 126, 31, 26]);
    let odd = found(&cube(0.0, 0.25), 1.0, 0, &[]).unwrap();
    assert_eq!(sizes(&odd), (250, 768));
}

#[test]
fn octree_without_crossing() {
    let grid = found(&cube(0.0, 0.0), 1.0, 1, &[0; 216]).unwrap();
    assert_eq!(sizes(&grid), (559, 2592));
}

#[test]
fn octree_with_a_split_root_at_the_border() {
    let bounds = cube(0.0, 0.0);
    let layout = plan(&bounds, 1.0, 1).unwrap().layout;
    let mut split = [0; 216];
    split[layout.place(1, [0, 2, 2])] = 1;
    assert_eq!(sizes(&found(&bounds, 1.0, 1, &split).unwrap()), (585, 2722));
}

/// What the six-fold volumes of the Rust's grid add up to.
fn sixfold(grid: &Grid) -> u64 {
    let marks = vec![0; grid.cell_count()];
    let added = add_coverage(Totals::default(), &grid.triples, &grid.cells, &marks);
    assert_eq!(added.number, 0);
    added.totals.sixfold_all
}

#[test]
fn grids_fill_their_box() {
    let grid = |to: f32, levels: u32, split: &[u8]| found(&cube(0.0, to), 1.0, levels, split);
    assert_eq!(sixfold(&grid(0.0, 0, &[]).unwrap()), 2_304);
    assert_eq!(sixfold(&grid(0.25, 0, &[]).unwrap()), 3_072);
    assert_eq!(sixfold(&grid(0.0, 1, &[0; 216]).unwrap()), 82_944);
    let mut split = [0; 216];
    split[0] = 1;
    assert_eq!(sixfold(&grid(0.0, 1, &split).unwrap()), 82_944);
}

#[test]
fn refinement() {
    let bounds = cube(0.0, 0.0);
    let layout = plan(&bounds, 1.0, 2).unwrap().layout;
    let mut crossing = vec![0; layout.len()];
    crossing[layout.place(1, [4, 4, 4])] = 1;
    let unread = split_table(&bounds, 1.0, 2, &crossing);
    assert!(unread.iter().all(|byte| *byte == 0));

    crossing[layout.place(2, [2, 2, 2])] = 1;
    let split = split_table(&bounds, 1.0, 2, &crossing);
    assert_eq!(split.iter().filter(|byte| **byte == 1).count(), 9);
    assert_eq!(split[layout.place(2, [1, 1, 1])], 1);
}

#[test]
fn representatives() {
    let points = vec![0; 33];
    let mesh = Mesh::new(&points, &[0, 1, 2, 3, 3, 4, 5, 6, 7, 8, 9, 10]);
    let numbers = |crossing: &[u8]| -> Vec<u32> {
        let list = representatives_of(mesh, crossing);
        list.iter().map(|(cell, _)| *cell).collect()
    };
    assert_eq!(numbers(&[0, 0, 0]), [1, 2]);
    assert_eq!(numbers(&[0, 1, 0]), [0, 2]);
}

#[test]
fn components() {
    let points = vec![0; 36];
    let mesh = Mesh::new(&points, &[5, 6, 7, 8, 0, 1, 2, 3, 8, 9, 10, 11]);
    assert_eq!(numbers_of(mesh), [0, 1, 0]);
}

#[test]
fn a_negative_cell_is_exchanged_and_compacted() {
    let points = bits(&UNIT);
    let kept = kept(1.0, Mesh::new(&points, &[0, 2, 1, 3]), &[1], None).unwrap();
    assert_eq!(kept.cells, [0, 1, 2, 3]);
    assert_eq!(kept.points, bits(&[UNIT[2], UNIT[0], UNIT[1], UNIT[3]]));
}

#[test]
fn compaction_numbers_by_first_use() {
    let mut places = [[9.0; 3]; 8];
    for (at, place) in [4, 2, 7, 0].into_iter().zip(UNIT) {
        places[at] = place;
    }
    let points = bits(&places);
    let kept = kept(1.0, Mesh::new(&points, &[4, 2, 7, 0]), &[1], None).unwrap();
    assert_eq!(kept.points, bits(&UNIT));
    assert_eq!(kept.cells, [0, 1, 2, 3]);
}

/// Whether one cell is kept, exchanged or dropped.
fn verdict(points: &[[f32; 3]; 4], c: f32) -> &'static str {
    let points = bits(points);
    match kept(c, Mesh::new(&points, &[0, 1, 2, 3]), &[1], None) {
        None => "dropped",
        Some(kept) if kept.points[..3] == points[..3] => "kept",
        Some(_) => "exchanged",
    }
}

#[test]
fn verdicts_at_the_edge() {
    let with_z = |z: u32| [UNIT[0], UNIT[1], UNIT[2], [0.0, 0.0, f32::from_bits(z)]];
    assert_eq!(verdict(&with_z(0x2cd3_1b32), 0.01), "kept");
    assert_eq!(verdict(&with_z(0xacd3_1b32), 0.01), "exchanged");
    assert_eq!(verdict(&with_z(0x2cd3_1b31), 0.01), "dropped");
    assert_eq!(verdict(&with_z(0), 2f32.powi(-50)), "kept");
    assert_eq!(verdict(&with_z(0x8000_0000), 2f32.powi(-50)), "kept");
    assert_eq!(verdict(&with_z(0), 1.0), "dropped");
    assert_eq!(verdict(&with_z(0x7fc0_0000), 1.0), "kept");
    assert_eq!(verdict(&with_z(0xff80_0000), 9.0e12), "exchanged");
    assert_eq!(verdict(&UNIT, 7.0e12), "dropped");
}

#[test]
fn points_in_one_place_drop_every_cell() {
    let bounds = cube(1.0e8, 1.0e8);
    let grid = found(&bounds, 1.0, 1, &[0; 64]).unwrap();
    assert_eq!(grid.cell_count(), 768);
    let mesh = Mesh::new(&grid.points, &grid.cells);
    assert!(kept(1.0, mesh, &[1; 768], None).is_none());
}
