//! The lifted Rust against docs/RULES.md, worked out another way.

use lifted::lent::Layout;
use oracle::calls::PlanCall;
use oracle::expected::components::numbers_of;
use oracle::expected::faces::{mapped, pairwise};
use oracle::expected::graded::graded;
use oracle::expected::grid::Grid;
use oracle::expected::keep::representatives_of;
use oracle::expected::mesh::Mesh;
use oracle::expected::plan::{octree, plan, Plan, OCTANTS};
use oracle::expected::refine::split_table;
use oracle::random::Random;
use oracle::steps::{boxes, crossing, faces, meshes};

/// The octants split by answers: roots, then children of split octants.
fn read(layout: &Layout, crossing: &[u8]) -> Vec<u8> {
    let mut split = vec![0; layout.len()];
    for (at, (level, c)) in layout.octants().enumerate() {
        let under_split =
            level == layout.levels || split[layout.place(level + 1, c.map(|x| x / 2))] == 1;
        split[at] = u8::from(under_split && crossing[at] == 1);
    }
    split
}

/// Whether a split octant of the level below lies in or around an octant: the block of 4·4·4.
fn shell_is_split(layout: &Layout, split: &[u8], level: u32, c: [i32; 3]) -> bool {
    let counts = layout.count(level - 1);
    (0..64).any(|n| {
        let offset = [n % 4, n / 4 % 4, n / 16];
        let o: [i32; 3] = std::array::from_fn(|k| 2 * c[k] + offset[k] - 1);
        (0..3).all(|k| o[k] >= 0 && o[k] < counts[k]) && split[layout.place(level - 1, o)] == 1
    })
}

/// The least graded octree over what was read: one pass a level, from the finest up.
fn closed(layout: &Layout, mut split: Vec<u8>) -> Vec<u8> {
    for level in 2..=layout.levels {
        for (at, (_, c)) in layout
            .octants()
            .enumerate()
            .filter(|(_, (l, _))| *l == level)
        {
            if shell_is_split(layout, &split, level, c) {
                split[at] = 1;
            }
        }
    }
    split
}

/// The same box with another axis in front.
fn in_front(call: &PlanCall, axis: usize) -> PlanCall {
    let mut turned = call.clone();
    turned.bounds.min.swap(0, axis);
    turned.bounds.max.swap(0, axis);
    turned
}

/// What a 4 names: an axis is at fault exactly when it is named once it stands in front.
#[test]
fn a_four_names_the_first_axis_at_fault() {
    let mut random = Random::new(5);
    let mut met = [0; 4];
    for round in 0..40_000 {
        let call = match round % 2 {
            0 => boxes::refused(&mut random),
            _ => boxes::too_large(&mut random).0,
        };
        let names = |call: &PlanCall| {
            let refused = plan(&call.bounds, call.c, call.levels).err()?;
            (refused.number == 4).then_some(refused.names)
        };
        if let Some(named) = names(&call) {
            let first = (0..3).find(|axis| names(&in_front(&call, *axis)) == Some(0));
            assert_eq!(named, first.map_or(OCTANTS, |axis| axis as u32));
            met[named as usize] += 1;
        }
    }
    assert!(met.iter().all(|times| *times > 1_000), "{met:?}");
}

fn octrees(times: usize, mut test: impl FnMut(&PlanCall, Plan, Vec<u8>)) {
    let mut random = Random::new(7);
    for _ in 0..times {
        let levels = boxes::octree_levels(&mut random).min(4);
        let (call, plan) = boxes::small(&mut random, levels);
        let answers = crossing(&mut random, &plan.layout);
        test(&call, plan, answers);
    }
}

#[test]
fn refinement_is_the_shell_rule() {
    octrees(100, |call, plan, answers| {
        let lifted = split_table(&call.bounds, call.c, call.levels, &answers);
        assert_eq!(lifted, closed(&plan.layout, read(&plan.layout, &answers)));
    });
}

#[test]
fn graded_is_what_balance_leaves_alone() {
    let mut both = [0; 2];
    octrees(100, |call, plan, answers| {
        let ungraded = read(&plan.layout, &answers);
        let balanced = octree(&call.bounds, call.c, call.levels)
            .subdivided_by(&ungraded)
            .balanced()
            .split_table();
        let is_graded = graded(&plan.layout, &ungraded);
        assert_eq!(is_graded, balanced == ungraded);
        assert!(graded(&plan.layout, &balanced));
        both[usize::from(is_graded)] += 1;
    });
    assert!(both[0] > 10 && both[1] > 10);
}

/// Six times the volume of a cell in whole units.
fn six_fold(triples: &[u32], cell: &[u32; 4]) -> i64 {
    let at = |v: u32, k: usize| i64::from(triples[3 * v as usize + k]);
    let edge = |n: usize| -> [i64; 3] { std::array::from_fn(|k| at(cell[n], k) - at(cell[0], k)) };
    let (u, v, w) = (edge(1), edge(2), edge(3));
    let minor = |i: usize, j: usize| u[i] * v[j] - u[j] * v[i];
    (minor(1, 2) * w[0] + minor(2, 0) * w[1] + minor(0, 1) * w[2]).abs()
}

/// Cells fill the box; vertices ascend and are the leaves' corners and centres.
#[test]
fn grids_fill_their_box() {
    octrees(60, |call, plan, answers| {
        let split = split_table(&call.bounds, call.c, call.levels, &answers);
        let grid = Grid::lifted(&call.bounds, call.c, call.levels, &split);
        let (cells, _) = grid.cells.as_chunks::<4>();
        let sum: i64 = cells.iter().map(|cell| six_fold(&grid.triples, cell)).sum();
        let sides = plan.layout.dims.map(|d| i64::from(d) << (call.levels + 1));
        assert_eq!(sum, 6 * sides.iter().product::<i64>());
        assert_eq!(grid.triples, corners_and_centres(call, &split));
    });
}

fn corners_and_centres(call: &PlanCall, split: &[u8]) -> Vec<u32> {
    let tree = octree(&call.bounds, call.c, call.levels).subdivided_by(split);
    let mut found = std::collections::BTreeSet::new();
    for (level, c) in tree.leaves() {
        let width = 2u32 << level;
        let low = c.map(|x| x as u32 * width);
        found.insert(low.map(|x| x + width / 2));
        for n in 0..8 {
            found.insert(std::array::from_fn(|k| low[k] + (n >> k & 1) * width));
        }
    }
    found.into_iter().flatten().collect()
}

/// Relabels cell by cell until nothing changes: joined cells have the highest number of the group.
fn highest_labels(mesh: Mesh, left_out: &[u8]) -> Vec<usize> {
    let cells = mesh.quads();
    let mut labels: Vec<usize> = (0..cells.len()).collect();
    loop {
        let before = labels.clone();
        for a in (0..cells.len()).filter(|a| left_out[*a] == 0) {
            for b in (0..cells.len()).filter(|b| left_out[*b] == 0) {
                if cells[a].iter().any(|v| cells[b].contains(v)) {
                    labels[a] = labels[a].max(labels[b]);
                }
            }
        }
        if labels == before {
            return labels;
        }
    }
}

#[test]
fn groups_end_at_their_highest_cell() {
    let mut random = Random::new(3);
    for _ in 0..600 {
        let sample = meshes::any(&mut random);
        let mesh = sample.mesh();
        if mesh.cell_count() > 60 {
            continue;
        }
        let crossing = meshes::answers(&mut random, mesh.cell_count());
        let labels = highest_labels(mesh, &crossing);
        let highest = (0..labels.len()).filter(|at| crossing[*at] == 0 && labels[*at] == *at);
        let list = representatives_of(mesh, &crossing);
        let asked: Vec<usize> = list.iter().map(|(cell, _)| *cell as usize).collect();
        assert_eq!(asked, highest.collect::<Vec<_>>());
    }
}

#[test]
fn a_map_of_faces_finds_what_pairs_find() {
    let mut random = Random::new(5);
    for _ in 0..2_000 {
        let call = faces::face_components(&mut random);
        let cells = call.input.mesh().quads();
        let proper = |cell: &[u32; 4]| (1..4).all(|b| !cell[..b].contains(&cell[b]));
        if cells.len() < 300 && cells.iter().all(proper) {
            assert_eq!(mapped(&cells), pairwise(&cells));
        }
    }
}

#[test]
fn components_count_up_by_first_appearance() {
    let mut random = Random::new(4);
    for _ in 0..600 {
        let sample = meshes::any(&mut random);
        let mesh = sample.mesh();
        if mesh.cell_count() > 60 {
            continue;
        }
        let labels = highest_labels(mesh, &vec![0; mesh.cell_count()]);
        let mut seen = Vec::new();
        let counted = labels.iter().map(|label| {
            if !seen.contains(label) {
                seen.push(*label);
            }
            seen.iter().position(|other| other == label).unwrap() as u32
        });
        assert_eq!(numbers_of(mesh), counted.collect::<Vec<_>>());
    }
}
