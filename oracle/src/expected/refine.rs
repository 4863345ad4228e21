//! Refine: the lifted refinement and `balance`.

use super::plan::{octree, plan};
use crate::library::{Answer, Bounds};
use lifted::lent::MeshOracle;
use lifted::transformation::volume_mesh::cover_octree::doors::refined_octree;

/// The lifted Rust's split table for crossing answers that fit the plan.
pub fn split_table(bounds: &Bounds, c: f32, levels: u32, crossing: &[u8]) -> Vec<u8> {
    if levels == 0 {
        return Vec::new();
    }
    let tree = octree(bounds, c, levels);
    let oracle = MeshOracle::of_octants(tree.layout(), crossing);
    refined_octree(&oracle, tree).split_table()
}

/// The step.
pub fn refine(bounds: &Bounds, c: f32, levels: u32, crossing: &[u8], split: &mut [u8]) -> Answer {
    let octants = match plan(bounds, c, levels) {
        Ok(plan) => plan.layout.len(),
        Err(refused) => return refused.answer(),
    };
    if crossing.len() != octants {
        return Answer::refused(5);
    }
    if crossing.iter().any(|byte| *byte > 1) {
        return Answer::refused(6);
    }
    if split.len() < octants {
        return Answer::short(octants, 0);
    }
    split[..octants].copy_from_slice(&split_table(bounds, c, levels, crossing));
    let ones = split[..octants].iter().filter(|byte| **byte == 1).count();
    Answer::of(ones, 0, 0)
}
