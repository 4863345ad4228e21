//! Ways in for the comparison: what `cover_octree.rs` keeps private.

use super::*;
use crate::lent::Layout;

/// An octree between two stages of the published `cover_octree_grid`.
pub struct Tree(Octree);

/// The head of `cover_octree_grid`: origin, unit and dimensions, nothing subdivided.
pub fn octree_over(aabb: Aabb, params: &VolumeMeshParameters) -> Tree {
    Tree(super::octree_over(aabb, params))
}

/// Refinement by the oracle's answers, then `balance`.
pub fn refined_octree(oracle: &MeshOracle, tree: Tree) -> Tree {
    Tree(super::refined_octree(oracle, tree.0))
}

impl Tree {
    /// Over any roots, nothing subdivided: a plan has at least six along an axis.
    pub fn over(layout: Layout) -> Tree {
        Tree(Octree {
            origin: Vector::splat(0.0),
            half: 1.0,
            levels: layout.levels,
            dims: layout.dims,
            subdivided: HashMap::default(),
        })
    }

    pub fn origin(&self) -> Vector {
        self.0.origin
    }

    pub fn half(&self) -> Real {
        self.0.half
    }

    pub fn layout(&self) -> Layout {
        Layout {
            levels: self.0.levels,
            dims: self.0.dims,
        }
    }

    /// Subdivides the octants whose byte is 1.
    pub fn subdivided_by(mut self, split: &[u8]) -> Tree {
        let layout = self.layout();
        for ((level, c), byte) in layout.octants().zip(split) {
            if *byte == 1 {
                self.0.split(level, c);
            }
        }
        self
    }

    /// The subdivided octants as a split table (rules 3.4, 3.5).
    pub fn split_table(&self) -> Vec<u8> {
        let layout = self.layout();
        let mut table = alloc::vec![0; layout.len()];
        for (level, c) in self.0.subdivided.keys() {
            table[layout.place(*level, *c)] = 1;
        }
        table
    }

    /// The published `balance` alone.
    pub fn balanced(mut self) -> Tree {
        balance(&mut self.0);
        self
    }

    pub fn leaves(&self) -> Vec<(u32, [i32; 3])> {
        self.0.leaves()
    }

    pub fn leaf_cells(&self, level: u32, c: [i32; 3]) -> Vec<[[i32; 3]; 4]> {
        leaf_cells(&self.0, level, c)
    }

    pub fn covering_leaf(&self, level: u32, c: [i32; 3]) -> Option<(u32, [i32; 3])> {
        self.0.covering_leaf(level, c)
    }

    pub fn has_finer_vertex(&self, level: u32, v: [i32; 3]) -> bool {
        self.0.has_finer_vertex(level, v)
    }

    pub fn background_grid(&self) -> BackgroundGrid {
        background_grid(&self.0)
    }
}
