//! Stands in for the shape: `MeshOracle` answers from lent tables, keyed by octant (level and
//! coordinates) and by cell number. A box of f32 points would not do: points may coincide.

use crate::math::{Real, Vector};
use std::cell::RefCell;

/// Where the octants of levels L down to 1 stand in one dense table (rule 3.4): level L first,
/// within a level (i, j, k) at i + j·nx + k·nx·ny.
#[derive(Copy, Clone, Debug, PartialEq, Eq)]
pub struct Layout {
    pub levels: u32,
    pub dims: [i32; 3],
}

impl Layout {
    /// The number of octants of a level along each axis.
    pub fn count(&self, level: u32) -> [i32; 3] {
        self.dims.map(|d| d << (self.levels - level))
    }

    /// The number of octants of a level.
    fn size(&self, level: u32) -> usize {
        self.count(level).iter().map(|n| *n as usize).product()
    }

    /// N: how many octants the table has.
    pub fn len(&self) -> usize {
        (1..=self.levels).map(|level| self.size(level)).sum()
    }

    pub fn is_empty(&self) -> bool {
        self.len() == 0
    }

    /// The place of a level's first octant.
    fn start(&self, level: u32) -> usize {
        (level + 1..=self.levels).map(|l| self.size(l)).sum()
    }

    /// The place of an octant.
    pub fn place(&self, level: u32, c: [i32; 3]) -> usize {
        let [nx, ny, _] = self.count(level).map(|n| n as usize);
        let [i, j, k] = c.map(|x| x as usize);
        self.start(level) + i + (j + k * ny) * nx
    }

    /// Every octant of the table, in table order.
    pub fn octants(&self) -> impl Iterator<Item = (u32, [i32; 3])> + '_ {
        (1..=self.levels).rev().flat_map(move |level| {
            let [nx, ny, nz] = self.count(level);
            (0..nz).flat_map(move |k| {
                (0..ny).flat_map(move |j| (0..nx).map(move |i| (level, [i, j, k])))
            })
        })
    }
}

/// The answers that the published `MeshOracle` works out from a triangle mesh.
pub struct MeshOracle<'a> {
    pub layout: Layout,
    /// One byte per octant of `layout`.
    pub octants: &'a [u8],
    /// One byte per cell: whether the surface passes through it.
    pub crossing: &'a [u8],
    /// One byte per cell: whether its centroid lies inside. Empty where only the asking matters.
    pub probe: &'a [u8],
    /// Which cells were probed, in order, each with the centroid asked for.
    pub asked: RefCell<Vec<(u32, Vector)>>,
}

impl<'a> MeshOracle<'a> {
    /// An oracle that answers for octants alone.
    pub fn of_octants(layout: Layout, octants: &'a [u8]) -> Self {
        Self {
            layout,
            octants,
            crossing: &[],
            probe: &[],
            asked: RefCell::default(),
        }
    }

    /// An oracle that answers for cells alone.
    pub fn of_cells(crossing: &'a [u8], probe: &'a [u8]) -> Self {
        Self {
            layout: Layout {
                levels: 0,
                dims: [0; 3],
            },
            octants: &[],
            crossing,
            probe,
            asked: RefCell::default(),
        }
    }

    pub fn crosses_region(&self, level: u32, c: [i32; 3]) -> bool {
        self.octants[self.layout.place(level, c)] == 1
    }

    pub fn surface_intersects(&self, cell: u32) -> bool {
        self.crossing[cell as usize] == 1
    }

    /// Positive inside, as the published signed distance.
    pub fn signed_distance(&self, cell: u32, centroid: Vector) -> Real {
        self.asked.borrow_mut().push((cell, centroid));
        if self.probe.get(cell as usize) == Some(&1) {
            1.0
        } else {
            -1.0
        }
    }
}
