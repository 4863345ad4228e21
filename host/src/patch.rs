//! Triangles of a surface that meet one small box, and which cells meet one of them.

use crate::crossing::{Cell, Slab};
use crate::surface::{Around, Surface};
use crate::vector::{wide, Point};
use std::cell::OnceCell;

/// The triangles that meet a box. Mostly they are nearly in one plane, and a slab tells which cells are beside them all.
#[derive(Clone, Default)]
pub struct Patch {
    triangles: Vec<u32>,
    slab: Slab,
}

impl Patch {
    pub fn within(surface: &Surface, low: [f32; 3], high: [f32; 3]) -> Self {
        let triangles = surface.within_box(low, high);
        let own = triangles.iter().map(|number| surface.triangle(*number as usize));
        let slab = Slab::around(own, [wide(low), wide(high)]);
        Patch { triangles, slab }
    }

    pub fn is_empty(&self) -> bool {
        self.triangles.is_empty()
    }

    /// Whether a triangle of the patch meets the cell.
    pub fn meets(&self, surface: &Surface, cell: &Asked) -> bool {
        let met = |number: &u32| cell.meets(surface, *number as usize);
        !self.slab.is_beside(&cell.corners) && self.triangles.iter().any(met)
    }
}

/// A cell that is asked about; it is made ready for triangles when the first comes near.
pub struct Asked {
    corners: [Point; 4],
    around: Around,
    ready: OnceCell<Cell>,
}

impl Asked {
    pub fn new(points: [[f32; 3]; 4]) -> Self {
        let (corners, around) = (points.map(wide), Around::points(&points));
        Asked { corners, around, ready: OnceCell::new() }
    }

    fn meets(&self, surface: &Surface, number: usize) -> bool {
        surface.around(number).meets(&self.around)
            && self.ready.get_or_init(|| Cell::new(self.corners)).meets(&surface.triangle(number))
    }
}
