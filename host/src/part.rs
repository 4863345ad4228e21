//! A part to be meshed: its surface, its box, where it is open and, if it is closed, its shells.

use crate::corners::Corners;
use crate::edges::{Edges, Openings};
use crate::plan::Bounds;
use crate::progress::staged;
use crate::shells::Shells;
use crate::stl::{parse, Facet, StlError};
use crate::surface::Surface;

pub struct Part {
    pub surface: Surface,
    pub bounds: Bounds,
    pub openings: Openings,
    /// Of a closed surface.
    pub shells: Option<Shells>,
}

impl Part {
    pub fn new(facets: Vec<Facet>) -> Self {
        let (surface, corners, edges) = staged("surface", || {
            let surface = Surface::new(facets);
            let corners = Corners::new(surface.facets());
            let edges = Edges::new(&corners);
            (surface, corners, edges)
        });
        let openings = edges.openings(&corners);
        let closed = openings.edges.is_empty();
        Part {
            bounds: Bounds::around(&corners.points).unwrap_or_default(),
            shells: closed.then(|| Shells::new(&surface, &corners, &edges)),
            surface,
            openings,
        }
    }

    /// The part of an STL file's bytes.
    pub fn from_stl(file: &[u8]) -> Result<Self, StlError> {
        parse(file).map(Part::new)
    }
}
