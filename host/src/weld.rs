//! Corners that stand close together made one, to close a surface that was written carelessly.

use crate::corners::{Corners, Mixing};
use crate::stl::Facet;
use crate::vector::{length, sub, wide};
use std::collections::HashMap;
use std::hash::BuildHasherDefault;

/// What came of it.
#[derive(Clone, Copy, Debug, PartialEq)]
pub struct Welded {
    /// Corners that went to another one's place, and the farthest way that one went.
    pub joined: usize,
    pub farthest: f64,
    /// Triangles that were left with fewer than three corners, and are gone.
    pub removed: usize,
}

type Places = HashMap<[i64; 3], Vec<u32>, BuildHasherDefault<Mixing>>;

/// Moves each corner to the first one within reach that has stayed where it was. None goes farther than that.
pub fn weld(facets: &mut Vec<Facet>, within: f32) -> Welded {
    let corners = Corners::new(facets);
    let mut stayed = Places::default();
    let mut welded = Welded { joined: 0, farthest: 0.0, removed: 0 };
    let to: Vec<u32> = (0..corners.points.len() as u32)
        .map(|corner| {
            let (place, way) = nearest(&corners, &mut stayed, corner, f64::from(within));
            welded.joined += usize::from(place != corner);
            welded.farthest = welded.farthest.max(way);
            place
        })
        .collect();
    let moved = corners.of.iter().map(|facet| facet.map(|corner| to[corner as usize]));
    let whole = moved.filter(|[a, b, c]| a != b && b != c && c != a);
    let placed = whole.map(|facet| facet.map(|corner| corners.points[corner as usize]));
    let before = facets.len();
    *facets = placed.collect();
    welded.removed = before - facets.len();
    welded
}

/// The first corner within reach that has stayed, and the way there; else the corner itself, which stays.
fn nearest(corners: &Corners, stayed: &mut Places, corner: u32, within: f64) -> (u32, f64) {
    let at = wide(corners.points[corner as usize]);
    let home = at.map(|x| (x / within).floor() as i64);
    let way = |other: &u32| length(sub(wide(corners.points[*other as usize]), at));
    let around = (0..27).map(|n| [n % 3 - 1, n / 3 % 3 - 1, n / 9 - 1]);
    let near = around.flat_map(|by| {
        let place: [i64; 3] = std::array::from_fn(|axis| home[axis].saturating_add(by[axis]));
        stayed.get(&place).into_iter().flatten()
    });
    match near.copied().filter(|other| way(other) <= within).min() {
        Some(other) => (other, way(&other)),
        None => {
            stayed.entry(home).or_default().push(corner);
            (corner, 0.0)
        }
    }
}

#[cfg(test)]
mod tests {
    use super::*;
    use crate::edges::Edges;
    use crate::testing::tetrahedron;

    fn open_edges(facets: &[Facet]) -> usize {
        let corners = Corners::new(facets);
        Edges::new(&corners).openings(&corners).edges.len()
    }

    #[test]
    fn a_crack_is_closed_and_no_corner_goes_farther_than_asked() {
        let mut facets = tetrahedron([0.0; 3], 1.0);
        facets[0] = facets[0].map(|corner| corner.map(|x| x + 0.001));
        assert_eq!(open_edges(&facets), 6);
        let mut short = facets.clone();
        assert_eq!(weld(&mut short, 0.0001).joined, 0);
        assert_eq!(short, facets);
        let welded = weld(&mut facets, 0.002);
        assert_eq!((welded.joined, welded.removed, open_edges(&facets)), (3, 0, 0));
        assert!((welded.farthest - 0.001 * 3f64.sqrt()).abs() < 1e-6);
    }

    #[test]
    fn triangles_that_vanish_are_counted() {
        let mut facets = [tetrahedron([0.0; 3], 1.0), tetrahedron([9.0; 3], 0.01)].concat();
        let welded = weld(&mut facets, 0.1);
        assert_eq!((welded.joined, welded.removed, facets.len()), (3, 4, 4));
    }
}
