//! The edges of a surface: where it is open, and which triangles they join.

use crate::corners::Corners;
use crate::joined::Joined;
use std::collections::HashSet;
use std::fmt;

/// Each triangle's edges, sorted so that the uses of one edge stand together.
pub struct Edges {
    uses: Vec<Use>,
    triangles: usize,
}

/// An edge as a triangle walks it.
struct Use {
    /// The lower corner and the higher one.
    ends: (u32, u32),
    triangle: u32,
    upward: bool,
}

/// Where a surface is open or turns over.
#[derive(Clone, Debug, Default, PartialEq)]
pub struct Openings {
    /// The ends of each edge that triangles do not walk as often one way as the other; one of each hole first.
    pub edges: Vec<[[f32; 3]; 2]>,
    /// How many rims these edges make, step by step through their ends.
    pub holes: usize,
    /// Edges at which two triangles are turned against each other; the rest have no partner.
    pub turned: usize,
}

/// Holes that are told one by one.
const TOLD: usize = 3;

impl fmt::Display for Openings {
    fn fmt(&self, f: &mut fmt::Formatter<'_>) -> fmt::Result {
        let many = |count: usize, name: &str| match count {
            1 => format!("1 {name}"),
            _ => format!("{count} {name}s"),
        };
        let (open, turned) = (self.edges.len() - self.turned, self.turned);
        let ways = [(open, "it is open"), (turned, "its triangles are turned against each other")];
        let ways = ways.iter().filter(|(count, _)| *count > 0);
        let ways: Vec<String> =
            ways.map(|(count, how)| format!("{how} at {}", many(*count, "edge"))).collect();
        write!(f, "{}, around {}", ways.join(", and "), many(self.holes, "hole"))?;
        for (n, [a, b]) in self.edges.iter().take(TOLD.min(self.holes)).enumerate() {
            let between = if n == 0 { ": for one" } else { "," };
            write!(f, "{between} from {} to {}", place(*a), place(*b))?;
        }
        write!(f, "; close it, join near corners with --weld EPS, or take its --crust alone")
    }
}

fn place([x, y, z]: [f32; 3]) -> String {
    format!("({x}, {y}, {z})")
}

impl Edges {
    /// The edges of triangles; one that has an edge without length has no edges.
    pub fn new(corners: &Corners) -> Self {
        let mut uses = Vec::with_capacity(3 * corners.of.len());
        for (triangle, [a, b, c]) in (0..).zip(&corners.of) {
            if a != b && b != c && c != a {
                uses.extend([(a, b), (b, c), (c, a)].map(|(from, to)| Use {
                    ends: (*from.min(to), *from.max(to)),
                    triangle,
                    upward: from < to,
                }));
            }
        }
        uses.sort_unstable_by_key(|edge| edge.ends);
        Edges { uses, triangles: corners.of.len() }
    }

    fn each(&self) -> impl Iterator<Item = &[Use]> {
        self.uses.chunk_by(|one, next| one.ends == next.ends)
    }

    pub fn openings(&self, corners: &Corners) -> Openings {
        let ways = |uses: &[Use]| uses.iter().filter(|edge| edge.upward).count();
        let open: Vec<&[Use]> = self.each().filter(|uses| 2 * ways(uses) != uses.len()).collect();
        let mut rims = Joined::new(corners.points.len());
        for uses in &open {
            rims.join(uses[0].ends.0, uses[0].ends.1);
        }
        let mut seen = HashSet::new();
        let (mut edges, more): (Vec<_>, Vec<_>) =
            open.iter().partition(|uses| seen.insert(rims.lowest(uses[0].ends.0)));
        edges.extend(more);
        let ends = |uses: &[Use]| {
            let (low, high) = uses[0].ends;
            [low, high].map(|corner| corners.points[corner as usize])
        };
        Openings {
            edges: edges.into_iter().map(ends).collect(),
            holes: seen.len(),
            turned: open.iter().filter(|uses| uses.len() % 2 == 0).count(),
        }
    }

    /// For each triangle the number of its shell, joined through any edge, and how many shells there are.
    pub fn shells(&self) -> (Vec<u32>, usize) {
        self.joined(|_| true)
    }

    /// For each triangle the number of its sheet, joined through edges of just two triangles, and how many there are. All
    /// triangles of a sheet have the same regions of space on their two sides.
    pub fn sheets(&self) -> (Vec<u32>, usize) {
        self.joined(|uses| uses.len() == 2)
    }

    fn joined(&self, through: impl Fn(&[Use]) -> bool) -> (Vec<u32>, usize) {
        let mut joined = Joined::new(self.triangles);
        for uses in self.each().filter(|uses| through(uses)) {
            for edge in &uses[1..] {
                joined.join(uses[0].triangle, edge.triangle);
            }
        }
        joined.numbers()
    }
}

#[cfg(test)]
mod tests {
    use super::*;
    use crate::stl::Facet;
    use crate::testing::tetrahedron;

    fn openings(facets: &[Facet]) -> Openings {
        let corners = Corners::new(facets);
        Edges::new(&corners).openings(&corners)
    }

    #[test]
    fn openings_are_found_counted_and_told_apart() {
        let closed = tetrahedron([0.0; 3], 1.0);
        assert_eq!(openings(&closed), Openings::default());
        assert_eq!(openings(&[]), Openings::default());
        let open = openings(&closed[..3]);
        assert_eq!((open.edges.len(), open.holes, open.turned), (3, 1, 0));
        assert!(open.edges.contains(&[[1.0, 0.0, 0.0], [0.0, 0.0, 1.0]]));
        let two = [&closed[..3], &tetrahedron([5.0; 3], 1.0)[..2]].concat();
        assert_eq!((openings(&two).edges.len(), openings(&two).holes), (7, 2));
        let mut one_turned = closed;
        one_turned[0].swap(0, 1);
        let turned = openings(&one_turned);
        assert_eq!((turned.edges.len(), turned.holes, turned.turned), (3, 1, 3));
    }

    #[test]
    fn flat_triangles_and_negative_zeros_leave_a_surface_closed() {
        let mut surface = tetrahedron([0.0; 3], 1.0);
        surface[0][0][1] = -0.0;
        surface.push([[0.0; 3], [1.0, 0.0, 0.0], [1.0, 0.0, 0.0]]);
        assert_eq!(openings(&surface), Openings::default());
    }
}
