//! Whether a closed triangle meets a closed box, a closed tetrahedron or another triangle. Touching counts.
//!
//! Two convex bodies are apart exactly when some axis keeps their shadows apart, and a few axes
//! are enough: face normals and products of edges. Shadows count as apart only if the gap is larger than
//! any rounding can be, so "apart" is always true; bodies that miss each other by less than about
//! 10⁻¹⁴ of their size count as crossing, and so may a flat tetrahedron in a triangle's own plane.
//! A tetrahedron is asked most: what of a triangle is beyond one of its faces is cut off, and what is left is looked at.

use crate::vector::{cross, dot, sub, Point, Triangle};

/// More than the rounding of a shadow, as a part of the size of what is added up.
const ROUNDING: f64 = 8.0 * f64::EPSILON;

/// The same for a point that has been cut out of an edge four times.
const CUT_ROUNDING: f64 = 32.0 * f64::EPSILON;

/// How far a slab stands off its triangles, as a part of the size of what is added up.
const STANDING_OFF: f64 = 1e-10;

/// Whether a triangle meets the box from `low` to `high`.
pub fn meets_box(triangle: &Triangle, low: Point, high: Point) -> bool {
    let holds = |point: &Point| (0..3).all(|k| low[k] <= point[k] && point[k] <= high[k]);
    if triangle.iter().any(holds) {
        return true;
    }
    let middle: Point = std::array::from_fn(|axis| 0.5 * (low[axis] + high[axis]));
    let reach: Point = std::array::from_fn(|axis| 0.5 * (high[axis] - low[axis]));
    let corners = triangle.map(|corner| sub(corner, middle));
    let slack: Point = std::array::from_fn(|axis| low[axis].abs() + high[axis].abs());
    let apart = |direction: Point| box_apart(direction, &corners, reach, slack);

    let edges = edges_of(triangle);
    !(UNITS.into_iter().any(apart)
        || apart(cross(edges[0], edges[1]))
        || products(&edges, &UNITS).any(apart))
}

/// Whether two triangles meet. Those in one plane are told apart by the normals of their edges in it.
pub fn meets_triangle(one: &Triangle, other: &Triangle) -> bool {
    let (a, b) = (one.map(|p| sub(p, one[0])), other.map(|p| sub(p, one[0])));
    let (edges, others) = (edges_of(&a), edges_of(&b));
    let normals = [cross(edges[0], edges[1]), cross(others[0], others[1])];
    let apart = |direction: Point| shadows_apart(direction, &a, &b);
    !(normals.into_iter().any(apart)
        || products(&edges, &others).any(apart)
        || products(&edges, &normals[..1]).any(apart)
        || products(&others, &normals[1..]).any(apart))
}

/// A tetrahedron, made ready to be asked about many triangles.
pub struct Cell {
    /// Its first corner, from where all is seen.
    from: Point,
    corners: [Point; 4],
    faces: [Face; 4],
    /// The largest coordinate of a corner.
    reach: f64,
    /// Whether it is thicker across each face than rounding.
    solid: bool,
}

/// A face's plane, and how far a point is behind it: `across · point − level`.
#[derive(Clone, Copy)]
struct Face {
    across: Point,
    level: f64,
    /// The sum of the direction's absolute coordinates.
    size: f64,
}

/// The corners of what is left of a triangle: a cut adds one at most.
const MOST_CORNERS: usize = 7;

impl Cell {
    pub fn new(corners: [Point; 4]) -> Self {
        let from = corners[0];
        let corners = corners.map(|corner| sub(corner, from));
        let [a, b, c, d] = corners;
        let reach = largest_coordinate(&corners);
        let faces = [(a, b, c, d), (a, d, b, c), (a, c, d, b), (b, d, c, a)];
        let faces = faces.map(|(p, q, r, opposite)| Face::new(p, q, r, opposite));
        let opposites = [d, c, b, a];
        let thick = |(face, opposite): (&Face, Point)| {
            dot(face.across, opposite) - face.level > 2.0 * face.slack(reach)
        };
        let solid = faces.iter().zip(opposites).all(thick);
        Cell { from, corners, faces, reach, solid }
    }

    /// Whether a triangle meets it. Mostly its faces tell: all corners are beyond one of them, or a corner is behind
    /// all; else what is beyond a face is cut off, and something is left or not. The planes stand off by more than
    /// rounding, so that nothing counts as beyond that is not.
    pub fn meets(&self, [a, b, c]: &Triangle) -> bool {
        let seen = [sub(*a, self.from), sub(*b, self.from), sub(*c, self.from)];
        if !self.solid {
            return self.meets_flat(&seen);
        }
        let reach = largest_coordinate(&seen).max(self.reach);
        let (mut behind_all, mut cuts) = ([true; 3], [false; 4]);
        for (face, cuts) in self.faces.iter().zip(&mut cuts) {
            let slack = face.slack(reach);
            let [a, b, c] = seen;
            let behind = [a, b, c].map(|corner| face.depth(corner) + slack >= 0.0);
            if behind == [false; 3] {
                return false;
            }
            *cuts = behind != [true; 3];
            for (all, behind) in behind_all.iter_mut().zip(behind) {
                *all &= behind;
            }
        }
        behind_all != [false; 3] || self.something_left(seen, cuts, reach)
    }

    /// Whether something of a triangle is left when what is beyond the faces that cut it is cut off.
    fn something_left(&self, seen: Triangle, cuts: [bool; 4], reach: f64) -> bool {
        let (mut left, mut before) = (&mut Polygon::new(seen), &mut Polygon::new(seen));
        for (face, _) in self.faces.iter().zip(cuts).filter(|(_, cuts)| *cuts) {
            std::mem::swap(&mut left, &mut before);
            before.cut(face, face.slack(reach), left);
            if left.count == 0 {
                return false;
            }
        }
        true
    }

    /// The same by shadows, for a cell whose faces have no sure direction.
    fn meets_flat(&self, corners: &Triangle) -> bool {
        let [a, b, c, d] = self.corners;
        let edges = [sub(b, a), sub(c, a), sub(d, a), sub(c, b), sub(d, b), sub(d, c)];
        let apart = |direction: Point| shadows_apart(direction, corners, &self.corners);
        let own = edges_of(corners);
        !(self.faces.iter().any(|face| apart(face.across))
            || apart(cross(own[0], own[1]))
            || products(&own, &edges).any(apart))
    }
}

impl Face {
    /// The face through three points, seen from the fourth.
    fn new(p: Point, q: Point, r: Point, opposite: Point) -> Self {
        let normal = cross(sub(q, p), sub(r, p));
        let way = if dot(normal, sub(opposite, p)) < 0.0 { -1.0 } else { 1.0 };
        let across = [way * normal[0], way * normal[1], way * normal[2]];
        let size = across[0].abs() + across[1].abs() + across[2].abs();
        Face { across, level: dot(across, p), size }
    }

    /// More than rounding makes of a point's distance after all cuts, if no coordinate is beyond the reach.
    fn slack(&self, reach: f64) -> f64 {
        CUT_ROUNDING * self.size * reach
    }

    fn depth(&self, point: Point) -> f64 {
        dot(self.across, point) - self.level
    }
}

/// What is left of a triangle.
struct Polygon {
    corners: [Point; MOST_CORNERS],
    count: usize,
}

impl Polygon {
    fn new(triangle: Triangle) -> Self {
        let mut corners = [[0.0; 3]; MOST_CORNERS];
        corners[..3].copy_from_slice(&triangle);
        Polygon { corners, count: 3 }
    }

    /// What is left without what is beyond the face's plane, moved outwards by the slack.
    fn cut(&self, face: &Face, slack: f64, left: &mut Polygon) {
        left.count = 0;
        let own = &self.corners[..self.count];
        let mut before = own[own.len() - 1];
        let mut depth = face.depth(before) + slack;
        for point in own {
            let next = face.depth(*point) + slack;
            if (depth < 0.0) != (next < 0.0) {
                let part = depth / (depth - next);
                left.add(std::array::from_fn(|k| before[k] + part * (point[k] - before[k])));
            }
            if next >= 0.0 {
                left.add(*point);
            }
            (before, depth) = (*point, next);
        }
    }

    /// A convex polygon has one corner more after a cut, at most. Where rounding gives another one, it is let go:
    /// something is left in any case.
    fn add(&mut self, corner: Point) {
        if self.count < MOST_CORNERS {
            self.corners[self.count] = corner;
            self.count += 1;
        }
    }
}

/// Two planes with triangles between them, and the direction across. They stand off so far that what is beside them counts as
/// apart from each of the triangles in every test here.
#[derive(Clone, Copy, Debug, Default)]
pub struct Slab {
    across: Point,
    low: f64,
    high: f64,
}

impl Slab {
    /// The slab across the sum of the triangles' normals: thin if they are nearly in one plane. What is held against it is not
    /// much farther from the origin than they and the two points.
    pub fn around(triangles: impl Iterator<Item = Triangle> + Clone, near: [Point; 2]) -> Self {
        let across = triangles.clone().fold([0.0; 3], |sum: Point, [a, b, c]| {
            let normal = cross(sub(b, a), sub(c, a));
            std::array::from_fn(|axis| sum[axis] + normal[axis])
        });
        let (mut low, mut high) = (f64::INFINITY, f64::NEG_INFINITY);
        let mut most = farthest(across, &near);
        for triangle in triangles {
            let (least, greatest) = shadow(across, &triangle);
            (low, high) = (low.min(least), high.max(greatest));
            most = most.max(farthest(across, &triangle));
        }
        Slab { across, low: low - STANDING_OFF * most, high: high + STANDING_OFF * most }
    }

    /// Whether all corners of a body are on one side of it.
    pub fn is_beside(&self, corners: &[Point]) -> bool {
        let (low, high) = shadow(self.across, corners);
        low > self.high || high < self.low
    }
}

fn largest_coordinate(points: &[Point]) -> f64 {
    points.as_flattened().iter().fold(0.0, |most, x| x.abs().max(most))
}

const UNITS: [Point; 3] = [[1.0, 0.0, 0.0], [0.0, 1.0, 0.0], [0.0, 0.0, 1.0]];

fn edges_of([a, b, c]: &Triangle) -> [Point; 3] {
    [sub(*b, *a), sub(*c, *b), sub(*a, *c)]
}

fn products<'a>(first: &'a [Point], second: &'a [Point]) -> impl Iterator<Item = Point> + 'a {
    first.iter().flat_map(|u| second.iter().map(|v| cross(*u, *v)))
}

/// Whether the shadows of the triangle and of the box about 0 are apart on a direction.
fn box_apart(direction: Point, corners: &Triangle, reach: Point, slack: Point) -> bool {
    let size = direction.map(f64::abs);
    let half = dot(size, reach);
    let (low, high) = shadow(direction, corners);
    let most = farthest(direction, corners).max(half) + dot(size, slack);
    low.max(-high) - half > ROUNDING * most
}

/// Whether the shadows of two bodies are apart on a direction.
fn shadows_apart(direction: Point, one: &[Point], other: &[Point]) -> bool {
    let ((low, high), (least, most)) = (shadow(direction, one), shadow(direction, other));
    let gap = (least - high).max(low - most);
    gap > 0.0 && gap > ROUNDING * largest(direction, one, other)
}

fn largest(direction: Point, one: &[Point], other: &[Point]) -> f64 {
    farthest(direction, one).max(farthest(direction, other))
}

/// The most that is added up for the shadow of a point.
fn farthest(direction: Point, points: &[Point]) -> f64 {
    let size = direction.map(f64::abs);
    points.iter().fold(0.0, |most, point| most.max(dot(size, point.map(f64::abs))))
}

fn shadow(direction: Point, points: &[Point]) -> (f64, f64) {
    let ends = (f64::INFINITY, f64::NEG_INFINITY);
    points.iter().fold(ends, |(low, high), point| {
        let place = dot(direction, *point);
        (low.min(place), high.max(place))
    })
}

#[cfg(test)]
mod tests {
    use super::*;

    const LOW: Point = [0.0; 3];
    const HIGH: Point = [1.0; 3];
    const CELL: [Point; 4] = [[0.0; 3], [1.0, 0.0, 0.0], [0.0, 1.0, 0.0], [0.0, 0.0, 1.0]];
    /// Far more than the rounding, far less than the bodies.
    const HAIR: f64 = 1e-9;

    fn meets_tetrahedron(triangle: &Triangle, corners: &[Point; 4]) -> bool {
        Cell::new(*corners).meets(triangle)
    }

    fn moved(triangle: &Triangle, by: Point) -> Triangle {
        triangle.map(|[x, y, z]| [x + by[0], y + by[1], z + by[2]])
    }

    fn flat(x: f64) -> Triangle {
        [[x, 0.2, 0.2], [x, 0.8, 0.2], [x, 0.2, 0.8]]
    }

    #[test]
    fn a_box_is_met_from_within_across_and_around() {
        let within = [[0.4, 0.4, 0.4], [0.6, 0.4, 0.5], [0.4, 0.6, 0.5]];
        let through = [[-9.0, 0.5, 0.4], [9.0, 0.5, 0.5], [9.0, 0.6, 0.5]];
        let around = [[-90.0, -90.0, 0.5], [90.0, -90.0, 0.5], [0.0, 90.0, 0.5]];
        for triangle in [within, through, around] {
            assert!(meets_box(&triangle, LOW, HIGH));
        }
    }

    #[test]
    fn touching_a_box_by_face_edge_or_corner_counts_and_a_hair_off_does_not() {
        let on_face = flat(1.0);
        let on_edge = [[1.0, 1.0, 0.2], [2.0, 2.0, 0.2], [2.0, 2.0, 0.8]];
        let on_corner = [[1.0, 1.0, 1.0], [2.0, 3.0, 1.5], [3.0, 2.0, 1.5]];
        let corner_of_plane = [[3.0, 0.0, 0.0], [0.0, 3.0, 0.0], [0.0, 0.0, 3.0]];
        for triangle in [on_face, on_edge, on_corner, corner_of_plane] {
            assert!(meets_box(&triangle, LOW, HIGH));
            assert!(!meets_box(&moved(&triangle, [HAIR; 3]), LOW, HIGH));
        }
    }

    #[test]
    fn a_box_is_missed_where_only_a_product_of_edges_parts_them() {
        let past_edge = [[2.1, 0.0, 0.5], [0.0, 2.1, 0.5], [2.1, 2.1, 0.6]];
        assert!(!meets_box(&past_edge, LOW, HIGH));
        let skew = [[1.5, -0.6, -0.2], [-0.6, 1.5, -0.2], [1.5, -0.6, -9.0]];
        assert!(meets_box(&moved(&skew, [0.0, 0.0, 0.2]), LOW, HIGH));
        let skew_off = [[1.7, 0.5, -0.6], [0.5, -0.7, 1.7], [9.0, -9.0, 0.0]];
        assert!(!meets_box(&skew_off, LOW, HIGH));
    }

    #[test]
    fn points_and_segments_are_triangles_too() {
        assert!(meets_box(&[[1.0; 3]; 3], LOW, HIGH));
        assert!(!meets_box(&[[1.0 + HAIR; 3]; 3], LOW, HIGH));
        let segment = [[-1.0, 0.5, 0.5], [2.0, 0.5, 0.5], [2.0, 0.5, 0.5]];
        assert!(meets_box(&segment, LOW, HIGH));
        assert!(meets_tetrahedron(&[[0.25; 3]; 3], &CELL));
        assert!(!meets_tetrahedron(&[[0.5; 3]; 3], &CELL));
        let piercing = [[-1.0, 0.2, 0.2], [2.0, 0.2, 0.2], [2.0, 0.2, 0.2]];
        assert!(meets_tetrahedron(&piercing, &CELL));
        assert!(!meets_tetrahedron(&moved(&piercing, [0.0, 0.9, 0.0]), &CELL));
    }

    #[test]
    fn a_tetrahedron_is_met_from_within_across_and_around() {
        let within = [[0.1, 0.1, 0.1], [0.2, 0.1, 0.1], [0.1, 0.2, 0.2]];
        let through = [[-9.0, 0.2, 0.2], [9.0, 0.2, 0.2], [9.0, 0.3, 0.2]];
        let around = [[-90.0, -90.0, 0.5], [90.0, -90.0, 0.5], [0.0, 90.0, 0.5]];
        for triangle in [within, through, around] {
            assert!(meets_tetrahedron(&triangle, &CELL));
        }
    }

    #[test]
    fn touching_a_tetrahedron_by_face_edge_or_vertex_counts_and_a_hair_off_does_not() {
        let third = 1.0 / 3.0;
        let on_face = [[third; 3], [1.0, 1.0, 1.0], [1.0, 1.2, 1.0]];
        let on_edge = [[0.5, 0.5, 0.0], [1.0, 1.0, -1.0], [1.0, 1.0, 1.0]];
        let on_vertex = [[0.0, 0.0, 1.0], [0.5, -0.5, 1.2], [-0.5, 0.5, 1.2]];
        for triangle in [on_face, on_edge, on_vertex] {
            assert!(meets_tetrahedron(&triangle, &CELL));
            assert!(!meets_tetrahedron(&moved(&triangle, [HAIR; 3]), &CELL));
        }
        let in_face_plane = [[0.0, 0.2, 0.2], [0.0, 0.3, 0.2], [0.0, 0.2, 0.3]];
        assert!(meets_tetrahedron(&in_face_plane, &CELL));
        assert!(!meets_tetrahedron(&moved(&in_face_plane, [-HAIR, 0.0, 0.0]), &CELL));
    }

    #[test]
    fn a_tetrahedron_is_missed_inside_its_own_box() {
        let beyond_slope = [[0.9, 0.9, 0.1], [0.9, 0.9, 0.9], [0.5, 0.9, 0.9]];
        assert!(!meets_tetrahedron(&beyond_slope, &CELL));
        assert!(meets_box(&beyond_slope, LOW, HIGH));
    }

    #[test]
    fn small_and_large_bodies_are_judged_alike() {
        for scale in [1e-30, 1e-3, 1.0, 1e6, 1e30] {
            let sized = |triangle: Triangle| triangle.map(|point| point.map(|x| x * scale));
            let cell = CELL.map(|point| point.map(|x| x * scale));
            assert!(meets_box(&sized(flat(1.0)), LOW, [scale; 3]));
            assert!(!meets_box(&sized(flat(1.0 + HAIR)), LOW, [scale; 3]));
            assert!(meets_tetrahedron(&sized(flat(0.0)), &cell));
            assert!(!meets_tetrahedron(&sized(flat(-HAIR)), &cell));
        }
    }

    #[test]
    fn cutting_and_shadows_agree() {
        let mut random = crate::testing::Random::new(9);
        let mut met = 0;
        for _ in 0..20_000 {
            let cell = Cell::new(std::array::from_fn(|_| random.point(0.0, 1.0)));
            let triangle: Triangle = std::array::from_fn(|_| random.point(-0.5, 1.5));
            let seen = triangle.map(|corner| sub(corner, cell.from));
            assert!(cell.solid);
            assert_eq!(cell.meets(&triangle), cell.meets_flat(&seen));
            met += usize::from(cell.meets(&triangle));
        }
        assert!((4_000..16_000).contains(&met), "{met}");
    }

    /// Triangles near one plane: what is beside their slab meets none, and most of what meets none is beside it.
    #[test]
    fn what_is_beside_a_slab_meets_none_of_its_triangles() {
        let mut random = crate::testing::Random::new(10);
        let (mut beside, mut apart) = (0, 0);
        for _ in 0..5_000 {
            let corner = |random: &mut crate::testing::Random| {
                let [x, y, z] = random.point(0.0, 1.0);
                [x, y, 0.3 * x + 0.5 * y + 0.01 * z]
            };
            let patch: [Triangle; 4] =
                std::array::from_fn(|_| std::array::from_fn(|_| corner(&mut random)));
            let slab = Slab::around(patch.iter().copied(), [LOW, HIGH]);
            let cell: [Point; 4] = std::array::from_fn(|_| random.point(-0.2, 1.2));
            let met = patch.iter().any(|triangle| meets_tetrahedron(triangle, &cell));
            assert!(!(met && slab.is_beside(&cell)));
            beside += usize::from(slab.is_beside(&cell));
            apart += usize::from(!met);
        }
        assert!(beside > 500 && beside < apart, "{beside} of {apart}");
        let slab = Slab::around([flat(1.0)].into_iter(), [LOW, HIGH]);
        let touching = [[1.0, 0.0, 0.0], [2.0, 0.0, 0.0], [2.0, 1.0, 0.0], [2.0, 0.0, 1.0]];
        assert!(!slab.is_beside(&touching));
        assert!(slab.is_beside(&touching.map(|[x, y, z]| [x + HAIR, y, z])));
    }

    /// Random bodies against a search for a common point: whenever one is found the test must agree.
    #[test]
    fn whenever_a_common_point_is_found_they_meet() {
        let mut random = crate::testing::Random::new(7);
        let mut found = 0;
        for _ in 0..20_000 {
            let triangle: Triangle = std::array::from_fn(|_| random.point(-1.0, 2.0));
            let (u, v) = random.barycentric();
            let [a, b, c] = triangle;
            let point: Point =
                std::array::from_fn(|k| a[k] + u * (b[k] - a[k]) + v * (c[k] - a[k]));
            if point.iter().all(|x| (0.0..=1.0).contains(x)) {
                assert!(meets_box(&triangle, LOW, HIGH));
                found += 1;
            }
            if point.iter().all(|x| *x >= 0.0) && point.iter().sum::<f64>() <= 1.0 {
                assert!(meets_tetrahedron(&triangle, &CELL));
                found += 1;
            }
        }
        assert!(found > 500);
    }

    /// Random bodies against sampling of the whole triangle: what is far from every sample is missed.
    #[test]
    fn what_no_sample_comes_near_is_missed() {
        let mut random = crate::testing::Random::new(8);
        let mut missed = 0;
        for _ in 0..2_000 {
            let triangle: Triangle = std::array::from_fn(|_| random.point(-1.0, 2.0));
            let met = meets_box(&triangle, LOW, HIGH);
            if nearest_sample(&triangle) > 0.12 {
                assert!(!met && !meets_tetrahedron(&triangle, &CELL));
                missed += 1;
            }
        }
        assert!(missed > 200);
    }

    /// How near to the unit box the samples of a triangle come, at most 0.1 apart from one another.
    fn nearest_sample([a, b, c]: &Triangle) -> f64 {
        let samples = (0..=60).flat_map(|i| (0..=60 - i).map(move |j| (i, j)));
        let gap = samples.map(|(i, j)| {
            let (u, v) = (f64::from(i) / 60.0, f64::from(j) / 60.0);
            let outside: Point = std::array::from_fn(|k| {
                let x = a[k] + u * (b[k] - a[k]) + v * (c[k] - a[k]);
                (-x).max(x - 1.0).max(0.0)
            });
            crate::vector::length(outside)
        });
        gap.fold(f64::INFINITY, f64::min)
    }

    #[test]
    fn triangles_meet_across_at_a_corner_and_in_one_plane() {
        let own = [[0.0; 3], [4.0, 0.0, 0.0], [0.0, 4.0, 0.0]];
        let through = [[1.0, 1.0, -1.0], [1.0, 1.0, 1.0], [9.0, 9.0, 1.0]];
        let at_corner = [[4.0, 0.0, 0.0], [5.0, 1.0, 2.0], [5.0, -1.0, 2.0]];
        let in_plane = [[1.0, 1.0, 0.0], [9.0, 1.0, 0.0], [9.0, 9.0, 0.0]];
        for other in [through, at_corner, in_plane, own] {
            assert!(meets_triangle(&own, &other) && meets_triangle(&other, &own));
        }
        let above = moved(&own, [0.0, 0.0, HAIR]);
        let beside = [[2.0 + HAIR, 2.0 + HAIR, 0.0], [9.0, 2.0, 0.0], [2.0, 9.0, 0.0]];
        for other in [above, beside, moved(&through, [2.0, 2.0, 0.0])] {
            assert!(!meets_triangle(&own, &other) && !meets_triangle(&other, &own));
        }
    }

    #[test]
    fn a_flat_cell_is_missed_beyond_its_rim() {
        let flat_cell = [[0.0; 3], [1.0, 0.0, 0.0], [0.0, 1.0, 0.0], [1.0, 1.0, 0.0]];
        let standing = [[0.5, 0.5, -1.0], [0.5, 0.6, 1.0], [0.6, 0.5, 1.0]];
        assert!(meets_tetrahedron(&standing, &flat_cell));
        assert!(!meets_tetrahedron(&moved(&standing, [3.0, 0.0, 0.0]), &flat_cell));
        let point_cell = [[0.25; 3]; 4];
        assert!(!meets_tetrahedron(&standing, &point_cell));
    }
}
