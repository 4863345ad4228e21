//! A part's surface: its triangles in a tree of boxes, so that only those near a place are looked at.

use crate::answers::processors;
use crate::crossing::meets_box;
use crate::ray::pierced;
use crate::stl::Facet;
use crate::vector::{box_of, wide, Point, Triangle};
use std::ops::Range;
use std::thread;

/// Triangles to a leaf of the tree.
const LEAF: usize = 4;
/// Fewer triangles are not worth a thread.
const WORTH_A_THREAD: usize = 10_000;

/// A tree of boxes over triangles, stored in the order of a walk: a node's first child follows it.
pub struct Surface {
    facets: Vec<Facet>,
    nodes: Vec<Node>,
}

/// A leaf of the tree: its node.
#[derive(Clone, Copy)]
pub struct Leaf(u32);

struct Node {
    around: Around,
    /// Nodes of the tree under it, itself included.
    size: u32,
    /// Of a leaf: its first triangle and how many it has. Else the count is 0.
    first: u32,
    count: u32,
}

impl Surface {
    /// The tree over these triangles, which it puts into an order of its own.
    pub fn new(mut facets: Vec<Facet>) -> Self {
        let mut nodes = Vec::new();
        if !facets.is_empty() {
            grow(&mut facets, 0, processors(), &mut nodes);
        }
        Surface { facets, nodes }
    }

    pub fn facets(&self) -> &[Facet] {
        &self.facets
    }

    pub fn triangle(&self, number: usize) -> Triangle {
        let [a, b, c] = self.facets[number];
        [wide(a), wide(b), wide(c)]
    }

    /// The box of a triangle.
    pub fn around(&self, number: usize) -> Around {
        Around::points(&self.facets[number])
    }

    /// How often the closed surface winds around a point: 0 outside, whatever way it is turned.
    pub fn winding(&self, point: Point) -> i64 {
        let mut turns = 0;
        self.near_ray(point, 0, |number| turns += pierced(&self.triangle(number), point, 0));
        turns
    }

    /// Whether the surface crosses the closed box.
    pub fn crosses_box(&self, low: [f32; 3], high: [f32; 3]) -> bool {
        let (wide_low, wide_high) = (wide(low), wide(high));
        self.any_near(Around { low, high }, |number| {
            meets_box(&self.triangle(number), wide_low, wide_high)
        })
    }

    /// The triangles that meet the closed box.
    pub fn within_box(&self, low: [f32; 3], high: [f32; 3]) -> Vec<u32> {
        let (around, mut found) = (Around { low, high }, Vec::new());
        let (wide_low, wide_high) = (wide(low), wide(high));
        self.any_near(around, |number| {
            if self.around(number).meets(&around)
                && meets_box(&self.triangle(number), wide_low, wide_high)
            {
                found.push(number as u32);
            }
            false
        });
        found
    }

    /// The triangles that a ray from a point along an axis may meet.
    pub fn near_ray(&self, from: Point, axis: usize, mut found: impl FnMut(usize)) {
        let mut around = Around::outwards(&[from]);
        around.high[axis] = f32::INFINITY;
        self.any_near(around, |number| {
            found(number);
            false
        });
    }

    /// The leaves of the tree, in the order of their triangles.
    pub fn leaves(&self) -> Vec<Leaf> {
        let nodes = self.nodes.iter().enumerate().filter(|(_, node)| node.count > 0);
        nodes.map(|(node, _)| Leaf(node as u32)).collect()
    }

    /// A leaf's triangles.
    pub fn triangles(&self, leaf: Leaf) -> Range<usize> {
        let Node { first, count, .. } = self.nodes[leaf.0 as usize];
        first as usize..(first + count) as usize
    }

    /// Whether some triangle in a leaf that meets the box passes the test.
    pub fn any_near(&self, around: Around, test: impl FnMut(usize) -> bool) -> bool {
        self.any_from(0, around, test)
    }

    /// The same of the triangles after those of a leaf.
    pub fn any_after(&self, leaf: Leaf, around: Around, test: impl FnMut(usize) -> bool) -> bool {
        self.any_from(leaf.0 as usize + 1, around, test)
    }

    fn any_from(&self, mut at: usize, around: Around, mut test: impl FnMut(usize) -> bool) -> bool {
        while let Some(node) = self.nodes.get(at) {
            if !node.around.meets(&around) {
                at += node.size as usize;
                continue;
            }
            let first = node.first as usize;
            if (first..first + node.count as usize).any(&mut test) {
                return true;
            }
            at += 1;
        }
        false
    }
}

/// A closed box.
#[derive(Clone, Copy)]
pub struct Around {
    low: [f32; 3],
    high: [f32; 3],
}

impl Around {
    /// The least box around points.
    pub fn points<'a>(points: impl IntoIterator<Item = &'a [f32; 3]>) -> Self {
        let (mut low, mut high) = ([f32::INFINITY; 3], [f32::NEG_INFINITY; 3]);
        for point in points {
            for axis in 0..3 {
                low[axis] = if point[axis] < low[axis] { point[axis] } else { low[axis] };
                high[axis] = if point[axis] > high[axis] { point[axis] } else { high[axis] };
            }
        }
        Around { low, high }
    }

    /// A box that holds points in f64: it may be a little larger.
    pub fn outwards(points: &[Point]) -> Self {
        let (low, high) = box_of(points);
        Around {
            low: low.map(|x| (x as f32).next_down()),
            high: high.map(|x| (x as f32).next_up()),
        }
    }

    pub fn meets(&self, other: &Around) -> bool {
        let apart = |k: usize| (self.low[k] > other.high[k]) | (other.low[k] > self.high[k]);
        !(apart(0) | apart(1) | apart(2))
    }
}

/// Adds the tree over these triangles, which start at `first` of all; so many threads may work on it.
fn grow(part: &mut [Facet], first: usize, threads: usize, nodes: &mut Vec<Node>) {
    let around = Around::points(part.as_flattened());
    let own = nodes.len();
    let count = if part.len() <= LEAF { part.len() as u32 } else { 0 };
    nodes.push(Node { around, size: 1, first: first as u32, count });
    if count > 0 {
        return;
    }
    let axis = longest(around);
    let half = part.len() / 2;
    part.select_nth_unstable_by(half, |a, b| along(a, axis).total_cmp(&along(b, axis)));
    let (left, right) = part.split_at_mut(half);
    if threads > 1 && half > WORTH_A_THREAD {
        let mut beside = Vec::new();
        thread::scope(|scope| {
            scope.spawn(|| grow(right, first + half, threads / 2, &mut beside));
            grow(left, first, threads - threads / 2, nodes);
        });
        nodes.append(&mut beside);
    } else {
        grow(left, first, 1, nodes);
        grow(right, first + half, 1, nodes);
    }
    nodes[own].size = (nodes.len() - own) as u32;
}

fn longest(Around { low, high }: Around) -> usize {
    let wide = |axis: &usize| high[*axis] - low[*axis];
    (0..3).max_by(|a, b| wide(a).total_cmp(&wide(b))).unwrap_or(0)
}

fn along(facet: &Facet, axis: usize) -> f64 {
    facet.iter().map(|corner| f64::from(corner[axis])).sum()
}

#[cfg(test)]
mod tests {
    use super::*;
    use crate::testing::{solid_angles, tetrahedron, turned, Random};

    fn near<const N: usize>(random: &mut Random) -> [[f32; 3]; N] {
        let at = random.point(0.0, 10.0);
        std::array::from_fn(|_| {
            let by = random.point(-0.5, 0.5);
            std::array::from_fn(|k| (at[k] + by[k]) as f32)
        })
    }

    #[test]
    fn the_tree_answers_as_all_triangles_do() {
        let mut random = Random::new(3);
        let soup: Vec<Facet> = (0..500).map(|_| near(&mut random)).collect();
        let surface = Surface::new(soup);
        let all: Vec<Triangle> = (0..500).map(|n| surface.triangle(n)).collect();
        let mut crossed = 0;
        for _ in 0..2_000 {
            let around = Around::points(&near::<4>(&mut random));
            let (low, high) = (wide(around.low), wide(around.high));
            let met = (0..500).filter(|n| meets_box(&all[*n as usize], low, high));
            let met: Vec<u32> = met.collect();
            assert_eq!(surface.within_box(around.low, around.high), met);
            assert_eq!(surface.crosses_box(around.low, around.high), !met.is_empty());
            crossed += usize::from(!met.is_empty());
        }
        assert!((200..1_800).contains(&crossed));
    }

    #[test]
    fn after_a_leaf_come_the_triangles_of_higher_numbers() {
        let mut random = Random::new(5);
        let surface = Surface::new((0..500).map(|_| near(&mut random)).collect());
        let mut next = 0;
        for leaf in surface.leaves() {
            let own = surface.triangles(leaf);
            assert_eq!(own.start, next);
            next = own.end;
            let around = Around::points(&near::<9>(&mut random));
            let mut found = Vec::new();
            surface.any_after(leaf, around, |number| {
                found.push(number);
                false
            });
            let meets = |number: &usize| surface.around(*number).meets(&around);
            found.retain(meets);
            assert_eq!(found, (next..500).filter(meets).collect::<Vec<_>>());
        }
        assert_eq!(next, 500);
    }

    /// Solids of any orientation, one in the other, beside and across: a ray counts what the solid angles sum to.
    #[test]
    fn the_winding_number_is_that_of_the_solid_angles() {
        let mut random = Random::new(4);
        let mut facets = Vec::new();
        for n in 0..40 {
            let solid = tetrahedron(random.point(0.0, 10.0), 1.0 + n as f32 / 8.0);
            facets.extend(if n % 3 == 0 { turned(&solid) } else { solid });
        }
        let surface = Surface::new(facets);
        let mut met = [0; 7];
        for _ in 0..2_000 {
            let point = random.point(0.0, 12.0);
            let expected = solid_angles(&surface, point);
            assert!((expected - surface.winding(point) as f64).abs() < 1e-9);
            met[(surface.winding(point) + 3).clamp(0, 6) as usize] += 1;
        }
        assert!(met.iter().filter(|count| **count > 0).count() >= 4, "{met:?}");
    }

    /// What a test of inside costs: not all triangles, however many solids there are.
    #[test]
    fn a_ray_looks_at_few_triangles() {
        let mut random = Random::new(6);
        let solids = (0..5_000).flat_map(|_| tetrahedron(random.point(0.0, 100.0), 1.0));
        let surface = Surface::new(solids.collect());
        let mut looked_at = 0;
        for _ in 0..200 {
            surface.near_ray(random.point(0.0, 100.0), 0, |_| looked_at += 1);
        }
        assert!((1..200 * 20).contains(&looked_at), "{looked_at} of 200 times 20,000");
    }

    #[test]
    fn a_surface_without_triangles_crosses_nothing() {
        assert!(!Surface::new(vec![]).crosses_box([-1.0; 3], [1.0; 3]));
        assert_eq!(Surface::new(vec![]).winding([0.0; 3]), 0);
    }

    #[test]
    fn equal_triangles_do_not_deepen_the_tree() {
        let surface = Surface::new(vec![[[0.0; 3], [1.0, 0.0, 0.0], [0.0, 1.0, 0.0]]; 50_000]);
        assert!(surface.crosses_box([0.0; 3], [0.1; 3]));
        assert!(!surface.crosses_box([0.0, 0.0, 0.1], [0.1; 3]));
    }
}
