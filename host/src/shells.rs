//! The shells of a closed surface: how each is turned, whether they overlap, and the volume of what counts as inside.
//!
//! A sheet of triangles has one region of space on its front and one on its back, and the surface winds around
//! each some number of times. Inside is where that number is not 0, so a sheet bounds the inside if it is 0 on one side
//! only, and the volume inside is the sum over these sheets of their cones from any one point. That holds for shells
//! turned either way, within one another or doubled, as long as no triangle meets another across.

use crate::answers::filled;
use crate::corners::Corners;
use crate::crossing::meets_triangle;
use crate::edges::Edges;
use crate::ray::pierced;
use crate::surface::{Around, Leaf, Surface};
use crate::vector::{cone, cross, length, middle, sub, wide, Point, Triangle};

/// What a closed surface consists of.
#[derive(Clone, Debug, PartialEq)]
pub struct Shells {
    /// Each shell: triangles joined through edges.
    pub kinds: Vec<Kind>,
    /// The volume of what counts as inside; `None` where triangles meet.
    pub inside: Option<f64>,
    /// Where the first triangle stands that meets another with which it shares no corner, and how many do.
    pub meeting: Option<(Point, usize)>,
}

/// How a shell stands to the inside.
#[derive(Clone, Copy, Debug, PartialEq, Eq)]
pub enum Kind {
    /// Turned outwards, around metal.
    Outward,
    /// Turned inwards, around a void in metal.
    Cavity,
    /// A shell of metal that is turned inwards. Its inside counts all the same.
    InsideOut,
    /// There more than once, in the same place and turned alike.
    Doubled,
    /// Metal on both sides, or none: it bounds nothing.
    Within,
    /// Not the same everywhere.
    Mixed,
}

/// Leaves a thread takes at a time.
const CHUNK: usize = 256;
/// How much smaller triangles are made when they are looked at for meeting.
const SHRINKING: f64 = 1e-4;

impl Shells {
    pub fn new(surface: &Surface, corners: &Corners, edges: &Edges) -> Self {
        let sheets = sheets(surface, corners, edges);
        let meeting = meeting(surface, corners);
        let inside = sheets.iter().map(Sheet::bounded).sum();
        let shells = sheets.iter().map(|sheet| sheet.shell as usize + 1).max().unwrap_or(0);
        let mut of_shell: Vec<Vec<&Sheet>> = vec![Vec::new(); shells];
        for sheet in sheets.iter().filter(|sheet| sheet.area > 0.0) {
            of_shell[sheet.shell as usize].push(sheet);
        }
        let kinds = of_shell.iter().filter(|sheets| !sheets.is_empty()).map(|sheets| kind(sheets));
        let inside = if meeting.is_none() { Some(inside) } else { None };
        Shells { kinds: kinds.collect(), inside, meeting }
    }
}

#[derive(Clone, Copy, Default)]
struct Sheet {
    shell: u32,
    /// Its largest triangle, and that one's area, twice.
    largest: usize,
    area: f64,
    /// The sum of its cones from the surface's first corner.
    volume: f64,
    sides: Sides,
}

/// How often the surface winds around what is at a triangle's front and back, and how many triangles are in its place.
#[derive(Clone, Copy, Default, PartialEq)]
struct Sides {
    front: i64,
    back: i64,
    copies: u32,
}

impl Sheet {
    /// What it adds to the volume inside.
    fn bounded(&self) -> f64 {
        let Sides { front, back, copies } = self.sides;
        let outwards = f64::from(back != 0) - f64::from(front != 0);
        outwards * self.volume / f64::from(copies)
    }
}

fn sheets(surface: &Surface, corners: &Corners, edges: &Edges) -> Vec<Sheet> {
    let (numbers, count) = edges.sheets();
    let (shells, _) = edges.shells();
    let mut sheets = vec![Sheet::default(); count];
    let from = surface.facets().first().map_or([0.0; 3], |facet| wide(facet[0]));
    for (n, number) in numbers.iter().enumerate() {
        let triangle = surface.triangle(n);
        let sheet = &mut sheets[*number as usize];
        sheet.shell = shells[n];
        sheet.volume += cone(from, &triangle);
        let area = length(normal(&triangle));
        if area > sheet.area {
            (sheet.largest, sheet.area) = (n, area);
        }
    }
    let sides = filled("shells", count, 16, |first, part: &mut [Sides]| {
        for (sides, sheet) in part.iter_mut().zip(&sheets[first..]) {
            *sides = sides_of(surface, corners, sheet.largest);
        }
    });
    for (sheet, sides) in sheets.iter_mut().zip(sides) {
        sheet.sides = sides;
    }
    sheets
}

fn normal(triangle: &Triangle) -> Point {
    cross(sub(triangle[1], triangle[0]), sub(triangle[2], triangle[0]))
}

/// Looks from the middle of a triangle along the axis nearest to its normal. What is in the triangle's own place is
/// passed on the way from its front to its back.
fn sides_of(surface: &Surface, corners: &Corners, own: usize) -> Sides {
    let triangle = surface.triangle(own);
    let (from, normal) = (middle(&triangle), normal(&triangle));
    let size = |axis: &usize| normal[*axis].abs();
    let axis = (0..3).max_by(|a, b| size(a).total_cmp(&size(b))).unwrap_or(0);
    let (mut turns, mut between, mut copies) = (0, 1, 1);
    surface.near_ray(from, axis, |other| match turned_alike(corners.of[own], corners.of[other]) {
        _ if other == own => {}
        Some(alike) => {
            between += if alike { 1 } else { -1 };
            copies += 1;
        }
        None => turns += pierced(&surface.triangle(other), from, axis),
    });
    match normal[axis] > 0.0 {
        true => Sides { front: turns, back: turns + between, copies },
        false => Sides { front: turns - between, back: turns, copies },
    }
}

/// Whether two triangles with the same corners are turned the same way; `None` if the corners differ.
fn turned_alike(one: [u32; 3], [a, b, c]: [u32; 3]) -> Option<bool> {
    let is = |corners: &[u32; 3]| *corners == one;
    if [[a, b, c], [b, c, a], [c, a, b]].iter().any(is) {
        return Some(true);
    }
    [[a, c, b], [c, b, a], [b, a, c]].iter().any(is).then_some(false)
}

fn kind(sheets: &[&Sheet]) -> Kind {
    let Sides { front, back, .. } = sheets[0].sides;
    let volume: f64 = sheets.iter().map(|sheet| sheet.volume).sum();
    match (front, back) {
        _ if sheets.iter().any(|sheet| sheet.sides != sheets[0].sides) => Kind::Mixed,
        _ if (front == 0) == (back == 0) => Kind::Within,
        (0, 1) if volume < 0.0 => Kind::Cavity,
        (0, 1) => Kind::Outward,
        (-1, 0) => Kind::InsideOut,
        _ => Kind::Doubled,
    }
}

/// A triangle a little smaller about its middle, so that one that only touches another by its rim does not meet it.
fn shrunk(triangle: &Triangle) -> Triangle {
    let middle = middle(triangle);
    let inwards =
        |k: usize, axis: usize| triangle[k][axis] + SHRINKING * (middle[axis] - triangle[k][axis]);
    std::array::from_fn(|k| [inwards(k, 0), inwards(k, 1), inwards(k, 2)])
}

/// The triangles that meet one of a higher number with which they share no corner: where the first stands, and how many.
fn meeting(surface: &Surface, corners: &Corners) -> Option<(Point, usize)> {
    let leaves = surface.leaves();
    let found = filled("overlaps", leaves.len(), CHUNK, |first, part: &mut [Vec<usize>]| {
        for (found, leaf) in part.iter_mut().zip(&leaves[first..]) {
            let own = surface.triangles(*leaf);
            *found = own.filter(|own| meets_later(surface, corners, *leaf, *own)).collect();
        }
    });
    let first = *found.iter().flatten().next()?;
    Some((middle(&surface.triangle(first)), found.iter().map(Vec::len).sum()))
}

fn meets_later(surface: &Surface, corners: &Corners, leaf: Leaf, own: usize) -> bool {
    let triangle = shrunk(&surface.triangle(own));
    let around = Around::outwards(&triangle);
    let met = |other: usize| {
        surface.around(other).meets(&around)
            && !corners.of[other].iter().any(|corner| corners.of[own].contains(corner))
            && meets_triangle(&triangle, &shrunk(&surface.triangle(other)))
    };
    (own + 1..surface.triangles(leaf).end).any(met) || surface.any_after(leaf, around, met)
}

#[cfg(test)]
mod tests {
    use super::*;
    use crate::stl::Facet;
    use crate::testing::{tetrahedron, turned};

    fn shells(facets: Vec<Facet>) -> Shells {
        let surface = Surface::new(facets);
        let corners = Corners::new(surface.facets());
        Shells::new(&surface, &corners, &Edges::new(&corners))
    }

    fn told(parts: &[&[Facet]], kinds: &[Kind], six_fold: f64) {
        let mut shells = shells(parts.concat());
        shells.kinds.sort_by_key(|kind| *kind as u8);
        assert_eq!((&shells.kinds[..], shells.meeting), (kinds, None));
        assert!((6.0 * shells.inside.unwrap() - six_fold).abs() < 1e-9, "{shells:?}");
    }

    #[test]
    fn each_shell_is_told_and_what_is_inside_measured() {
        use Kind::*;
        let large = tetrahedron([0.0; 3], 8.0);
        let small = tetrahedron([1.0; 3], 1.0);
        let aside = tetrahedron([20.0; 3], 2.0);
        told(&[&large], &[Outward], 512.0);
        told(&[&turned(&large)], &[InsideOut], 512.0);
        told(&[&large, &turned(&small)], &[Outward, Cavity], 511.0);
        told(&[&large, &small], &[Outward, Within], 512.0);
        told(&[&large, &turned(&aside)], &[Outward, InsideOut], 520.0);
        told(&[&large, &large], &[Doubled], 512.0);
        told(&[&large, &turned(&large), &aside], &[Outward, Within], 8.0);
        told(&[&turned(&large), &turned(&large), &small], &[Doubled, Within], 512.0);
    }

    /// Two solids that share an edge, turned against each other: four triangles at the edge.
    #[test]
    fn solids_at_one_edge_are_told_apart() {
        let one = tetrahedron([0.0; 3], 1.0);
        let mirrored: Vec<Facet> =
            one.iter().map(|facet| facet.map(|[x, y, z]| [-x, -y, z])).collect();
        let shells = shells([one, turned(&mirrored)].concat());
        assert_eq!((shells.kinds, shells.meeting), (vec![Kind::Mixed], None));
        assert!((shells.inside.unwrap() - 2.0 / 6.0).abs() < 1e-12);
    }

    #[test]
    fn where_triangles_meet_no_volume_is_told() {
        let one = tetrahedron([0.0; 3], 4.0);
        let across = tetrahedron([0.5; 3], 4.0);
        let shells = shells([one, across].concat());
        assert_eq!(shells.inside, None);
        assert!(shells.meeting.is_some_and(|(_, count)| count > 0));
    }

    #[test]
    fn triangles_without_area_are_no_shells_and_meet_only_what_they_touch() {
        let mut facets = tetrahedron([0.0; 3], 1.0);
        facets.extend([[0.0; 3], [1.0, 0.0, 0.0], [0.0, 1.0, 0.0]].map(|corner| [corner; 3]));
        facets.push([[0.0; 3], [1.0, 0.0, 0.0], [1.0, 0.0, 0.0]]);
        let shells = shells(facets);
        assert_eq!((shells.kinds, shells.meeting), (vec![Kind::Outward], None));
    }
}
