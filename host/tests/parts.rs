//! Whole parts: one piece, and a volume that comes down to the part's as cells get smaller.

mod shapes;

use sporeferry::cover::{cover, CoverError, Covered, Request};
use sporeferry::crossing::Cell;
use sporeferry::part::Part;
use sporeferry::stl::Facet;
use sporeferry::Mesh;

fn covered(part: &Part, cell: f32, levels: u32) -> Covered {
    let request = Request { cell, levels, ..Request::default() };
    cover(part, request).unwrap()
}

/// Meshes with each cell size and level in turn, each half as wide at the surface as the one before. Every
/// mesh is one piece that reads back from its file, and holds more than the part; what it has
/// beyond the part nearly halves each time.
fn comes_down(part: &Part, steps: &[(f32, u32)]) {
    let volume = part.shells.as_ref().unwrap().inside.unwrap();
    let mut before = f64::INFINITY;
    for (cell, levels) in steps {
        let covered = covered(part, *cell, *levels);
        let mesh = covered.mesh;
        assert_eq!((covered.pieces.by_faces, mesh.one_piece()), (Some(1), Ok(true)));
        let beyond = mesh.volume() - volume;
        assert!(0.0 < beyond && beyond < 0.6 * before, "{beyond} at {cell}, before {before}");
        before = beyond;
        assert_eq!(Mesh::from_bytes(&mesh.to_bytes().unwrap()), Ok(mesh));
    }
}

#[test]
fn a_sphere() {
    let part = Part::new(shapes::sphere(10.0));
    comes_down(&part, &[(8.0, 0), (4.0, 0), (2.0, 0), (1.0, 0)]);
    comes_down(&part, &[(4.0, 0), (4.0, 1), (4.0, 2), (4.0, 3)]);
}

#[test]
fn a_torus() {
    let part = Part::new(shapes::torus(10.0, 4.0));
    comes_down(&part, &[(4.0, 0), (2.0, 0), (1.0, 0)]);
    comes_down(&part, &[(4.0, 1), (4.0, 2), (4.0, 3)]);
}

#[test]
fn the_socket() {
    let file = std::fs::read(concat!(env!("CARGO_MANIFEST_DIR"), "/../examples/socket.stl"));
    let part = Part::from_stl(&file.unwrap()).unwrap();
    comes_down(&part, &[(12.0, 0), (6.0, 0), (6.0, 1), (6.0, 2)]);
}

fn moved(facets: &[Facet], by: f32) -> Vec<Facet> {
    facets.iter().map(|facet| facet.map(|corner| corner.map(|x| x + by))).collect()
}

#[test]
fn a_part_is_covered_wherever_it_stands_unless_it_is_too_far() {
    let sphere = shapes::sphere(10.0);
    for by in [-1000.0, 0.37, 4096.0] {
        comes_down(&Part::new(moved(&sphere, by)), &[(4.0, 1), (4.0, 2)]);
    }
    let far = Part::new(moved(&sphere, 4.5e7));
    let request = Request { cell: 4.0, levels: 2, ..Request::default() };
    assert!(matches!(cover(&far, request), Err(CoverError::TooFar(_))));
}

/// Every cell against every triangle, without tree, boxes or branches; lattice and octree.
#[test]
fn cells_are_crossed_as_each_by_itself() {
    let part = Part::new(moved(&shapes::torus(10.0, 4.0), 0.1));
    for (cell, levels) in [(2.3, 0), (4.1, 1), (6.0, 3)] {
        let crust =
            cover(&part, Request { cell, levels, crust: true, ..Request::default() }).unwrap();
        let request = Request { cell, levels, ..Request::default() };
        let whole = cover(&part, request).unwrap();
        assert_eq!(crust.cells.crossed, whole.cells.crossed);
        let surface = &part.surface;
        let crossed = whole.mesh.cells.iter().filter(|cell| {
            let cell = Cell::new(corners(&whole.mesh, cell));
            (0..surface.facets().len()).any(|n| cell.meets(&surface.triangle(n)))
        });
        assert_eq!(crossed.count(), whole.cells.crossed);
    }
}

/// The cover holds its part: every corner of the surface, and every middle of a triangle, is in a kept cell.
#[test]
fn the_surface_lies_in_the_cover() {
    let torus = shapes::torus(10.0, 4.0);
    for (cell, levels) in [(3.0, 0), (4.0, 1)] {
        let mesh = covered(&Part::new(torus.clone()), cell, levels).mesh;
        let kept: Vec<Cell> =
            mesh.cells.iter().map(|cell| Cell::new(corners(&mesh, cell))).collect();
        for triangle in torus.iter().step_by(5) {
            let wide = triangle.map(|corner| corner.map(f64::from));
            let middle =
                std::array::from_fn(|k| wide.iter().map(|corner| corner[k]).sum::<f64>() / 3.0);
            for point in [wide[0], middle] {
                assert!(kept.iter().any(|cell| cell.meets(&[point; 3])));
            }
        }
    }
}

fn corners(mesh: &Mesh, cell: &[u32; 4]) -> [[f64; 3]; 4] {
    cell.map(|point| mesh.points[point as usize].map(f64::from))
}

#[test]
fn a_cavity_stays_empty() {
    let mut shell = shapes::sphere(10.0);
    let cavity = shapes::sphere(6.0);
    shell.extend(cavity.iter().map(|[a, b, c]| [*a, *c, *b]));
    let part = Part::new(shell);
    let hollow = covered(&part, 2.0, 1);
    assert_eq!((hollow.cells.groups, hollow.cells.inside), (3, 1));
    let middle = centroids(&hollow.mesh).filter(|point| point.iter().all(|x| x.abs() < 2.0));
    assert_eq!(middle.count(), 0);
}

fn centroids(mesh: &Mesh) -> impl Iterator<Item = [f64; 3]> + '_ {
    mesh.cells.iter().map(|cell| {
        let corners = corners(mesh, cell);
        std::array::from_fn(|k| corners.iter().map(|p| p[k]).sum::<f64>() / 4.0)
    })
}

/// Kept or not as each cell deserves: crossed, or inside by its own centroid.
#[test]
fn one_probe_for_a_group_is_as_good_as_one_for_each_cell() {
    let part = Part::new(shapes::torus(10.0, 4.0));
    let surface = &part.surface;
    let plan = sporeferry::Plan::new(part.bounds, 2.0, 0).unwrap();
    let grid = plan.grid(&[]).unwrap();
    let whole = Mesh { points: grid.points.clone(), cells: grid.cells.clone() };
    let deserved = centroids(&whole).zip(&grid.cells).filter(|(centroid, cell)| {
        let cell = Cell::new(corners(&whole, cell));
        let crossed = (0..surface.facets().len()).any(|n| cell.meets(&surface.triangle(n)));
        crossed || surface.winding(*centroid) != 0
    });
    let covered = covered(&part, 2.0, 0);
    assert_eq!(covered.dropped, 0);
    assert_eq!(covered.mesh.cells.len(), deserved.count());
}

#[test]
fn a_crust_is_hollow_and_needs_no_closed_surface() {
    let sphere = shapes::sphere(10.0);
    let request = |crust| Request { cell: 2.0, levels: 1, crust, ..Request::default() };
    let closed = Part::new(sphere.clone());
    let crust = cover(&closed, request(true)).unwrap();
    assert_eq!(crust.mesh.cells.len(), crust.cells.crossed);
    assert!(crust.mesh.volume() < cover(&closed, request(false)).unwrap().mesh.volume());

    let open = Part::new(sphere[1..].to_vec());
    assert!(cover(&open, request(true)).is_ok());
    assert!(open.shells.is_none());
    let Err(CoverError::Open(openings)) = cover(&open, request(false)) else {
        panic!("an open surface has no inside");
    };
    assert_eq!((openings.edges.len(), openings.holes), (3, 1));
}

#[test]
fn refusals_of_the_library_come_through() {
    let part = Part::new(shapes::sphere(10.0));
    let number = |cell, levels| {
        let request = Request { cell, levels, ..Request::default() };
        match cover(&part, request) {
            Err(CoverError::Refused(refusal)) => refusal.number,
            _ => 0,
        }
    };
    assert_eq!((number(0.0, 1), number(f32::NAN, 0), number(-1.0, 2)), (1, 1, 1));
    assert_eq!((number(1.0, 6), number(0.01, 1), number(0.01, 0)), (3, 4, 4));
}
