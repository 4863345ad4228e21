//! How good a mesh is: the angles between its faces, its volumes, its boundary. Worked out here, not by the proved library.

use crate::answers::filled;
use crate::mesh::Mesh;
use crate::vector::{cross, dot, length, sub, wide, Point};

/// Each bin of the histogram is about a multiple of this angle, in degrees, so that 45, 60, 90 and 120, the angles of our
/// own cells, are in the middle of theirs.
pub const BIN: usize = 15;
pub const BINS: usize = 180 / BIN + 1;

#[derive(Clone, Copy, Debug, PartialEq)]
pub struct Quality {
    /// The least and the greatest angle between two faces of a cell, in degrees.
    pub least_angle: f64,
    pub greatest_angle: f64,
    /// How many such angles are nearest to each multiple of `BIN`.
    pub histogram: [u64; BINS],
    /// The sum of the cells' absolute volumes, the least and the greatest.
    pub volume: f64,
    pub least_volume: f64,
    pub greatest_volume: f64,
    /// Cells whose volume is negative, and cells that have none or name a point that is not finite.
    pub turned: u64,
    pub flat: u64,
}

impl Default for Quality {
    fn default() -> Self {
        Quality {
            least_angle: f64::INFINITY,
            greatest_angle: 0.0,
            histogram: [0; BINS],
            volume: 0.0,
            least_volume: f64::INFINITY,
            greatest_volume: 0.0,
            turned: 0,
            flat: 0,
        }
    }
}

/// Cells a thread takes at a time.
const CHUNK: usize = 8192;

impl Quality {
    /// Of a mesh whose cells name points that are there.
    pub fn new(mesh: &Mesh) -> Self {
        let chunks: Vec<&[[u32; 4]]> = mesh.cells.chunks(CHUNK).collect();
        let parts = filled("quality", chunks.len(), 1, |first, part: &mut [Quality]| {
            for cell in chunks[first] {
                part[0].add_cell(cell.map(|point| wide(mesh.points[point as usize])));
            }
        });
        parts.iter().fold(Quality::default(), Quality::add)
    }

    fn add_cell(&mut self, [a, b, c, d]: [Point; 4]) {
        let volume = dot(cross(sub(b, a), sub(c, a)), sub(d, a)) / 6.0;
        if volume == 0.0 || !volume.is_finite() {
            self.flat += 1;
            return;
        }
        self.turned += u64::from(volume < 0.0);
        self.volume += volume.abs();
        self.least_volume = self.least_volume.min(volume.abs());
        self.greatest_volume = self.greatest_volume.max(volume.abs());
        for angle in angles([a, b, c, d]) {
            self.least_angle = self.least_angle.min(angle);
            self.greatest_angle = self.greatest_angle.max(angle);
            self.histogram[(angle / BIN as f64).round() as usize] += 1;
        }
    }

    fn add(self, other: &Self) -> Self {
        Quality {
            least_angle: self.least_angle.min(other.least_angle),
            greatest_angle: self.greatest_angle.max(other.greatest_angle),
            histogram: std::array::from_fn(|n| self.histogram[n] + other.histogram[n]),
            volume: self.volume + other.volume,
            least_volume: self.least_volume.min(other.least_volume),
            greatest_volume: self.greatest_volume.max(other.greatest_volume),
            turned: self.turned + other.turned,
            flat: self.flat + other.flat,
        }
    }
}

/// The six angles between two faces of a tetrahedron, inside it, in degrees.
fn angles([a, b, c, d]: [Point; 4]) -> [f64; 6] {
    let normal = |p: Point, q: Point, r: Point, inside: Point| {
        let across = cross(sub(q, p), sub(r, p));
        let way = if dot(across, sub(inside, p)) > 0.0 { 1.0 } else { -1.0 };
        across.map(|x| way * x / length(across))
    };
    let inwards = [normal(b, c, d, a), normal(a, c, d, b), normal(a, b, d, c), normal(a, b, c, d)];
    [[0, 1], [0, 2], [0, 3], [1, 2], [1, 3], [2, 3]].map(|[one, other]: [usize; 2]| {
        let cosine: f64 = -dot(inwards[one], inwards[other]);
        cosine.clamp(-1.0, 1.0).acos().to_degrees()
    })
}

/// The faces that only one cell has.
#[derive(Clone, Copy, Debug, PartialEq, Eq)]
pub struct Boundary {
    pub faces: usize,
    /// Edges that are not on an even number of these faces: 0 if it is closed.
    pub open_edges: usize,
    /// Edges on four or more of them: there the boundary touches itself.
    pub pinched_edges: usize,
    /// Faces that three cells or more have.
    pub crowded_faces: usize,
}

impl Boundary {
    pub fn new(mesh: &Mesh) -> Self {
        let (outer, crowded_faces) = outer_faces(mesh);
        let edge = |[a, b]: [u32; 2]| u64::from(a) << 32 | u64::from(b);
        let edges = outer.iter().flat_map(|[a, b, c]| [[*a, *b], [*a, *c], [*b, *c]].map(edge));
        let mut edges: Vec<u64> = edges.collect();
        edges.sort_unstable();
        let counts = || edges.chunk_by(|one, next| one == next).map(<[u64]>::len);
        Boundary {
            faces: outer.len(),
            open_edges: counts().filter(|count| count % 2 == 1).count(),
            pinched_edges: counts().filter(|count| *count >= 4).count(),
            crowded_faces,
        }
    }
}

/// The faces of one cell, each as its points in ascending order, and how many faces three cells or more have.
/// Faces are put together by their lowest point, so that no large table is sorted.
fn outer_faces(mesh: &Mesh) -> (Vec<[u32; 3]>, usize) {
    let mut ends = vec![0u32; mesh.points.len() + 1];
    each_face(mesh, |[low, ..]| ends[low as usize + 1] += 1);
    for point in 0..mesh.points.len() {
        ends[point + 1] += ends[point];
    }
    let mut rest = vec![[0u32; 2]; 4 * mesh.cells.len()];
    let mut next = ends.clone();
    each_face(mesh, |[low, middle, high]| {
        rest[next[low as usize] as usize] = [middle, high];
        next[low as usize] += 1;
    });
    let (mut outer, mut crowded) = (Vec::new(), 0);
    for (low, ends) in (0..).zip(ends.windows(2)) {
        let own = &mut rest[ends[0] as usize..ends[1] as usize];
        own.sort_unstable();
        for same in own.chunk_by(|one, next| one == next) {
            match same.len() {
                1 => outer.push([low, same[0][0], same[0][1]]),
                2 => {}
                _ => crowded += 1,
            }
        }
    }
    (outer, crowded)
}

fn each_face(mesh: &Mesh, mut found: impl FnMut([u32; 3])) {
    for cell in &mesh.cells {
        let mut points = *cell;
        points.sort_unstable();
        let [a, b, c, d] = points;
        [[b, c, d], [a, c, d], [a, b, d], [a, b, c]].into_iter().for_each(&mut found);
    }
}

#[cfg(test)]
mod tests {
    use super::*;

    fn mesh(points: &[[f32; 3]], cells: &[[u32; 4]]) -> Mesh {
        Mesh { points: points.to_vec(), cells: cells.to_vec() }
    }

    const POINTS: [[f32; 3]; 6] = [
        [0.0; 3],
        [1.0, 0.0, 0.0],
        [0.0, 1.0, 0.0],
        [0.0, 0.0, 1.0],
        [1.0, 1.0, 1.0],
        [0.0, 0.0, f32::NAN],
    ];

    #[test]
    fn angles_volumes_and_bins_are_those_of_known_cells() {
        let one = Quality::new(&mesh(&POINTS, &[[0, 1, 2, 3]]));
        assert!(
            (one.greatest_angle - 90.0).abs() < 1e-9 && (one.least_angle - 54.7356).abs() < 1e-4
        );
        assert_eq!((one.histogram[4], one.histogram[6], one.turned), (3, 3, 0));
        let two =
            Quality::new(&mesh(&POINTS, &[[0, 1, 2, 3], [1, 2, 4, 3], [0, 0, 1, 2], [5, 0, 1, 2]]));
        assert!(
            (two.volume - 0.5).abs() < 1e-12 && (two.greatest_volume - 2.0 / 6.0).abs() < 1e-12
        );
        assert_eq!((two.turned, two.flat), (1, 2));
        assert_eq!(Quality::new(&Mesh::default()), Quality::default());
    }

    #[test]
    fn a_boundary_is_closed_and_told_where_it_touches_itself() {
        let boundary = |cells: &[[u32; 4]]| {
            let Boundary { faces, open_edges, pinched_edges, crowded_faces } =
                Boundary::new(&mesh(&[[0.0; 3]; 9], cells));
            (faces, open_edges, pinched_edges, crowded_faces)
        };
        assert_eq!(boundary(&[]), (0, 0, 0, 0));
        assert_eq!(boundary(&[[0, 1, 2, 3]]), (4, 0, 0, 0));
        assert_eq!(boundary(&[[0, 1, 2, 3], [4, 3, 2, 1]]), (6, 0, 0, 0));
        assert_eq!(boundary(&[[0, 1, 2, 3], [0, 1, 4, 5]]), (8, 0, 1, 0));
        assert_eq!(boundary(&[[0, 1, 2, 3], [4, 3, 2, 1], [5, 3, 2, 1]]), (9, 3, 0, 1));
    }
}
