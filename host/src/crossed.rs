//! Which octants and which cells the surface crosses: the answers that the scanner's host owes the library.

use crate::answers::{answers, filled};
use crate::grid::Grid;
use crate::patch::{Asked, Patch};
use crate::plan::Plan;
use crate::surface::Surface;

/// Questions a thread takes at a time.
const CHUNK: usize = 2048;

/// What the surface crosses of a planned domain.
pub struct Crossed {
    /// The crossing table of the octants: the roots were asked, then the children of crossed ones. The rest are never
    /// read and stay 0.
    pub octants: Vec<u8>,
    pub asked: usize,
    /// Boxes two units wide that the surface may cross: children of crossed octants, or all of a lattice.
    finest: Vec<[u32; 3]>,
}

impl Crossed {
    pub fn new(surface: &Surface, plan: &Plan) -> Self {
        let mut octants = vec![0; plan.octants()];
        let mut asked = 0;
        let mut waiting = roots(plan);
        for level in (1..=plan.levels()).rev() {
            let crossed = crossed_boxes(surface, plan, level, &waiting);
            asked += waiting.len();
            for octant in &crossed {
                octants[plan.place(level, *octant)] = 1;
            }
            waiting = crossed.into_iter().flat_map(children).collect();
        }
        Crossed { octants, asked, finest: waiting }
    }

    /// The crossing table of the grid's cells. Crossed octants are split, so a cell meets the surface only in boxes two
    /// units wide whose middle is a corner of it.
    pub fn cells(&self, surface: &Surface, plan: &Plan, grid: &Grid) -> Vec<u8> {
        let patches = Patches::new(surface, plan, &self.finest);
        let around = patches.around_each(&grid.triples);
        answers("cells", grid.cells.len(), CHUNK, |n| {
            let corners = grid.cells[n].map(|point| point as usize);
            let near = corners.map(|point| around[point]);
            near != [0; 4] && {
                let cell = Asked::new(corners.map(|point| grid.points[point]));
                near.iter().any(|number| patches.all[*number as usize].meets(surface, &cell))
            }
        })
    }
}

/// Those of a level's octants that the surface crosses.
fn crossed_boxes(
    surface: &Surface,
    plan: &Plan,
    level: u32,
    octants: &[[u32; 3]],
) -> Vec<[u32; 3]> {
    let told = answers("octants", octants.len(), CHUNK, |n| {
        let [low, high] = corners(plan, level, octants[n]);
        surface.crosses_box(low, high)
    });
    let crossed = octants.iter().zip(told).filter(|(_, told)| *told == 1);
    crossed.map(|(octant, _)| *octant).collect()
}

/// The corners of an octant's box; level 0 are boxes two units wide.
fn corners(plan: &Plan, level: u32, octant: [u32; 3]) -> [[f32; 3]; 2] {
    [0, 1].map(|by| plan.point(octant.map(|n| (n + by) * (2 << level))))
}

/// The octants of the highest level; of a lattice the boxes two units wide.
fn roots(plan: &Plan) -> Vec<[u32; 3]> {
    let [nx, ny, nz] = plan.far().map(|far| far.div_ceil(2 << plan.levels()));
    let rows = (0..nz).flat_map(|k| (0..ny).map(move |j| (j, k)));
    rows.flat_map(|(j, k)| (0..nx).map(move |i| [i, j, k])).collect()
}

fn children(octant: [u32; 3]) -> impl Iterator<Item = [u32; 3]> {
    (0..8).map(move |bits| std::array::from_fn(|axis| 2 * octant[axis] + (bits >> axis & 1)))
}

/// The triangles that meet each box two units wide.
struct Patches {
    counts: [usize; 3],
    /// For each box the number of its patch; 0 is the empty one.
    numbers: Vec<u32>,
    all: Vec<Patch>,
}

impl Patches {
    fn new(surface: &Surface, plan: &Plan, asked: &[[u32; 3]]) -> Self {
        let found = filled("octants", asked.len(), CHUNK, |first, part: &mut [Patch]| {
            for (patch, octant) in part.iter_mut().zip(&asked[first..]) {
                let [low, high] = corners(plan, 0, *octant);
                *patch = Patch::within(surface, low, high);
            }
        });
        let counts = plan.far().map(|far| far.div_ceil(2) as usize);
        let mut numbers = vec![0; counts.iter().product()];
        let mut all = vec![Patch::default()];
        for (octant, patch) in asked.iter().zip(found).filter(|(_, patch)| !patch.is_empty()) {
            numbers[place(counts, *octant)] = all.len() as u32;
            all.push(patch);
        }
        Patches { counts, numbers, all }
    }

    /// For each vertex the number of the patch in the box around it. Middles of these boxes are odd along every axis; all
    /// other vertices have none.
    fn around_each(&self, triples: &[[u32; 3]]) -> Vec<u32> {
        let number = |triple: &[u32; 3]| match triple.iter().all(|x| x % 2 == 1) {
            true => self.numbers[place(self.counts, triple.map(|x| x / 2))],
            false => 0,
        };
        triples.iter().map(number).collect()
    }
}

/// Where a box stands among so many along each axis.
fn place([nx, ny, _]: [usize; 3], octant: [u32; 3]) -> usize {
    let [i, j, k] = octant.map(|n| n as usize);
    i + (j + k * ny) * nx
}
