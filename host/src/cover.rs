//! The whole way from a part to its mesh. This code plays the scanner's host: it answers which octants
//! and cells the surface crosses and which centroids lie inside. It is tested, not proved; what
//! the library makes of the answers is proved.

use crate::answers::{answers, ones};
use crate::crossed::Crossed;
use crate::edges::Openings;
use crate::grid::{Grid, Kept};
use crate::lent::Totals;
use crate::mesh::{Mesh, Pieces};
use crate::part::Part;
use crate::plan::Plan;
use crate::progress::staged;
use crate::refusal::Refusal;
use crate::spacing::{Steps, TooFar};
use crate::surface::Surface;
use crate::vector::wide;
use std::fmt;

/// What is asked for.
#[derive(Clone, Copy, Debug, Default)]
pub struct Request {
    /// The cell size, in the part's unit of length.
    pub cell: f32,
    /// How often cells at the surface are halved, 0 to 5.
    pub levels: u32,
    /// Only the cells that the surface crosses.
    pub crust: bool,
    /// Go on where cells are flat and have to be left out of the mesh.
    pub allow_dropped: bool,
    /// Totals over other grids, to which this one is added.
    pub totals: Totals,
}

/// The mesh and how it came about.
#[derive(Clone, Debug)]
pub struct Covered {
    pub mesh: Mesh,
    pub plan: Plan,
    pub steps: Steps,
    pub octants: Octants,
    pub cells: Cells,
    pub dropped: u64,
    /// The totals asked for with this grid added: its cells, those kept and dropped, and six times their volumes in
    /// whole units.
    pub totals: Totals,
    pub pieces: Pieces,
    /// The mesh's volume.
    pub volume: f64,
}

/// Octants of levels 1 and above.
#[derive(Clone, Copy, Debug)]
pub struct Octants {
    pub asked: usize,
    pub crossed: usize,
    pub split: u64,
}

/// Cells of the grid.
#[derive(Clone, Copy, Debug)]
pub struct Cells {
    pub all: usize,
    pub crossed: usize,
    /// Groups of cells that are not crossed, and how many of them are inside; a crust asks for none.
    pub groups: usize,
    pub inside: usize,
}

/// Why there is no mesh.
#[derive(Clone, Debug, PartialEq)]
pub enum CoverError {
    /// The surface is open there, so it has no inside. A crust needs none.
    Open(Openings),
    TooFar(TooFar),
    /// So many cells are flat and would be left out.
    Dropped(u64),
    Refused(Refusal),
}

impl fmt::Display for CoverError {
    fn fmt(&self, f: &mut fmt::Formatter<'_>) -> fmt::Result {
        match self {
            CoverError::Open(openings) => write!(f, "the surface has no inside: {openings}"),
            CoverError::TooFar(far) => far.fmt(f),
            CoverError::Dropped(count) => write!(
                f,
                "{count} cells are flat and would be left out, so that the mesh has gaps \
                 (--allow-dropped goes on without them)"
            ),
            CoverError::Refused(refusal) => refusal.fmt(f),
        }
    }
}

impl std::error::Error for CoverError {}

impl From<Refusal> for CoverError {
    fn from(refusal: Refusal) -> Self {
        CoverError::Refused(refusal)
    }
}

/// Meshes a part. An octant or cell counts as crossed if it touches the surface.
///
/// ```
/// use sporeferry::cover::{cover, Request};
/// use sporeferry::part::Part;
/// let [o, x, y, z] = [[0.0; 3], [4.0, 0.0, 0.0], [0.0, 4.0, 0.0], [0.0, 0.0, 4.0]];
/// let part = Part::new(vec![[o, y, x], [o, x, z], [o, z, y], [x, y, z]]);
/// let request = Request { cell: 1.0, levels: 1, ..Request::default() };
/// let covered = cover(&part, request).unwrap();
/// assert_eq!(covered.pieces.by_faces, Some(1));
/// assert!(covered.volume > 64.0 / 6.0);
/// ```
pub fn cover(part: &Part, request: Request) -> Result<Covered, CoverError> {
    if !request.crust && !part.openings.edges.is_empty() {
        return Err(CoverError::Open(part.openings.clone()));
    }
    let surface = &part.surface;
    let plan = Plan::new(part.bounds, request.cell, request.levels)?;
    let steps = Steps::of(&plan);
    if !request.allow_dropped {
        steps.check(&plan).map_err(CoverError::TooFar)?;
    }
    let crossed = Crossed::new(surface, &plan);
    let refined = staged("refine", || plan.refine(&crossed.octants))?;
    let grid = staged("grid", || plan.grid(&refined.split))?;
    let crossing = crossed.cells(surface, &plan, &grid);
    let (kept, cells, probe) = keep(surface, &grid, &crossing, request)?;
    if kept.dropped > 0 && !request.allow_dropped {
        return Err(CoverError::Dropped(kept.dropped));
    }
    let totals = staged("coverage", || {
        let marks = grid.marks(request.cell, &crossing, &probe)?;
        grid.add_coverage(request.totals, &marks.bytes)
    })?;
    // The pieces by faces take 64 bytes of work a kept cell: the grid's tables go first.
    drop((grid, crossing, probe));
    Ok(Covered {
        totals,
        pieces: staged("pieces", || kept.mesh.pieces())?,
        volume: kept.mesh.volume(),
        mesh: kept.mesh,
        dropped: kept.dropped,
        plan,
        steps,
        octants: Octants {
            asked: crossed.asked,
            crossed: ones(&crossed.octants),
            split: refined.ones,
        },
        cells,
    })
}

/// What is kept, and the probe table it was kept by: zeros for a crust.
fn keep(
    surface: &Surface,
    grid: &Grid,
    crossing: &[u8],
    request: Request,
) -> Result<(Kept, Cells, Vec<u8>), Refusal> {
    let mut cells = Cells { all: grid.cells.len(), crossed: ones(crossing), groups: 0, inside: 0 };
    let mut probe = vec![0; grid.cells.len()];
    if request.crust {
        let kept = staged("keeping", || grid.keep_crust(request.cell, crossing))?;
        return Ok((kept, cells, probe));
    }
    let groups = staged("groups", || grid.representatives(crossing))?;
    let told =
        answers("groups", groups.len(), 16, |n| surface.winding(wide(groups[n].centroid)) != 0);
    for (group, inside) in groups.iter().zip(&told) {
        probe[group.cell as usize] = *inside;
    }
    cells.groups = groups.len();
    cells.inside = ones(&told);
    let kept = staged("keeping", || grid.keep_cover(request.cell, crossing, &probe))?;
    Ok((kept, cells, probe))
}
