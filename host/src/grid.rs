//! The background grid, and the steps that keep a mesh of it.

use crate::lent::{self, Totals};
use crate::mesh::Mesh;
use crate::plan::fitted;
use crate::refusal::{Refusal, Step};

/// A grid of cells that fills the planned domain.
#[derive(Clone, Debug, PartialEq)]
pub struct Grid {
    pub points: Vec<[f32; 3]>,
    /// Each cell names four points.
    pub cells: Vec<[u32; 4]>,
    /// Each vertex in whole units from the plan's origin.
    pub triples: Vec<[u32; 3]>,
}

/// A cell that stands for its group of joined cells, and where to probe it.
#[derive(Clone, Copy, Debug, PartialEq)]
pub struct Representative {
    pub cell: u32,
    pub centroid: [f32; 3],
}

/// A kept mesh and the number of marked cells that were dropped as flat.
#[derive(Clone, Debug, PartialEq)]
pub struct Kept {
    pub mesh: Mesh,
    pub dropped: u64,
}

/// What Cover makes of each cell of a grid.
#[derive(Clone, Debug, PartialEq, Eq)]
pub struct Marks {
    /// One byte a cell: 0 not marked, 1 kept or exchanged, 2 dropped.
    pub bytes: Vec<u8>,
    pub kept: u64,
    pub dropped: u64,
}

/// Representatives that the first call has room for. Parts have a few; more cost a second call.
const FIRST_ROOM: usize = 1024;

impl Grid {
    /// The cells to probe: the highest-numbered of each group of cells that are not crossed and are
    /// joined through shared vertices. Refused with 4, 5, 6 or 8.
    ///
    /// ```
    /// use sporeferry::Grid;
    /// let grid = Grid {
    ///     points: vec![[0.0; 3]; 11],
    ///     cells: vec![[0, 1, 2, 3], [3, 4, 5, 6], [7, 8, 9, 10]],
    ///     triples: vec![],
    /// };
    /// let cells = |crossing: &[u8]| -> Vec<u32> {
    ///     grid.representatives(crossing).unwrap().iter().map(|group| group.cell).collect()
    /// };
    /// assert_eq!(cells(&[0, 0, 0]), [1, 2]);
    /// assert_eq!(cells(&[0, 1, 0]), [0, 2]);
    /// assert_eq!(grid.representatives(&[0, 2, 0]).unwrap_err().number, 6);
    /// ```
    pub fn representatives(&self, crossing: &[u8]) -> Result<Vec<Representative>, Refusal> {
        match self.representatives_within(crossing, FIRST_ROOM.min(self.cells.len())) {
            Err(short) if short.number == 9 => {
                self.representatives_within(crossing, short.values[0] as usize)
            }
            told => told,
        }
    }

    fn representatives_within(
        &self,
        crossing: &[u8],
        room: usize,
    ) -> Result<Vec<Representative>, Refusal> {
        let mut numbers = vec![0; room];
        let mut centroids = vec![[0.0; 3]; room];
        let mut work = vec![0; self.cells.len() + self.points.len()];
        let answer = lent::representatives(
            self.points.as_flattened(),
            self.cells.as_flattened(),
            crossing,
            &mut numbers,
            centroids.as_flattened_mut(),
            &mut work,
        );
        let [count, ..] = answer.told(Step::Representatives)?;
        let pairs = numbers.into_iter().zip(centroids).take(count as usize);
        Ok(pairs.map(|(cell, centroid)| Representative { cell, centroid }).collect())
    }

    /// The mesh of the crossed cells and of the groups whose representative's probe byte is 1.
    /// Refused with 1, 4, 5, 6, 8 or 10.
    ///
    /// ```
    /// use sporeferry::Grid;
    /// let grid = Grid {
    ///     points: vec![[0.0; 3], [1.0, 0.0, 0.0], [0.0, 1.0, 0.0], [0.0, 0.0, 1.0]],
    ///     cells: vec![[0, 2, 1, 3]],
    ///     triples: vec![],
    /// };
    /// let kept = grid.keep_cover(1.0, &[0], &[1]).unwrap();
    /// assert_eq!(kept.mesh.cells, [[0, 1, 2, 3]]);
    /// assert_eq!(kept.mesh.points[0], [0.0, 1.0, 0.0]);
    /// assert_eq!(kept.dropped, 0);
    /// assert_eq!(grid.keep_cover(1.0, &[0], &[0]).unwrap_err().number, 10);
    /// ```
    pub fn keep_cover(&self, cell: f32, crossing: &[u8], probe: &[u8]) -> Result<Kept, Refusal> {
        let mut rooms = KeptRooms::for_grid(self);
        let answer = lent::keep_cover(
            cell,
            self.points.as_flattened(),
            self.cells.as_flattened(),
            crossing,
            probe,
            rooms.points.as_flattened_mut(),
            rooms.cells.as_flattened_mut(),
            &mut rooms.work,
        );
        Ok(rooms.kept(answer.told(Step::KeepCover)?))
    }

    /// The mesh of the crossed cells alone. Refused with 1, 4, 5, 6, 8 or 10.
    ///
    /// ```
    /// use sporeferry::{Bounds, Plan};
    /// let grid = Plan::new(Bounds::default(), 1.0, 0).unwrap().grid(&[]).unwrap();
    /// let mut crossing = vec![0; grid.cells.len()];
    /// crossing[7] = 1;
    /// let kept = grid.keep_crust(1.0, &crossing).unwrap();
    /// assert_eq!((kept.mesh.points.len(), kept.mesh.cells.len()), (4, 1));
    /// ```
    pub fn keep_crust(&self, cell: f32, crossing: &[u8]) -> Result<Kept, Refusal> {
        let mut rooms = KeptRooms::for_grid(self);
        let answer = lent::keep_crust(
            cell,
            self.points.as_flattened(),
            self.cells.as_flattened(),
            crossing,
            rooms.points.as_flattened_mut(),
            rooms.cells.as_flattened_mut(),
            &mut rooms.work,
        );
        Ok(rooms.kept(answer.told(Step::KeepCrust)?))
    }

    /// What [`Grid::keep_cover`] makes of each cell; with a probe table of zeros, what
    /// [`Grid::keep_crust`] does. Refused with 1, 4, 5, 6 or 8.
    ///
    /// ```
    /// use sporeferry::Grid;
    /// let grid = Grid {
    ///     points: vec![[0.0; 3], [1.0, 0.0, 0.0], [0.0, 1.0, 0.0], [0.0, 0.0, 1.0]],
    ///     cells: vec![[0, 2, 1, 3], [0, 1, 1, 2]],
    ///     triples: vec![],
    /// };
    /// assert_eq!(grid.marks(1.0, &[1, 1], &[0, 0]).unwrap().bytes, [1, 2]);
    /// assert_eq!(grid.marks(1.0, &[1, 0], &[0, 0]).unwrap().bytes, [1, 0]);
    /// ```
    pub fn marks(&self, cell: f32, crossing: &[u8], probe: &[u8]) -> Result<Marks, Refusal> {
        let mut bytes = vec![0; self.cells.len()];
        let answer = lent::marks(
            cell,
            self.points.as_flattened(),
            self.cells.as_flattened(),
            crossing,
            probe,
            &mut bytes,
            &mut vec![0; self.cells.len() + self.points.len()],
        );
        let [kept, dropped, _] = answer.told(Step::Marks)?;
        Ok(Marks { bytes, kept, dropped })
    }

    /// The totals with this grid's cells added: how many, and six times their volumes in whole units,
    /// those of cells marked 1 and of all. Refused with 4, 5, 6, 8 or 16. Totals over grids of
    /// different cell sizes or levels add whole numbers of different units.
    ///
    /// ```
    /// use sporeferry::{lent::Totals, Bounds, Plan};
    /// let grid = Plan::new(Bounds::default(), 1.0, 1)?.grid(&[0; 216])?;
    /// let totals = grid.add_coverage(Totals::default(), &vec![1; grid.cells.len()])?;
    /// assert_eq!((totals.kept, totals.sixfold_all), (2592, 6 * 24 * 24 * 24));
    /// # Ok::<(), sporeferry::Refusal>(())
    /// ```
    pub fn add_coverage(&self, totals: Totals, marks: &[u8]) -> Result<Totals, Refusal> {
        let (triples, cells) = (self.triples.as_flattened(), self.cells.as_flattened());
        let added = lent::add_coverage(totals, triples, cells, marks);
        match added.number {
            0 => Ok(added.totals),
            number => Err(Refusal { step: Step::AddCoverage, number, values: [0; 3] }),
        }
    }
}

/// The tables lent to keeping: as many points and cells as the grid has are always enough.
struct KeptRooms {
    points: Vec<[f32; 3]>,
    cells: Vec<[u32; 4]>,
    work: Vec<u32>,
}

impl KeptRooms {
    fn for_grid(grid: &Grid) -> Self {
        KeptRooms {
            points: vec![[0.0; 3]; grid.points.len()],
            cells: vec![[0; 4]; grid.cells.len()],
            work: vec![0; grid.cells.len() + 2 * grid.points.len()],
        }
    }

    fn kept(mut self, [points, cells, dropped]: [u64; 3]) -> Kept {
        Kept {
            mesh: Mesh {
                points: fitted(&mut self.points, points),
                cells: fitted(&mut self.cells, cells),
            },
            dropped,
        }
    }
}
