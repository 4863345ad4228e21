//! The plan of a grid, and the two steps that follow from it: refine and grid.

use crate::grid::Grid;
use crate::lent;
use crate::refusal::{Refusal, Step};

/// An axis-aligned box.
#[repr(C)]
#[derive(Clone, Copy, Debug, Default, PartialEq)]
pub struct Bounds {
    pub min: [f32; 3],
    pub max: [f32; 3],
}

impl Bounds {
    /// The least box around the points; `None` without points.
    pub fn around<'a>(points: impl IntoIterator<Item = &'a [f32; 3]>) -> Option<Self> {
        let mut points = points.into_iter();
        let first = points.next()?;
        let ends = points.fold((*first, *first), |(min, max), point| {
            let lower = std::array::from_fn(|axis| min[axis].min(point[axis]));
            let higher = std::array::from_fn(|axis| max[axis].max(point[axis]));
            (lower, higher)
        });
        let (min, max): ([f32; 3], [f32; 3]) = ends;
        Some(Bounds { min, max })
    }
}

/// An accepted plan: where the grid stands and how large it is. With 0 levels it is a lattice, with 1
/// to 5 an octree whose roots are a cell size wide.
#[derive(Clone, Copy, Debug, PartialEq)]
pub struct Plan {
    bounds: Bounds,
    cell: f32,
    levels: u32,
    origin: [f32; 3],
    half: f32,
    dims: [u32; 3],
    octants: usize,
}

impl Plan {
    /// Plans the grid over a box, refused with 1 to 4. What a 4 names is [`Refusal::too_large`].
    ///
    /// ```
    /// use sporeferry::{Bounds, Plan};
    /// let plan = Plan::new(Bounds::default(), 1.0, 1).unwrap();
    /// assert_eq!((plan.dims(), plan.origin(), plan.half()), ([6; 3], [-3.0; 3], 0.25));
    /// assert_eq!(plan.octants(), 216);
    /// assert_eq!(Plan::new(Bounds::default(), 1.0, 6).unwrap_err().number, 3);
    /// ```
    pub fn new(bounds: Bounds, cell: f32, levels: u32) -> Result<Self, Refusal> {
        let planned = lent::plan(bounds, cell, levels);
        if planned.number != 0 {
            let values = [planned.value.into(), 0, 0];
            return Err(Refusal { step: Step::Plan, number: planned.number, values });
        }
        Ok(Plan {
            bounds,
            cell,
            levels,
            origin: planned.origin,
            half: planned.half,
            dims: planned.dims,
            octants: planned.octants as usize,
        })
    }

    /// The cell size it was planned with.
    pub fn cell(&self) -> f32 {
        self.cell
    }

    pub fn levels(&self) -> u32 {
        self.levels
    }

    /// Where the vertex (0, 0, 0) stands.
    pub fn origin(&self) -> [f32; 3] {
        self.origin
    }

    /// The unit: vertex v stands at origin + v · half.
    pub fn half(&self) -> f32 {
        self.half
    }

    /// Roots along each axis; in a lattice, units along each axis.
    pub fn dims(&self) -> [u32; 3] {
        self.dims
    }

    /// N: the length of the crossing and split tables.
    pub fn octants(&self) -> usize {
        self.octants
    }

    /// Which octants to split, from the crossing answers of all N of them. Only answers under
    /// crossed ancestors count. Refused with 5 or 6.
    ///
    /// ```
    /// use sporeferry::{Bounds, Plan};
    /// let plan = Plan::new(Bounds::default(), 1.0, 2).unwrap();
    /// let mut crossing = vec![0; plan.octants()];
    /// crossing[plan.place(2, [2, 2, 2])] = 1;
    /// crossing[plan.place(1, [4, 4, 4])] = 1;
    /// let refined = plan.refine(&crossing).unwrap();
    /// assert_eq!(refined.ones, 9);
    /// assert_eq!(refined.split[plan.place(2, [1, 1, 1])], 1);
    /// ```
    pub fn refine(&self, crossing: &[u8]) -> Result<Refined, Refusal> {
        let mut split = vec![0; self.octants];
        let answer = lent::refine(self.bounds, self.cell, self.levels, crossing, &mut split);
        let [ones, ..] = answer.told(Step::Refine)?;
        Ok(Refined { split, ones })
    }

    /// The grid under a split table of N bytes (none for a lattice). Refused with 5, 6 or 7.
    ///
    /// ```
    /// use sporeferry::{Bounds, Plan};
    /// let lattice = Plan::new(Bounds::default(), 1.0, 0).unwrap().grid(&[]).unwrap();
    /// assert_eq!((lattice.points.len(), lattice.cells.len()), (189, 576));
    /// assert_eq!(lattice.cells[0], [125, 126, 31, 26]);
    /// ```
    pub fn grid(&self, split: &[u8]) -> Result<Grid, Refusal> {
        let mut rooms = Rooms::default();
        for _ in 0..2 {
            match rooms.grid(self, split) {
                Err(short) if short.number == 9 => rooms = Rooms::for_needs(&short),
                told => return told,
            }
        }
        rooms.grid(self, split)
    }

    /// How many cells the grid under a split table has: the grid is asked without room for any.
    pub fn cells(&self, split: &[u8]) -> Result<u64, Refusal> {
        match Rooms::default().grid(self, split) {
            Err(short) if short.number == 9 => Ok(short.values[0]),
            told => told.map(|grid| grid.cells.len() as u64),
        }
    }

    /// Where a vertex of the grid stands.
    ///
    /// ```
    /// use sporeferry::{Bounds, Plan};
    /// let plan = Plan::new(Bounds { min: [0.1; 3], max: [0.7; 3] }, 0.3, 1).unwrap();
    /// let grid = plan.grid(&vec![0; plan.octants()]).unwrap();
    /// let points: Vec<[f32; 3]> = grid.triples.iter().map(|triple| plan.point(*triple)).collect();
    /// assert_eq!(points, grid.points);
    /// ```
    pub fn point(&self, triple: [u32; 3]) -> [f32; 3] {
        std::array::from_fn(|axis| self.origin[axis] + triple[axis] as f32 * self.half)
    }

    /// The far corner, in whole units from the origin.
    pub fn far(&self) -> [u32; 3] {
        match self.levels {
            0 => self.dims,
            levels => self.dims.map(|dim| dim * (2 << levels)),
        }
    }

    /// Octants along each axis of a level.
    pub fn count(&self, level: u32) -> [u32; 3] {
        self.dims.map(|dim| dim << (self.levels - level))
    }

    /// Where an octant stands in the crossing and split tables: level L first, then by z, y, x.
    ///
    /// # Panics
    /// If the level is not one of 1 to L.
    pub fn place(&self, level: u32, octant: [u32; 3]) -> usize {
        assert!((1..=self.levels).contains(&level), "no table holds level {level}");
        let coarser: usize = (level + 1..=self.levels)
            .map(|above| self.count(above).map(|n| n as usize).iter().product::<usize>())
            .sum();
        let [nx, ny, _] = self.count(level).map(|n| n as usize);
        let [i, j, k] = octant.map(|n| n as usize);
        coarser + i + (j + k * ny) * nx
    }
}

/// The answer of [`Plan::refine`].
#[derive(Clone, Debug, PartialEq, Eq)]
pub struct Refined {
    /// One byte for each octant: 1 if it is split.
    pub split: Vec<u8>,
    /// How many are split.
    pub ones: u64,
}

/// The tables lent to the grid. Empty ones are lent first: the 9 tells the number of cells. Should the
/// vertices then have too little room, a second 9 tells their number.
#[derive(Default)]
struct Rooms {
    cells: Vec<[u32; 4]>,
    triples: Vec<[u32; 3]>,
    points: Vec<[f32; 3]>,
    work: Vec<u64>,
}

impl Rooms {
    /// Rooms for the counts that a 9 carries. Where it carries no vertices yet, three for every four
    /// cells: an octree has nine at most for a leaf and twelve cells at least.
    fn for_needs(short: &Refusal) -> Self {
        let [cells, vertices, _] = short.values.map(|count| count as usize);
        let vertices = if vertices == 0 { cells / 4 * 3 } else { vertices };
        Rooms {
            cells: vec![[0; 4]; cells],
            triples: vec![[0; 3]; vertices],
            points: vec![[0.0; 3]; vertices],
            work: vec![0; 4 * cells],
        }
    }

    fn grid(&mut self, plan: &Plan, split: &[u8]) -> Result<Grid, Refusal> {
        let answer = lent::grid(
            plan.bounds,
            plan.cell,
            plan.levels,
            split,
            self.cells.as_flattened_mut(),
            self.triples.as_flattened_mut(),
            self.points.as_flattened_mut(),
            &mut self.work,
        );
        let [cells, vertices, _] = answer.told(Step::Grid)?;
        Ok(Grid {
            points: fitted(&mut self.points, vertices),
            cells: fitted(&mut self.cells, cells),
            triples: fitted(&mut self.triples, vertices),
        })
    }
}

/// The first entries of a table, with no room past them.
pub(crate) fn fitted<T>(table: &mut Vec<T>, length: u64) -> Vec<T> {
    table.truncate(length as usize);
    table.shrink_to_fit();
    std::mem::take(table)
}
