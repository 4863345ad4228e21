//! Both sides of each step, timed.

use crate::clock::timed;
use crate::inputs::{contents as contents_of, Input};
use crate::table::{FileTimes, Table};
use lifted::lent::MeshOracle;
use lifted::math::Vector;
use lifted::transformation::volume_mesh::cover_octree::doors::{refined_octree, Tree};
use lifted::transformation::volume_mesh::isosurface_stuffing::doors::{
    cover_grid, domain, flood_fill_inside, lattice_over, orient_tet, uniform_grid,
};
use lifted::transformation::volume_mesh::isosurface_stuffing::BackgroundGrid;
use lifted::transformation::volume_mesh::{MeshEnclosure, VolumeMesh, VolumeMeshParameters};
use oracle::calls::{
    Call, ComponentsCall, CoverageCall, Format, GridCall, Input as MeshInput, Joined, KeepCall,
    MarksCall, OnePieceCall, PlanCall, ReadCall, RefineCall, RepresentativesCall, WriteCall,
};
use oracle::expected::faces::mapped;
use oracle::expected::plan::{aabb, octree, parameters, planned};
use oracle::lent::{Entry, Lent};
use oracle::library::Totals;
use oracle::random::Random;
use oracle::steps::{boxes, faces};
use std::hint::black_box;
use std::rc::Rc;

/// A table lent dirty.
fn dirty<T: Entry>(len: usize) -> Lent<T> {
    Lent::new(&vec![T::GUARD_VALUE; len])
}

/// Times a call of the library that must be answered.
fn answered<C: Call<Outcome = oracle::library::Answer>>(call: &mut C) -> f64 {
    let (answer, time) = timed(|| call.library());
    assert_eq!(answer.number, 0, "{} refused: {}", call.step(), call.told());
    time
}

/// A hundred thousand plans of small boxes, beside the published code and beside the model with its
/// refusals, and as many that are refused at once.
pub fn plans(table: &mut Table) {
    let mut random = Random::new(1);
    let calls: Vec<PlanCall> = (0..100_000)
        .map(|_| boxes::small(&mut random, 0).0)
        .collect();
    let refused: Vec<PlanCall> = calls
        .iter()
        .map(|call| PlanCall {
            c: 0.0,
            ..call.clone()
        })
        .collect();
    let published = |call: &PlanCall| {
        black_box(lattice_over(domain(aabb(&call.bounds), call.c), call.c));
    };
    let model = |call: &PlanCall| {
        black_box(planned(&call.bounds, call.c, call.levels));
    };
    let ours = |call: &PlanCall| {
        black_box(call.clone().library());
    };
    let (count, boxes) = ("100,000 plans", "small boxes, L 0");
    let timed_ours = || each(&calls, ours);
    table.row("plan", boxes, count, || each(&calls, published), timed_ours);
    let name = "small boxes, L 0, refusals judged";
    table.row("plan", name, count, || each(&calls, model), timed_ours);
    let name = "small boxes, c 0, refused at once";
    table.row(
        "plan",
        name,
        count,
        || each(&refused, model),
        || each(&refused, ours),
    );
}

/// What a function takes for all of some calls.
fn each(calls: &[PlanCall], once: impl Fn(&PlanCall)) -> f64 {
    timed(|| calls.iter().for_each(once)).1
}

/// Refine on tables of different contents.
pub fn contents(table: &mut Table) {
    let (plan, tables) = contents_of();
    for (name, crossing) in tables {
        let mut call = RefineCall {
            plan: plan.clone(),
            crossing: Lent::new(&crossing),
            split: dirty(crossing.len()),
        };
        let split = call.library().first as usize;
        table.content(name, &thousands(split), || answered(&mut call));
    }
}

/// A random order of the numbers below n.
fn order(random: &mut Random, n: usize) -> Vec<u32> {
    let mut order: Vec<u32> = (0..n as u32).collect();
    for last in (1..n).rev() {
        order.swap(last, random.below(last + 1));
    }
    order
}

fn shuffled(cells: &[[u32; 4]], points: usize) -> Vec<[u32; 4]> {
    let random = &mut Random::new(1);
    let named = order(random, points);
    let placed = order(random, cells.len());
    let cell = |at: &u32| cells[*at as usize].map(|point| named[point as usize]);
    placed.iter().map(cell).collect()
}

/// The numbering by faces beside a map with a quick hash.
fn by_faces(name: &str, points: usize, cells: &[[u32; 4]], table: &mut Table) {
    let mut call = ComponentsCall {
        joined: Joined::ByFaces,
        input: MeshInput::new(&vec![0; 3 * points], cells.as_flattened()),
        numbers: dirty(cells.len()),
        work: dirty(16 * cells.len()),
    };
    let size = format!("{} cells", thousands(cells.len()));
    let rust = || timed(|| mapped(cells)).1;
    table.row("face_components", name, &size, rust, || answered(&mut call));
}

/// Cells that all have one point, or one edge.
pub fn stars(table: &mut Table) {
    for (edge, name) in [(false, "all at one point"), (true, "all at one edge")] {
        for count in [250_000, 500_000, 1_000_000] {
            by_faces(name, 2 * count + 9, &faces::star(count, edge), table);
        }
    }
}

/// Every step on one input.
pub fn on_input(input: &Input, table: &mut Table) {
    let tree = (input.plan.levels > 0).then(|| refine(input, table));
    let grid = grid(input, tree, table);
    let mesh = Meshed::new(input, &grid);
    mesh.representatives(table);
    mesh.keep(table, true);
    mesh.keep(table, false);
    mesh.marks(table);
    mesh.coverage(table);
    mesh.components(table);
    mesh.face_components(table);
    mesh.one_piece(table);
    for format in [Format::Mesh, Format::Vtk] {
        mesh.file(format, table);
    }
}

fn thousands(n: usize) -> String {
    let digits = n.to_string();
    let mut text = String::new();
    for (at, digit) in digits.chars().enumerate() {
        if at > 0 && (digits.len() - at).is_multiple_of(3) {
            text.push(',');
        }
        text.push(digit);
    }
    text
}

fn refine(input: &Input, table: &mut Table) -> Tree {
    let plan = &input.plan;
    let refined = || {
        let tree = octree(&plan.bounds, plan.c, plan.levels);
        let oracle = MeshOracle::of_octants(tree.layout(), &input.crossing);
        timed(|| refined_octree(&oracle, tree))
    };
    let octants = input.crossing.len();
    let mut call = RefineCall {
        plan: plan.clone(),
        crossing: Lent::new(&input.crossing),
        split: dirty(octants),
    };
    let size = format!("{} octants", thousands(octants));
    table.row(
        "refine",
        &input.name,
        &size,
        || refined().1,
        || answered(&mut call),
    );
    refined().0
}

fn rust_grid(input: &Input, tree: &Option<Tree>) -> (BackgroundGrid, f64) {
    let plan = &input.plan;
    match tree {
        Some(tree) => timed(|| tree.background_grid()),
        None => timed(|| uniform_grid(domain(aabb(&plan.bounds), plan.c), plan.c)),
    }
}

fn grid(input: &Input, tree: Option<Tree>, table: &mut Table) -> BackgroundGrid {
    let (found, _) = rust_grid(input, &tree);
    let (cells, vertices) = (found.cells.len(), found.points.len());
    let split = tree.as_ref().map_or(Vec::new(), |tree| tree.split_table());
    let mut call = GridCall {
        plan: input.plan.clone(),
        split: Lent::new(&split),
        found: Rc::new(Err(0.into())),
        cells: dirty(4 * cells),
        triples: dirty(3 * vertices),
        points: dirty(3 * vertices),
        work: dirty(4 * cells),
    };
    let size = format!(
        "{} cells, {} vertices",
        thousands(cells),
        thousands(vertices)
    );
    table.row(
        "grid",
        &input.name,
        &size,
        || rust_grid(input, &tree).1,
        || answered(&mut call),
    );
    found
}

/// The totals of a grid in plain Rust, `None` where it is refused.
fn plain_coverage(triples: &[u32], cells: &[[u32; 4]], marks: &[u8]) -> Option<[u64; 5]> {
    let vertices = triples.len() / 3;
    let named = |cell: &[u32; 4]| cell.iter().all(|v| (*v as usize) < vertices);
    let judged = marks.iter().all(|mark| *mark <= 2)
        && cells.iter().all(named)
        && triples.iter().all(|x| *x <= 4096);
    let mut sums = [0u64; 5];
    for (cell, mark) in cells.iter().zip(marks) {
        let at = |v: usize| -> [i64; 3] {
            std::array::from_fn(|axis| i64::from(triples[3 * cell[v] as usize + axis]))
        };
        let (o, [a, b, c]) = (at(0), [at(1), at(2), at(3)]);
        let edge = |to: [i64; 3]| -> [i64; 3] { std::array::from_fn(|axis| to[axis] - o[axis]) };
        let [u, v, w] = [edge(a), edge(b), edge(c)];
        let minor = |i: usize, j: usize| u[i] * v[j] - v[i] * u[j];
        let six = minor(1, 2) * w[0] + minor(2, 0) * w[1] + minor(0, 1) * w[2];
        let kept = u64::from(*mark == 1);
        let six = six.unsigned_abs();
        let gains = [1, kept, u64::from(*mark == 2), kept * six, six];
        for (sum, gain) in sums.iter_mut().zip(gains) {
            *sum = sum.checked_add(gain)?;
        }
    }
    judged.then_some(sums)
}

/// A grid as a mesh, with answers for its cells.
struct Meshed<'a> {
    name: &'a str,
    size: String,
    grid: &'a BackgroundGrid,
    input: MeshInput,
    crossing: Vec<u8>,
    probe: Vec<u8>,
}

impl<'a> Meshed<'a> {
    fn new(input: &'a Input, grid: &'a BackgroundGrid) -> Self {
        let away = |p: &Vector| {
            let d = *p - Vector::splat(input.centre);
            d.dot(d).sqrt() - input.radius
        };
        let outside: Vec<bool> = grid.points.iter().map(|p| away(p) > 0.0).collect();
        let count = |cell: &[u32; 4]| cell.iter().filter(|v| outside[**v as usize]).count();
        let points: Vec<u32> = grid.points.iter().flat_map(|p| p.bits()).collect();
        Self {
            name: &input.name,
            size: format!("{} cells", thousands(grid.cells.len())),
            grid,
            input: MeshInput::new(&points, grid.cells.as_flattened()),
            crossing: grid
                .cells
                .iter()
                .map(|c| (count(c) % 4 != 0).into())
                .collect(),
            probe: grid.cells.iter().map(|c| (count(c) == 0).into()).collect(),
        }
    }

    fn counts(&self) -> (usize, usize) {
        (self.grid.points.len(), self.grid.cells.len())
    }

    fn representatives(&self, table: &mut Table) {
        let (points, cells) = self.counts();
        let crossed: Vec<bool> = self.crossing.iter().map(|byte| *byte == 1).collect();
        let rust = || {
            let oracle = MeshOracle::of_cells(&self.crossing, &self.probe);
            timed(|| flood_fill_inside(&oracle, &self.grid.points, &self.grid.cells, &crossed)).1
        };
        let mut call = RepresentativesCall {
            input: self.input.clone(),
            crossing: Lent::new(&self.crossing),
            numbers: dirty(cells),
            centroids: dirty(3 * cells),
            work: dirty(cells + points),
        };
        table.row("representatives", self.name, &self.size, rust, || {
            answered(&mut call)
        });
    }

    fn copied(&self) -> BackgroundGrid {
        BackgroundGrid {
            points: self.grid.points.clone(),
            cells: self.grid.cells.clone(),
            coords: Vec::new(),
        }
    }

    fn keep(&self, table: &mut Table, cover: bool) {
        let (step, enclosure) = match cover {
            true => ("keep_cover", MeshEnclosure::Cover),
            false => ("keep_crust", MeshEnclosure::Crust),
        };
        let (points, cells) = self.counts();
        let parameters = VolumeMeshParameters {
            enclosure,
            ..parameters(0.01, 0)
        };
        let rust = || {
            let oracle = MeshOracle::of_cells(&self.crossing, &self.probe);
            let grid = self.copied();
            timed(|| cover_grid(grid, &oracle, &parameters)).1
        };
        let mut call = KeepCall {
            c: 0.01,
            input: self.input.clone(),
            crossing: Lent::new(&self.crossing),
            probe: cover.then(|| Lent::new(&self.probe)),
            kept_points: dirty(3 * points),
            kept_cells: dirty(4 * cells),
            work: dirty(cells + 2 * points),
        };
        table.row(step, self.name, &self.size, rust, || answered(&mut call));
    }

    /// Beside the published flood fill and the published verdict, cell by cell.
    fn marks(&self, table: &mut Table) {
        let (points, cells) = self.counts();
        let crossed: Vec<bool> = self.crossing.iter().map(|byte| *byte == 1).collect();
        let (points_of, cells_of) = (&self.grid.points, &self.grid.cells);
        let least = 0.01f32 * 0.01 * 0.01 * 1.0e-6;
        let rust = || {
            let oracle = MeshOracle::of_cells(&self.crossing, &self.probe);
            let mark =
                |(at, cell): (usize, &[u32; 4]), inside: &[bool]| match crossed[at] || inside[at] {
                    false => 0,
                    true if orient_tet(points_of, *cell, least).is_some() => 1,
                    true => 2,
                };
            timed(|| {
                let inside = flood_fill_inside(&oracle, points_of, cells_of, &crossed);
                let marked = cells_of.iter().enumerate().map(|cell| mark(cell, &inside));
                marked.collect::<Vec<u8>>()
            })
            .1
        };
        let mut call = MarksCall {
            c: 0.01,
            input: self.input.clone(),
            crossing: Lent::new(&self.crossing),
            probe: Lent::new(&self.probe),
            marks: dirty(cells),
            work: dirty(cells + points),
        };
        table.row("marks", self.name, &self.size, rust, || answered(&mut call));
    }

    /// Beside a plain loop that judges the tables and adds up.
    fn coverage(&self, table: &mut Table) {
        let triples: Vec<u32> = (self.grid.coords.iter().flatten().map(|x| *x as u32)).collect();
        let cells = self.grid.cells.as_flattened();
        let marks = &self.crossing;
        let mut call = CoverageCall {
            totals: Totals::default(),
            triples: Lent::new(&triples),
            cells: Lent::new(cells),
            marks: Lent::new(marks),
        };
        let rust = || timed(|| plain_coverage(&triples, &self.grid.cells, marks)).1;
        let ours = || {
            let (answer, time) = timed(|| call.library());
            assert_eq!(answer.number, 0, "{} refused: {}", call.step(), call.told());
            time
        };
        table.row("add_coverage", self.name, &self.size, rust, ours);
    }

    fn volume_mesh(&self) -> VolumeMesh {
        VolumeMesh {
            vertices: self.grid.points.clone(),
            cells: self.grid.cells.clone(),
        }
    }

    fn components(&self, table: &mut Table) {
        let (points, cells) = self.counts();
        let mesh = self.volume_mesh();
        let mut call = ComponentsCall {
            joined: Joined::ByVertices,
            input: self.input.clone(),
            numbers: dirty(cells),
            work: dirty(2 * points),
        };
        let rust = || timed(|| mesh.connected_components()).1;
        let ours = || answered(&mut call);
        table.row("components", self.name, &self.size, rust, ours);
    }

    /// As the grid has its cells, and with points and cells shuffled.
    fn face_components(&self, table: &mut Table) {
        by_faces(self.name, self.counts().0, &self.grid.cells, table);
        let name = format!("{}, shuffled", self.name);
        let cells = shuffled(&self.grid.cells, self.counts().0);
        by_faces(&name, self.counts().0, &cells, table);
    }

    fn one_piece(&self, table: &mut Table) {
        let mut call = OnePieceCall {
            input: self.input.clone(),
            work: dirty(16 * self.counts().1),
        };
        let rust = || timed(|| mapped(&self.grid.cells)).1;
        table.row("one_piece", self.name, &self.size, rust, || {
            answered(&mut call)
        });
    }

    /// The least that a writer or a reader in Rust must do: number the components and move the bytes.
    fn file(&self, format: Format, table: &mut Table) {
        let (points, cells) = self.counts();
        let mesh = self.volume_mesh();
        let file = format.encode(self.input.mesh());
        let bytes = thousands(file.len());
        let size = format!("{}, {bytes} bytes", self.size);
        let mut copied = vec![1; file.len()];
        let mut copy = f64::INFINITY;
        let mut rust = || {
            let numbered = timed(|| mesh.connected_components()).1;
            let moved = timed(|| copied.copy_from_slice(black_box(&file))).1;
            copy = copy.min(moved);
            numbered + moved
        };
        let mut write = WriteCall {
            format,
            input: self.input.clone(),
            file: dirty(file.len()),
            work: dirty(2 * points),
        };
        let mut read = ReadCall {
            format,
            file: Lent::new(&file),
            points: dirty(3 * points),
            cells: dirty(4 * cells),
            work: dirty(2 * points),
        };
        let (writer, reader) = (format.writer(), format.reader());
        let wrote = table.row(writer, self.name, &size, &mut rust, || answered(&mut write));
        let loaded = table.row(reader, self.name, &size, &mut rust, || answered(&mut read));
        let bytes = &bytes;
        for (step, ours) in [(writer, wrote), (reader, loaded)] {
            table.in_copies(step, self.name, &FileTimes { bytes, copy, ours });
        }
    }
}
