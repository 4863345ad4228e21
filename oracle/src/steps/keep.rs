//! Representatives, keeping, marks, components: random meshes, then everything that is refused.

use super::meshes::{answers, any, Sample};
use super::rooms::{lengths, resized};
use super::Sizes;
use crate::calls::{
    compare, ComponentsCall, Input, Joined, KeepCall, MarksCall, RepresentativesCall,
};
use crate::expected::keep::{kept, representatives_of};
use crate::lent::Lent;
use crate::random::Random;
use crate::report::Report;

/// A mesh with its answers, perhaps spoilt after the room needed was found.
struct Asked {
    sample: Sample,
    crossing: Vec<u8>,
    probe: Vec<u8>,
}

fn asked(random: &mut Random) -> Asked {
    let sample = any(random);
    let cells = sample.mesh().cell_count();
    Asked {
        crossing: answers(random, cells),
        probe: answers(random, cells),
        sample,
    }
}

impl Asked {
    /// Sometimes a byte above 1, a point that is not there, a cell size refused, or several.
    fn spoil(&mut self, random: &mut Random) {
        if random.once_in(12) {
            set(random, &mut self.crossing, &[2, 3, 255]);
        }
        if random.once_in(12) {
            set(random, &mut self.probe, &[2, 128]);
        }
        if random.once_in(10) {
            let count = self.sample.mesh().point_count() as u32;
            set(
                random,
                &mut self.sample.cells,
                &[count, count + 1, u32::MAX],
            );
        }
        if random.once_in(20) {
            self.sample.c = random.special();
        }
    }

    fn input(&self, points_len: usize, cells_len: usize) -> Input {
        Input::new(
            &resized(&self.sample.points, points_len, 0),
            &resized(&self.sample.cells, cells_len, 0),
        )
    }

    fn lens(&self) -> (usize, usize) {
        (self.sample.points.len(), self.sample.cells.len())
    }
}

/// Sets an entry, if there is one.
pub fn set<T: Copy>(random: &mut Random, table: &mut [T], to: &[T]) {
    if !table.is_empty() {
        table[random.below(table.len())] = random.pick(to);
    }
}

pub fn representatives(random: &mut Random) -> RepresentativesCall {
    let mut asked = asked(random);
    let mesh = asked.sample.mesh();
    let list = representatives_of(mesh, &asked.crossing).len();
    let need = mesh.cell_count() + mesh.point_count();
    asked.spoil(random);
    let (points, cells) = asked.lens();
    let given = asked.crossing.len();
    let room = lengths(random, [points, cells, given, list, 3 * list, need]);
    RepresentativesCall {
        input: asked.input(room[0], room[1]),
        crossing: Lent::new(&resized(&asked.crossing, room[2], 0)),
        numbers: Lent::new(&random.dirt(room[3])),
        centroids: Lent::new(&random.dirt(room[4])),
        work: Lent::new(&random.dirt(room[5])),
    }
}

/// Cover or Crust.
pub fn keep(random: &mut Random, cover: bool) -> KeepCall {
    let mut asked = asked(random);
    let mesh = asked.sample.mesh();
    let probe = cover.then_some(&asked.probe[..]);
    let (kept_points, kept_cells) = kept(asked.sample.c, mesh, &asked.crossing, probe)
        .map_or((0, 0), |kept| (kept.points.len(), kept.cells.len()));
    let need = mesh.cell_count() + 2 * mesh.point_count();
    asked.spoil(random);
    let (points, cells) = asked.lens();
    let given = asked.crossing.len();
    let room = lengths(
        random,
        [points, cells, given, given, kept_points, kept_cells, need],
    );
    KeepCall {
        c: asked.sample.c,
        input: asked.input(room[0], room[1]),
        crossing: Lent::new(&resized(&asked.crossing, room[2], 0)),
        probe: cover.then(|| Lent::new(&resized(&asked.probe, room[3], 1))),
        kept_points: Lent::new(&random.dirt(room[4])),
        kept_cells: Lent::new(&random.dirt(room[5])),
        work: Lent::new(&random.dirt(room[6])),
    }
}

pub fn marks(random: &mut Random) -> MarksCall {
    let mut asked = asked(random);
    let mesh = asked.sample.mesh();
    let (count, need) = (mesh.cell_count(), mesh.cell_count() + mesh.point_count());
    asked.spoil(random);
    let (points, cells) = asked.lens();
    let room = lengths(random, [points, cells, count, count, count, need]);
    MarksCall {
        c: asked.sample.c,
        input: asked.input(room[0], room[1]),
        crossing: Lent::new(&resized(&asked.crossing, room[2], 0)),
        probe: Lent::new(&resized(&asked.probe, room[3], 1)),
        marks: Lent::new(&random.dirt_bytes(room[4])),
        work: Lent::new(&random.dirt(room[5])),
    }
}

pub fn components(random: &mut Random) -> ComponentsCall {
    let mut asked = asked(random);
    asked.spoil(random);
    let (points, cells) = asked.lens();
    let room = lengths(random, [points, cells, cells / 4, 2 * (points / 3)]);
    ComponentsCall {
        joined: Joined::ByVertices,
        input: asked.input(room[0], room[1]),
        numbers: Lent::new(&random.dirt(room[2])),
        work: Lent::new(&random.dirt(room[3])),
    }
}

pub fn run_representatives(random: &mut Random, sizes: &Sizes, report: &mut Report) {
    for _ in 0..sizes.meshes {
        compare(&representatives(random), report);
    }
}

pub fn run_cover(random: &mut Random, sizes: &Sizes, report: &mut Report) {
    for _ in 0..sizes.meshes {
        compare(&keep(random, true), report);
    }
}

pub fn run_crust(random: &mut Random, sizes: &Sizes, report: &mut Report) {
    for _ in 0..sizes.meshes {
        compare(&keep(random, false), report);
    }
}

pub fn run_marks(random: &mut Random, sizes: &Sizes, report: &mut Report) {
    for _ in 0..sizes.meshes {
        compare(&marks(random), report);
    }
}

pub fn run_components(random: &mut Random, sizes: &Sizes, report: &mut Report) {
    for _ in 0..sizes.meshes {
        compare(&components(random), report);
    }
}
