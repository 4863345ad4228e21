//! Writers and readers of both formats.

use super::meshes::{any, Sample};
use super::rooms::{lengths, resized};
use super::vtk_headers;
use super::{damage, Sizes};
use crate::calls::{compare, Format, Input, ReadCall, WriteCall};
use crate::lent::Lent;
use crate::random::Random;
use crate::report::Report;

pub fn write(random: &mut Random, format: Format, sample: &Sample) -> WriteCall {
    let file = format.encode(sample.mesh()).len();
    let mut cells = sample.cells.clone();
    if !cells.is_empty() && random.once_in(10) {
        let at = random.below(cells.len());
        cells[at] = sample.mesh().point_count() as u32;
    }
    let points = sample.points.len();
    let room = lengths(random, [points, cells.len(), file, 2 * (points / 3)]);
    WriteCall {
        format,
        input: Input::new(
            &resized(&sample.points, room[0], 0),
            &resized(&cells, room[1], 0),
        ),
        file: Lent::new(&random.dirt_bytes(room[2])),
        work: Lent::new(&random.dirt(room[3])),
    }
}

/// A file to be read, and the lengths of points, cells and work that its mesh needs.
pub struct Reading {
    pub format: Format,
    pub needs: [usize; 3],
}

impl Reading {
    pub fn of(format: Format, sample: &Sample) -> Self {
        let (points, cells) = (sample.points.len(), sample.cells.len());
        Self {
            format,
            needs: [points, cells, 2 * (points / 3)],
        }
    }

    pub fn call(&self, random: &mut Random, file: &[u8], room: [usize; 3]) -> ReadCall {
        ReadCall {
            format: self.format,
            file: Lent::new(file),
            points: Lent::new(&random.dirt(room[0])),
            cells: Lent::new(&random.dirt(room[1])),
            work: Lent::new(&random.dirt(room[2])),
        }
    }

    fn read(&self, random: &mut Random, file: &[u8], room: [usize; 3], report: &mut Report) {
        compare(&self.call(random, file, room), report);
    }

    /// With more room than needed, so that a changed count is no refusal by itself.
    fn read_with_room(&self, random: &mut Random, file: &[u8], report: &mut Report) {
        self.read(random, file, self.needs.map(|need| need + 12), report);
    }
}

/// The file with one of its cells' vertices set to the first point that is not there.
pub fn naming_missing(
    random: &mut Random,
    format: Format,
    sample: &Sample,
    file: &[u8],
) -> Vec<u8> {
    let vertex = random.below(sample.cells.len());
    let (cells, count) = (
        sample.mesh().cell_count(),
        sample.mesh().point_count() as u32,
    );
    let (at, bytes) = match format {
        Format::Mesh => (
            8 + 4 * sample.points.len() + 4 * vertex,
            count.to_le_bytes(),
        ),
        Format::Vtk => {
            let line = format!("CELLS {cells} {}\n", 5 * cells);
            let found = file
                .windows(line.len())
                .position(|part| part == line.as_bytes());
            let start = found.expect("a line of cells") + line.len();
            (start + 4 * (vertex + vertex / 4 + 1), count.to_be_bytes())
        }
    };
    let mut missing = file.to_vec();
    missing[at..at + 4].copy_from_slice(&bytes);
    missing
}

/// The file with the component number of its last cell changed: its lowest byte stands at the
/// number's start in a mesh file, before the last line feed in a VTK file.
pub fn misnumbered(format: Format, file: &[u8]) -> Vec<u8> {
    let mut wrong = file.to_vec();
    let at = match format {
        Format::Mesh => file.len() - 4,
        Format::Vtk => file.len() - 2,
    };
    wrong[at] ^= 1;
    wrong
}

/// Reads a file with rooms of every kind, then damaged.
fn read(random: &mut Random, format: Format, sample: &Sample, report: &mut Report) {
    let file = format.encode(sample.mesh());
    let reading = Reading::of(format, sample);
    for _ in 0..2 {
        let room = lengths(random, reading.needs);
        reading.read(random, &file, room, report);
        let damaged = damage::mixed(random, &file);
        reading.read(random, &damaged, room, report);
        let trailed = damage::trailed(random, &file);
        reading.read(random, &trailed, room, report);
        if !sample.cells.is_empty() {
            let missing = naming_missing(random, format, sample, &file);
            reading.read(random, &missing, room, report);
            let wrong = misnumbered(format, &file);
            reading.read(random, &wrong, room, report);
        }
    }
}

/// Small meshes whose files are damaged in every way: none, points alone, one cell, two pieces.
fn small(random: &mut Random) -> Vec<Sample> {
    let mut sample = |points: usize, cells: &[u32]| Sample {
        points: random.dirt(3 * points),
        cells: cells.to_vec(),
        c: 1.0,
    };
    vec![
        sample(0, &[]),
        sample(2, &[]),
        sample(4, &[3, 0, 2, 1]),
        sample(9, &[8, 7, 6, 5, 0, 1, 2, 3, 5, 5, 4, 4]),
    ]
}

fn exhaustive(random: &mut Random, format: Format, report: &mut Report) {
    for sample in small(random) {
        let file = format.encode(sample.mesh());
        let reading = Reading::of(format, &sample);
        for damaged in damage::prefixes(&file).chain(damage::changes(&file, 255)) {
            reading.read_with_room(random, &damaged, report);
        }
        for short in 0..3 {
            let mut room = reading.needs;
            room[short] = room[short].saturating_sub(1);
            reading.read(random, &file, room, report);
        }
    }
}

fn hostile(random: &mut Random, report: &mut Report) {
    for sample in small(random) {
        let file = Format::Mesh.encode(sample.mesh());
        let second = 4 + 4 * sample.points.len();
        let third = second + 4 + 4 * sample.cells.len();
        let reading = Reading::of(Format::Mesh, &sample);
        for damaged in damage::hostile_counts(&file, &[0, second, third]) {
            reading.read_with_room(random, &damaged, report);
        }
        for count in [0, 1, 2, 5] {
            let numbers = random.dirt(count);
            let mut other = file[..third].to_vec();
            other.extend((count as u32).to_le_bytes());
            other.extend(numbers.iter().flat_map(|n| (n % 3).to_le_bytes()));
            reading.read_with_room(random, &other, report);
        }
    }
}

fn random_files(random: &mut Random, format: Format, sizes: &Sizes, report: &mut Report) {
    for _ in 0..sizes.files {
        let sample = any(random);
        compare(&write(random, format, &sample), report);
        read(random, format, &sample, report);
    }
}

pub fn run_mesh(random: &mut Random, sizes: &Sizes, report: &mut Report) {
    exhaustive(random, Format::Mesh, report);
    hostile(random, report);
    random_files(random, Format::Mesh, sizes, report);
}

pub fn run_vtk(random: &mut Random, sizes: &Sizes, report: &mut Report) {
    exhaustive(random, Format::Vtk, report);
    for file in vtk_headers::files() {
        let reading = Reading {
            format: Format::Vtk,
            needs: [12, 4, 8],
        };
        reading.read_with_room(random, &file, report);
    }
    random_files(random, Format::Vtk, sizes, report);
}
