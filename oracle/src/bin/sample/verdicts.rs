//! Verdicts on single cells, with the volumes that the lifted Rust finds: as many of each kind of volume.

use lifted::math::Vector;
use lifted::transformation::volume_mesh::isosurface_stuffing::doors::{orient_tet, volume_of};
use oracle::random::{nudged, Random};

/// How many cells are taken of each kind of volume.
const TAKEN: usize = 32;
/// The kinds: ordinary, negative, subnormal, huge, infinite, NaN, 0 and -0.
const KINDS: usize = 8;
const CELL: [u32; 4] = [0, 1, 2, 3];

struct Weighed {
    points: [Vector; 4],
    least: f32,
}

impl Weighed {
    fn volume(&self) -> f32 {
        volume_of(&self.points, CELL)
    }

    fn words(&self) -> Vec<u32> {
        let coordinates = self.points.iter().flat_map(|point| point.bits());
        [self.least.to_bits()]
            .into_iter()
            .chain(coordinates)
            .collect()
    }

    /// The verdict and the bits of the volume; any NaN counts as 7FC00000.
    fn text(&self) -> String {
        let case = match orient_tet(&self.points, CELL, self.least) {
            None => "dropped",
            Some(CELL) => "kept",
            Some(_) => "exchanged",
        };
        let bits = match self.volume() {
            volume if volume.is_nan() => 0x7fc0_0000,
            volume => volume.to_bits(),
        };
        format!("{case} {bits:08x}\n")
    }
}

/// The kind of a volume.
fn kind(volume: f32) -> usize {
    match volume {
        v if v.is_nan() => 5,
        v if v.is_infinite() => 4,
        v if v.to_bits() == 0 => 6,
        0.0 => 7,
        v if v.is_subnormal() => 2,
        v if v.abs() > 1.0e35 => 3,
        v if v < 0.0 => 1,
        _ => 0,
    }
}

fn coordinate(random: &mut Random, style: usize) -> f32 {
    let unit = (2.0 * random.unit() - 1.0) as f32;
    match style {
        0 => random.between(-2, 2) as f32,
        1 => random.special(),
        2 => f32::from_bits(random.bits()),
        3 => unit * 2.0e-13,
        4 => unit * 2.0e12,
        5 if random.once_in(6) => random.special(),
        _ => unit,
    }
}

/// A least volume: that of the cell itself, one place more, none, or any.
fn least(random: &mut Random, volume: f32) -> f32 {
    match random.below(6) {
        0 => volume.abs(),
        1 => nudged(volume.abs(), 1),
        2 => random.special(),
        3 => random.sized(-7.0, 1.0),
        _ => 0.0,
    }
}

fn any(random: &mut Random) -> Weighed {
    let style = random.below(8);
    let points = std::array::from_fn(|_| {
        let [x, y, z] = std::array::from_fn(|_| coordinate(random, style));
        Vector::new(x, y, z)
    });
    let least = least(random, volume_of(&points, CELL));
    Weighed { points, least }
}

/// The cells as words, and the lines that their verdicts are.
pub fn all(seed: u64) -> (Vec<u32>, String) {
    let random = &mut Random::new(seed);
    let mut kinds: [Vec<Weighed>; KINDS] = Default::default();
    while kinds.iter().any(|cells| cells.len() < TAKEN) {
        let cell = any(random);
        let cells = &mut kinds[kind(cell.volume())];
        if cells.len() < TAKEN {
            cells.push(cell);
        }
    }
    let cells = kinds.iter().flatten();
    let words = cells.clone().flat_map(Weighed::words);
    let count = (KINDS * TAKEN) as u32;
    let words = [count].into_iter().chain(words).collect();
    (words, cells.map(Weighed::text).collect())
}
