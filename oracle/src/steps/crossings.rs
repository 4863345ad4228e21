//! Crossing answers of octants.

use crate::random::Random;
use lifted::lent::Layout;

/// Each octant with the chance of one in `n`, whatever its parent says.
fn scattered(random: &mut Random, layout: &Layout, n: usize) -> Vec<u8> {
    (0..layout.len())
        .map(|_| random.once_in(n).into())
        .collect()
}

/// Single octants with all their ancestors.
fn chains(random: &mut Random, layout: &Layout) -> Vec<u8> {
    let mut table = vec![0; layout.len()];
    for _ in 0..1 + random.below(3) {
        let last = random.between(1, layout.levels.into()) as u32;
        let counts = layout.count(last);
        let at_border = random.once_in(3);
        let c = counts.map(|n| match at_border {
            true => random.pick(&[0, n - 1]),
            false => random.below(n as usize) as i32,
        });
        for level in last..=layout.levels {
            table[layout.place(level, c.map(|x| x >> (level - last)))] = 1;
        }
    }
    table
}

/// The octants that a sphere's surface passes through, in units of a root, and some noise.
pub fn shell(layout: &Layout, centre: [f64; 3], radius: f64) -> Vec<u8> {
    let crosses = |(level, c): (u32, [i32; 3])| {
        let width = 0.5f64.powi((layout.levels - level) as i32);
        let (mut near, mut far) = (0.0, 0.0);
        for k in 0..3 {
            let low = f64::from(c[k]) * width - centre[k];
            let high = low + width;
            near += low.max(-high).max(0.0).powi(2);
            far += low.abs().max(high.abs()).powi(2);
        }
        near <= radius * radius && radius * radius <= far
    };
    layout
        .octants()
        .map(|octant| crosses(octant).into())
        .collect()
}

fn random_shell(random: &mut Random, layout: &Layout) -> Vec<u8> {
    let centre = layout.dims.map(|d| f64::from(d) * random.unit());
    let radius = random.unit() * 1.5;
    let mut table = shell(layout, centre, radius);
    for _ in 0..random.below(3) {
        let at = random.below(table.len());
        table[at] ^= 1;
    }
    table
}

/// Zeros and ones of any kind. Tables with many octants are not crossed all over.
pub fn crossing(random: &mut Random, layout: &Layout) -> Vec<u8> {
    let few = layout.len() < 20_000;
    match random.below(8) {
        _ if layout.is_empty() => Vec::new(),
        0 => vec![0; layout.len()],
        1 if few => vec![1; layout.len()],
        2 if few => scattered(random, layout, 2),
        3 if few => scattered(random, layout, 10),
        4 => scattered(random, layout, 1 + layout.len() / 8),
        5 => random_shell(random, layout),
        _ => chains(random, layout),
    }
}
