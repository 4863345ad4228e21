//! Lengths of lent tables: as needed, or some of them wrong.

use crate::random::Random;

fn wrong(random: &mut Random, need: usize) -> usize {
    match random.below(8) {
        0..=2 => need.saturating_sub(1),
        3 => need.saturating_sub(2),
        4 => 0,
        5 => need + 1,
        6 => need + 2 + random.below(3),
        _ => 2 * need + 4,
    }
}

/// Half of the time the lengths needed, else one wrong or several.
pub fn lengths<const N: usize>(random: &mut Random, needs: [usize; N]) -> [usize; N] {
    match random.below(4) {
        0 | 1 => needs,
        2 => {
            let mut lengths = needs;
            let at = random.below(N);
            lengths[at] = wrong(random, needs[at]);
            lengths
        }
        _ => needs.map(|need| match random.below(2) {
            0 => need,
            _ => wrong(random, need),
        }),
    }
}

/// A table of another length: cut, or filled up with entries of the kind given.
pub fn resized<T: Clone>(table: &[T], len: usize, fill: T) -> Vec<T> {
    let mut table = table.to_vec();
    table.resize(len, fill);
    table
}
