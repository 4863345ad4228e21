//! Damage to files: every prefix, every byte changed, counts that lie, bytes behind the end.

use crate::random::Random;

/// Every prefix, the whole file included.
pub fn prefixes(file: &[u8]) -> impl Iterator<Item = Vec<u8>> + '_ {
    (0..=file.len()).map(|len| file[..len].to_vec())
}

/// Every file that differs in one byte; with `values` of 255 in every way.
pub fn changes(file: &[u8], values: u8) -> impl Iterator<Item = Vec<u8>> + '_ {
    (0..file.len()).flat_map(move |at| {
        (1..=values).map(move |by| {
            let mut changed = file.to_vec();
            changed[at] = changed[at].wrapping_add(by);
            changed
        })
    })
}

/// The file with each count (at these places) set to hostile values, little-endian.
pub fn hostile_counts(file: &[u8], places: &[usize]) -> Vec<Vec<u8>> {
    let mut files = Vec::new();
    for at in places {
        let own = u32::from_le_bytes(file[*at..at + 4].try_into().unwrap());
        for count in [
            own.wrapping_add(1),
            own.wrapping_sub(1),
            0,
            536_870_912,
            536_870_913,
            0x1555_5556,
            0x4000_0000,
            0x8000_0000,
            u32::MAX,
        ] {
            let mut hostile = file.to_vec();
            hostile[*at..at + 4].copy_from_slice(&count.to_le_bytes());
            files.push(hostile);
        }
    }
    files
}

/// The file with a few bytes behind its end.
pub fn trailed(random: &mut Random, file: &[u8]) -> Vec<u8> {
    let len = 1 + random.below(20);
    [file, &random.dirt_bytes(len)].concat()
}

/// Something of everything at once.
pub fn mixed(random: &mut Random, file: &[u8]) -> Vec<u8> {
    let mut damaged = file.to_vec();
    for _ in 0..1 + random.below(3) {
        match random.below(4) {
            0 if !damaged.is_empty() => {
                let at = random.below(damaged.len());
                damaged[at] = random.next() as u8;
            }
            1 => damaged.truncate(random.below(damaged.len() + 1)),
            2 => damaged = trailed(random, &damaged),
            _ if !damaged.is_empty() => {
                let at = random.below(damaged.len());
                damaged.remove(at);
            }
            _ => {}
        }
    }
    damaged
}
