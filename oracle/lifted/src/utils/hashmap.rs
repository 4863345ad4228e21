//! Stands in for `hashbrown::HashMap<K, V, foldhash::fast::FixedState>`.
//!
//! The standard map is hashbrown's; the hasher below folds 64-bit products as foldhash does, so
//! that a comparison of speed is fair. No answer of the lifted code depends on the hash: it only
//! inserts and looks up.

use std::hash::{BuildHasherDefault, Hasher};

/// The published crate's hash map.
pub type HashMap<K, V> = std::collections::HashMap<K, V, BuildHasherDefault<FoldHasher>>;

const SEED: u64 = 0x243f_6a88_85a3_08d3;
const FOLD_SEED: u64 = 0x1319_8a2e_0370_7344;

/// Numbers gather in a sponge of 128 bits; a full sponge is folded into the accumulator.
pub struct FoldHasher {
    accumulator: u64,
    sponge: u128,
    filled: u32,
}

impl Default for FoldHasher {
    fn default() -> Self {
        Self {
            accumulator: SEED,
            sponge: 0,
            filled: 0,
        }
    }
}

#[inline(always)]
fn folded_multiply(x: u64, y: u64) -> u64 {
    let full = u128::from(x) * u128::from(y);
    full as u64 ^ (full >> 64) as u64
}

impl FoldHasher {
    #[inline(always)]
    fn number(&mut self, x: u128, bits: u32) {
        if self.filled + bits > 128 {
            self.accumulator = self.folded();
            self.sponge = x;
            self.filled = bits;
        } else {
            self.sponge |= x << self.filled;
            self.filled += bits;
        }
    }

    #[inline(always)]
    fn folded(&self) -> u64 {
        folded_multiply(
            self.sponge as u64 ^ self.accumulator,
            (self.sponge >> 64) as u64 ^ FOLD_SEED,
        )
    }
}

#[inline(always)]
fn word(bytes: &[u8]) -> u64 {
    u64::from_le_bytes(bytes.try_into().unwrap())
}

impl Hasher for FoldHasher {
    #[inline(always)]
    fn write(&mut self, bytes: &[u8]) {
        let len = bytes.len();
        let mut state = self.accumulator.rotate_right(len as u32);
        if (8..=16).contains(&len) {
            state = folded_multiply(state ^ word(&bytes[..8]), FOLD_SEED ^ word(&bytes[len - 8..]));
        } else {
            for byte in bytes {
                state = folded_multiply(state ^ u64::from(*byte), FOLD_SEED);
            }
        }
        self.accumulator = state;
    }

    #[inline(always)]
    fn write_u32(&mut self, x: u32) {
        self.number(x.into(), 32);
    }

    #[inline(always)]
    fn write_u64(&mut self, x: u64) {
        self.number(x.into(), 64);
    }

    #[inline(always)]
    fn write_usize(&mut self, x: usize) {
        self.number(x as u128, 64);
    }

    #[inline(always)]
    fn finish(&self) -> u64 {
        if self.filled > 0 {
            self.folded()
        } else {
            self.accumulator
        }
    }
}
