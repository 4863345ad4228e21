//! Random numbers from a seed (splitmix64), and the floats that make trouble.

pub struct Random {
    state: u64,
}

impl Random {
    pub fn new(seed: u64) -> Self {
        Self { state: seed }
    }

    /// The next number. There is always one, so this is no iterator.
    #[allow(clippy::should_implement_trait)]
    pub fn next(&mut self) -> u64 {
        self.state = self.state.wrapping_add(0x9e37_79b9_7f4a_7c15);
        let mut z = self.state;
        z = (z ^ (z >> 30)).wrapping_mul(0xbf58_476d_1ce4_e5b9);
        z = (z ^ (z >> 27)).wrapping_mul(0x94d0_49bb_1331_11eb);
        z ^ (z >> 31)
    }

    pub fn bits(&mut self) -> u32 {
        (self.next() >> 32) as u32
    }

    /// A number below `n`, which is not 0.
    pub fn below(&mut self, n: usize) -> usize {
        ((u128::from(self.next()) * n as u128) >> 64) as usize
    }

    /// A number from `low` to `high`, both included.
    pub fn between(&mut self, low: i64, high: i64) -> i64 {
        low + self.below((high - low + 1) as usize) as i64
    }

    /// True once in `n` times.
    pub fn once_in(&mut self, n: usize) -> bool {
        self.below(n) == 0
    }

    pub fn pick<T: Copy>(&mut self, from: &[T]) -> T {
        from[self.below(from.len())]
    }

    /// From 0 to 1, 1 not included.
    pub fn unit(&mut self) -> f64 {
        (self.next() >> 11) as f64 / (1u64 << 53) as f64
    }

    /// A float of ordinary size, its exponent spread over `low` to `high` powers of ten.
    pub fn sized(&mut self, low: f64, high: f64) -> f32 {
        10f64.powf(low + (high - low) * self.unit()) as f32
    }

    pub fn special(&mut self) -> f32 {
        f32::from_bits(self.pick(&SPECIAL))
    }

    /// Entries of any content, for tables lent dirty.
    pub fn dirt_bytes(&mut self, len: usize) -> Vec<u8> {
        (0..len).map(|_| self.next() as u8).collect()
    }

    pub fn dirt(&mut self, len: usize) -> Vec<u32> {
        (0..len).map(|_| self.bits()).collect()
    }

    pub fn dirt_words(&mut self, len: usize) -> Vec<u64> {
        (0..len).map(|_| self.next()).collect()
    }
}

/// Zeros, subnormals, the ends of the range, infinities, NaN of either sign, quiet and signalling.
pub const SPECIAL: [u32; 24] = [
    0x0000_0000,
    0x8000_0000,
    0x0000_0001,
    0x8000_0001,
    0x0000_0003,
    0x0000_0005,
    0x007f_ffff,
    0x807f_ffff,
    0x0080_0000,
    0x3f80_0000,
    0xbf80_0000,
    0x3f00_0000,
    0x2680_0000,
    0x7f7f_ffff,
    0xff7f_ffff,
    0x7f7f_fffe,
    0x7f00_0000,
    0x7e80_0000,
    0x7f80_0000,
    0xff80_0000,
    0x7fc0_0000,
    0xffc0_0000,
    0x7f80_0001,
    0xffba_dbad,
];

/// The float `steps` places further from zero.
pub fn nudged(x: f32, steps: i64) -> f32 {
    f32::from_bits((i64::from(x.to_bits()) + steps).clamp(0, i64::from(u32::MAX)) as u32)
}
