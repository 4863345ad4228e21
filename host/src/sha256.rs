//! SHA-256 (FIPS 180-4), to name a file by what it holds.

use crate::lent::mixed_by_processor;

/// The roots of the first eight primes, and the cube roots of the first 64: the first 32 bits of their fractions.
#[rustfmt::skip]
const START: [u32; 8] = [
    0x6a09_e667, 0xbb67_ae85, 0x3c6e_f372, 0xa54f_f53a, 0x510e_527f, 0x9b05_688c, 0x1f83_d9ab, 0x5be0_cd19,
];
#[rustfmt::skip]
const ROUNDS: [u32; 64] = [
    0x428a_2f98, 0x7137_4491, 0xb5c0_fbcf, 0xe9b5_dba5, 0x3956_c25b, 0x59f1_11f1, 0x923f_82a4, 0xab1c_5ed5,
    0xd807_aa98, 0x1283_5b01, 0x2431_85be, 0x550c_7dc3, 0x72be_5d74, 0x80de_b1fe, 0x9bdc_06a7, 0xc19b_f174,
    0xe49b_69c1, 0xefbe_4786, 0x0fc1_9dc6, 0x240c_a1cc, 0x2de9_2c6f, 0x4a74_84aa, 0x5cb0_a9dc, 0x76f9_88da,
    0x983e_5152, 0xa831_c66d, 0xb003_27c8, 0xbf59_7fc7, 0xc6e0_0bf3, 0xd5a7_9147, 0x06ca_6351, 0x1429_2967,
    0x27b7_0a85, 0x2e1b_2138, 0x4d2c_6dfc, 0x5338_0d13, 0x650a_7354, 0x766a_0abb, 0x81c2_c92e, 0x9272_2c85,
    0xa2bf_e8a1, 0xa81a_664b, 0xc24b_8b70, 0xc76c_51a3, 0xd192_e819, 0xd699_0624, 0xf40e_3585, 0x106a_a070,
    0x19a4_c116, 0x1e37_6c08, 0x2748_774c, 0x34b0_bcb5, 0x391c_0cb3, 0x4ed8_aa4a, 0x5b9c_ca4f, 0x682e_6ff3,
    0x748f_82ee, 0x78a5_636f, 0x84c8_7814, 0x8cc7_0208, 0x90be_fffa, 0xa450_6ceb, 0xbef9_a3f7, 0xc671_78f2,
];

const BLOCK: usize = 64;

/// The checksum of some bytes, in 64 hexadecimal digits.
///
/// ```
/// use sporeferry::sha256::checksum;
/// let of_abc = "ba7816bf8f01cfea414140de5dae2223b00361a396177a9cb410ff61f20015ad";
/// assert_eq!(checksum(b"abc"), of_abc);
/// ```
pub fn checksum(bytes: &[u8]) -> String {
    mixed(bytes, |state, blocks| {
        if !mixed_by_processor(state, blocks) {
            mix_each(state, blocks);
        }
    })
}

/// The checksum by one way or another to mix whole blocks into the state.
fn mixed(bytes: &[u8], mix: impl Fn(&mut [u32; 8], &[u8])) -> String {
    let (blocks, rest) = bytes.split_at(bytes.len() - bytes.len() % BLOCK);
    let mut state = START;
    mix(&mut state, blocks);
    mix(&mut state, &ending(rest, bytes.len()));
    state.iter().map(|word| format!("{word:08x}")).collect()
}

/// The last bytes, a one bit, zeros, and the number of bits, up to whole blocks.
fn ending(rest: &[u8], length: usize) -> Vec<u8> {
    let mut last = rest.to_vec();
    last.push(0x80);
    last.resize((rest.len() + 9).next_multiple_of(BLOCK) - 8, 0);
    last.extend((8 * length as u64).to_be_bytes());
    last
}

fn mix_each(state: &mut [u32; 8], blocks: &[u8]) {
    blocks.chunks_exact(BLOCK).for_each(|block| mix(state, block));
}

fn mix(state: &mut [u32; 8], block: &[u8]) {
    let [mut a, mut b, mut c, mut d, mut e, mut f, mut g, mut h] = *state;
    for (word, round) in schedule(block).into_iter().zip(ROUNDS) {
        let choice = (e & f) ^ (!e & g);
        let turned = e.rotate_right(6) ^ e.rotate_right(11) ^ e.rotate_right(25);
        let added = word.wrapping_add(round);
        let first = h.wrapping_add(turned).wrapping_add(choice).wrapping_add(added);
        let most = (a & b) ^ (a & c) ^ (b & c);
        let turned = a.rotate_right(2) ^ a.rotate_right(13) ^ a.rotate_right(22);
        (h, g, f, e) = (g, f, e, d.wrapping_add(first));
        (d, c, b, a) = (c, b, a, first.wrapping_add(turned).wrapping_add(most));
    }
    for (word, added) in state.iter_mut().zip([a, b, c, d, e, f, g, h]) {
        *word = word.wrapping_add(added);
    }
}

/// The 64 words that a block gives.
fn schedule(block: &[u8]) -> [u32; 64] {
    let mut words = [0; 64];
    for (word, bytes) in words.iter_mut().zip(block.chunks_exact(4)) {
        *word = u32::from_be_bytes([bytes[0], bytes[1], bytes[2], bytes[3]]);
    }
    for n in 16..64 {
        let (near, far) = (words[n - 2], words[n - 15]);
        let near = near.rotate_right(17) ^ near.rotate_right(19) ^ near >> 10;
        let far = far.rotate_right(7) ^ far.rotate_right(18) ^ far >> 3;
        words[n] = near.wrapping_add(words[n - 7]).wrapping_add(far).wrapping_add(words[n - 16]);
    }
    words
}

/// `mix_each` by the processor's own instructions.
#[cfg(target_arch = "x86_64")]
pub(crate) mod x86 {
    use super::{BLOCK, ROUNDS};
    use std::arch::x86_64::*;

    #[target_feature(enable = "sha,ssse3,sse4.1")]
    pub fn mix(state: &mut [u32; 8], blocks: &[u8]) {
        let [a, b, c, d, e, f, g, h] = state.map(u32::cast_signed);
        let mut abef = _mm_set_epi32(a, b, e, f);
        let mut cdgh = _mm_set_epi32(c, d, g, h);
        for block in blocks.chunks_exact(BLOCK) {
            let before = (abef, cdgh);
            let (mut w0, mut w1) = (four(block, 0), four(block, 16));
            let (mut w2, mut w3) = (four(block, 32), four(block, 48));
            for rounds in ROUNDS.chunks_exact(4) {
                let added = _mm_add_epi32(w0, words(rounds[0], rounds[1], rounds[2], rounds[3]));
                cdgh = _mm_sha256rnds2_epu32(cdgh, abef, added);
                abef = _mm_sha256rnds2_epu32(abef, cdgh, _mm_shuffle_epi32::<0b1110>(added));
                let far = _mm_sha256msg1_epu32(w0, w1);
                let next = _mm_add_epi32(far, _mm_alignr_epi8::<4>(w3, w2));
                (w0, w1, w2, w3) = (w1, w2, w3, _mm_sha256msg2_epu32(next, w3));
            }
            (abef, cdgh) = (_mm_add_epi32(abef, before.0), _mm_add_epi32(cdgh, before.1));
        }
        let [b3, b2, b1, b0] = lanes(abef);
        let [d3, d2, d1, d0] = lanes(cdgh);
        *state = [b0, b1, d0, d1, b2, b3, d2, d3];
    }

    /// Four words of a block, from a byte on.
    #[inline]
    #[target_feature(enable = "sse2")]
    fn four(block: &[u8], at: usize) -> __m128i {
        let b = &block[at..at + 16];
        words(
            u32::from_be_bytes([b[0], b[1], b[2], b[3]]),
            u32::from_be_bytes([b[4], b[5], b[6], b[7]]),
            u32::from_be_bytes([b[8], b[9], b[10], b[11]]),
            u32::from_be_bytes([b[12], b[13], b[14], b[15]]),
        )
    }

    /// Four words, the first in the lowest lane.
    #[inline]
    #[target_feature(enable = "sse2")]
    fn words(a: u32, b: u32, c: u32, d: u32) -> __m128i {
        _mm_set_epi32(d.cast_signed(), c.cast_signed(), b.cast_signed(), a.cast_signed())
    }

    #[target_feature(enable = "sse4.1")]
    fn lanes(of: __m128i) -> [u32; 4] {
        [
            _mm_extract_epi32::<0>(of),
            _mm_extract_epi32::<1>(of),
            _mm_extract_epi32::<2>(of),
            _mm_extract_epi32::<3>(of),
        ]
        .map(i32::cast_unsigned)
    }
}

#[cfg(test)]
mod tests {
    use super::*;

    /// FIPS 180-4's own examples, and lengths around a block's end against `sha256sum`; with the processor's
    /// instructions, if it has them, and without.
    #[test]
    fn known_checksums() {
        for sum_of in [checksum, |bytes: &[u8]| mixed(bytes, mix_each)] {
            let empty = "e3b0c44298fc1c149afbf4c8996fb92427ae41e4649b934ca495991b7852b855";
            assert_eq!(sum_of(b""), empty);
            let long = "248d6a61d20638b8e5c026930c3e6039a33ce45964ff2167f6ecedd419db06c1";
            assert_eq!(sum_of(b"abcdbcdecdefdefgefghfghighijhijkijkljklmklmnlmnomnopnopq"), long);
            let million = "cdc76e5c9914fb9281a1c7e284d73e67f1809a48a497200e046d39ccc7112cd0";
            assert_eq!(sum_of(&vec![b'a'; 1_000_000]), million);
            for (length, sum) in LENGTHS {
                assert_eq!(sum_of(&vec![b'x'; length]), sum, "{length}");
            }
        }
    }

    const LENGTHS: [(usize, &str); 5] = [
        (55, "d5e285683cd4efc02d021a5c62014694958901005d6f71e89e0989fac77e4072"),
        (56, "04c26261370ee7541549d16dee320c723e3fd14671e66a099afe0a377c16888e"),
        (63, "75220b47218278e656f2013bb8f0c455a25eaf01e86c64924e9d48d89776d6f2"),
        (64, "7ce100971f64e7001e8fe5a51973ecdfe1ced42befe7ee8d5fd6219506b5393c"),
        (65, "9537c5fdf120482f7d58d25e9ed583f52c02b4e304ea814db1633ad565aed7e9"),
    ];
}
