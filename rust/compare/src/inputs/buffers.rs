//! Buffers and places that several subjects take.

use crate::inputs::random::Random;

/// How far the largest places reach down from the largest usize.
pub const NEAR_LARGEST: usize = 80;

/// Buffers of length 0 to 9: zeros, ones, and some random ones of each length.
pub fn short_buffers(random: &mut Random, random_fillings: usize) -> Vec<Vec<u8>> {
    let mut buffers = Vec::new();
    for n in 0..=9 {
        buffers.push(vec![0; n]);
        buffers.push(vec![0xFF; n]);
        buffers.extend((0..random_fillings).map(|_| random.bytes(n)));
    }
    buffers
}

/// A random slice of at most `most` bytes, at any alignment.
pub fn slice<'a>(random: &mut Random, pool: &'a [u8], most: usize) -> &'a [u8] {
    let n = random.below(most + 1);
    let start = random.below(pool.len() - n + 1);
    &pool[start..start + n]
}

/// The largest places.
pub fn largest() -> impl Iterator<Item = usize> + Clone {
    usize::MAX - NEAR_LARGEST..=usize::MAX
}

/// A place in a payload that ends at `end`, near its end, past it, or anywhere.
pub fn place(random: &mut Random, end: usize) -> usize {
    match random.below(16) {
        0 => random.any_size(),
        1 => usize::MAX - random.below(NEAR_LARGEST + 1),
        2 => end + random.below(1000),
        3..=5 => (end + 8).saturating_sub(random.below(48)),
        _ => random.below(end + 1),
    }
}
