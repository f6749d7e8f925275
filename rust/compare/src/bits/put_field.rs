//! A field put into a buffer.

use reference::mesh::BitReader;

use crate::inputs::buffers::{largest, place, short_buffers, slice};
use crate::inputs::random::Random;
use crate::lent::answer::Answer;
use crate::lent::put::{self, Due};
use crate::options::Options;
use crate::refusals::WIDE;
use crate::tally::Tally;

const NAME: &str = "put_field";
const RANDOM: u32 = 1_000_000;

pub fn run(options: &Options) -> Vec<Tally> {
    let what = "answer and buffer against a loop over the bits, read back with mesh::BitReader; 16 for a width above 32";
    let mut tally = Tally::new(options, NAME, what);
    let mut random = Random::new(options.seed, NAME);
    for before in short_buffers(&mut random, 4) {
        for bit in (0..=8 * before.len() + 40).chain(largest()) {
            for width in 0..=32 {
                values(&mut tally, &mut random, &before, bit, width);
            }
        }
        // wherever the place is: the width is told where the buffer is too short as well
        for width in (33..100).chain([u32::MAX - 1, u32::MAX]) {
            for bit in (0..=8 * before.len() + 40).chain(largest()) {
                check(&mut tally, &before, bit, width, random.word());
            }
        }
    }
    let pool = random.bytes(4096);
    for _ in 0..RANDOM {
        let before = slice(&mut random, &pool, 64);
        let bit = place(&mut random, 8 * before.len());
        let width = random.below(33) as u32;
        check(&mut tally, before, bit, width, random.word());
    }
    vec![tally]
}

/// Values with all bits, with none, and with bits above the width.
fn values(tally: &mut Tally, random: &mut Random, before: &[u8], bit: usize, width: u32) {
    for value in [0, u32::MAX, random.word(), !low(u32::MAX, width)] {
        check(tally, before, bit, width, value);
    }
}

/// The low bits of a value.
pub fn low(value: u32, width: u32) -> u32 {
    (u64::from(value) & ((1 << width) - 1)) as u32
}

pub fn due(before: &[u8], bit: usize, width: u32, value: u32) -> Due<u32> {
    if width > 32 {
        return Due::unchanged(Answer::refused(WIDE), before);
    }
    let end = bit as u128 + u128::from(width);
    let needed = end.div_ceil(8) as usize;
    if end > 8 * before.len() as u128 {
        return Due::unchanged(Answer::needs(needed), before);
    }
    let end = end as usize;
    let mut after = before.to_vec();
    for (i, place) in (bit..end).rev().enumerate() {
        set(&mut after, place, value >> i & 1 == 1);
    }
    for place in end..8 * needed {
        set(&mut after, place, false);
    }
    Due::done(Answer::words(&[]), after, low(value, width))
}

fn set(bytes: &mut [u8], bit: usize, on: bool) {
    let mask = 0x80 >> (bit % 8);
    if on {
        bytes[bit / 8] |= mask;
    } else {
        bytes[bit / 8] &= !mask;
    }
}

fn read_back(data: &[u8], bit: usize, width: u32) -> Option<u32> {
    BitReader { data, bit }.read(width)
}

fn check(tally: &mut Tally, before: &[u8], bit: usize, width: u32, value: u32) {
    put::check(
        tally,
        due(before, bit, width, value),
        before,
        |out, words| hoodsorrel::raw::put_field(out, bit, width, value, words),
        |out| read_back(out, bit, width),
        || (before.to_vec(), bit, width, value),
    );
}
