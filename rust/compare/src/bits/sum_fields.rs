//! A sum of fields, as the benchmark makes it.

use reference::mesh::BitReader;

use crate::inputs::buffers::{short_buffers, slice};
use crate::inputs::random::Random;
use crate::lent::answer::Answer;
use crate::options::Options;
use crate::refusals::{SHORT, WIDE};
use crate::tally::Tally;

const NAME: &str = "sum_fields";
const RANDOM: u32 = 100_000;

pub fn run(options: &Options) -> Vec<Tally> {
    let what = "against a loop that reads with mesh::BitReader; 16 for a width above 32";
    let mut tally = Tally::new(options, NAME, what);
    let mut random = Random::new(options.seed, NAME);
    for data in short_buffers(&mut random, 2) {
        for width in 0..=32 {
            for count in 0..=fitting(&data, width) + 2 {
                check(&mut tally, &data, width, count);
            }
        }
        for width in [33, 34, u32::MAX] {
            for count in [0, 1, 2, u64::MAX] {
                check(&mut tally, &data, width, count);
            }
        }
    }
    let pool = random.bytes(4096);
    for _ in 0..RANDOM {
        let data = slice(&mut random, &pool, 256);
        let width = random.below(33) as u32;
        let count = random.below(fitting(data, width) as usize + 2) as u64;
        check(&mut tally, data, width, count);
    }
    vec![tally]
}

/// How many fields of a width fit. Of width 0 any number does, and a few are enough.
fn fitting(data: &[u8], width: u32) -> u64 {
    (8 * data.len() as u64)
        .checked_div(u64::from(width))
        .unwrap_or(8)
}

/// A width above 32 is told whatever the count is.
fn due(data: &[u8], width: u32, count: u64) -> Answer {
    if width > 32 {
        return Answer::refused(WIDE);
    }
    Answer::words_or(sum(data, width, count), SHORT)
}

fn sum(data: &[u8], width: u32, count: u64) -> Option<[u64; 1]> {
    let mut reader = BitReader::new(data, 0);
    let mut sum = 0u64;
    for _ in 0..count {
        sum = sum.wrapping_add(u64::from(reader.read(width)?));
    }
    Some([sum])
}

fn check(tally: &mut Tally, data: &[u8], width: u32, count: u64) {
    tally.call(
        &due(data, width, count),
        |words| hoodsorrel::raw::sum_fields(data, width, count, words),
        || (data.to_vec(), width, count),
    );
}
