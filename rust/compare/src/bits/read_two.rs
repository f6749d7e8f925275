//! Two neighbouring fields.

use crate::bits::running::field;
use crate::inputs::buffers::{largest, place, short_buffers, slice};
use crate::inputs::random::Random;
use crate::lent::answer::Answer;
use crate::options::Options;
use crate::refusals::{SHORT, WIDE};
use crate::tally::Tally;

const NAME: &str = "read_two";
const RANDOM: u32 = 1_000_000;

pub fn run(options: &Options) -> Vec<Tally> {
    let what =
        "both fields and the place after them against bits one by one; 16 for a width above 32";
    let mut tally = Tally::new(options, NAME, what);
    let mut random = Random::new(options.seed, NAME);
    for data in short_buffers(&mut random, 4) {
        for bit in (0..=8 * data.len() + 40).chain(largest()) {
            for width in (0..=34).chain([64, u32::MAX]) {
                check(&mut tally, &data, bit, width);
            }
        }
    }
    let pool = random.bytes(4096);
    for _ in 0..RANDOM {
        let data = slice(&mut random, &pool, 64);
        let bit = place(&mut random, 8 * data.len());
        check(&mut tally, data, bit, random.below(33) as u32);
    }
    vec![tally]
}

/// Fields of width 0 are 0 and move nothing, wherever they stand.
pub fn due(data: &[u8], bit: usize, width: u32) -> Answer {
    match width {
        0 => Answer::words(&[0, 0, bit as u64]),
        1..=32 => Answer::words_or(two(data, bit, width), SHORT),
        _ => Answer::refused(WIDE),
    }
}

fn two(data: &[u8], bit: usize, width: u32) -> Option<[u64; 3]> {
    let first = field(data, bit, width)?;
    let middle = bit + width as usize;
    let second = field(data, middle, width)?;
    let next = middle + width as usize;
    Some([first.into(), second.into(), next as u64])
}

fn check(tally: &mut Tally, data: &[u8], bit: usize, width: u32) {
    tally.call(
        &due(data, bit, width),
        |words| hoodsorrel::raw::read_two(data, bit, width, words),
        || (data.to_vec(), bit, width),
    );
}
