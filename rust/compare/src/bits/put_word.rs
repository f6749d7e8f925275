//! A word put into a buffer.

use reference::mesh::Reader;

use crate::inputs::buffers::{largest, place, short_buffers, slice};
use crate::inputs::random::Random;
use crate::lent::answer::Answer;
use crate::lent::put::{self, Due};
use crate::options::Options;
use crate::tally::Tally;

const NAME: &str = "put_word";
const RANDOM: u32 = 1_000_000;

pub fn run(options: &Options) -> Vec<Tally> {
    let what = "answer and buffer against to_be_bytes, read back with mesh::Reader";
    let mut tally = Tally::new(options, NAME, what);
    let mut random = Random::new(options.seed, NAME);
    for before in short_buffers(&mut random, 4) {
        for at in (0..=before.len() + 9).chain(largest()) {
            for x in [0, 1, 0x0102_0304, 0x8000_0000, u32::MAX, random.word()] {
                check(&mut tally, &before, at, x);
            }
        }
    }
    let pool = random.bytes(4096);
    for _ in 0..RANDOM {
        let before = slice(&mut random, &pool, 64);
        let at = place(&mut random, before.len());
        check(&mut tally, before, at, random.word());
    }
    vec![tally]
}

pub fn due(before: &[u8], at: usize, x: u32) -> Due<u32> {
    let Some(end) = at.checked_add(4) else {
        return Due::unchanged(Answer::needs(usize::MAX), before);
    };
    if end > before.len() {
        return Due::unchanged(Answer::needs(end), before);
    }
    let mut after = before.to_vec();
    after[at..end].copy_from_slice(&x.to_be_bytes());
    Due::done(Answer::words(&[]), after, x)
}

fn read_back(data: &[u8], position: usize) -> Option<u32> {
    Reader { data, position }.u32()
}

fn check(tally: &mut Tally, before: &[u8], at: usize, x: u32) {
    put::check(
        tally,
        due(before, at, x),
        before,
        |out, words| hoodsorrel::raw::put_word(out, at, x, words),
        |out| read_back(out, at),
        || (before.to_vec(), at, x),
    );
}
