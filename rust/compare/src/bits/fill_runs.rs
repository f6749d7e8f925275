//! Runs of running numbers, handed out.

use crate::bits::running::{hand_out, there, FIRST, FIVE, WIDEST};
use crate::inputs::buffers::{largest, place, short_buffers, slice};
use crate::inputs::payloads::{shown, LONGEST};
use crate::inputs::random::Random;
use crate::lent::answer::Answer;
use crate::lent::fill::{self, before};
use crate::options::Options;
use crate::tally::Tally;

const NAME: &str = "fill_runs";
const RANDOM: u32 = 500_000;
/// Running numbers to go on from.
pub const FROM: [u16; 5] = [0, 1, 0x7FFF, 0x8000, 0xFFFF];
/// Widths: all that are handed out, and others.
pub const OTHERS: [u32; 6] = [0, WIDEST + 1, 31, 32, 33, u32::MAX];

pub fn run(options: &Options) -> Vec<Tally> {
    let mut runs = Runs::new(options);
    runs.every_place();
    runs.random_places();
    runs.largest();
    runs.longest();
    vec![runs.one, runs.five]
}

struct Runs {
    one: Tally,
    five: Tally,
    random: Random,
}

/// The answer, and in `after` what becomes of the buffer.
pub fn run_due(data: &[u8], bit: usize, width: u32, from: u16, after: &mut [u16]) -> i64 {
    filled(data, bit, width, &[from], after)
}

/// The same with five running numbers. A buffer that is not whole fives stays as it was.
pub fn fives_due(data: &[u8], bit: usize, width: u32, after: &mut [u16]) -> i64 {
    if !after.len().is_multiple_of(FIVE) {
        return 0;
    }
    filled(data, bit, width, &[0; FIVE], after)
}

fn filled(data: &[u8], bit: usize, width: u32, from: &[u16], after: &mut [u16]) -> i64 {
    if !there(data, bit, width, after.len()) {
        return 0;
    }
    hand_out(data, bit, width, from, after);
    1
}

impl Runs {
    fn new(options: &Options) -> Runs {
        let one = "answer and buffer against running numbers bit by bit";
        let five = "the same with five running numbers";
        Runs {
            one: Tally::new(options, "fill_run", one),
            five: Tally::new(options, "fill_fives", five),
            random: Random::new(options.seed, NAME),
        }
    }

    fn every_place(&mut self) {
        for data in short_buffers(&mut self.random, 3) {
            for bit in FIRST - 3..8 * data.len() + 4 {
                for width in (1..=WIDEST).chain(OTHERS) {
                    for n in 0..=11 {
                        self.check(&data, bit, width, n);
                    }
                }
            }
        }
    }

    fn random_places(&mut self) {
        let pool = self.random.bytes(4096);
        for _ in 0..RANDOM {
            let data = slice(&mut self.random, &pool, 96);
            let bit = place(&mut self.random, 8 * data.len());
            let width = 1 + self.random.below(WIDEST as usize) as u32;
            let fitting = (8 * data.len()).saturating_sub(bit) / width as usize;
            let n = self.random.below(fitting.min(200) + 2);
            self.check(data, bit, width, n);
        }
    }

    fn largest(&mut self) {
        for bit in largest() {
            for width in (1..=WIDEST).chain(OTHERS) {
                for n in 0..=5 {
                    self.check(&[0xA5; 16], bit, width, n);
                }
            }
        }
    }

    /// As long as a body may be, and one byte longer.
    fn longest(&mut self) {
        let data = vec![0x5A; LONGEST + 1];
        for n in [LONGEST, LONGEST + 1] {
            for bit in [FIRST, 8 * LONGEST - 30, 8 * LONGEST - 29, 8 * LONGEST - 22] {
                for places in [0, 5, 10] {
                    self.check(&data[..n], bit, 3, places);
                }
            }
        }
    }

    fn check(&mut self, data: &[u8], bit: usize, width: u32, n: usize) {
        let from = self.random.pick(&FROM);
        let mut after = before(n);
        let due = run_due(data, bit, width, from, &mut after);
        fill::check(
            &mut self.one,
            &Answer::number(due),
            &after,
            |out, _| hoodsorrel::raw::fill_run(data, bit, width, from, out),
            || (shown(data), bit, width, from, n),
        );
        let mut after = before(n);
        let due = fives_due(data, bit, width, &mut after);
        fill::check(
            &mut self.five,
            &Answer::number(due),
            &after,
            |out, _| hoodsorrel::raw::fill_fives(data, bit, width, out),
            || (shown(data), bit, width, n),
        );
    }
}
