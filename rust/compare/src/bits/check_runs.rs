//! Runs of running numbers, judged.

use spell::{field_width, BitWriter};

use crate::bits::running::{judged, FIVE};
use crate::inputs::buffers::{largest, place, slice};
use crate::inputs::payloads::{shown, LONGEST};
use crate::inputs::random::Random;
use crate::options::Options;
use crate::tally::Tally;

const NAME: &str = "check_runs";
const RANDOM: u32 = 400_000;
/// Runs that are spoiled in every place.
const SPOILED: u32 = 600;
/// So many bits are before a run: also where no two fields share a window.
const BEFORE: [usize; 5] = [0, 5, 31, 33, 40];
/// Limits around which most differs, and those of document 01.
pub const LIMITS: [u16; 24] = [
    0, 1, 2, 3, 4, 5, 7, 8, 9, 127, 128, 129, 9_999, 10_000, 10_001, 16_384, 31_999, 32_000,
    32_001, 32_767, 32_768, 32_769, 65_534, 65_535,
];

/// The calls by how many running numbers take turns.
const TURNS: [usize; 2] = [1, FIVE];

pub fn run(options: &Options) -> Vec<Tally> {
    let mut runs = Runs::new(options);
    for limit in 0..=u16::MAX {
        runs.at_limit(limit);
    }
    for _ in 0..SPOILED {
        runs.spoiled();
    }
    runs.random_bytes();
    runs.largest();
    runs.longest();
    vec![runs.one, runs.five]
}

struct Runs {
    one: Tally,
    five: Tally,
    random: Random,
}

/// A run that is spelled: its bytes, where it starts, and its numbers' limit.
pub struct Spelled {
    pub bytes: Vec<u8>,
    pub bit: usize,
    limit: u16,
}

impl Runs {
    fn new(options: &Options) -> Runs {
        Runs {
            one: Tally::new(options, "check_run", "against running numbers bit by bit"),
            five: Tally::new(options, "check_fives", "the same with five running numbers"),
            random: Random::new(options.seed, NAME),
        }
    }

    /// Up to the last number and down to 0; and one beyond each, at the start, in the middle and at the end.
    fn at_limit(&mut self, limit: u16) {
        for turns in TURNS {
            let last = i64::from(limit) - 1;
            let mut numbers = vec![0; 3 * turns];
            numbers[turns..2 * turns].fill(last.max(0));
            let run = spelled(&mut self.random, limit, turns, &numbers);
            self.check(turns, &run, 3);
            for place in [0, turns, 3 * turns - 1] {
                for beyond in [-1, last + 1] {
                    let mut strayed = numbers.clone();
                    strayed[place] = beyond;
                    let run = spelled(&mut self.random, limit, turns, &strayed);
                    self.check(turns, &run, 3);
                }
            }
        }
    }

    /// A random walk, cut after each byte, astray at each number, and both; with more fields than there are.
    fn spoiled(&mut self) {
        let turns = self.random.pick(&TURNS);
        let limit = self.random.pick(&LIMITS).max(1);
        let count = 1 + self.random.below(if turns == 1 { 24 } else { 6 });
        let numbers: Vec<i64> = (0..turns * count)
            .map(|_| self.random.below(limit.into()) as i64)
            .collect();
        let run = spelled(&mut self.random, limit, turns, &numbers);
        self.cuts(turns, &run, count);
        for more in [1, 2, 1000, u32::MAX as usize - count] {
            self.check(turns, &run, count + more);
        }
        for place in 0..numbers.len() {
            for beyond in [-1, limit.into()] {
                let mut strayed = numbers.clone();
                strayed[place] = beyond;
                let run = spelled(&mut self.random, limit, turns, &strayed);
                self.cuts(turns, &run, count);
            }
        }
    }

    fn cuts(&mut self, turns: usize, run: &Spelled, count: usize) {
        for n in 0..=run.bytes.len() {
            let cut = Spelled {
                bytes: run.bytes[..n].to_vec(),
                ..*run
            };
            self.check(turns, &cut, count);
        }
    }

    fn random_bytes(&mut self) {
        let mut pool = self.random.bytes(4096);
        // Small steps, so that some runs are long.
        for byte in &mut pool[..3072] {
            *byte &= 0x11;
        }
        for _ in 0..RANDOM {
            let data = slice(&mut self.random, &pool, 96);
            let bit = place(&mut self.random, 8 * data.len());
            let limit = match self.random.below(3) {
                0 => self.random.pick(&LIMITS),
                _ => self.random.draw() as u16 >> self.random.below(16),
            };
            let count = self.random.below(40) as u32;
            self.call(1, data, bit, limit, count);
            self.call(FIVE, data, bit, limit, count / 4);
        }
    }

    /// Places past every end.
    fn largest(&mut self) {
        for data in [&[][..], &[0; 3], &[0; 64]] {
            for bit in (8 * data.len()..8 * data.len() + 40).chain(largest()) {
                for limit in LIMITS {
                    for count in [0, 1, 2, u32::MAX] {
                        self.call(1, data, bit, limit, count);
                        self.call(FIVE, data, bit, limit, count);
                    }
                }
            }
        }
    }

    /// As long as a body may be, and one byte longer.
    fn longest(&mut self) {
        let mut data = vec![0; LONGEST + 1];
        data[LONGEST] = 0xFF;
        for n in [LONGEST, LONGEST + 1] {
            for bit in [
                0,
                40,
                8 * LONGEST - 20,
                8 * LONGEST,
                8 * LONGEST + 8,
                8 * LONGEST + 9,
            ] {
                for count in [0, 1, 4, 5, 9] {
                    self.call(1, &data[..n], bit, 8, count);
                    self.call(FIVE, &data[..n], bit, 8, count);
                }
            }
        }
    }

    fn check(&mut self, turns: usize, run: &Spelled, count: usize) {
        self.call(turns, &run.bytes, run.bit, run.limit, count as u32);
    }

    fn call(&mut self, turns: usize, data: &[u8], bit: usize, limit: u16, count: u32) {
        let due = judged(data, bit, limit, turns as u64 * u64::from(count), turns);
        let (tally, ours) = match turns {
            1 => (
                &mut self.one,
                hoodsorrel::raw::check_run(data, bit, limit, count),
            ),
            _ => (
                &mut self.five,
                hoodsorrel::raw::check_fives(data, bit, limit, count),
            ),
        };
        tally.check(ours, due, || (shown(data), bit, limit, count));
    }
}

/// Spells numbers as steps from those that had the turn before. A step that the width does not hold is cut off.
pub fn spelled(random: &mut Random, limit: u16, turns: usize, numbers: &[i64]) -> Spelled {
    let bit = random.pick(&BEFORE);
    let mut out = BitWriter::default();
    for _ in 0..bit {
        out.put(random.word(), 1);
    }
    let mut last = vec![0; turns];
    for (number, turn) in numbers.iter().zip((0..turns).cycle()) {
        let step = number - last[turn];
        let field = if step < 0 { -2 * step - 1 } else { 2 * step };
        out.put(field as u32, field_width(limit.into()));
        last[turn] = *number;
    }
    Spelled {
        bytes: out.into_bytes(),
        bit,
        limit,
    }
}
