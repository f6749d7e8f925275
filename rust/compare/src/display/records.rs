//! Records to hand in: random ones, ones at the limits, and faults of each kind.

use crate::inputs::random::Random;

const MOST: u32 = u32::MAX;
/// Point counts around those at which a mode has one triangle more.
const COUNTS: [u32; 10] = [0, 1, 2, 3, 4, 5, 6, 7, 8, 40];

/// What 15 is given for.
#[derive(Clone, Copy, Debug, PartialEq)]
pub enum Fault {
    Torn,
    Mode,
    LastPoint,
    AllPoints,
}

pub const FAULTS: [Fault; 4] = [Fault::Torn, Fault::Mode, Fault::LastPoint, Fault::AllPoints];

fn record(random: &mut Random, first: u32, count: u32) -> [u32; 5] {
    let mode = random.below(3) as u32;
    [random.word(), random.word(), mode, first, count]
}

/// Up to `most` records without a fault, and few points.
pub fn good(random: &mut Random, most: usize) -> Vec<[u32; 5]> {
    (0..random.below(most + 1))
        .map(|_| {
            let count = random.pick(&COUNTS);
            let first = match random.below(4) {
                0 => MOST - count,
                1 => random.word().min(MOST - count),
                _ => random.below(1000) as u32,
            };
            record(random, first, count)
        })
        .collect()
}

/// A record of each mode, 3 among them, with so many points from each of these points on: up to the last point that
/// there may be, and one past it.
pub fn at_limits() -> Vec<Vec<u32>> {
    let mut lists = Vec::new();
    for mode in 0..=3 {
        for count in COUNTS.into_iter().chain([MOST - 2, MOST - 1, MOST]) {
            for first in [0, 1, 2, MOST - 2, MOST - 1, MOST]
                .into_iter()
                .chain([MOST - count, (MOST - count).saturating_add(1)])
            {
                lists.push(vec![0, 0, mode, first, count]);
            }
        }
    }
    lists
}

/// Two and three records whose counts come to the most, or to one more.
pub fn many_points(random: &mut Random) -> Vec<Vec<u32>> {
    let mut lists = Vec::new();
    for over in [0, 1] {
        for (a, b) in [
            (0, MOST),
            (1, MOST - 1),
            (MOST, 0),
            (1 << 31, (1 << 31) - 1),
        ] {
            for place in 0..2 {
                let mut counts = [a, b];
                counts[place] = counts[place].saturating_add(over);
                let two = counts.map(|count| record(random, 0, count));
                lists.push(two.concat());
                lists.push([two.concat(), record(random, 5, 0).to_vec()].concat());
                lists.push([two.concat(), record(random, 5, over).to_vec()].concat());
            }
        }
    }
    lists
}

/// Puts a fault into records: at a place of its own, so that several can be put.
pub fn spoil(random: &mut Random, words: &mut Vec<u32>, fault: Fault) {
    let record = random.below((words.len() / 5).max(1)) * 5;
    if words.len() < 5 && fault != Fault::Torn {
        words.splice(0..0, [0; 5]);
    }
    match fault {
        // A list is torn once: two tears may come to five words.
        Fault::Torn if words.len().is_multiple_of(5) => {
            words.extend((0..random.below(4) + 1).map(|_| 0))
        }
        Fault::Torn => (),
        Fault::Mode => words[record + 2] = random.pick(&[3, 4, 255, 256, MOST]),
        Fault::LastPoint => {
            let count = words[record + 4].max(1);
            words[record + 4] = count;
            words[record + 3] = MOST - count + 1 + random.below(count as usize) as u32;
        }
        Fault::AllPoints => {
            let end = words.len() / 5 * 5;
            let mode = random.below(3) as u32;
            words.splice(end..end, [0, 0, mode, 0, MOST, 0, 0, 0, 0, 1]);
        }
    }
}
