//! The calls on runs of running numbers.

use crate::answers::line::{lent, List};
use crate::bits::check_runs::{spelled, Spelled, LIMITS};
use crate::bits::fill_runs::{fives_due, run_due, FROM, OTHERS};
use crate::bits::running::{judged, FIRST, FIVE, WIDEST};
use crate::inputs::buffers::place;
use crate::inputs::random::Random;

/// Runs of each kind that are spelled, and spoiled.
const RUNS: usize = 5;
const RANDOM: usize = 24;
/// Bytes of a random body.
const BODY: usize = 24;

pub fn add(list: &mut List, random: &mut Random) {
    for turns in [1, FIVE] {
        for limit in LIMITS {
            at_limit(list, random, limit, turns);
        }
        for _ in 0..RUNS {
            spoiled(list, random, turns);
        }
    }
    for _ in 0..RANDOM {
        let data = random.bytes(BODY);
        let bit = place(random, 8 * BODY);
        let limit = random.pick(&LIMITS);
        check(list, 1, &data, bit, limit, random.below(20) as u32);
        check(list, FIVE, &data, bit, limit, random.below(6) as u32);
    }
    for width in (1..=WIDEST).chain(OTHERS) {
        filled(list, random, width);
    }
}

/// The last number of a limit, and one beyond it.
fn at_limit(list: &mut List, random: &mut Random, limit: u16, turns: usize) {
    for number in [i64::from(limit) - 1, limit.into(), -1] {
        let mut numbers = vec![0; 2 * turns];
        numbers[2 * turns - 1] = number;
        let run = spelled(random, limit, turns, &numbers);
        check(list, turns, &run.bytes, run.bit, limit, 2);
    }
}

/// A run, cut after each byte, with one field more than there is, and astray in one place.
fn spoiled(list: &mut List, random: &mut Random, turns: usize) {
    let limit = random.pick(&LIMITS).max(1);
    let mut numbers: Vec<i64> = (0..3 * turns)
        .map(|_| random.below(limit.into()) as i64)
        .collect();
    let Spelled { bytes, bit, .. } = spelled(random, limit, turns, &numbers);
    for n in 0..=bytes.len() {
        check(list, turns, &bytes[..n], bit, limit, 3);
    }
    check(list, turns, &bytes, bit, limit, 4);
    check(list, turns, &bytes, bit, limit, u32::MAX);
    let stray = random.below(numbers.len());
    numbers[stray] = limit.into();
    let run = spelled(random, limit, turns, &numbers);
    check(list, turns, &run.bytes, run.bit, limit, 3);
}

fn check(list: &mut List, turns: usize, data: &[u8], bit: usize, limit: u16, count: u32) {
    let name = if turns == 1 {
        "check_run"
    } else {
        "check_fives"
    };
    let args = [bit as u64, limit.into(), count.into()];
    let due = judged(data, bit, limit, turns as u64 * u64::from(count), turns);
    list.judged(name, &args, data, due);
}

/// As many fields as there are, one more, and some around the first bit that is handed out.
fn filled(list: &mut List, random: &mut Random, width: u32) {
    let data = random.bytes(BODY);
    let fields = (8 * BODY - FIRST) / width.clamp(1, 64) as usize;
    let fives = fields / FIVE * FIVE;
    for n in [0, 5, fields, fields + 1, fives, fives + FIVE] {
        fill(list, random, &data, FIRST, width, n);
    }
    for bit in [FIRST - 1, 8 * BODY, usize::MAX] {
        let n = random.below(2) * FIVE;
        fill(list, random, &data, bit, width, n);
    }
}

fn fill(list: &mut List, random: &mut Random, data: &[u8], bit: usize, width: u32, n: usize) {
    let from = random.pick(&FROM);
    let mut after = lent(n, &[]);
    let due = run_due(data, bit, width, from, &mut after);
    let args = [bit as u64, width.into(), from.into(), n as u64];
    list.filled("fill_run", &args, data, due, &after);
    let mut after = lent(n, &[]);
    let due = fives_due(data, bit, width, &mut after);
    let args = [bit as u64, width.into(), n as u64];
    list.filled("fill_fives", &args, data, due, &after);
}
