//! All numbers of 32 bits, or a dense sample of them.

use std::ops::RangeInclusive;

use crate::inputs::random::Random;
use crate::options::Options;
use crate::tally::Tally;

/// So many of the lowest and of the highest numbers are in the sample.
const DENSE: u32 = 1 << 20;
/// And every number this close to a power of two.
const NEAR: u32 = 1 << 12;
/// And this many spread over all.
const SPREAD: u32 = 1 << 23;

pub fn sweep(options: &Options, name: &str, each: impl FnMut(u32)) {
    if options.long {
        (0..=u32::MAX).for_each(each);
    } else {
        sample(options, name, each);
    }
}

/// The bit patterns of floats: in the sample also those close to every power of two.
pub fn float_sweep(options: &Options, name: &str, mut each: impl FnMut(u32)) {
    sweep(options, name, &mut each);
    if !options.long {
        for exponent in 0..512 {
            near(exponent << 23).for_each(&mut each);
        }
    }
}

pub fn sample(options: &Options, name: &str, mut each: impl FnMut(u32)) {
    (0..DENSE).for_each(&mut each);
    for power in DENSE.trailing_zeros()..u32::BITS {
        near(1 << power).for_each(&mut each);
    }
    (u32::MAX - (DENSE - 1)..=u32::MAX).for_each(&mut each);
    let mut value = Random::new(options.seed, name).word();
    for _ in 0..SPREAD {
        // The share of the golden ratio: no two steps fall close together.
        value = value.wrapping_add(0x9E37_79B9);
        each(value);
    }
}

pub fn near(value: u32) -> RangeInclusive<u32> {
    value.saturating_sub(NEAR)..=value.saturating_add(NEAR)
}

/// A call that answers a number for a number.
pub fn numbers(
    options: &Options,
    name: &'static str,
    what: &'static str,
    ours: impl Fn(u32) -> i64,
    due: impl Fn(u32) -> i64,
) -> Vec<Tally> {
    let mut tally = Tally::new(options, name, what);
    sweep(options, name, |v| tally.check(ours(v), due(v), || v));
    vec![tally]
}
