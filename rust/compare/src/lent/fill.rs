//! What a call that fills the front of a lent buffer has to answer and to leave behind.

use std::fmt::{self, Debug, LowerHex};

use crate::lent::answer::{Answer, Reply};
use crate::tally::Tally;

/// So many items behind the lent ones have to stay as they were.
const BEYOND: usize = 3;

/// An item of a lent buffer. Those of 32 bits are the bits of floats, but for `check_exactly`.
pub trait Item: Copy + PartialEq + LowerHex {
    /// What stands at a place before a call.
    fn before(place: usize) -> Self;

    /// Of two NaN the sign and the payload are not compared.
    fn same(self, due: Self) -> bool;
}

impl Item for u8 {
    fn before(place: usize) -> u8 {
        (place as u8).wrapping_mul(0x37) ^ 0xC3
    }

    fn same(self, due: u8) -> bool {
        self == due
    }
}

impl Item for u16 {
    fn before(place: usize) -> u16 {
        (place as u16).wrapping_mul(0x9E37) ^ 0xA5C3
    }

    fn same(self, due: u16) -> bool {
        self == due
    }
}

impl Item for u32 {
    /// No NaN.
    fn before(place: usize) -> u32 {
        (place as u32).wrapping_mul(0x9E37_79B9) & 0xBFFF_FFFF ^ 0xA5C3_0F1E
    }

    fn same(self, due: u32) -> bool {
        self == due || f32::from_bits(self).is_nan() && f32::from_bits(due).is_nan()
    }
}

/// A buffer before a call.
pub fn before<T: Item>(n: usize) -> Vec<T> {
    (0..n).map(T::before).collect()
}

/// Lengths to lend where one is needed: none, one item less, exactly that length, and more.
pub fn lengths(needed: usize) -> Vec<usize> {
    let mut lengths = vec![0, needed.saturating_sub(1), needed, needed + 37];
    lengths.dedup();
    lengths
}

/// The first item that is not as due.
#[derive(PartialEq)]
struct Wrong<T> {
    place: usize,
    ours: T,
    due: T,
}

#[derive(PartialEq)]
struct Outcome<T> {
    reply: Reply,
    wrong: Option<Wrong<T>>,
}

impl<T: Item> fmt::Display for Outcome<T> {
    fn fmt(&self, f: &mut fmt::Formatter) -> fmt::Result {
        write!(f, "{}", self.reply)?;
        if let Some(Wrong { place, ours, due }) = &self.wrong {
            write!(f, ", item {place} is {ours:x} for {due:x}")?;
        }
        Ok(())
    }
}

/// Makes one call on a buffer that is to become `after`, and counts it as an input.
pub fn check<T: Item, I: Debug>(
    tally: &mut Tally,
    due: &Answer,
    after: &[T],
    call: impl FnOnce(&mut [T], &mut [u64]) -> i64,
    input: impl FnOnce() -> I,
) {
    check_by(T::same, tally, due, after, call, input);
}

/// The same where items of 32 bits are numbers.
pub fn check_exactly<T: Item, I: Debug>(
    tally: &mut Tally,
    due: &Answer,
    after: &[T],
    call: impl FnOnce(&mut [T], &mut [u64]) -> i64,
    input: impl FnOnce() -> I,
) {
    check_by(|ours, due| ours == due, tally, due, after, call, input);
}

fn check_by<T: Item, I: Debug>(
    same: fn(T, T) -> bool,
    tally: &mut Tally,
    due: &Answer,
    after: &[T],
    call: impl FnOnce(&mut [T], &mut [u64]) -> i64,
    input: impl FnOnce() -> I,
) {
    let lent = after.len();
    let mut out = before(lent + BEYOND);
    let (ours, reply) = tally.ask(due, |words| call(&mut out[..lent], words));
    let ours = Outcome {
        reply: ours,
        wrong: first_wrong(same, &out, after),
    };
    let due = Outcome { reply, wrong: None };
    tally.check(ours, due, input);
}

fn first_wrong<T: Item>(same: fn(T, T) -> bool, out: &[T], after: &[T]) -> Option<Wrong<T>> {
    let equal = if out.starts_with(after) {
        after.len()
    } else {
        0
    };
    let due = |place: usize| after.get(place).copied().unwrap_or(T::before(place));
    let place = (equal..out.len()).find(|&place| !same(out[place], due(place)))?;
    Some(Wrong {
        place,
        ours: out[place],
        due: due(place),
    })
}
