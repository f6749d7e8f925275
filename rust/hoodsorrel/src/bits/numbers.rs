//! What fields mean: zigzag coding, running numbers, and how wide a field is.

use crate::answer::told;
use crate::raw;
use crate::refusal::{Needed, Refusal};

/// The signed number that zigzag coding folded into a field.
///
/// ```
/// assert_eq!([0, 1, 2, 3].map(hoodsorrel::bits::zigzag), [0, -1, 1, -2]);
/// ```
pub fn zigzag(n: u32) -> i32 {
    raw::zigzag(n) as i32
}

/// Where a field takes a running number. Below 0 it wraps around far above every limit.
///
/// ```
/// use hoodsorrel::bits::stepped;
///
/// assert_eq!(stepped(5, 4), 7);
/// assert_eq!(stepped(0, 1), u64::MAX);
/// ```
pub fn stepped(last: u32, field: u32) -> u64 {
    told(|words| raw::stepped(last, field, words))[0]
}

/// The running number after a field.
///
/// Refused with 8 where it is below 0, or not below its limit.
///
/// ```
/// use hoodsorrel::bits::run_on;
/// use hoodsorrel::Refusal;
///
/// assert_eq!(run_on(5, 4, 8), Ok(7));
/// assert_eq!(run_on(5, 4, 7), Err(Refusal::RunningNumber));
/// ```
pub fn run_on(last: u32, field: u32, limit: u32) -> Result<u32, Refusal> {
    let number = raw::run_on(last, field, limit);
    u32::try_from(number).map_err(|_| Refusal::of_code(number, Needed::One(0)))
}

/// How many bits index a pool of `count`, with room for a signed step: the least w with 2^w at least twice `count`.
///
/// ```
/// assert_eq!([1, 2, 4, 5, 10_000, 32_000].map(hoodsorrel::bits::bit_width), [1, 2, 3, 4, 15, 16]);
/// ```
pub fn bit_width(count: u32) -> u32 {
    raw::bit_width(count) as u32
}
