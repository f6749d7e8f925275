//! Runs: fields of one width, one after the other, each of which takes a running number to the next.

use crate::raw;
use crate::refusal::{Needed, Refusal};

/// A run of fields. Each is as wide as [`bit_width`](crate::bits::bit_width) of the limit.
#[derive(Clone, Copy, Debug, Default, PartialEq, Eq, Hash)]
pub struct Run {
    /// Where the first field stands, counted in bits.
    pub bit: usize,
    /// What the running numbers stay below.
    pub limit: u16,
    /// How many fields there are, or how many fives of fields.
    pub count: u32,
}

/// Judges a run of one running number, which starts at 0.
///
/// Refused with 2, then 3 and 8 in field order.
///
/// ```
/// use hoodsorrel::bits::{check_run, Run};
/// use hoodsorrel::Refusal;
///
/// // Three bits each: up by 1, up by 1, down by 2.
/// let bytes = [0b0100_1001, 0b1000_0000];
/// let run = Run { bit: 0, limit: 3, count: 3 };
/// assert_eq!(check_run(&bytes, run), Ok(()));
/// assert_eq!(check_run(&bytes, Run { limit: 2, ..run }), Err(Refusal::RunningNumber));
/// assert_eq!(check_run(&bytes[..1], run), Err(Refusal::TooFewBytes));
/// ```
pub fn check_run(s: &[u8], run: Run) -> Result<(), Refusal> {
    judged(raw::check_run(s, run.bit, run.limit, run.count))
}

/// Judges a run of five running numbers, which take turns and start at 0. It has `count` fives of fields.
///
/// Refused with 2, then 3 and 8 in field order.
///
/// ```
/// use hoodsorrel::bits::{check_fives, Run};
/// use hoodsorrel::Refusal;
///
/// let run = Run { bit: 0, limit: 1, count: 3 };
/// assert_eq!(check_fives(&[0, 0], run), Ok(()));
/// assert_eq!(check_fives(&[0, 1], run), Ok(()));
/// assert_eq!(check_fives(&[0, 2], run), Err(Refusal::RunningNumber));
/// ```
pub fn check_fives(s: &[u8], run: Run) -> Result<(), Refusal> {
    judged(raw::check_fives(s, run.bit, run.limit, run.count))
}

/// Fills a buffer with the numbers of a run that was judged before, from any running number on, each modulo 2^16, and
/// answers whether the run is there: as many fields as the buffer has places, 1 to 16 bits wide, behind the first four
/// bytes of at most 67,108,864. Where it is not the buffer stays as it was.
///
/// ```
/// use hoodsorrel::bits::fill_run;
///
/// // Behind five bytes, fields of four bits: up by 1, up by 2, down by 3.
/// let bytes = [0, 0, 0, 0, 0, 0x24, 0x50];
/// let mut numbers = [0; 3];
/// assert!(fill_run(&bytes, 40, 4, 10, &mut numbers));
/// assert_eq!(numbers, [11, 13, 10]);
/// assert!(!fill_run(&bytes, 32, 4, 10, &mut numbers));
/// assert_eq!(numbers, [11, 13, 10]);
/// ```
pub fn fill_run(s: &[u8], bit: usize, width: u32, from: u16, out: &mut [u16]) -> bool {
    raw::fill_run(s, bit, width, from, out) == 1
}

/// The same for five running numbers, which take turns and start at 0. The buffer has whole fives.
///
/// ```
/// use hoodsorrel::bits::fill_fives;
///
/// let bytes = [0, 0, 0, 0, 0, 0x24, 0x68, 0x22, 0x22, 0x22];
/// let mut numbers = [0; 10];
/// assert!(fill_fives(&bytes, 40, 4, &mut numbers));
/// assert_eq!(numbers, [1, 2, 3, 4, 1, 2, 3, 4, 5, 2]);
/// assert!(!fill_fives(&bytes, 40, 4, &mut numbers[..9]));
/// ```
pub fn fill_fives(s: &[u8], bit: usize, width: u32, out: &mut [u16]) -> bool {
    raw::fill_fives(s, bit, width, out) == 1
}

/// 0 for a good run, or below 0 the number of a refusal.
fn judged(code: i64) -> Result<(), Refusal> {
    if code < 0 {
        return Err(Refusal::of_code(code, Needed::One(0)));
    }
    Ok(())
}
