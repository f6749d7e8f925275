//! A word, and a field, put into a lent buffer.

use crate::answer::words;
use crate::raw;
use crate::refusal::Refusal;

/// Puts a word at a byte, big end first.
///
/// Refused with 12 where it does not fit, and then nothing is put.
///
/// ```
/// use hoodsorrel::bits::put_word;
/// use hoodsorrel::{Needed, Refusal};
///
/// let mut out = [9; 5];
/// assert_eq!(put_word(&mut out, 1, 0x0102_0304), Ok(()));
/// assert_eq!(out, [9, 1, 2, 3, 4]);
/// assert_eq!(put_word(&mut out, 2, 0), Err(Refusal::BufferTooShort(Needed::One(6))));
/// assert_eq!(out, [9, 1, 2, 3, 4]);
/// ```
pub fn put_word(out: &mut [u8], at: usize, x: u32) -> Result<(), Refusal> {
    words(|words| raw::put_word(out, at, x, words)).map(drop)
}

/// Puts the low bits of a value at a bit. The bits before it stay, those after it in its last byte become 0.
///
/// Refused with 16 where the width is above 32, and then with 12 where it does not fit; then nothing is put.
///
/// ```
/// use hoodsorrel::bits::put_field;
/// use hoodsorrel::Refusal;
///
/// let mut out = [0xFF, 0xFF];
/// assert_eq!(put_field(&mut out, 6, 5, 0b10101), Ok(()));
/// assert_eq!(out, [0b1111_1110, 0b1010_0000]);
/// assert_eq!(put_field(&mut out, 99, 33, 0), Err(Refusal::FieldWidth));
/// ```
pub fn put_field(out: &mut [u8], bit: usize, width: u32, value: u32) -> Result<(), Refusal> {
    words(|words| raw::put_field(out, bit, width, value, words)).map(drop)
}
