//! Whole bytes, read at a cursor by value beside the slice.

use crate::answer::{low, size, told, word, words};
use crate::raw;
use crate::refusal::Refusal;

/// A place in a slice, counted in bytes. It may lie past the end.
///
/// ```
/// use hoodsorrel::bits::ByteCursor;
/// use hoodsorrel::Refusal;
///
/// let bytes = [7, 0, 0, 1, 2];
/// let (byte, after) = ByteCursor::new().u8(&bytes)?;
/// let (number, end) = after.u32(&bytes)?;
/// assert_eq!((byte, number), (7, 0x0000_0102));
/// assert_eq!(end.remaining(&bytes), 0);
/// assert_eq!(end.u8(&bytes), Err(Refusal::TooFewBytes));
/// # Ok::<(), Refusal>(())
/// ```
#[derive(Clone, Copy, Debug, Default, PartialEq, Eq, Hash, PartialOrd, Ord)]
pub struct ByteCursor {
    /// How many bytes are before it.
    pub at: usize,
}

/// Four bytes as a number, big end first.
///
/// ```
/// assert_eq!(hoodsorrel::bits::word_of(1, 2, 3, 4), 0x0102_0304);
/// ```
pub fn word_of(a: u8, b: u8, c: u8, d: u8) -> u32 {
    raw::word_of(a, b, c, d) as u32
}

impl ByteCursor {
    /// The first byte.
    pub fn new() -> ByteCursor {
        ByteCursor::from_word(told(raw::byte_new)[0])
    }

    /// How many bytes are before it.
    pub fn position(self) -> usize {
        size(told(|words| raw::position(self.at, words))[0])
    }

    /// How many bytes are left: none from a place past the end.
    pub fn remaining(self, s: &[u8]) -> usize {
        size(told(|words| raw::remaining(s, self.at, words))[0])
    }

    /// Another place in the slice or at its end.
    ///
    /// Refused with 3 past the end.
    ///
    /// ```
    /// use hoodsorrel::bits::ByteCursor;
    /// use hoodsorrel::Refusal;
    ///
    /// let cursor = ByteCursor::new();
    /// assert_eq!(cursor.seek(&[1, 2], 2), Ok(ByteCursor { at: 2 }));
    /// assert_eq!(cursor.seek(&[1, 2], 3), Err(Refusal::TooFewBytes));
    /// ```
    pub fn seek(self, s: &[u8], to: usize) -> Result<ByteCursor, Refusal> {
        word(|words| raw::seek(s, self.at, to, words)).map(ByteCursor::from_word)
    }

    /// The place `n` bytes on.
    ///
    /// Refused with 3 past the end.
    pub fn skip(self, s: &[u8], n: usize) -> Result<ByteCursor, Refusal> {
        word(|words| raw::skip(s, self.at, n, words)).map(ByteCursor::from_word)
    }

    /// The next byte, and the place after it.
    ///
    /// Refused with 3 at the end.
    pub fn u8(self, s: &[u8]) -> Result<(u8, ByteCursor), Refusal> {
        let [value, at, ..] = words(|words| raw::u8(s, self.at, words))?;
        Ok((value as u8, ByteCursor::from_word(at)))
    }

    /// The next four bytes, big end first, and the place after them.
    ///
    /// Refused with 3 where fewer are left.
    pub fn u32(self, s: &[u8]) -> Result<(u32, ByteCursor), Refusal> {
        let [value, at, ..] = words(|words| raw::u32(s, self.at, words))?;
        Ok((low(value), ByteCursor::from_word(at)))
    }

    fn from_word(word: u64) -> ByteCursor {
        ByteCursor { at: size(word) }
    }
}
