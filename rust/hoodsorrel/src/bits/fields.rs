//! Bit fields, high bit first, read at a cursor by value beside the slice.

use crate::answer::{low, size, told, words};
use crate::raw;
use crate::refusal::Refusal;

/// A place in a slice, counted in bits from the high bit of byte 0. It may lie past the end.
///
/// ```
/// use hoodsorrel::bits::BitCursor;
/// use hoodsorrel::Refusal;
///
/// let bytes = [0b1010_1111];
/// let (field, after) = BitCursor::new(0).read(&bytes, 3)?;
/// assert_eq!((field, after.bit), (0b101, 3));
/// assert_eq!(after.align_to_byte(), BitCursor { bit: 8 });
/// assert_eq!(after.align_to_byte().read(&bytes, 3), Err(Refusal::TooFewBytes));
/// assert_eq!(after.align_to_byte().read(&bytes, 33), Err(Refusal::FieldWidth));
/// # Ok::<(), Refusal>(())
/// ```
#[derive(Clone, Copy, Debug, Default, PartialEq, Eq, Hash, PartialOrd, Ord)]
pub struct BitCursor {
    /// How many bits are before it.
    pub bit: usize,
}

impl BitCursor {
    /// The place where a byte begins; the largest place where that is larger.
    pub fn new(byte: usize) -> BitCursor {
        BitCursor::from_word(told(|words| raw::bit_new(byte, words))[0])
    }

    /// The next field, and the place after it.
    ///
    /// Refused with 16 where the width is above 32, and then with 3 where fewer bits are left.
    pub fn read(self, s: &[u8], width: u32) -> Result<(u32, BitCursor), Refusal> {
        let [value, bit, ..] = words(|words| raw::read(s, self.bit, width, words))?;
        Ok((low(value), BitCursor::from_word(bit)))
    }

    /// The next two fields of one width, and the place after both.
    ///
    /// Refused with 16 where the width is above 32, and then with 3 where fewer bits are left than both have.
    ///
    /// ```
    /// use hoodsorrel::bits::BitCursor;
    ///
    /// let read = BitCursor { bit: 4 }.read_two(&[0x12, 0x34], 4);
    /// assert_eq!(read, Ok((2, 3, BitCursor { bit: 12 })));
    /// ```
    pub fn read_two(self, s: &[u8], width: u32) -> Result<(u32, u32, BitCursor), Refusal> {
        let [a, b, bit, ..] = words(|words| raw::read_two(s, self.bit, width, words))?;
        Ok((low(a), low(b), BitCursor::from_word(bit)))
    }

    /// The next place where a byte begins, or the same; the largest place where that is larger.
    pub fn align_to_byte(self) -> BitCursor {
        BitCursor::from_word(told(|words| raw::align(self.bit, words))[0])
    }

    fn from_word(word: u64) -> BitCursor {
        BitCursor { bit: size(word) }
    }
}
