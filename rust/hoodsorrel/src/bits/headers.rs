//! Box headers.

use crate::answer::{Answer, asked, low, size};
use crate::bits::ByteCursor;
use crate::raw;
use crate::refusal::{Needed, Refusal};

/// A box: its type, and where its body begins and ends. The next box begins where the body ends.
#[derive(Clone, Copy, Debug, PartialEq, Eq, Hash)]
pub struct BoxHeader {
    /// The type, four letters as a number.
    pub fourcc: u32,
    /// Where the body begins: 8 bytes behind the box's start, or 16 where its size is a long one.
    pub body: usize,
    /// Where it ends.
    pub end: usize,
}

/// The header at a place of a list of boxes, or none where the list ends: with fewer than 8 bytes left. A size of 1
/// stands for a long size: 8 bytes behind the type, which count all 16 bytes of the header.
///
/// Refused with 6 for any other size below 8, a long one below 16, or one past the end, and with 3 where a long size is
/// not complete.
///
/// ```
/// use hoodsorrel::bits::{box_header, ByteCursor};
/// use hoodsorrel::Refusal;
///
/// // All boxes of a list: a 'free' box of two bytes, an empty 'mesh' box, and three free bytes.
/// let list = b"\0\0\0\x0Afree..\0\0\0\x08mesh...";
/// let mut here = ByteCursor::new();
/// let mut types = Vec::new();
/// while let Some(found) = box_header(list, here)? {
///     types.push((found.fourcc.to_be_bytes(), found.end - found.body));
///     here = ByteCursor { at: found.end };
/// }
/// assert_eq!(types, [(*b"free", 2), (*b"mesh", 0)]);
///
/// assert_eq!(box_header(b"\0\0\0\x07mesh", ByteCursor::new()), Err(Refusal::BoxSize));
///
/// // The same 'free' box with a long size, cut in it, and with one that leaves no room for the header.
/// let long = b"\0\0\0\x01free\0\0\0\0\0\0\0\x12..";
/// let found = box_header(long, ByteCursor::new())?.expect("a box");
/// assert_eq!((found.fourcc.to_be_bytes(), found.body, found.end), (*b"free", 16, 18));
/// assert_eq!(box_header(&long[..15], ByteCursor::new()), Err(Refusal::TooFewBytes));
/// let small = b"\0\0\0\x01free\0\0\0\0\0\0\0\x0F..";
/// assert_eq!(box_header(small, ByteCursor::new()), Err(Refusal::BoxSize));
/// # Ok::<(), Refusal>(())
/// ```
pub fn box_header(s: &[u8], c: ByteCursor) -> Result<Option<BoxHeader>, Refusal> {
    let Answer { count, words } = asked(|_| Needed::One(0), |words| raw::header(s, c.at, words))?;
    let [fourcc, body, end, ..] = words;
    Ok((count > 0).then(|| BoxHeader {
        fourcc: low(fourcc),
        body: size(body),
        end: size(end),
    }))
}
