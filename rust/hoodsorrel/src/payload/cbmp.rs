//! Kind 1: the cbmp payload, the padding of a cube map's faces.

use crate::answer::{low, size, word};
use crate::raw;
use crate::refusal::Refusal;

/// Reads a cbmp payload: its padding in pixels.
///
/// Refused with 2, then 3, 4 and 5 in field order.
///
/// ```
/// use hoodsorrel::payload::parse_cbmp;
/// use hoodsorrel::Refusal;
///
/// let payload = [0, 0, 0, 0, 0, 0, 0, 0, 0, 0, 0, 64];
/// assert_eq!(parse_cbmp(&payload), Ok(64));
/// assert_eq!(parse_cbmp(&payload[..11]), Err(Refusal::TooFewBytes));
/// ```
pub fn parse_cbmp(payload: &[u8]) -> Result<u32, Refusal> {
    word(|words| raw::parse_cbmp(payload, words)).map(low)
}

/// Writes a cbmp payload of 12 bytes at the front of a buffer, and answers their number.
///
/// Refused with 5, then 12.
///
/// ```
/// use hoodsorrel::payload::{parse_cbmp, write_cbmp};
///
/// let mut out = [0xFF; 12];
/// assert_eq!(write_cbmp(4096, &mut out), Ok(12));
/// assert_eq!(parse_cbmp(&out), Ok(4096));
/// ```
pub fn write_cbmp(padding: u32, out: &mut [u8]) -> Result<usize, Refusal> {
    word(|words| raw::write_cbmp(padding, out, words)).map(size)
}
