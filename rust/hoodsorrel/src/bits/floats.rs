//! Floats: a u32 as the nearest f32, as a share of 2^32, and the bits of any f32.

use crate::answer::float_of;
use crate::raw;

/// The nearest f32, ties to even.
///
/// ```
/// assert_eq!(hoodsorrel::bits::nearest_f32(16_777_217), 16_777_216.0);
/// ```
pub fn nearest_f32(v: u32) -> f32 {
    float_of(raw::nearest(v))
}

/// A fixed-point number of 32 fraction bits as a float: the nearest f32, divided by 2^32.
///
/// ```
/// assert_eq!(hoodsorrel::bits::scale(0x4000_0000), 0.25);
/// ```
pub fn scale(v: u32) -> f32 {
    float_of(raw::scale(v))
}

/// The bit pattern of a float; of any NaN 0x7FC00000.
///
/// ```
/// use hoodsorrel::bits::float_bits;
///
/// assert_eq!(float_bits(1.0), 0x3F80_0000);
/// assert_eq!(float_bits(-f32::NAN), 0x7FC0_0000);
/// ```
pub fn float_bits(x: f32) -> u32 {
    raw::float_bits(x) as u32
}
