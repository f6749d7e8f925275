//! The cube map: the triangles and the vertices of six faces, each a grid of cells.

use crate::answer::{float_of, size, word, words};
use crate::payload::GridLengths;
use crate::raw;
use crate::refusal::Refusal;

/// How long the numbers ([`cubemap_indices`]) and the vertices' floats ([`cubemap_mesh`]) of a cube are.
///
/// Refused with 9, then 11.
///
/// ```
/// use hoodsorrel::payload::{cubemap_lengths, GridLengths};
/// use hoodsorrel::Refusal;
///
/// assert_eq!(cubemap_lengths(1, 1.0, 0.0), Ok(GridLengths { numbers: 36, floats: 120 }));
/// assert_eq!(cubemap_lengths(1, 1.0, 0.5), Err(Refusal::RadiusOrFaceWidth));
/// ```
pub fn cubemap_lengths(cells: u32, radius: f32, padding: f32) -> Result<GridLengths, Refusal> {
    words(|words| raw::cubemap_lengths(cells, radius, padding, words)).map(GridLengths::from_words)
}

/// The vertex numbers of a cube's triangles, and how many there are.
///
/// Refused with 9, then 12.
///
/// ```
/// use hoodsorrel::payload::cubemap_indices;
///
/// let mut numbers = [0; 36];
/// assert_eq!(cubemap_indices(1, &mut numbers), Ok(36));
/// assert_eq!(numbers[..6], [0, 3, 2, 0, 1, 3]);
/// ```
pub fn cubemap_indices(cells: u32, out: &mut [u16]) -> Result<usize, Refusal> {
    word(|words| raw::cubemap_indices(cells, out, words)).map(size)
}

/// The vertices of a cube, x, y, z, u and v of each, and how many vertices there are. `padding` is a share of a face's
/// width, as [`padding_share`] makes it of pixels.
///
/// Refused with 9, then 11, then 12.
///
/// ```
/// use hoodsorrel::payload::cubemap_mesh;
///
/// let mut floats = [0.0; 120];
/// assert_eq!(cubemap_mesh(1, 1.0, 0.0, &mut floats), Ok(24));
/// assert_eq!(floats[..5], [1.0, -1.0, -1.0, 0.0, 0.5]);
/// ```
pub fn cubemap_mesh(
    cells: u32,
    radius: f32,
    padding: f32,
    out: &mut [f32],
) -> Result<usize, Refusal> {
    word(|words| raw::cubemap_mesh(cells, radius, padding, raw::bits_of(out), words)).map(size)
}

/// The share of a face's width that its padding takes on each side, both in pixels.
///
/// ```
/// assert_eq!(hoodsorrel::payload::padding_share(64, 1024), 0.0625);
/// ```
pub fn padding_share(padding: u32, face_width: u32) -> f32 {
    float_of(raw::padding_share(padding, face_width))
}
