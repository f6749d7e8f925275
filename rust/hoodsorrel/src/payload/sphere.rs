//! The sphere's grid of rings and sectors: its triangles, as vertex numbers, and its texture coordinates.

use crate::answer::{Words, size, word, words};
use crate::payload::Bounds;
use crate::raw;
use crate::refusal::Refusal;

/// How long the two lists of a grid are.
#[derive(Clone, Copy, Debug, Default, PartialEq, Eq, Hash)]
pub struct GridLengths {
    /// The numbers of its triangles.
    pub numbers: usize,
    /// The floats of its vertices.
    pub floats: usize,
}

impl GridLengths {
    pub(crate) fn from_words([numbers, floats, ..]: Words) -> GridLengths {
        GridLengths {
            numbers: size(numbers),
            floats: size(floats),
        }
    }
}

/// How long the numbers ([`sphere_indices_bounded`]) and the texture coordinates ([`sphere_uvs`]) of the patch are
/// that a crop covers.
///
/// Refused with 9, then 10.
///
/// ```
/// use hoodsorrel::payload::{sphere_lengths, Bounds, GridLengths};
/// use hoodsorrel::Refusal;
///
/// assert_eq!(sphere_lengths(2, 3, Bounds::FULL), Ok(GridLengths { numbers: 18, floats: 24 }));
/// assert_eq!(sphere_lengths(1, 3, Bounds::FULL), Err(Refusal::Grid));
/// ```
pub fn sphere_lengths(rings: u32, sectors: u32, bounds: Bounds) -> Result<GridLengths, Refusal> {
    words(|words| raw::sphere_lengths(rings, sectors, bounds.sides(), words))
        .map(GridLengths::from_words)
}

/// The vertex numbers of the whole sphere's triangles, row by row, and how many there are.
///
/// Refused with 9, then 12.
///
/// ```
/// use hoodsorrel::payload::sphere_indices;
///
/// let mut numbers = [0; 18];
/// assert_eq!(sphere_indices(2, 3, &mut numbers), Ok(18));
/// assert_eq!(numbers, [0, 4, 5, 1, 5, 6, 2, 6, 7, 4, 9, 5, 5, 10, 6, 6, 11, 7]);
/// ```
pub fn sphere_indices(rings: u32, sectors: u32, out: &mut [u16]) -> Result<usize, Refusal> {
    word(|words| raw::sphere_indices(rings, sectors, out, words)).map(size)
}

/// The same for the patch that a crop covers. Only an edge that is not cropped reaches a pole.
///
/// Refused with 9, then 10, then 12.
///
/// ```
/// use hoodsorrel::payload::{sphere_indices_bounded, Bounds};
/// use hoodsorrel::Refusal;
///
/// let crop = Bounds { top: 0.25, bottom: 0.25, ..Bounds::FULL };
/// let mut numbers = [0; 36];
/// assert_eq!(sphere_indices_bounded(2, 3, crop, &mut numbers), Ok(36));
///
/// let none = Bounds { top: 1.0, ..Bounds::FULL };
/// assert_eq!(sphere_indices_bounded(2, 3, none, &mut numbers), Err(Refusal::Crop));
/// ```
pub fn sphere_indices_bounded(
    rings: u32,
    sectors: u32,
    bounds: Bounds,
    out: &mut [u16],
) -> Result<usize, Refusal> {
    word(|words| raw::sphere_indices_bounded(rings, sectors, bounds.sides(), out, words)).map(size)
}

/// u and v of each vertex, row by row, and how many vertices there are. v runs upward: the first row has v = 1.
///
/// Refused with 9, then 12.
///
/// ```
/// use hoodsorrel::payload::sphere_uvs;
///
/// let mut uvs = [0.0; 24];
/// assert_eq!(sphere_uvs(2, 3, &mut uvs), Ok(12));
/// assert_eq!(uvs[8..12], [0.0, 0.5, 1.0 / 3.0, 0.5]);
/// ```
pub fn sphere_uvs(rings: u32, sectors: u32, out: &mut [f32]) -> Result<usize, Refusal> {
    word(|words| raw::sphere_uvs(rings, sectors, raw::bits_of(out), words)).map(size)
}
