//! How many vertices and indices a grid asks for. The same counts up to 2^63 are in [`viewer`](crate::viewer).

use crate::answer::word;
use crate::raw;
use crate::refusal::Refusal;

/// The vertices of a sphere's grid: (rings + 1) × (sectors + 1).
///
/// Refused with 14 from 2^64 on.
///
/// ```
/// use hoodsorrel::payload::vertex_count;
/// use hoodsorrel::Refusal;
///
/// assert_eq!(vertex_count(18, 36), Ok(19 * 37));
/// assert_eq!(vertex_count(u32::MAX, u32::MAX - 1), Ok(u64::MAX - u64::from(u32::MAX)));
/// assert_eq!(vertex_count(u32::MAX, u32::MAX), Err(Refusal::CountTooLarge));
/// ```
pub fn vertex_count(rings: u32, sectors: u32) -> Result<u64, Refusal> {
    word(|words| raw::vertex_count(rings, sectors, words))
}

/// Room for the indices of a sphere: 6 × rings × sectors, and none for fewer than 2 rings. At the poles some triangles
/// are left out.
///
/// Refused with 14 from 2^64 on.
///
/// ```
/// assert_eq!(hoodsorrel::payload::index_count(18, 36), Ok(6 * 18 * 36));
/// ```
pub fn index_count(rings: u32, sectors: u32) -> Result<u64, Refusal> {
    word(|words| raw::index_count(rings, sectors, words))
}

/// The vertices of a cube's six faces, which share none: 6 × (cells + 1)².
///
/// Refused with 14 from 2^64 on.
///
/// ```
/// assert_eq!(hoodsorrel::payload::cubemap_vertex_count(4), Ok(150));
/// ```
pub fn cubemap_vertex_count(cells: u32) -> Result<u64, Refusal> {
    word(|words| raw::cubemap_vertex_count(cells, words))
}

/// The indices of a cube: 36 × cells².
///
/// Refused with 14 from 2^64 on.
///
/// ```
/// assert_eq!(hoodsorrel::payload::cubemap_index_count(4), Ok(576));
/// ```
pub fn cubemap_index_count(cells: u32) -> Result<u64, Refusal> {
    word(|words| raw::cubemap_index_count(cells, words))
}
