//! The five calls of the viewer's own library, libviewer.a, whose answers are one i64: the points of a mesh list, and
//! the four counts up to 2^63.
//!
//! ```
//! use hoodsorrel::viewer::{index_count, measure_meshes, vertex_count};
//! use hoodsorrel::Refusal;
//!
//! assert_eq!(measure_meshes(&[]), Ok(0));
//! assert_eq!(vertex_count(18, 36), Ok(19 * 37));
//! assert_eq!(index_count(18, 36), Ok(6 * 18 * 36));
//! assert_eq!(vertex_count(u32::MAX, u32::MAX), Err(Refusal::CountTooLarge));
//! ```

use crate::raw;
use crate::refusal::{Needed, Refusal};

/// How many points the mesh list of a kind 2 payload draws.
///
/// Refused with 2, then 3, 6, 7, 8, 17 and 18 in payload order.
///
/// ```
/// use hoodsorrel::viewer::measure_meshes;
/// use hoodsorrel::Refusal;
///
/// // Two coordinates, three vertices, one submesh of three points.
/// let payload = [
///     0, 0, 0, 0x28, b'm', b'e', b's', b'h', 0, 0, 0, 2, 0, 0, 0, 0, 0x3F, 0x80, 0, 0, 0, 0, 0, 3, 0x00, 0x20, 0x86,
///     0x18, 0, 0, 0, 1, 0, 0, 0, 0, 0, 3, 0x09, 0x00,
/// ];
/// assert_eq!(measure_meshes(&payload), Ok(3));
/// assert_eq!(measure_meshes(&payload[..39]), Err(Refusal::BoxSize));
///
/// // One such mesh for each eye, and one too many.
/// assert_eq!(measure_meshes(&payload.repeat(2)), Ok(6));
/// assert_eq!(measure_meshes(&payload.repeat(3)), Err(Refusal::ThirdMesh));
/// ```
pub fn measure_meshes(payload: &[u8]) -> Result<u64, Refusal> {
    answer(raw::viewer_measure_meshes(payload))
}

/// (rings + 1) × (sectors + 1), the vertices of a sphere's grid.
///
/// Refused with 14 from 2^63 on.
pub fn vertex_count(rings: u32, sectors: u32) -> Result<u64, Refusal> {
    answer(raw::viewer_vertex_count(rings, sectors))
}

/// The indices of a sphere's grid: 6 × rings × sectors, and none for fewer than 2 rings.
///
/// Refused with 14 from 2^63 on.
pub fn index_count(rings: u32, sectors: u32) -> Result<u64, Refusal> {
    answer(raw::viewer_index_count(rings, sectors))
}

/// 6 × (cells + 1)², the vertices of a cube map.
///
/// Refused with 14 from 2^63 on.
pub fn cubemap_vertex_count(cells: u32) -> Result<u64, Refusal> {
    answer(raw::viewer_cubemap_vertex_count(cells))
}

/// 36 × cells², the indices of a cube map.
///
/// Refused with 14 from 2^63 on.
pub fn cubemap_index_count(cells: u32) -> Result<u64, Refusal> {
    answer(raw::viewer_cubemap_index_count(cells))
}

/// A count, or below 0 the number of a refusal.
fn answer(number: i64) -> Result<u64, Refusal> {
    u64::try_from(number).map_err(|_| Refusal::of_code(number, Needed::One(0)))
}
