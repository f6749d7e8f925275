//! A mesh body as four tables.

use crate::answer::{Words, asked, size, word, words};
use crate::raw;
use crate::refusal::{Needed, Refusal};

/// The lengths of a mesh's four tables.
#[derive(Clone, Copy, Debug, Default, PartialEq, Eq, Hash)]
pub struct TableLengths {
    /// Pool words.
    pub pool: usize,
    /// Coordinate numbers, five for each vertex.
    pub coordinates: usize,
    /// Words of submeshes, three for each.
    pub submeshes: usize,
    /// Vertex numbers, one for each point.
    pub points: usize,
}

impl TableLengths {
    fn from_words([pool, coordinates, submeshes, points, ..]: Words) -> TableLengths {
        TableLengths {
            pool: size(pool),
            coordinates: size(coordinates),
            submeshes: size(submeshes),
            points: size(points),
        }
    }
}

/// Measures a mesh body: the lengths of its tables.
///
/// Refused with 2, then 3, 7, 8 and 17 in field order.
///
/// ```
/// use hoodsorrel::payload::{measure_mesh, TableLengths};
/// use hoodsorrel::Refusal;
///
/// // One coordinate, one vertex, one submesh of two points.
/// let body = [0, 0, 0, 1, 0x3F, 0, 0, 0, 0, 0, 0, 1, 0, 0, 0, 0, 1, 7, 4, 0, 0, 0, 2, 0];
/// assert_eq!(
///     measure_mesh(&body),
///     Ok(TableLengths { pool: 1, coordinates: 5, submeshes: 3, points: 2 })
/// );
/// assert_eq!(measure_mesh(&body[..23]), Err(Refusal::TooFewBytes));
/// // The coordinate an infinity.
/// let body = [&body[..4], &f32::INFINITY.to_bits().to_be_bytes(), &body[8..]].concat();
/// assert_eq!(measure_mesh(&body), Err(Refusal::NotFinite));
/// ```
pub fn measure_mesh(body: &[u8]) -> Result<TableLengths, Refusal> {
    words(|words| raw::measure_mesh(body, words)).map(TableLengths::from_words)
}

/// Reads a mesh body into four lent tables, and answers their used lengths: the pool's words, five coordinate numbers
/// for each vertex, texture, mode and point count of each submesh, and a vertex number for each point.
///
/// Refused with 2, then 3, 7, 8 and 17 in field order, then 12. Unless it is accepted the tables stay as they were.
///
/// ```
/// use hoodsorrel::payload::{parse_mesh, TableLengths};
///
/// // The body of the example in document 01.
/// let body = [
///     0, 0, 0, 2, 0, 0, 0, 0, 0x3F, 0x80, 0, 0, 0, 0, 0, 3, 0x00, 0x20, 0x86, 0x18, 0, 0, 0, 1, 0, 0, 0, 0, 0, 3,
///     0x09, 0x00,
/// ];
/// let (mut pool, mut coordinates, mut submeshes, mut points) = ([0; 2], [0; 15], [0; 3], [0; 3]);
/// assert_eq!(
///     parse_mesh(&body, &mut pool, &mut coordinates, &mut submeshes, &mut points),
///     Ok(TableLengths { pool: 2, coordinates: 15, submeshes: 3, points: 3 })
/// );
/// assert_eq!(pool.map(f32::from_bits), [0.0, 1.0]);
/// assert_eq!(coordinates, [0, 0, 0, 0, 0, 1, 0, 0, 1, 0, 0, 1, 0, 0, 1]);
/// assert_eq!((submeshes, points), ([0, 0, 3], [0, 1, 2]));
/// ```
pub fn parse_mesh(
    body: &[u8],
    pool: &mut [u32],
    coordinates: &mut [u16],
    submeshes: &mut [u32],
    points: &mut [u16],
) -> Result<TableLengths, Refusal> {
    asked(
        |words| Needed::Tables(TableLengths::from_words(words)),
        |words| raw::parse_mesh(body, pool, coordinates, submeshes, points, words),
    )
    .map(|answer| TableLengths::from_words(answer.words))
}

/// Writes the box of a mesh, given by the tables that [`parse_mesh`] fills, at the front of a buffer, and answers its
/// size, which is written as a short one.
///
/// Refused with 13, then 17, then 12.
///
/// ```
/// use hoodsorrel::payload::write_mesh;
/// use hoodsorrel::{Needed, Refusal};
///
/// let mut out = [0; 37];
/// assert_eq!(write_mesh(&[0], &[0; 5], &[0, 0, 1], &[0], &mut out), Ok(32));
/// assert_eq!(out[..8], *b"\0\0\0\x20mesh");
/// assert_eq!(
///     write_mesh(&[0], &[0; 5], &[0, 0, 1], &[0], &mut out[..31]),
///     Err(Refusal::BufferTooShort(Needed::One(32)))
/// );
/// // The second point names a vertex that is not there.
/// assert_eq!(write_mesh(&[0], &[0; 5], &[0, 0, 2], &[0, 1], &mut out), Err(Refusal::NotAMesh));
/// // The coordinate is a NaN, which is told before the buffer is found too short.
/// let pool = [f32::NAN.to_bits()];
/// assert_eq!(write_mesh(&pool, &[0; 5], &[0, 0, 1], &[0], &mut []), Err(Refusal::NotFinite));
/// ```
pub fn write_mesh(
    pool: &[u32],
    coordinates: &[u16],
    submeshes: &[u32],
    points: &[u16],
    out: &mut [u8],
) -> Result<usize, Refusal> {
    word(|words| raw::write_mesh(pool, coordinates, submeshes, points, out, words)).map(size)
}
