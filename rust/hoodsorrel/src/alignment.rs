//! What the alignment bench asks of a mesh list.

use crate::answer::{size, word};
use crate::raw;
use crate::refusal::Refusal;

/// Looks up points of the submesh with a record number, from 0: puts the vertex number at each asked point into
/// `vertices`, in the order asked, and answers how many of the submesh's fields were walked for all of them together.
/// That is the largest asked number plus one, or 0 for no question; `asked.len()` numbers are stored, however many that
/// is. Points are counted within the submesh, and may be asked again. A vertex number is a place among the vertices of
/// the submesh's own mesh, whose body [`find_submesh`](crate::payload::find_submesh) tells, and not among all that a
/// drawing has.
///
/// Refused with 2, then 3, 6, 7, 8, 17 and 18 in payload order, then 24, then 12.
///
/// ```
/// use hoodsorrel::alignment::look_up;
/// use hoodsorrel::{Needed, Refusal};
///
/// // One coordinate; three vertices; one submesh with the points 2, 0, 1 and 1.
/// let payload = [
///     0, 0, 0, 0x22, b'm', b'e', b's', b'h', 0, 0, 0, 1, 0x3F, 0, 0, 0, 0, 0, 0, 3, 0x00, 0x00, 0, 0, 0, 1, 7, 0, 0,
///     0, 0, 4, 0x8D, 0x00,
/// ];
/// let mut vertices = [9; 4];
/// assert_eq!(look_up(&payload, 0, &[2, 0, 0], &mut vertices), Ok(3));
/// assert_eq!(vertices, [1, 2, 2, 9]);
/// assert_eq!(look_up(&payload, 0, &[0, 0, 0, 0], &mut vertices), Ok(1));
/// assert_eq!(vertices, [2, 2, 2, 2]);
/// assert_eq!(look_up(&payload, 0, &[], &mut []), Ok(0));
///
/// assert_eq!(look_up(&payload, 0, &[3, 1], &mut [9]), Err(Refusal::BufferTooShort(Needed::One(2))));
/// assert_eq!(look_up(&payload, 0, &[4], &mut []), Err(Refusal::Question));
/// assert_eq!(look_up(&payload, 1, &[], &mut []), Err(Refusal::Question));
/// ```
pub fn look_up(
    payload: &[u8],
    record: u32,
    asked: &[u32],
    vertices: &mut [u16],
) -> Result<usize, Refusal> {
    word(|words| raw::look_up(payload, record, asked, vertices, words)).map(size)
}
