//! What a display makes of the records of a drawing, and how it shares a frame's points out.
//!
//! Any words may be handed in as records: each call judges what it is handed before it changes anything, so a refusal
//! leaves all as it was.

mod shown;

pub use shown::Shown;

use crate::answer::{size, word};
use crate::refusal::{Needed, Refusal};
use crate::scene::Drawing;
use crate::{memory, raw};

/// Puts the triangles of records into a buffer, submesh after submesh, and answers how many numbers there are: three
/// point numbers for each triangle. Mode 0 takes points in threes and drops one or two that are left over; mode 1 is a
/// strip, in which every other triangle has its first two points exchanged, so that all turn the same way; mode 2 is a
/// fan. A record's eye and texture are not looked at.
///
/// Refused with 15, then 12.
///
/// ```
/// use hoodsorrel::display::triangles;
/// use hoodsorrel::{Needed, Refusal};
///
/// // For both eyes and with texture 7: a strip of four points, and a fan of four after it.
/// let records = [0, 7, 1, 0, 4, 0, 7, 2, 4, 4];
/// let mut numbers = [0; 12];
/// assert_eq!(triangles(&records, &mut numbers), Ok(12));
/// assert_eq!(numbers, [0, 1, 2, 2, 1, 3, 4, 5, 6, 4, 6, 7]);
///
/// assert_eq!(triangles(&records, &mut []), Err(Refusal::BufferTooShort(Needed::One(12))));
/// assert_eq!(triangles(&records[..9], &mut numbers), Err(Refusal::Records));
/// ```
pub fn triangles(records: &[u32], out: &mut [u32]) -> Result<usize, Refusal> {
    word(|words| raw::triangles(records, out, words)).map(size)
}

/// Shares a frame's points out among windows, puts the share of each into a buffer and answers how many windows there
/// are. A window for each wish, in the order of the turns: one point a turn goes to each window whose wish is unmet,
/// until points or wishes end. It is not worked out turn by turn: the time goes by how many different wishes are met,
/// at most eight, and not by the points.
///
/// Every window gets at least the smaller of its wish and the points divided by the windows, rounded down, and never
/// more than its wish; all shares add up to the smaller of the points and the wishes' sum.
///
/// Refused with 26, then 12.
///
/// ```
/// use hoodsorrel::display::share_points;
/// use hoodsorrel::{Needed, Refusal};
///
/// let mut shares = [0; 3];
/// assert_eq!(share_points(8, &[3, 9, 1], &mut shares), Ok(3));
/// assert_eq!(shares, [3, 4, 1]);
///
/// assert_eq!(share_points(8, &[3, 9, 1], &mut [0; 2]), Err(Refusal::BufferTooShort(Needed::One(3))));
/// assert_eq!(share_points(1_000_000, &[3, 9, 1], &mut shares), Err(Refusal::Shares));
/// assert_eq!(share_points(8, &[], &mut shares), Err(Refusal::Shares));
/// ```
pub fn share_points(points: u32, wishes: &[u32], shares: &mut [u32]) -> Result<usize, Refusal> {
    word(|words| raw::share_points(points, wishes, shares, words)).map(size)
}

impl Drawing {
    /// The triangles of a mesh list's submeshes, by the numbers of [`Drawing::points`]: measures them, makes the buffer
    /// and fills it. A crop and a cube map have no records, and so none.
    ///
    /// Refused with 15 where a submesh has another mode than 0, 1 and 2, and with 12 only where memory does not hold
    /// the triangles.
    ///
    /// ```
    /// use hoodsorrel::scene::MESHES;
    /// use hoodsorrel::{Drawing, Given};
    ///
    /// # let payload = [
    /// #     0, 0, 0, 0x20, b'm', b'e', b's', b'h', 0, 0, 0, 1, 0x3F, 0, 0, 0, 0, 0, 0, 1, 0x00, 0, 0, 0, 1, 7, 1, 0,
    /// #     0, 0, 4, 0x00,
    /// # ];
    /// // One vertex; one submesh, a strip of four points.
    /// let drawing = Drawing::of(MESHES, &payload, &Given::default())?;
    /// assert_eq!(drawing.triangles()?, [0, 1, 2, 2, 1, 3]);
    /// # Ok::<(), hoodsorrel::Refusal>(())
    /// ```
    pub fn triangles(&self) -> Result<Vec<u32>, Refusal> {
        let needed = match triangles(&self.records, &mut []) {
            Err(Refusal::BufferTooShort(Needed::One(needed))) => needed,
            other => return other.map(|_| Vec::new()),
        };
        let no_memory = Refusal::BufferTooShort(Needed::One(needed));
        let mut numbers = memory::zeros(needed).ok_or(no_memory)?;
        triangles(&self.records, &mut numbers)?;
        Ok(numbers)
    }
}
