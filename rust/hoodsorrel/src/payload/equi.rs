//! Kind 0: the equi payload, how much of the sphere is missing at each edge.

use crate::answer::{low, size, told, word, words};
use crate::payload::Bounds;
use crate::raw;
use crate::refusal::Refusal;

/// The four fields of an equi payload, each a fraction of 32 bits.
#[derive(Clone, Copy, Debug, Default, PartialEq, Eq, Hash)]
pub struct EquiFields {
    /// Top.
    pub t: u32,
    /// Bottom.
    pub b: u32,
    /// Left.
    pub l: u32,
    /// Right.
    pub r: u32,
}

impl EquiFields {
    /// The crop that the fields make, usable or not: each as a share of 2^32.
    ///
    /// ```
    /// use hoodsorrel::payload::{Bounds, EquiFields};
    ///
    /// let fields = EquiFields { t: 0x4000_0000, r: u32::MAX, ..EquiFields::default() };
    /// assert_eq!(fields.crop(), Bounds { top: 0.25, right: 1.0, ..Bounds::FULL });
    /// ```
    pub fn crop(self) -> Bounds {
        let EquiFields { t, b, l, r } = self;
        let [top, bottom, left, right, ..] = told(|words| raw::equi_crop([t, b, l, r], words));
        Bounds::from_words([top, bottom, left, right])
    }
}

/// What an equi payload says: its fields, and the crop that they make.
#[derive(Clone, Copy, Debug, PartialEq)]
pub struct EquiReading {
    /// The fields.
    pub fields: EquiFields,
    /// Their crop.
    pub crop: Bounds,
}

/// Reads an equi payload.
///
/// Refused with 2, then 3 and 4 in field order, then 10.
///
/// ```
/// use hoodsorrel::payload::{parse_equi, Bounds, EquiFields};
/// use hoodsorrel::Refusal;
///
/// let mut payload = [0; 20];
/// payload[4] = 0x40;
/// let reading = parse_equi(&payload)?;
/// assert_eq!(reading.fields, EquiFields { t: 0x4000_0000, ..EquiFields::default() });
/// assert_eq!(reading.crop, Bounds { top: 0.25, ..Bounds::FULL });
///
/// assert_eq!(parse_equi(&payload[..19]), Err(Refusal::TooFewBytes));
/// payload[0] = 1;
/// assert_eq!(parse_equi(&payload), Err(Refusal::Version));
/// # Ok::<(), Refusal>(())
/// ```
pub fn parse_equi(payload: &[u8]) -> Result<EquiReading, Refusal> {
    let [t, b, l, r, sides @ ..] = words(|words| raw::parse_equi(payload, words))?;
    let [t, b, l, r] = [t, b, l, r].map(low);
    Ok(EquiReading {
        fields: EquiFields { t, b, l, r },
        crop: Bounds::from_words(sides),
    })
}

/// Writes an equi payload of 20 bytes at the front of a buffer, and answers their number.
///
/// Refused with 10, then 12.
///
/// ```
/// use hoodsorrel::payload::{parse_equi, write_equi, EquiFields};
/// use hoodsorrel::Refusal;
///
/// let fields = EquiFields { t: 0x4000_0000, b: 5, l: 0, r: 0x8000_0000 };
/// let mut out = [0; 20];
/// assert_eq!(write_equi(fields, &mut out), Ok(20));
/// assert_eq!(parse_equi(&out)?.fields, fields);
///
/// let all = EquiFields { t: u32::MAX, ..fields };
/// assert_eq!(write_equi(all, &mut out), Err(Refusal::Crop));
/// # Ok::<(), Refusal>(())
/// ```
pub fn write_equi(fields: EquiFields, out: &mut [u8]) -> Result<usize, Refusal> {
    let EquiFields { t, b, l, r } = fields;
    word(|words| raw::write_equi([t, b, l, r], out, words)).map(size)
}
