//! Why a call declines.

use std::error::Error;
use std::fmt;

use crate::payload::TableLengths;
use crate::scene::Lengths;

/// Why a call declines: a number of document 01, the scope, or of document 02, the requests after it, and for 12 the
/// lengths that are needed.
///
/// ```
/// use hoodsorrel::payload::write_cbmp;
/// use hoodsorrel::{Needed, Refusal};
///
/// let refusal = write_cbmp(64, &mut [0; 11]).unwrap_err();
/// assert_eq!(refusal.number(), 12);
/// assert_eq!(refusal.needed(), Some(Needed::One(12)));
///
/// let refusal = write_cbmp(4097, &mut [0; 12]).unwrap_err();
/// assert_eq!(refusal, Refusal::CubeLayout);
/// assert_eq!(
///     refusal.to_string(),
///     "refused 5: the cube map's layout is not 0 or its padding is above 4,096"
/// );
/// ```
#[derive(Clone, Copy, Debug, PartialEq, Eq, Hash)]
pub enum Refusal {
    /// 1: the kind is not 0, 1 or 2.
    Kind,
    /// 2: the payload, or the body given to `parse_mesh`, is longer than 67,108,864 bytes.
    PayloadTooLong,
    /// 3: the payload, or the box body being read, ends before the next field is complete.
    TooFewBytes,
    /// 4: the version byte of kind 0 or 1 is not 0.
    Version,
    /// 5: a cbmp layout is not 0 or its padding is above 4,096.
    CubeLayout,
    /// 6: a box size is below 8, a long one below 16, or it reaches past the payload's end. A size of 1 stands for a
    /// long one.
    BoxSize,
    /// 7: a coordinate count is not 1 to 10,000, a vertex count not 1 to 32,000, a submesh count 0, or an index count
    /// not 1 to 128,000.
    MeshCount,
    /// 8: a running number leaves its pool or its vertices.
    RunningNumber,
    /// 9: rings are below 2, sectors below 3 or (rings + 1) × (sectors + 1) above 65,536, or cells are not 1 to 103.
    Grid,
    /// 10: a crop is not usable.
    Crop,
    /// 11: the radius is not finite, the face width not 1 to 16,384, or the padding share NaN, below 0 or at least 0.5.
    RadiusOrFaceWidth,
    /// 12: a lent buffer is shorter than needed.
    BufferTooShort(Needed),
    /// 13: a writer's mesh is not a mesh within 7 and 8, a texture or mode exceeds 255, a table is not whole rows, the
    /// submesh counts do not add up to the points, or the box would exceed 67,108,864 bytes.
    NotAMesh,
    /// 14: a count reaches 2^64, or 2^63 in the viewer's calls.
    CountTooLarge,
    /// 15: the records are not whole fives, a mode is above 2, or a first point plus its count, or all counts together,
    /// is above 4,294,967,295.
    Records,
    /// 16: a field width is above 32.
    FieldWidth,
    /// 17: a pool word is an infinity or a NaN.
    NotFinite,
    /// 18: a third mesh box begins. A list has one mesh for both eyes or one for each.
    ThirdMesh,
    /// 19: the list of shown numbers is longer than 64, repeats a number, holds one that is no record or has another
    /// total; or the number is no record, or is shown already when showing.
    ListOrNumber,
    /// 20: a number that is to be hidden is not shown.
    NotShown,
    /// 21: 64 are shown, and no more can be.
    ListFull,
    /// 24: no submesh has the record number, more than 256 points are asked, or one is not below the submesh's index
    /// count.
    Question,
    /// 26: no window or more than eight, or points or a wish of 1,000,000 or more.
    Shares,
}

/// The lengths that 12 tells.
#[derive(Clone, Copy, Debug, PartialEq, Eq, Hash)]
pub enum Needed {
    /// Of the one buffer that is lent.
    One(usize),
    /// Of the three buffers of a drawing.
    Drawing(Lengths),
    /// Of the four tables of a mesh.
    Tables(TableLengths),
}

impl Refusal {
    /// 1 to 21, 24 and 26.
    pub const fn number(self) -> u8 {
        match self {
            Refusal::Kind => 1,
            Refusal::PayloadTooLong => 2,
            Refusal::TooFewBytes => 3,
            Refusal::Version => 4,
            Refusal::CubeLayout => 5,
            Refusal::BoxSize => 6,
            Refusal::MeshCount => 7,
            Refusal::RunningNumber => 8,
            Refusal::Grid => 9,
            Refusal::Crop => 10,
            Refusal::RadiusOrFaceWidth => 11,
            Refusal::BufferTooShort(_) => 12,
            Refusal::NotAMesh => 13,
            Refusal::CountTooLarge => 14,
            Refusal::Records => 15,
            Refusal::FieldWidth => 16,
            Refusal::NotFinite => 17,
            Refusal::ThirdMesh => 18,
            Refusal::ListOrNumber => 19,
            Refusal::NotShown => 20,
            Refusal::ListFull => 21,
            Refusal::Question => 24,
            Refusal::Shares => 26,
        }
    }

    /// The refusal of a number, as in a listing that says `refused 8`. 12 is none without its lengths.
    ///
    /// ```
    /// use hoodsorrel::Refusal;
    ///
    /// assert_eq!(Refusal::from_number(8), Some(Refusal::RunningNumber));
    /// assert_eq!(Refusal::from_number(21), Some(Refusal::ListFull));
    /// assert_eq!([0, 12, 22, 25, 27].map(Refusal::from_number), [None; 5]);
    /// ```
    pub fn from_number(number: u8) -> Option<Refusal> {
        match number {
            1..=11 | 13..=21 | 24 | 26 => {
                Some(Refusal::of_code(-i64::from(number), Needed::One(0)))
            }
            _ => None,
        }
    }

    /// What the number means.
    pub const fn meaning(self) -> &'static str {
        match self {
            Refusal::Kind => "the kind is not 0, 1 or 2",
            Refusal::PayloadTooLong => "the payload or body is longer than 67,108,864 bytes",
            Refusal::TooFewBytes => {
                "the payload or box body ends before the next field is complete"
            }
            Refusal::Version => "the version byte is not 0",
            Refusal::CubeLayout => "the cube map's layout is not 0 or its padding is above 4,096",
            Refusal::BoxSize => {
                "a box size is below 8 but for 1, a long one below 16, or it reaches past the payload's end"
            }
            Refusal::MeshCount => {
                "a coordinate count is not 1 to 10,000, a vertex count not 1 to 32,000, \
                 a submesh count 0, or an index count not 1 to 128,000"
            }
            Refusal::RunningNumber => "a running number leaves its pool or its vertices",
            Refusal::Grid => {
                "rings are below 2, sectors below 3, their vertices more than 65,536, \
                 or cells not 1 to 103"
            }
            Refusal::Crop => "the crop is not usable",
            Refusal::RadiusOrFaceWidth => {
                "the radius is not finite, the face width not 1 to 16,384, \
                 or the padding's share of it not 0 to below 0.5"
            }
            Refusal::BufferTooShort(_) => "a lent buffer is shorter than needed",
            Refusal::NotAMesh => {
                "the writer's tables are not a mesh, or its box would exceed 67,108,864 bytes"
            }
            Refusal::CountTooLarge => "a count reaches 2^64, or 2^63 where the answer is an i64",
            Refusal::Records => {
                "the records are not whole fives, a mode is above 2, or a first point plus its count, \
                 or all counts together, is above 4,294,967,295"
            }
            Refusal::FieldWidth => "a field width is above 32",
            Refusal::NotFinite => "a pool word is an infinity or a NaN",
            Refusal::ThirdMesh => "a third mesh box begins",
            Refusal::ListOrNumber => {
                "the list of shown numbers is longer than 64, repeats one, holds one that is no record \
                 or has another total, or the number is no record, or shown already when showing"
            }
            Refusal::NotShown => "the number is not shown",
            Refusal::ListFull => "64 are shown",
            Refusal::Question => {
                "no submesh has the record number, more than 256 points are asked, \
                 or one is not below the index count"
            }
            Refusal::Shares => {
                "there is no window or more than eight, or points or a wish are 1,000,000 or more"
            }
        }
    }

    /// The needed lengths, where the number is 12.
    pub const fn needed(self) -> Option<Needed> {
        match self {
            Refusal::BufferTooShort(needed) => Some(needed),
            _ => None,
        }
    }

    /// The refusal of a number below 0 that a C function answered. 12 comes with its lengths. The contracts of the
    /// functions name no other number than these, so that all others stand for 14.
    pub(crate) fn of_code(code: i64, needed: Needed) -> Refusal {
        match code {
            -1 => Refusal::Kind,
            -2 => Refusal::PayloadTooLong,
            -3 => Refusal::TooFewBytes,
            -4 => Refusal::Version,
            -5 => Refusal::CubeLayout,
            -6 => Refusal::BoxSize,
            -7 => Refusal::MeshCount,
            -8 => Refusal::RunningNumber,
            -9 => Refusal::Grid,
            -10 => Refusal::Crop,
            -11 => Refusal::RadiusOrFaceWidth,
            -12 => Refusal::BufferTooShort(needed),
            -13 => Refusal::NotAMesh,
            -15 => Refusal::Records,
            -16 => Refusal::FieldWidth,
            -17 => Refusal::NotFinite,
            -18 => Refusal::ThirdMesh,
            -19 => Refusal::ListOrNumber,
            -20 => Refusal::NotShown,
            -21 => Refusal::ListFull,
            -24 => Refusal::Question,
            -26 => Refusal::Shares,
            _ => Refusal::CountTooLarge,
        }
    }
}

impl fmt::Display for Refusal {
    fn fmt(&self, f: &mut fmt::Formatter<'_>) -> fmt::Result {
        write!(f, "refused {}: {}", self.number(), self.meaning())?;
        self.needed()
            .map_or(Ok(()), |needed| write!(f, ": {needed}"))
    }
}

impl Error for Refusal {}

impl fmt::Display for Needed {
    fn fmt(&self, f: &mut fmt::Formatter<'_>) -> fmt::Result {
        match self {
            Needed::One(length) => write!(f, "{length}"),
            Needed::Drawing(n) => write!(
                f,
                "{} numbers, {} floats and {} records",
                n.numbers, n.floats, n.records
            ),
            Needed::Tables(n) => write!(
                f,
                "{} pool words, {} coordinate numbers, {} submesh words and {} points",
                n.pool, n.coordinates, n.submeshes, n.points
            ),
        }
    }
}

#[cfg(test)]
mod tests {
    use super::{Needed, Refusal};

    fn numbers() -> impl Iterator<Item = u8> {
        (1..=21).chain([24, 26])
    }

    #[test]
    fn each_number_is_that_of_its_code() {
        for number in numbers() {
            let refusal = Refusal::of_code(-i64::from(number), Needed::One(7));
            assert_eq!(refusal.number(), number);
            let lengths = (number == 12).then_some(Needed::One(7));
            assert_eq!(refusal.needed(), lengths);
        }
    }

    #[test]
    fn no_two_mean_the_same() {
        let all: Vec<Refusal> = numbers()
            .map(|number| Refusal::of_code(-i64::from(number), Needed::One(0)))
            .collect();
        for a in &all {
            for b in &all {
                assert_eq!(a == b, a.meaning() == b.meaning());
            }
        }
    }
}
