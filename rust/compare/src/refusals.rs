//! The numbers of the refusals.

pub const KIND: i64 = 1;
pub const TOO_LONG: i64 = 2;
pub const SHORT: i64 = 3;
pub const VERSION: i64 = 4;
pub const CUBE_LAYOUT: i64 = 5;
pub const BAD_SIZE: i64 = 6;
pub const BAD_COUNT: i64 = 7;
pub const STRAY: i64 = 8;
pub const GRID: i64 = 9;
pub const CROP: i64 = 10;
/// The radius, the face width or the padding's share.
pub const MEASURES: i64 = 11;
pub const NEEDS: i64 = 12;
pub const NO_MESH: i64 = 13;
pub const TOO_MANY: i64 = 14;
pub const RECORDS: i64 = 15;
pub const WIDE: i64 = 16;
/// A pool word is not finite.
pub const BAD_WORD: i64 = 17;
/// A third mesh box begins.
pub const THIRD_MESH: i64 = 18;
/// The list of shown numbers, or a number that is no record or is shown already.
pub const LIST_OR_NUMBER: i64 = 19;
pub const NOT_SHOWN: i64 = 20;
pub const LIST_FULL: i64 = 21;
/// No such record, too many points asked, or one that is not there.
pub const QUESTION: i64 = 24;
/// Windows, points or wishes are out of range.
pub const SHARES: i64 = 26;
