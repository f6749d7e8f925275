//! Bytes and bits of a payload: cursors, fields, runs of running numbers, zigzag numbers, box headers, floats, and words
//! and fields put into a buffer.
//!
//! A cursor is a place by value beside the slice, so that reading gives the value and the place after it:
//!
//! ```
//! use hoodsorrel::bits::{bit_width, zigzag, BitCursor, ByteCursor};
//! use hoodsorrel::Refusal;
//!
//! # fn main() -> Result<(), Refusal> {
//! let bytes = [0, 0, 0, 3, 0b1011_0000];
//! let (count, after) = ByteCursor::new().u32(&bytes)?;
//! assert_eq!((count, after.position()), (3, 4));
//!
//! // Fields over a pool of three are three bits wide.
//! let (field, after) = BitCursor::new(after.position()).read(&bytes, bit_width(count))?;
//! assert_eq!((field, zigzag(field)), (5, -3));
//! assert_eq!(after.bit, 35);
//! # Ok(())
//! # }
//! ```

mod cursors;
mod fields;
mod floats;
mod headers;
mod numbers;
mod put;
mod runs;

pub use cursors::{ByteCursor, word_of};
pub use fields::BitCursor;
pub use floats::{float_bits, nearest_f32, scale};
pub use headers::{BoxHeader, box_header};
pub use numbers::{bit_width, run_on, stepped, zigzag};
pub use put::{put_field, put_word};
pub use runs::{Run, check_fives, check_run, fill_fives, fill_run};
