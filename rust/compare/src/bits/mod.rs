//! The calls of crates/bits.

pub mod bit_width;
pub mod check_runs;
pub mod cursors;
pub mod fields;
pub mod fill_runs;
pub mod float_bits;
pub mod headers;
pub mod nearest;
pub mod put_field;
pub mod put_word;
pub mod read_two;
pub mod run_on;
pub mod running;
pub mod scale;
pub mod stepped;
pub mod sum_fields;
pub mod word_of;
pub mod zigzag;

use crate::Subject;

pub const SUBJECTS: &[Subject] = &[
    ("zigzag", zigzag::run),
    ("bit_width", bit_width::run),
    ("nearest", nearest::run),
    ("scale", scale::run),
    ("float_bits", float_bits::run),
    ("run_on", run_on::run),
    ("stepped", stepped::run),
    ("fields", fields::run),
    ("read_two", read_two::run),
    ("check_runs", check_runs::run),
    ("fill_runs", fill_runs::run),
    ("sum_fields", sum_fields::run),
    ("cursors", cursors::run),
    ("word_of", word_of::run),
    ("headers", headers::run),
    ("put_word", put_word::run),
    ("put_field", put_field::run),
];
