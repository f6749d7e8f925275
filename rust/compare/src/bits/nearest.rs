//! A u32 to the nearest f32.

use crate::inputs::sweep::numbers;
use crate::options::Options;
use crate::tally::Tally;

pub fn run(options: &Options) -> Vec<Tally> {
    numbers(
        options,
        "nearest",
        "bits against `v as f32`",
        hoodsorrel::raw::nearest,
        due,
    )
}

pub fn due(v: u32) -> i64 {
    i64::from((v as f32).to_bits())
}
