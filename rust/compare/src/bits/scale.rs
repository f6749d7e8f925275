//! A field of kind 0 as a share of 2^32.

use crate::inputs::sweep::numbers;
use crate::options::Options;
use crate::tally::Tally;

pub fn run(options: &Options) -> Vec<Tally> {
    numbers(
        options,
        "scale",
        "bits against `scale` of mesh::parse_equi",
        hoodsorrel::raw::scale,
        due,
    )
}

pub fn due(v: u32) -> i64 {
    i64::from((v as f32 / 4_294_967_296.0).to_bits())
}
