//! `bit_width`.

use reference::mesh;

use crate::inputs::sweep::numbers;
use crate::options::Options;
use crate::tally::Tally;

pub fn run(options: &Options) -> Vec<Tally> {
    numbers(
        options,
        "bit_width",
        "against mesh::bit_width",
        hoodsorrel::raw::bit_width,
        due,
    )
}

pub fn due(count: u32) -> i64 {
    i64::from(mesh::bit_width(count))
}
