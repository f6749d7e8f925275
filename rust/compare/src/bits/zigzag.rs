//! What a field means.

use reference::mesh;

use crate::inputs::sweep::numbers;
use crate::options::Options;
use crate::tally::Tally;

pub fn run(options: &Options) -> Vec<Tally> {
    numbers(
        options,
        "zigzag",
        "against mesh::zigzag",
        hoodsorrel::raw::zigzag,
        due,
    )
}

pub fn due(n: u32) -> i64 {
    i64::from(mesh::zigzag(n))
}
