//! The counts of vertices and indices.

use std::fmt::Debug;

use reference::pano;

use crate::bits::run_on::boundaries;
use crate::inputs::random::Random;
use crate::inputs::sweep::{near, sweep};
use crate::lent::answer::Answer;
use crate::options::Options;
use crate::refusals::TOO_MANY;
use crate::tally::Tally;

const NAME: &str = "counts";
const RANDOM: u32 = 1_000_000;
/// The last cells whose vertices, and whose indices, are fewer than 2^64.
pub const LAST_VERTICES: u32 = 1_753_413_055;
pub const LAST_INDICES: u32 = 715_827_882;

pub fn run(options: &Options) -> Vec<Tally> {
    let mut counts = Counts::new(options);
    for rings in boundaries() {
        for sectors in boundaries() {
            counts.sphere(rings, sectors);
        }
    }
    let mut random = Random::new(options.seed, NAME);
    for _ in 0..RANDOM {
        counts.sphere(random.word(), random.word());
        counts.sphere(random.any_size() as u32, random.any_size() as u32);
        counts.last_sectors(random.word());
    }
    sweep(options, NAME, |cells| counts.cube(cells));
    for cells in near(LAST_VERTICES).chain(near(LAST_INDICES)) {
        counts.cube(cells);
    }
    vec![counts.tally, counts.beyond]
}

struct Counts {
    tally: Tally,
    beyond: Tally,
}

impl Counts {
    fn new(options: &Options) -> Counts {
        let what =
            "against pano's vertex_count, index_count, cubemap_vertex_count, cubemap_index_count";
        let beyond = "14 where the exact count is 2^64 or more";
        Counts {
            tally: Tally::new(options, NAME, what),
            beyond: Tally::new(options, "counts beyond the Rust", beyond),
        }
    }

    fn last_sectors(&mut self, rings: u32) {
        for sectors in sectors_around(rings) {
            self.sphere(rings, sectors);
        }
    }

    fn sphere(&mut self, rings: u32, sectors: u32) {
        self.check(
            vertices_due(rings, sectors),
            |words| hoodsorrel::raw::vertex_count(rings, sectors, words),
            ("vertex_count", rings, sectors),
        );
        self.check(
            indices_due(rings, sectors),
            |words| hoodsorrel::raw::index_count(rings, sectors, words),
            ("index_count", rings, sectors),
        );
    }

    fn cube(&mut self, cells: u32) {
        self.check(
            cube_vertices_due(cells),
            |words| hoodsorrel::raw::cubemap_vertex_count(cells, words),
            ("cubemap_vertex_count", cells),
        );
        self.check(
            cube_indices_due(cells),
            |words| hoodsorrel::raw::cubemap_index_count(cells, words),
            ("cubemap_index_count", cells),
        );
    }

    fn check(&mut self, due: Answer, ours: impl FnOnce(&mut [u64]) -> i64, input: impl Debug) {
        let tally = match due.code() == -TOO_MANY {
            false => &mut self.tally,
            true => &mut self.beyond,
        };
        tally.call(&due, ours, || input);
    }
}

/// Sectors around those at which the indices become too many.
pub fn sectors_around(rings: u32) -> impl Iterator<Item = u32> {
    let last = (1u128 << 64) / (6 * u128::from(rings.max(2)));
    (last - 2..=last + 2).filter_map(|sectors| u32::try_from(sectors).ok())
}

/// The Rust's count, which is not asked where it wraps.
fn due(exact: u128, theirs: impl FnOnce() -> usize) -> Answer {
    if exact >> 64 == 0 {
        Answer::place(theirs())
    } else {
        Answer::refused(TOO_MANY)
    }
}

pub fn vertices_due(rings: u32, sectors: u32) -> Answer {
    let exact = (u128::from(rings) + 1) * (u128::from(sectors) + 1);
    due(exact, || pano::vertex_count(rings, sectors))
}

pub fn indices_due(rings: u32, sectors: u32) -> Answer {
    let exact = match rings {
        0 | 1 => 0,
        _ => 6 * u128::from(rings) * u128::from(sectors),
    };
    due(exact, || pano::index_count(rings, sectors))
}

pub fn cube_vertices_due(cells: u32) -> Answer {
    let lines = u128::from(cells) + 1;
    due(6 * lines * lines, || pano::cubemap_vertex_count(cells))
}

pub fn cube_indices_due(cells: u32) -> Answer {
    let exact = 36 * u128::from(cells) * u128::from(cells);
    due(exact, || pano::cubemap_index_count(cells))
}
