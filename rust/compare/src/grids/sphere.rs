//! The sphere's grid: its indices, with and without a crop, and its texture coordinates.

use std::ops::RangeInclusive;

use hoodsorrel::raw::Crop;
use reference::pano::{self, VERTEX_FLOATS};

use crate::bits::run_on::boundaries;
use crate::crops::usable::{bounds, ONE};
use crate::inputs::random::Random;
use crate::lent::answer::Answer;
use crate::lent::fill::{self, before, lengths};
use crate::options::Options;
use crate::refusals::{CROP, GRID};
use crate::tally::Tally;

const NAME: &str = "sphere";
const MOST_VERTICES: u64 = 65_536;
/// How far from the most vertices a grid still is close to them.
const CLOSE: u64 = 200;
const RANDOM: u32 = 1000;
/// The grid whose vertices the Rust counts as 0.
const UNCOUNTED: (u32, u32) = (u32::MAX, u32::MAX);
pub const FULL: Crop = [0.0; 4];

/// Crops that are usable: edges at a pole or not, also by very little.
pub const USABLE: [Crop; 13] = [
    FULL,
    [0.25, 0.0, 0.0, 0.0],
    [0.0, 0.25, 0.0, 0.0],
    [0.25, 0.25, 0.0, 0.0],
    [0.0, 0.0, 0.25, 0.25],
    [-0.0, -0.0, -0.0, -0.0],
    [-0.0, 0.25, 0.0, 0.0],
    [0.25, -0.0, 0.0, 0.0],
    [LEAST, 0.0, 0.0, 0.0],
    [0.0, LEAST, 0.0, 0.0],
    [LEAST, LEAST, LEAST, LEAST],
    [-0.0, LEAST, 0.5, 0.0],
    [BELOW_ONE, 0.0, 0.0, BELOW_ONE],
];

pub const UNUSABLE: [Crop; 11] = [
    [1.0, 0.0, 0.0, 0.0],
    [0.0, 1.0, 0.0, 0.0],
    [0.0, 0.0, 1.0, 0.0],
    [0.0, 0.0, 0.0, 1.0],
    [0.5, 0.5, 0.0, 0.0],
    [0.0, 0.0, 0.5, 0.5],
    [-LEAST, 0.0, 0.0, 0.0],
    [0.0, f32::NAN, 0.0, 0.0],
    [0.0, 0.0, f32::INFINITY, 0.0],
    [0.0, 0.0, 0.0, f32::NEG_INFINITY],
    [f32::NAN; 4],
];

/// The smallest float above 0, and the largest below 1.
const LEAST: f32 = f32::from_bits(1);
const BELOW_ONE: f32 = f32::from_bits(ONE - 1);

/// Numbers of rings, or of sectors, whose grids close to the most vertices are all taken.
const LINES: [RangeInclusive<u32>; 10] = [
    2..=12,
    20..=23,
    62..=65,
    126..=129,
    253..=258,
    1022..=1025,
    4094..=4097,
    16_382..=16_385,
    21_843..=21_846,
    65_534..=65_537,
];

pub fn run(options: &Options) -> Vec<Tally> {
    let mut sphere = Sphere::new(options);
    sphere.small_grids();
    sphere.large_grids();
    sphere.random_grids();
    sphere.any_grids();
    sphere.beyond();
    vec![sphere.indices, sphere.bounded, sphere.uvs, sphere.beyond]
}

struct Sphere {
    indices: Tally,
    bounded: Tally,
    uvs: Tally,
    beyond: Tally,
    random: Random,
}

impl Sphere {
    fn new(options: &Options) -> Sphere {
        let indices = "against pano::sphere_indices, with the number of its refusal";
        let bounded = "against pano::sphere_indices_bounded, with the number of its refusal";
        let uvs = "against the last two floats of each vertex of pano::sphere_mesh_bounded";
        let beyond = "no grid of 2^64 vertices";
        Sphere {
            indices: Tally::new(options, "sphere", indices),
            bounded: Tally::new(options, "sphere bounded", bounded),
            uvs: Tally::new(options, "sphere uvs", uvs),
            beyond: Tally::new(options, "sphere beyond the Rust", beyond),
            random: Random::new(options.seed, NAME),
        }
    }

    /// All grids of few rings and sectors with all crops.
    fn small_grids(&mut self) {
        for rings in 0..=12 {
            for sectors in 0..=12 {
                self.whole(rings, sectors);
                for crop in USABLE {
                    self.uvs(rings, sectors, crop);
                    self.cropped(rings, sectors, crop);
                }
                for crop in UNUSABLE {
                    self.cropped(rings, sectors, crop);
                }
            }
        }
    }

    /// Grids close to the most vertices.
    fn large_grids(&mut self) {
        for line in LINES.into_iter().flatten() {
            let lines = u64::from(line) + 1;
            let first = (MOST_VERTICES - CLOSE).div_ceil(lines);
            let last = (MOST_VERTICES + CLOSE) / lines;
            for other in first..=last {
                let other = other.saturating_sub(1) as u32;
                self.grid(line, other);
                self.grid(other, line);
            }
        }
    }

    fn random_grids(&mut self) {
        for _ in 0..RANDOM {
            let shift = 48 + self.random.below(16);
            let line = (self.random.draw() >> shift) as u32;
            let most = MOST_VERTICES as usize / (line as usize + 1);
            let other = self.random.below(most + 2) as u32;
            self.grid(line, other);
            self.grid(other, line);
        }
    }

    /// Numbers of any size. The largest two together are beyond the Rust.
    fn any_grids(&mut self) {
        for rings in boundaries() {
            for sectors in boundaries() {
                if (rings, sectors) != UNCOUNTED {
                    self.grid(rings, sectors);
                }
            }
        }
    }

    /// All calls on a grid, with some crops.
    fn grid(&mut self, rings: u32, sectors: u32) {
        let usable = self.random.pick(&USABLE);
        let unusable = self.random.pick(&UNUSABLE);
        self.whole(rings, sectors);
        self.uvs(rings, sectors, usable);
        for crop in [FULL, [0.25, 0.25, 0.0, 0.0], usable, unusable] {
            self.cropped(rings, sectors, crop);
        }
    }

    fn whole(&mut self, rings: u32, sectors: u32) {
        for lent in lengths(needed(rings, sectors, FULL)) {
            let mut after = before(lent);
            let due = indices_due(rings, sectors, &mut after);
            fill::check(
                &mut self.indices,
                &due,
                &after,
                |out, words| hoodsorrel::raw::sphere_indices(rings, sectors, out, words),
                || (rings, sectors, lent),
            );
        }
    }

    fn cropped(&mut self, rings: u32, sectors: u32, crop: Crop) {
        for lent in lengths(needed(rings, sectors, crop)) {
            let mut after = before(lent);
            let due = bounded_due(rings, sectors, crop, &mut after);
            fill::check(
                &mut self.bounded,
                &due,
                &after,
                |out, words| {
                    hoodsorrel::raw::sphere_indices_bounded(rings, sectors, crop, out, words)
                },
                || (rings, sectors, crop.map(f32::to_bits), lent),
            );
        }
    }

    /// The texture coordinates are those of every usable crop.
    fn uvs(&mut self, rings: u32, sectors: u32, crop: Crop) {
        let made = uvs_of(rings, sectors, crop);
        for lent in lengths(made.as_ref().map_or(0, Vec::len)) {
            let mut after = before(lent);
            let due = uvs_due(made.as_deref(), &mut after);
            fill::check(
                &mut self.uvs,
                &due,
                &after,
                |out, words| hoodsorrel::raw::sphere_uvs(rings, sectors, out, words),
                || (rings, sectors, lent),
            );
        }
    }

    fn beyond(&mut self) {
        let (n, tally) = (UNCOUNTED.0, &mut self.beyond);
        let due = Answer::refused(GRID);
        for lent in lengths(0) {
            let (numbers, floats) = (before(lent), before(lent));
            let input = || (n, n, lent);
            fill::check(
                tally,
                &due,
                &numbers,
                |out, words| hoodsorrel::raw::sphere_indices(n, n, out, words),
                input,
            );
            fill::check(
                tally,
                &due,
                &floats,
                |out, words| hoodsorrel::raw::sphere_uvs(n, n, out, words),
                input,
            );
            for crop in USABLE.into_iter().chain(UNUSABLE) {
                fill::check(
                    tally,
                    &due,
                    &numbers,
                    |out, words| hoodsorrel::raw::sphere_indices_bounded(n, n, crop, out, words),
                    input,
                );
            }
        }
    }
}

pub fn grid_usable(rings: u32, sectors: u32) -> bool {
    let vertices = (u128::from(rings) + 1) * (u128::from(sectors) + 1);
    rings >= 2 && sectors >= 3 && vertices <= u128::from(MOST_VERTICES)
}

/// The exact number of indices, or 0 for a grid that is not usable.
pub fn needed(rings: u32, sectors: u32, [top, bottom, ..]: Crop) -> usize {
    if !grid_usable(rings, sectors) {
        return 0;
    }
    let poles = usize::from(top == 0.0) + usize::from(bottom == 0.0);
    3 * sectors as usize * (2 * rings as usize - poles)
}

/// The answer where the Rust answers `made`.
fn due(made: Option<usize>, rings: u32, sectors: u32, crop: Crop) -> Answer {
    match made {
        Some(count) => Answer::place(count),
        None if !grid_usable(rings, sectors) => Answer::refused(GRID),
        None if !bounds(crop).is_usable() => Answer::refused(CROP),
        None => Answer::needs(needed(rings, sectors, crop)),
    }
}

/// The answer, and in `after` what becomes of a lent buffer.
pub fn indices_due(rings: u32, sectors: u32, after: &mut [u16]) -> Answer {
    if (rings, sectors) == UNCOUNTED {
        return Answer::refused(GRID);
    }
    let made = pano::sphere_indices(rings, sectors, after);
    due(made, rings, sectors, FULL)
}

/// The same with a crop.
pub fn bounded_due(rings: u32, sectors: u32, crop: Crop, after: &mut [u16]) -> Answer {
    if (rings, sectors) == UNCOUNTED {
        return Answer::refused(GRID);
    }
    let made = pano::sphere_indices_bounded(rings, sectors, bounds(crop), after);
    due(made, rings, sectors, crop)
}

/// The same with the texture coordinates that the Rust makes.
pub fn uvs_due(made: Option<&[u32]>, after: &mut [u32]) -> Answer {
    match made {
        None => Answer::refused(GRID),
        Some(uvs) if uvs.len() > after.len() => Answer::needs(uvs.len()),
        Some(uvs) => {
            after[..uvs.len()].copy_from_slice(uvs);
            Answer::place(uvs.len() / 2)
        }
    }
}

/// The bits of u and v of each vertex that the Rust makes.
pub fn uvs_of(rings: u32, sectors: u32, crop: Crop) -> Option<Vec<u32>> {
    if (rings, sectors) == UNCOUNTED {
        return None;
    }
    let vertices = match grid_usable(rings, sectors) {
        true => pano::vertex_count(rings, sectors),
        false => 0,
    };
    let mut mesh = vec![0.0; vertices * VERTEX_FLOATS];
    pano::sphere_mesh_bounded(rings, sectors, 1.0, bounds(crop), &mut mesh)?;
    let uvs = mesh.chunks_exact(VERTEX_FLOATS);
    Some(uvs.flat_map(|v| [v[3], v[4]].map(f32::to_bits)).collect())
}
