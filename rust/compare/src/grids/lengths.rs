//! How long the lists of the sphere's grid and of the cube map are.

use hoodsorrel::raw::Crop;
use reference::pano;

use crate::bits::run_on::boundaries;
use crate::crops::usable::bounds;
use crate::grids::cube::{cells_usable, numbers_usable, MOST_CELLS, RADII, SHARES, WRAPS};
use crate::grids::sphere::{grid_usable, needed, FULL, UNUSABLE, USABLE};
use crate::inputs::random::Random;
use crate::lent::answer::Answer;
use crate::options::Options;
use crate::refusals::{CROP, GRID, MEASURES};
use crate::tally::Tally;

const NAME: &str = "lengths";
const RANDOM: u32 = 20_000;
/// Grids of as many vertices as may be, and of one line more.
pub const CLOSE: [(u32, u32); 10] = [
    (255, 255),
    (255, 256),
    (256, 255),
    (2, 21_844),
    (2, 21_845),
    (21_844, 2),
    (16_383, 3),
    (16_384, 3),
    (3, 16_383),
    (3, 16_384),
];

pub fn run(options: &Options) -> Vec<Tally> {
    let what = "against the count of pano::sphere_indices_bounded and twice pano::vertex_count";
    let mut sphere = Tally::new(options, "sphere lengths", what);
    let what = "against pano::cubemap_index_count and five times pano::cubemap_vertex_count";
    let mut cube = Tally::new(options, "cube lengths", what);
    let mut random = Random::new(options.seed, NAME);
    spheres(&mut sphere, &mut random);
    cubes(&mut cube);
    vec![sphere, cube]
}

fn spheres(tally: &mut Tally, random: &mut Random) {
    let grids = |most: u32| (0..=most).flat_map(move |r| (0..=most).map(move |s| (r, s)));
    let any = boundaries();
    let large = any.iter().flat_map(|&r| any.iter().map(move |&s| (r, s)));
    for (rings, sectors) in grids(9).chain(CLOSE).chain(large) {
        for crop in USABLE.into_iter().chain(UNUSABLE) {
            sphere(tally, rings, sectors, crop);
        }
    }
    for _ in 0..RANDOM {
        let rings = random.below(300) as u32;
        let sectors = random.below(65_536 / (rings as usize + 1) + 2) as u32;
        sphere(tally, rings, sectors, random.pick(&USABLE));
        sphere(tally, rings, sectors, FULL);
    }
}

/// The Rust has no call for both lengths.
pub fn sphere_due(rings: u32, sectors: u32, crop: Crop) -> Answer {
    if !grid_usable(rings, sectors) {
        return Answer::refused(GRID);
    }
    if !bounds(crop).is_usable() {
        return Answer::refused(CROP);
    }
    let mut numbers = vec![0; needed(rings, sectors, FULL).max(needed(rings, sectors, crop))];
    let made = pano::sphere_indices_bounded(rings, sectors, bounds(crop), &mut numbers);
    let vertices = pano::vertex_count(rings, sectors);
    Answer::words(&[made.expect("a usable grid") as u64, 2 * vertices as u64])
}

fn sphere(tally: &mut Tally, rings: u32, sectors: u32, crop: Crop) {
    tally.call(
        &sphere_due(rings, sectors, crop),
        |words| hoodsorrel::raw::sphere_lengths(rings, sectors, crop, words),
        || (rings, sectors, crop.map(f32::to_bits)),
    );
}

fn cubes(tally: &mut Tally) {
    for cells in (0..=2 * MOST_CELLS)
        .chain(boundaries())
        .chain(WRAPS - 2..WRAPS + 2)
    {
        for radius in RADII {
            for share in SHARES {
                cube(tally, cells, radius, share);
            }
        }
    }
}

pub fn cube_due(cells: u32, radius: f32, share: f32) -> Answer {
    if !cells_usable(cells) {
        return Answer::refused(GRID);
    }
    if !numbers_usable(radius, share) {
        return Answer::refused(MEASURES);
    }
    let numbers = pano::cubemap_index_count(cells);
    let floats = pano::VERTEX_FLOATS * pano::cubemap_vertex_count(cells);
    Answer::words(&[numbers as u64, floats as u64])
}

fn cube(tally: &mut Tally, cells: u32, radius: f32, share: f32) {
    tally.call(
        &cube_due(cells, radius, share),
        |words| hoodsorrel::raw::cubemap_lengths(cells, radius, share, words),
        || (cells, radius.to_bits(), share.to_bits()),
    );
}
