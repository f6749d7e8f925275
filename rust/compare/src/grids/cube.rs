//! The cube map: its indices, its vertices, and the share of the padding.

use reference::pano::{self, VERTEX_FLOATS};

use crate::bits::run_on::boundaries;
use crate::grids::shares::{self, faces_around, MOST_PADDING};
use crate::inputs::random::Random;
use crate::lent::answer::Answer;
use crate::lent::fill::{self, before, lengths};
use crate::options::Options;
use crate::refusals::{GRID, MEASURES};
use crate::tally::Tally;

const NAME: &str = "cube";
pub const MOST_CELLS: u32 = 103;
/// From here on the Rust's counts wrap.
pub const WRAPS: u32 = 715_827_883;
/// Up to so many cells every radius is taken with every share.
const FEW_CELLS: u32 = 12;
const RANDOM: u32 = 20_000;
/// Enough for a mesh of three cells.
const LENT: usize = 6 * 16 * VERTEX_FLOATS;

pub const RADII: [f32; 13] = [
    1.0,
    -1.0,
    0.0,
    -0.0,
    0.1,
    1e-40,
    1e30,
    3.4e38,
    f32::MAX,
    f32::MIN,
    f32::NAN,
    f32::INFINITY,
    f32::NEG_INFINITY,
];

pub const SHARES: [f32; 16] = [
    0.0,
    -0.0,
    1e-45,
    0.01,
    0.1,
    0.25,
    1.0 / 3.0,
    0.499_999_97,
    0.5,
    0.500_000_06,
    1.0,
    -1e-45,
    -0.25,
    f32::NAN,
    f32::INFINITY,
    f32::NEG_INFINITY,
];

pub fn run(options: &Options) -> Vec<Tally> {
    let what = "against pano::cubemap_indices, with the number of its refusal";
    let mut indices = Tally::new(options, "cube indices", what);
    let what =
        "against pano::cubemap_mesh, with the number of its refusal; of a NaN only that it is one";
    let mut meshes = Tally::new(options, "cube mesh", what);
    let mut random = Random::new(options.seed, NAME);
    let more = boundaries().into_iter().filter(|cells| *cells < WRAPS);
    for cells in (0..=2 * MOST_CELLS).chain(WRAPS - 100..WRAPS).chain(more) {
        make_indices(&mut indices, cells);
        make_meshes(&mut meshes, &mut random, cells);
    }
    padded_meshes(&mut meshes);
    random_meshes(&mut meshes, &mut random);
    let beyond = beyond(options, &mut random);
    let mut tallies = vec![indices, meshes, beyond];
    tallies.extend(shares::run(options));
    tallies
}

fn make_indices(tally: &mut Tally, cells: u32) {
    for lent in lengths(indices_needed(cells)) {
        let mut after = before(lent);
        let due = indices_due(cells, &mut after);
        fill::check(
            tally,
            &due,
            &after,
            |out, words| hoodsorrel::raw::cubemap_indices(cells, out, words),
            || (cells, lent),
        );
    }
}

/// The answer, and in `after` what becomes of a lent buffer.
pub fn indices_due(cells: u32, after: &mut [u16]) -> Answer {
    if cells >= WRAPS {
        return Answer::refused(GRID);
    }
    match pano::cubemap_indices(cells, after) {
        Some(count) => Answer::place(count),
        None if !cells_usable(cells) => Answer::refused(GRID),
        None => Answer::needs(indices_needed(cells)),
    }
}

/// The same with a mesh. Its floats, and those that stand in `after`, are bits.
pub fn mesh_due(cells: u32, radius: f32, share: f32, after: &mut [u32]) -> Answer {
    if cells >= WRAPS {
        return Answer::refused(GRID);
    }
    let mut floats: Vec<f32> = after.iter().copied().map(f32::from_bits).collect();
    let made = pano::cubemap_mesh(cells, radius, share, &mut floats);
    for (item, x) in after.iter_mut().zip(floats) {
        *item = x.to_bits();
    }
    match made {
        Some(count) => Answer::place(count),
        None if !cells_usable(cells) => Answer::refused(GRID),
        None if !numbers_usable(radius, share) => Answer::refused(MEASURES),
        None => Answer::needs(floats_needed(cells)),
    }
}

/// All radii with all shares, or where there are many cells each with some of the others.
fn make_meshes(tally: &mut Tally, random: &mut Random, cells: u32) {
    if cells <= FEW_CELLS {
        for radius in RADII {
            for share in SHARES {
                make_mesh(tally, cells, radius, share);
            }
        }
        return;
    }
    for radius in RADII {
        make_mesh(tally, cells, radius, random.pick(&SHARES));
    }
    for share in SHARES {
        make_mesh(tally, cells, random.pick(&RADII), share);
    }
}

/// Meshes with the shares of paddings around half a face.
fn padded_meshes(tally: &mut Tally) {
    for padding in 0..=MOST_PADDING {
        for face in faces_around(padding) {
            let share = padding as f32 / face as f32;
            mesh_on(tally, 1 + padding % 3, 1.0, share, LENT);
        }
    }
}

fn random_meshes(tally: &mut Tally, random: &mut Random) {
    for _ in 0..RANDOM {
        let cells = random.below(8) as u32;
        let radius = f32::from_bits(random.word());
        let share = f32::from_bits(random.below(0x3F00_0010) as u32);
        make_mesh(tally, cells, radius, share);
    }
}

pub fn cells_usable(cells: u32) -> bool {
    (1..=MOST_CELLS).contains(&cells)
}

pub fn numbers_usable(radius: f32, share: f32) -> bool {
    radius.is_finite() && (0.0..0.5).contains(&share)
}

/// The exact number of indices, or 0 for cells that are not usable.
pub fn indices_needed(cells: u32) -> usize {
    if cells_usable(cells) {
        pano::cubemap_index_count(cells)
    } else {
        0
    }
}

/// The exact number of floats, or 0 for cells that are not usable.
pub fn floats_needed(cells: u32) -> usize {
    if cells_usable(cells) {
        VERTEX_FLOATS * pano::cubemap_vertex_count(cells)
    } else {
        0
    }
}

fn make_mesh(tally: &mut Tally, cells: u32, radius: f32, share: f32) {
    for lent in lengths(floats_needed(cells)) {
        mesh_on(tally, cells, radius, share, lent);
    }
}

fn mesh_on(tally: &mut Tally, cells: u32, radius: f32, share: f32, lent: usize) {
    let mut after = before(lent);
    let due = mesh_due(cells, radius, share, &mut after);
    fill::check(
        tally,
        &due,
        &after,
        |out, words| hoodsorrel::raw::cubemap_mesh(cells, radius, share, out, words),
        || (cells, radius.to_bits(), share.to_bits(), lent),
    );
}

/// Cells at which the Rust's counts wrap.
fn beyond(options: &Options, random: &mut Random) -> Tally {
    let what = "no cells from 715827883 on";
    let mut tally = Tally::new(options, "cube beyond the Rust", what);
    let mut cells: Vec<u32> = boundaries();
    cells.extend(WRAPS..WRAPS + 1000);
    cells.extend((0..10_000).map(|_| random.word()));
    cells.retain(|cells| *cells >= WRAPS);
    let due = Answer::refused(GRID);
    for cells in cells {
        let lent = random.below(100);
        let (radius, share) = (random.pick(&RADII), random.pick(&SHARES));
        fill::check(
            &mut tally,
            &due,
            &before(lent),
            |out, words| hoodsorrel::raw::cubemap_indices(cells, out, words),
            || (cells, lent),
        );
        fill::check(
            &mut tally,
            &due,
            &before(lent),
            |out, words| hoodsorrel::raw::cubemap_mesh(cells, radius, share, out, words),
            || (cells, radius.to_bits(), share.to_bits(), lent),
        );
    }
    tally
}
