//! The calls on grids of a sphere.

use hoodsorrel::raw::Crop;

use crate::answers::line::{bits, lent, List, MOST_FLOATS, MOST_NUMBERS};
use crate::grids::sphere::{
    bounded_due, indices_due, needed, uvs_due, uvs_of, FULL, UNUSABLE, USABLE,
};
use crate::inputs::random::Random;
use crate::lent::fill::lengths;
use crate::scene::numbers::{LARGE_GRIDS, THIN_GRIDS, TOO_LARGE_GRIDS};

/// Small grids with any crops.
const RANDOM: usize = 16;

pub fn add(list: &mut List, random: &mut Random) {
    for grid in [(2, 3), (3, 4), (5, 8), (10, 40), (26, 26)] {
        whole(list, grid);
        uvs(list, grid);
        for crop in [FULL, [0.25, 0.25, 0.0, 0.0]] {
            cropped(list, grid, crop);
        }
    }
    for rings in 1..=3 {
        for sectors in 2..=4 {
            on_some(list, random, (rings, sectors));
        }
    }
    let refused = TOO_LARGE_GRIDS.into_iter().chain(THIN_GRIDS);
    for grid in LARGE_GRIDS.into_iter().chain(refused) {
        on_some(list, random, grid);
    }
    for crop in USABLE.into_iter().chain(UNUSABLE) {
        let grid = (2 + random.below(3) as u32, 3 + random.below(3) as u32);
        let n = random.pick(&lengths(needed(grid.0, grid.1, crop)));
        crop_on(list, grid, crop, n);
    }
    for _ in 0..RANDOM {
        let grid = (random.below(20) as u32, random.below(20) as u32);
        on_some(list, random, grid);
    }
}

/// All three calls, each on a buffer of one length.
fn on_some(list: &mut List, random: &mut Random, grid: (u32, u32)) {
    let crop = match random.below(4) {
        0 => random.pick(&UNUSABLE),
        _ => random.pick(&USABLE),
    };
    let n = random.pick(&lengths(needed(grid.0, grid.1, FULL)));
    whole_on(list, grid, n.min(MOST_NUMBERS));
    let n = random.pick(&lengths(needed(grid.0, grid.1, crop)));
    crop_on(list, grid, crop, n.min(MOST_NUMBERS));
    let made = uvs_of(grid.0, grid.1, FULL);
    let n = random.pick(&lengths(made.as_ref().map_or(0, Vec::len)));
    uvs_on(list, grid, made.as_deref(), n.min(MOST_FLOATS));
}

fn whole(list: &mut List, grid: (u32, u32)) {
    for n in lengths(needed(grid.0, grid.1, FULL)) {
        whole_on(list, grid, n.min(MOST_NUMBERS));
    }
}

fn whole_on(list: &mut List, (rings, sectors): (u32, u32), n: usize) {
    let mut after = lent(n, &[]);
    let due = indices_due(rings, sectors, &mut after);
    let args = [rings.into(), sectors.into(), n as u64];
    list.buffers("sphere_indices", &args, &[], &due, &[&after]);
}

fn cropped(list: &mut List, grid: (u32, u32), crop: Crop) {
    for n in lengths(needed(grid.0, grid.1, crop)) {
        crop_on(list, grid, crop, n.min(MOST_NUMBERS));
    }
}

fn crop_on(list: &mut List, (rings, sectors): (u32, u32), crop: Crop, n: usize) {
    let mut after = lent(n, &[]);
    let due = bounded_due(rings, sectors, crop, &mut after);
    let [top, bottom, left, right] = crop.map(|x| u64::from(bits(x)));
    let (rings, sectors) = (rings.into(), sectors.into());
    let args = [rings, sectors, top, bottom, left, right, n as u64];
    list.buffers("sphere_indices_bounded", &args, &[], &due, &[&after]);
}

fn uvs(list: &mut List, grid: (u32, u32)) {
    let made = uvs_of(grid.0, grid.1, FULL);
    for n in lengths(made.as_ref().map_or(0, Vec::len)) {
        uvs_on(list, grid, made.as_deref(), n.min(MOST_FLOATS));
    }
}

fn uvs_on(list: &mut List, (rings, sectors): (u32, u32), made: Option<&[u32]>, n: usize) {
    let mut after = lent(n, &[]);
    let due = uvs_due(made, &mut after);
    let args = [rings.into(), sectors.into(), n as u64];
    list.buffers("sphere_uvs", &args, &[], &due, &[&after]);
}
