//! The lengths of the lists of a grid and of a cube.

use hoodsorrel::raw::Crop;

use crate::answers::line::{bits, List};
use crate::grids::cube::{MOST_CELLS, RADII, SHARES, WRAPS};
use crate::grids::lengths::{cube_due, sphere_due, CLOSE};
use crate::grids::sphere::{FULL, UNUSABLE, USABLE};
use crate::inputs::random::Random;

const CELLS: [u32; 8] = [
    0,
    1,
    2,
    MOST_CELLS,
    MOST_CELLS + 1,
    WRAPS - 1,
    WRAPS,
    u32::MAX,
];
const RANDOM: usize = 16;

pub fn add(list: &mut List, random: &mut Random) {
    for (rings, sectors) in [(1, 3), (2, 2), (2, 3), (u32::MAX, u32::MAX)]
        .into_iter()
        .chain(CLOSE)
    {
        for crop in [FULL, random.pick(&USABLE), random.pick(&UNUSABLE)] {
            sphere(list, rings, sectors, crop);
        }
    }
    for crop in USABLE.into_iter().chain(UNUSABLE) {
        sphere(
            list,
            2 + random.below(9) as u32,
            3 + random.below(9) as u32,
            crop,
        );
    }
    for cells in CELLS {
        cube(list, cells, 1.0, 0.25);
        cube(list, cells, random.pick(&RADII), random.pick(&SHARES));
    }
    for radius in RADII {
        cube(list, 3, radius, 0.0);
    }
    for share in SHARES {
        cube(list, 4, 1.0, share);
    }
    for _ in 0..RANDOM {
        let crop = [0.0; 4].map(|_: f32| random.below(1 << 12) as f32 / (1 << 13) as f32);
        sphere(
            list,
            random.below(300) as u32,
            random.below(300) as u32,
            crop,
        );
        cube(
            list,
            random.below(120) as u32,
            f32::from_bits(random.word()),
            0.125,
        );
    }
}

fn sphere(list: &mut List, rings: u32, sectors: u32, crop: Crop) {
    let [top, bottom, left, right] = crop.map(|x| u64::from(bits(x)));
    let args = [rings.into(), sectors.into(), top, bottom, left, right];
    list.words(
        "sphere_lengths",
        &args,
        &[],
        &sphere_due(rings, sectors, crop),
    );
}

fn cube(list: &mut List, cells: u32, radius: f32, share: f32) {
    let args = [cells.into(), bits(radius).into(), bits(share).into()];
    list.words(
        "cubemap_lengths",
        &args,
        &[],
        &cube_due(cells, radius, share),
    );
}
