//! The calls on cubes.

use crate::answers::line::{bits, lent, made, List, MOST_FLOATS, MOST_NUMBERS};
use crate::bits::run_on::boundaries;
use crate::grids::cube::{
    floats_needed, indices_due, indices_needed, mesh_due, MOST_CELLS, RADII, SHARES, WRAPS,
};
use crate::grids::shares;
use crate::inputs::random::Random;
use crate::lent::fill::lengths;
use crate::scene::numbers::{faces, PADDINGS};

/// The most cells that are usable, one more, and other large numbers of them.
const MANY: [u32; 10] = [
    MOST_CELLS,
    MOST_CELLS + 1,
    11,
    102,
    255,
    256,
    65_535,
    WRAPS - 1,
    WRAPS,
    u32::MAX,
];
const RANDOM: usize = 16;

pub fn add(list: &mut List, random: &mut Random) {
    for cells in (0..=5).chain([9, 10]).chain(MANY) {
        for n in lengths(indices_needed(cells)) {
            indices(list, cells, n);
        }
        for n in lengths(floats_needed(cells)) {
            mesh(list, cells, 1.0, 0.25, n);
        }
    }
    for radius in RADII {
        for share in [0.01, random.pick(&SHARES)] {
            mesh(list, 1, radius, share, 6 * 4 * 5);
        }
    }
    for share in SHARES {
        mesh(list, 2, random.pick(&RADII), share, 6 * 9 * 5);
        mesh(list, random.pick(&MANY), 1.0, share, 7);
    }
    for _ in 0..RANDOM {
        let (cells, n) = (random.below(5) as u32, random.below(800));
        let share = f32::from_bits(random.below(0x3F00_0010) as u32);
        mesh(list, cells, f32::from_bits(random.word()), share, n);
    }
    for padding in PADDINGS {
        let faces = faces(padding);
        for face in [0, padding, random.pick(&faces), random.pick(&faces)] {
            share(list, padding, face);
        }
    }
    for _ in 0..RANDOM {
        share(list, random.pick(&boundaries()), random.pick(&boundaries()));
    }
}

fn indices(list: &mut List, cells: u32, n: usize) {
    let n = n.min(MOST_NUMBERS);
    let mut after = lent(n, &[]);
    let due = indices_due(cells, &mut after);
    let args = [cells.into(), n as u64];
    list.buffers("cubemap_indices", &args, &[], &due, &[&after]);
}

fn mesh(list: &mut List, cells: u32, radius: f32, share: f32, n: usize) {
    let n = n.min(MOST_FLOATS);
    let mut after = lent(n, &[]);
    let due = mesh_due(cells, radius, share, &mut after);
    let (radius, share) = (bits(radius).into(), bits(share).into());
    let args = [cells.into(), radius, share, n as u64];
    list.buffers("cubemap_mesh", &args, &[], &due, &[&made(&after)]);
}

fn share(list: &mut List, padding: u32, face: u32) {
    let due = i64::from(bits(shares::due(padding, face)));
    list.number("padding_share", &[padding, face], due);
}
