//! The counts of grids and of cubes.

use crate::answers::line::List;
use crate::bits::run_on::boundaries;
use crate::grids::counts::{
    cube_indices_due, cube_vertices_due, indices_due, sectors_around, vertices_due, LAST_INDICES,
    LAST_VERTICES,
};
use crate::inputs::random::Random;
use crate::scene::numbers::{LARGE_GRIDS, THIN_GRIDS, TOO_LARGE_GRIDS};

const RANDOM: usize = 5;
/// From so many rings on there are sectors whose indices are too many.
const MANY_RINGS: u32 = 0x2AAA_AAAB;

pub fn add(list: &mut List, random: &mut Random) {
    let refused = TOO_LARGE_GRIDS.into_iter().chain(THIN_GRIDS);
    for (rings, sectors) in LARGE_GRIDS.into_iter().chain(refused) {
        sphere(list, rings, sectors);
    }
    for rings in [0, 1, 2, u32::MAX] {
        for sectors in [0, 1, u32::MAX - 1, u32::MAX] {
            sphere(list, rings, sectors);
        }
    }
    for _ in 0..RANDOM {
        let rings = MANY_RINGS + random.below(1 << 31) as u32;
        sectors_around(rings).for_each(|sectors| sphere(list, rings, sectors));
        sphere(list, random.any_size() as u32, random.any_size() as u32);
    }
    let some = boundaries().into_iter().step_by(2);
    for cells in (0..=4).chain([103, 104]).chain(some) {
        cube(list, cells);
    }
    for last in [LAST_VERTICES, LAST_INDICES] {
        (last - 2..=last + 2).for_each(|cells| cube(list, cells));
    }
}

fn sphere(list: &mut List, rings: u32, sectors: u32) {
    let args = [rings.into(), sectors.into()];
    list.words("vertex_count", &args, &[], &vertices_due(rings, sectors));
    list.words("index_count", &args, &[], &indices_due(rings, sectors));
}

fn cube(list: &mut List, cells: u32) {
    let args = [cells.into()];
    let vertices = cube_vertices_due(cells);
    list.words("cubemap_vertex_count", &args, &[], &vertices);
    list.words("cubemap_index_count", &args, &[], &cube_indices_due(cells));
}
